/* Makes the calls in threads side by side.

       thread_test FILE..

   Each call is made over the text of each file, first alone. Then THREADS threads make all of them at once, each from
   another one on, and have to get the same answers and the same results. They make them once more with settings that were
   read once: each thread has a handle of its own, which shares them. Last, TIMES handles are made in each thread and given
   back, and no block may be left.

   Prints 'N passed, M failed'. It is linked with -Wl,--wrap=malloc,--wrap=free.  */
#define _POSIX_C_SOURCE 200809L
#include <pthread.h>
#include <stdatomic.h>
#include <stdio.h>
#include <stdlib.h>
#include <string.h>

#include "fihroste.h"

#define THREADS 8
#define TIMES 125000

static atomic_long blocks;

void *__real_malloc(size_t size);
void __real_free(void *at);
void *__wrap_malloc(size_t size);
void __wrap_free(void *at);

void *__wrap_malloc(size_t size) {
    void *made = __real_malloc(size);
    if (made != NULL) blocks++;
    return made;
}

void __wrap_free(void *at) {
    if (at != NULL) blocks--;
    __real_free(at);
}

/* A call over a text, and what it came to when it was made alone. */
typedef struct task {
    int which;
    const uint8_t *text;
    size_t size, room;
    fihroste_answer answer;
    uint8_t *result;
} task;

static const char settings[] =
    "[tool.isort]\nsections = ['Own', 'FUTURE']\nknown_own = ['a']\nknown_first_party = ['b']\nmulti_line_output = 3\nx = 1\n";
#define SETTINGS_SIZE (sizeof settings - 1)

enum { SORT, CHECK, FIND, PLACE, SETTINGS, CALLS };

static task *tasks;
static size_t count;

/* The settings, read once. A thread shares them while it holds the lock. */
static fihroste_kept all;
static pthread_mutex_t lock = PTHREAD_MUTEX_INITIALIZER;

static void *block(size_t size) {
    void *made = malloc(size + 1);
    if (made != NULL) return made;
    fputs("thread_test: out of memory\n", stderr);
    exit(2);
}

/* Makes a call with the text of the settings, or with those that are kept. */
static fihroste_answer run(const task *it, fihroste_kept *kept, uint8_t *out) {
    const uint8_t *toml = (const uint8_t *)settings, *name = (const uint8_t *)"a.b";
    switch (it->which) {
    case SORT:
        if (kept) return fihroste_sort_kept(it->text, it->size, kept, out, it->room);
        return fihroste_sort(it->text, it->size, toml, SETTINGS_SIZE, FIHROSTE_BLACK, out, it->room);
    case CHECK:
        if (kept) return fihroste_check_kept(it->text, it->size, kept);
        return fihroste_check(it->text, it->size, toml, SETTINGS_SIZE, FIHROSTE_BLACK);
    case FIND: return fihroste_find(it->text, it->size, FIHROSTE_ALIAS, false, out, it->room);
    case PLACE:
        if (kept) return fihroste_place_kept(name, 3, kept, out, it->room);
        return fihroste_place(name, 3, toml, SETTINGS_SIZE, FIHROSTE_BLACK, out, it->room);
    default:
        if (kept) return fihroste_settings_unknown(kept, out, it->room);
        return fihroste_settings(toml, SETTINGS_SIZE, FIHROSTE_BLACK, out, it->room);
    }
}

static fihroste_kept shared(void) {
    fihroste_kept kept = {0};
    pthread_mutex_lock(&lock);
    fihroste_answer answer = fihroste_settings_share(&all, &kept);
    pthread_mutex_unlock(&lock);
    if (answer.status != FIHROSTE_SAME) exit(2);
    return kept;
}

static bool is_same(const task *it, fihroste_answer a, const uint8_t *out) {
    fihroste_answer b = it->answer;
    bool same = a.status == b.status && a.label == b.label && a.key == b.key && a.section == b.section
        && a.offset == b.offset && a.line == b.line && a.size == b.size;
    return same && (a.size > it->room || memcmp(out, it->result, a.size) == 0);
}

/* Makes all calls, from one of them on, and counts those that differ. */
static long differing(size_t start, fihroste_kept *kept) {
    long differ = 0;
    for (size_t i = 0; i < count; i++) {
        const task *it = &tasks[(start + i) % count];
        uint8_t *out = block(it->room);
        differ += !is_same(it, run(it, kept, out), out);
        free(out);
    }
    return differ;
}

/* What a thread does: it counts the calls that differ. */
static void *make_calls(void *start) {
    long *failed = block(sizeof *failed);
    fihroste_kept kept = shared();
    *failed = differing(*(size_t *)start, NULL) + differing(*(size_t *)start, &kept);
    for (int i = 0; i < TIMES; i++) {
        fihroste_kept other = shared();
        fihroste_settings_free(&other);
    }
    fihroste_settings_free(&kept);
    return failed;
}

/* Reads a file, and makes each call over its text alone. */
static void add_file(const char *path) {
    FILE *file = fopen(path, "rb");
    if (file == NULL || fseek(file, 0, SEEK_END) != 0) {
        fprintf(stderr, "thread_test: %s cannot be read\n", path);
        exit(2);
    }
    size_t size = (size_t)ftell(file);
    uint8_t *text = block(size);
    rewind(file);
    size = fread(text, 1, size, file);
    fclose(file);
    for (int which = 0; which < CALLS; which++) {
        task *it = &tasks[count++];
        *it = (task){.which = which, .text = text, .size = size, .room = 2 * size + 4096};
        it->result = block(it->room);
        it->answer = run(it, NULL, it->result);
    }
}

int main(int argc, char **argv) {
    tasks = block((size_t)argc * CALLS * sizeof *tasks);
    for (int i = 1; i < argc; i++) add_file(argv[i]);
    long before = blocks;
    fihroste_answer read = fihroste_settings_read((const uint8_t *)settings, SETTINGS_SIZE, FIHROSTE_BLACK, &all);
    if (read.status != FIHROSTE_SAME) exit(2);
    pthread_t threads[THREADS];
    size_t starts[THREADS];
    long failed = 0;
    for (int i = 0; i < THREADS; i++) {
        starts[i] = (size_t)i * count / THREADS;
        if (pthread_create(&threads[i], NULL, make_calls, &starts[i]) != 0) exit(2);
    }
    for (int i = 0; i < THREADS; i++) {
        void *ended;
        if (pthread_join(threads[i], &ended) != 0) exit(2);
        failed += *(long *)ended;
        free(ended);
    }
    fihroste_settings_free(&all);
    bool none_left = blocks == before;
    for (size_t i = 0; i < count; i++) free(tasks[i].result);
    for (size_t i = 0; i < count; i += CALLS) free((uint8_t *)tasks[i].text);
    free(tasks);
    failed += !none_left;
    printf("%ld passed, %ld failed\n", (long)(2 * THREADS * count) + 1 - failed, failed);
    return failed != 0;
}
