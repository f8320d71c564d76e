/* Measures how much stack the calls touch.

       stack_test FILE..

   Each call runs in a thread of its own, whose stack is filled with a pattern first: over the text of each file, over
   a text of nested brackets, and over settings whose arrays are nested ever deeper. The thread's own use counts too.

   Prints the most of each call, and then 'N passed, M failed': a call fails if it touches more than MOST bytes.  */
#define _POSIX_C_SOURCE 200809L
#include <pthread.h>
#include <stdio.h>
#include <stdlib.h>
#include <string.h>

#include "fihroste.h"

#define STACK ((size_t)8 << 20)
#define MOST ((size_t)128 << 10)
#define BLANK 0xA5

/* What the calls are made with. */
static uint8_t *text, *settings, *out;
static size_t text_size, settings_size, room;

static void sort(void) {
    fihroste_sort(text, text_size, settings, settings_size, FIHROSTE_NO_PROFILE, out, room);
}

static void check(void) {
    fihroste_check(text, text_size, settings, settings_size, FIHROSTE_NO_PROFILE);
}

static void find(void) {
    fihroste_find(text, text_size, FIHROSTE_ALIAS, false, out, room);
}

static void place(void) {
    fihroste_place((const uint8_t *)"a.b", 3, settings, settings_size, FIHROSTE_NO_PROFILE, out, room);
}

static void tell_settings(void) {
    fihroste_settings(settings, settings_size, FIHROSTE_BLACK, out, room);
}

/* The calls with settings that are kept, from reading them to giving them back. */
static void use_kept(void) {
    fihroste_kept kept = {0}, other = {0};
    fihroste_settings_read(settings, settings_size, FIHROSTE_BLACK, &kept);
    fihroste_settings_share(&kept, &other);
    fihroste_settings_unknown(&other, out, room);
    fihroste_sort_kept(text, text_size, &kept, out, room);
    fihroste_check_kept(text, text_size, &kept);
    fihroste_place_kept((const uint8_t *)"a.b", 3, &other, out, room);
    fihroste_settings_free(&kept);
    fihroste_settings_free(&other);
}

enum { CALLS = 6 };
static void (*const calls[CALLS])(void) = {sort, check, find, place, tell_settings, use_kept};
static const char *const names[CALLS] = {"sort", "check", "find", "place", "settings", "kept settings"};
static size_t most[CALLS];
static long passed, failed;

static void *block(size_t size) {
    void *made = malloc(size);
    if (made != NULL) return made;
    fputs("stack_test: out of memory\n", stderr);
    exit(2);
}

static void *run(void *which) {
    calls[*(int *)which]();
    return NULL;
}

/* How many bytes of its stack a thread touches that makes one call. */
static size_t touched(int which) {
    uint8_t *stack = aligned_alloc(4096, STACK);
    pthread_attr_t attributes;
    pthread_t thread;
    if (stack == NULL || pthread_attr_init(&attributes) != 0) exit(2);
    memset(stack, BLANK, STACK);
    if (pthread_attr_setstack(&attributes, stack, STACK) != 0) exit(2);
    if (pthread_create(&thread, &attributes, run, &which) != 0 || pthread_join(thread, NULL) != 0) exit(2);
    size_t blank = 0;
    while (blank < STACK && stack[blank] == BLANK) blank++;
    pthread_attr_destroy(&attributes);
    free(stack);
    return STACK - blank;
}

static void try_calls(const char *what) {
    for (int which = 0; which < CALLS; which++) {
        size_t size = touched(which);
        if (size > most[which]) most[which] = size;
        if (size > MOST) printf("%s: %s touches %zu bytes of stack\n", what, names[which], size);
        passed += size <= MOST;
        failed += size > MOST;
    }
}

static void try_path(const char *path) {
    FILE *file = fopen(path, "rb");
    if (file == NULL || fseek(file, 0, SEEK_END) != 0) {
        fprintf(stderr, "stack_test: %s cannot be read\n", path);
        exit(2);
    }
    text_size = (size_t)ftell(file);
    text = block(text_size + 1);
    room = 2 * text_size + 4096;
    out = block(room);
    rewind(file);
    text_size = fread(text, 1, text_size, file);
    fclose(file);
    try_calls(path);
    free(text);
    free(out);
}

/* `before`, so many of one byte, and so many of another. */
static uint8_t *nested(const char *before, char open, char close, size_t depth, size_t *size) {
    size_t start = strlen(before);
    uint8_t *made = block(start + 2 * depth + 1);
    memcpy(made, before, start);
    memset(made + start, open, depth);
    memset(made + start + depth, close, depth);
    made[start + 2 * depth] = '\n';
    *size = start + 2 * depth + 1;
    return made;
}

static void try_nested(size_t depth) {
    char what[64];
    snprintf(what, sizeof what, "brackets nested %zu deep", depth);
    text = nested("import b\nimport a\nx = ", '(', ')', depth, &text_size);
    settings = nested("[tool.isort]\nx = ", '[', ']', depth, &settings_size);
    room = 4096;
    out = block(room);
    try_calls(what);
    free(text);
    free(settings);
    free(out);
}

int main(int argc, char **argv) {
    settings = block(1);
    for (int i = 1; i < argc; i++) try_path(argv[i]);
    free(settings);
    for (size_t depth = 10; depth <= 100000; depth *= 10) try_nested(depth);
    for (int which = 0; which < CALLS; which++) printf("%s: at most %zu bytes of stack\n", names[which], most[which]);
    printf("%ld passed, %ld failed\n", passed, failed);
    return failed != 0;
}
