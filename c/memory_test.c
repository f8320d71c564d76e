/* Refuses each growth of each call in turn.

       memory_test FILE..

   Each call is made over the text of each file: sorting, checking and listing, with several settings, profiles and keys;
   and the calls that read no text, over the settings and modules below. A call is made once as it is. Then it is made again
   with its first growth refused, with its second, and so on: each has to answer FIHROSTE_MEMORY and to leave the buffer
   as it was, or to do what the first one did. No block may be left, or be gone of those that a handle keeps. The first
   call's result has to fit a buffer of its size, and to leave one that is a byte too small as it was.

   A call with settings that are kept has to do what the call with their text does. A handle has to keep what it kept, and
   fihroste_place_kept has to take no memory.

   Prints how many growths were refused, call by call, then the trials that failed, and then 'N passed, M failed'. It is
   linked with -Wl,--wrap=malloc,--wrap=realloc,--wrap=free.  */
#include <stdio.h>
#include <stdlib.h>
#include <string.h>

#include "fihroste.h"

static long growths, refused_growth, blocks;

void *__real_malloc(size_t size);
void *__real_realloc(void *block, size_t size);
void __real_free(void *block);
void *__wrap_malloc(size_t size);
void *__wrap_realloc(void *block, size_t size);
void __wrap_free(void *block);

void *__wrap_malloc(size_t size) {
    if (++growths == refused_growth) return NULL;
    void *block = __real_malloc(size);
    blocks += block != NULL;
    return block;
}

void *__wrap_realloc(void *block, size_t size) {
    if (++growths == refused_growth) return NULL;
    void *grown = __real_realloc(block, size);
    blocks += block == NULL && grown != NULL;
    return grown;
}

void __wrap_free(void *block) {
    blocks -= block != NULL;
    __real_free(block);
}

/* A text that is handed in: of a file, of settings or of a module. */
typedef struct text {
    const uint8_t *bytes;
    size_t size;
} text;

/* What a trial hands in. */
typedef struct task {
    text code, settings, module;
    uint32_t profile, unique;
    bool top_only;
    fihroste_kept *kept;
} task;

typedef fihroste_answer call(const task *given, uint8_t *out, size_t room);

static fihroste_answer sort(const task *given, uint8_t *out, size_t room) {
    return fihroste_sort(given->code.bytes, given->code.size, given->settings.bytes, given->settings.size,
                         given->profile, out, room);
}

static fihroste_answer check(const task *given, uint8_t *out, size_t room) {
    (void)out, (void)room;
    return fihroste_check(given->code.bytes, given->code.size, given->settings.bytes, given->settings.size,
                          given->profile);
}

static fihroste_answer find(const task *given, uint8_t *out, size_t room) {
    return fihroste_find(given->code.bytes, given->code.size, given->unique, given->top_only, out, room);
}

static fihroste_answer place(const task *given, uint8_t *out, size_t room) {
    return fihroste_place(given->module.bytes, given->module.size, given->settings.bytes, given->settings.size,
                          given->profile, out, room);
}

static fihroste_answer settings(const task *given, uint8_t *out, size_t room) {
    return fihroste_settings(given->settings.bytes, given->settings.size, given->profile, out, room);
}

/* Reads into a handle that keeps nothing, and one that keeps other settings, and frees both. */
static fihroste_answer read_twice(const task *given, uint8_t *out, size_t room) {
    static const uint8_t other[] = "[tool.isort]\nx = 1\n";
    (void)out, (void)room;
    fihroste_kept kept = {0};
    fihroste_answer answer = fihroste_settings_read(other, sizeof other - 1, FIHROSTE_NO_PROFILE, &kept);
    if (answer.status == FIHROSTE_SAME) {
        answer = fihroste_settings_read(given->settings.bytes, given->settings.size, given->profile, &kept);
    }
    fihroste_settings_free(&kept);
    fihroste_settings_free(&kept);
    return answer;
}

/* Shares what is kept, and asks the other handle. */
static fihroste_answer share(const task *given, uint8_t *out, size_t room) {
    fihroste_kept other = {0};
    fihroste_answer answer = fihroste_settings_share(given->kept, &other);
    if (answer.status == FIHROSTE_SAME) answer = fihroste_settings_unknown(&other, out, room);
    fihroste_settings_free(&other);
    return answer;
}

static fihroste_answer unknown(const task *given, uint8_t *out, size_t room) {
    return fihroste_settings_unknown(given->kept, out, room);
}

static fihroste_answer sort_kept(const task *given, uint8_t *out, size_t room) {
    return fihroste_sort_kept(given->code.bytes, given->code.size, given->kept, out, room);
}

static fihroste_answer check_kept(const task *given, uint8_t *out, size_t room) {
    (void)out, (void)room;
    return fihroste_check_kept(given->code.bytes, given->code.size, given->kept);
}

static fihroste_answer place_kept(const task *given, uint8_t *out, size_t room) {
    return fihroste_place_kept(given->module.bytes, given->module.size, given->kept, out, room);
}

enum { SORT, CHECK, FIND, PLACE, SETTINGS, READ, SHARE, UNKNOWN, SORT_KEPT, CHECK_KEPT, PLACE_KEPT, CALLS };
static const char *const names[CALLS] = {"sort", "check", "find", "place", "settings", "settings_read", "settings_share",
                                         "settings_unknown", "sort_kept", "check_kept", "place_kept"};
static call *const calls[CALLS] = {sort,  check,   find,      place,      settings,  read_twice,
                                   share, unknown, sort_kept, check_kept, place_kept};

static long refusals[CALLS], out_of_memory[CALLS], passed, failed;

/* Two buffers of one size: one that is filled, and the first call's. The byte is what they are filled with before. */
static uint8_t *out, *whole;
static size_t room;
#define BLANK 0xAA

static void make_room(size_t size) {
    if (size <= room) return;
    free(out);
    free(whole);
    room = 2 * size;
    out = malloc(room);
    whole = malloc(room);
    if (out == NULL || whole == NULL) {
        fputs("memory_test: out of memory\n", stderr);
        exit(2);
    }
}

static fihroste_answer run(int which, const task *given, size_t size, long refused) {
    memset(out, BLANK, size + 1);
    growths = 0;
    blocks = 0;
    refused_growth = refused;
    fihroste_answer answer = calls[which](given, out, size);
    refused_growth = 0;
    return answer;
}

static bool is_blank(size_t size) {
    return out[0] == BLANK && memcmp(out, out + 1, size) == 0;
}

static bool are_same(fihroste_answer a, fihroste_answer b) {
    return a.status == b.status && a.label == b.label && a.key == b.key && a.section == b.section && a.offset == b.offset
        && a.line == b.line && a.size == b.size;
}

/* Whether an answer is that of a refusal, or the first one with the first one's result. */
static bool is_right(int which, fihroste_answer answer, fihroste_answer first, size_t size) {
    fihroste_answer memory = {.status = FIHROSTE_MEMORY};
    if (blocks != 0) return false;
    if (are_same(answer, memory)) {
        out_of_memory[which]++;
        return is_blank(size);
    }
    return are_same(answer, first) && memcmp(out, whole, size + 1) == 0;
}

/* Whether the result fits a buffer of its size, and leaves one that is too small as it was. */
static bool fits(int which, const task *given, fihroste_answer first) {
    if (first.size == 0) return true;
    fihroste_answer fitting = run(which, given, first.size, 0);
    bool filled = memcmp(out, whole, first.size) == 0 && out[first.size] == BLANK;
    fihroste_answer short_of = run(which, given, first.size - 1, 0);
    return filled && are_same(fitting, first) && is_blank(first.size - 1) && are_same(short_of, first);
}

/* Makes a call as it is, and with each growth refused. It answers what the call came to, whose result `whole` has. */
static fihroste_answer try_call(int which, const task *given, size_t size, const char *what) {
    make_room(size + 1);
    fihroste_answer first = run(which, given, size, 0);
    if (first.size > size) {
        make_room((size = first.size) + 1);
        first = run(which, given, size, 0);
    }
    long all = growths;
    bool fine = blocks == 0 && first.status != FIHROSTE_MEMORY;
    memcpy(whole, out, size + 1);
    for (long number = 1; number <= all; number++) {
        fihroste_answer answer = run(which, given, size, number);
        if (is_right(which, answer, first, size)) continue;
        printf("%s: %s with growth %ld of %ld refused: ", what, names[which], number, all);
        printf("status %u, %ld blocks left\n", (unsigned)answer.status, blocks);
        fine = false;
    }
    refusals[which] += all;
    bool fitting = fits(which, given, first);
    if (!fitting) printf("%s: %s over a buffer of its size\n", what, names[which]);
    fine = fine && fitting;
    passed += fine;
    failed += !fine;
    return first;
}

/* Compares a call that has settings kept with the one that has their text. */
static void try_kept(int which, int by_text, const task *given, size_t size, const char *what) {
    fihroste_answer wanted = try_call(by_text, given, size, what);
    uint8_t *result = malloc(wanted.size + 1);
    if (result == NULL) exit(2);
    memcpy(result, whole, wanted.size);
    fihroste_answer answer = try_call(which, given, size, what);
    bool same = are_same(answer, wanted) && memcmp(whole, result, wanted.size) == 0;
    if (!same) printf("%s: %s differs from %s\n", what, names[which], names[by_text]);
    passed += same;
    failed += !same;
    free(result);
}

static const char *const all_settings[] = {
    "",
    "[tool.isort]\nprofile = 'black'\nknown_first_party = ['a', 'b']\nknown_local_folder = ['c']\nx = 1\nother = 'two'\n",
    "[tool.isort]\nforce_single_line = true\nforce_sort_within_sections = true\nmulti_line_output = 3\nline_length = 40\n",
    "[tool.isort]\ncombine_as_imports = true\nlines_after_imports = 2\norder_by_type = false\nmulti_line_output = 1\n",
    "[tool.isort]\nsections = ['Near', 'FUTURE', 'Far']\nknown_far = ['a', 'os.path']\nknown_near = ['unknown']\nknown_x = 1\n",
    "[tool.isort]\nsections = ['Near']\nknown_near = ['a*']\n",
    "[tool.isort]\nline_length = 'long'\n",
    "[tool.isort]\nprofile = 'white'\n",
    "[tool.isort]\nmulti_line_output = 7\n",
    "[tool]\nisort = 3\n",
    "[tool.isort\n",
    "[tool.other]\na = [[[[1]]], {b = 2}]\n",
};
static const char *const modules[] = {"os", "os.path", ".near", "a.b.c", "unknown", "c", "", "\xff"};
#define COUNT(array) (sizeof(array) / sizeof *(array))

static text text_of(const char *words) {
    return (text){(const uint8_t *)words, strlen(words)};
}

/* The calls that read the text of a file. */
static void try_file(const char *path, text code) {
    task given = {.code = code};
    for (size_t i = 0; i < 5; i++) {
        given.settings = text_of(all_settings[i]);
        given.profile = i == 3 ? FIHROSTE_BLACK : FIHROSTE_NO_PROFILE;
        fihroste_kept kept = {0};
        fihroste_settings_read(given.settings.bytes, given.settings.size, given.profile, &kept);
        given.kept = &kept;
        try_kept(SORT_KEPT, SORT, &given, 2 * code.size + 4096, path);
        try_kept(CHECK_KEPT, CHECK, &given, 1, path);
        fihroste_settings_free(&kept);
    }
    for (uint32_t unique = FIHROSTE_ALL; unique <= FIHROSTE_ALIAS; unique++) {
        given.unique = unique;
        given.top_only = unique == FIHROSTE_MODULE;
        try_call(FIND, &given, code.size + 4096, path);
    }
}

/* Keeps settings, if they aren't refused, and makes the calls by their text and by what is kept. */
static void try_settings_of(task *given, const char *what) {
    fihroste_kept kept = {0};
    given->kept = &kept;
    bool is_kept = fihroste_settings_read(given->settings.bytes, given->settings.size, given->profile, &kept).status
        == FIHROSTE_SAME;
    fihroste_answer read = try_call(READ, given, 1, what), told = try_call(SETTINGS, given, 256, what);
    bool same = read.status == told.status && read.label == told.label && read.key == told.key && kept.full == is_kept;
    passed += same;
    failed += !same;
    if (!is_kept) {
        try_call(SORT, given, 256, what);
        try_call(CHECK, given, 1, what);
    } else {
        try_kept(UNKNOWN, SETTINGS, given, 256, what);
        try_kept(SHARE, SETTINGS, given, 256, what);
        try_kept(SORT_KEPT, SORT, given, 256, what);
        try_kept(CHECK_KEPT, CHECK, given, 1, what);
    }
    for (size_t i = 0; i < COUNT(modules); i++) {
        given->module = text_of(modules[i]);
        if (is_kept) try_kept(PLACE_KEPT, PLACE, given, 16, what);
        else try_call(PLACE, given, 16, what);
    }
    fihroste_settings_free(&kept);
}

/* A handle that keeps nothing has no settings for a call. */
static void try_nothing_kept(text code) {
    fihroste_kept kept = {0};
    task given = {.code = code, .module = text_of("os"), .kept = &kept};
    for (int which = SHARE; which <= PLACE_KEPT; which++) {
        bool right = try_call(which, &given, 16, "a handle that keeps nothing").status == FIHROSTE_ARGUMENT && !kept.full;
        passed += right;
        failed += !right;
    }
}

/* The calls that read settings alone, and those that refuse them or an argument. */
static void try_settings(text code) {
    for (size_t i = 0; i < COUNT(all_settings); i++) {
        for (uint32_t profile = FIHROSTE_NO_PROFILE; profile <= FIHROSTE_BLACK + 1; profile++) {
            task given = {.code = code, .settings = text_of(all_settings[i]), .profile = profile};
            try_settings_of(&given, all_settings[i]);
        }
    }
    try_nothing_kept(code);
    task given = {.code = code, .unique = FIHROSTE_ALIAS + 1};
    try_call(FIND, &given, 256, "a key of no number");
}

static void try_path(const char *path) {
    FILE *file = fopen(path, "rb");
    long size = -1;
    if (file != NULL && fseek(file, 0, SEEK_END) == 0) size = ftell(file);
    uint8_t *bytes = size < 0 ? NULL : malloc((size_t)size + 1);
    if (bytes == NULL) {
        fprintf(stderr, "memory_test: %s cannot be read\n", path);
        exit(2);
    }
    rewind(file);
    try_file(path, (text){bytes, fread(bytes, 1, (size_t)size, file)});
    free(bytes);
    fclose(file);
}

int main(int argc, char **argv) {
    for (int i = 1; i < argc; i++) try_path(argv[i]);
    try_settings(text_of("import b\nimport a as c\nx = (\n"));
    try_settings(text_of("import b\nfrom a import d, e as c\n"));
    bool takes_none = refusals[PLACE_KEPT] == 0;
    passed += takes_none;
    failed += !takes_none;
    for (int which = 0; which < CALLS; which++) {
        printf("%s: %ld growths refused, ", names[which], refusals[which]);
        printf("%ld answered out of memory\n", out_of_memory[which]);
    }
    free(out);
    free(whole);
    printf("%ld passed, %ld failed\n", passed, failed);
    return failed != 0;
}
