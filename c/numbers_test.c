/* Meets each number of fihroste.h, by a call that answers or takes it, and each field of an answer and a handle at its place.

       numbers_test

   A call's answer is compared with the whole answer that docs/C.md says: by the names of the fields, and by their places in
   memory. At a fault of a listing all fields that it speaks of are different. Prints each call that answers something else, and
   then 'N passed, M failed'. It is linked with -Wl,--wrap=malloc,--wrap=realloc.  */
#include <inttypes.h>
#include <stdio.h>
#include <stdlib.h>
#include <string.h>

#include "fihroste.h"

static bool refuses;

void *__real_malloc(size_t size);
void *__real_realloc(void *block, size_t size);
void *__wrap_malloc(size_t size);
void *__wrap_realloc(void *block, size_t size);

void *__wrap_malloc(size_t size) { return refuses ? NULL : __real_malloc(size); }
void *__wrap_realloc(void *block, size_t size) { return refuses ? NULL : __real_realloc(block, size); }

static long passed, failed;
static uint8_t out[4096];

static void count(bool is_right, const char *what) {
    passed += is_right;
    failed += !is_right;
    if (!is_right) printf("%s\n", what);
}

/* The number in these bytes of an answer. */
static uint64_t bytes_at(const fihroste_answer *answer, size_t place, size_t size) {
    uint64_t number = 0;
    for (size_t i = size; i-- > 0;) number = number << 8 | ((const uint8_t *)answer)[place + i];
    return number;
}

static void expect(const char *what, fihroste_answer got, fihroste_answer wanted) {
    const uint64_t fields[] = {wanted.status, wanted.label, wanted.key, wanted.section,
                               wanted.offset, wanted.line, wanted.size};
    static const size_t sizes[] = {4, 4, 4, 4, 8, 8, 8};
    bool is_right = sizeof got == 40 && got.status == wanted.status && got.label == wanted.label && got.key == wanted.key
        && got.section == wanted.section && got.offset == wanted.offset && got.line == wanted.line && got.size == wanted.size;
    for (size_t i = 0, place = 0; i < 7; place += sizes[i++]) is_right &= bytes_at(&got, place, sizes[i]) == fields[i];
    count(is_right, what);
    if (is_right) return;
    printf("    status %" PRIu32 ", label %" PRIu32 ", key %" PRIu32, got.status, got.label, got.key);
    printf(", section %" PRIu32 ", offset %" PRIu64 ", line %" PRIu64, got.section, got.offset, got.line);
    printf(", size %zu\n", got.size);
}

#define BYTES(text) (const uint8_t *)(text), strlen(text)

static fihroste_answer sort(const char *text, const char *settings, uint32_t profile) {
    return fihroste_sort(BYTES(text), BYTES(settings), profile, out, sizeof out);
}

static fihroste_answer check(const char *text, const char *settings, uint32_t profile) {
    return fihroste_check(BYTES(text), BYTES(settings), profile);
}

static fihroste_answer find(const char *text, uint32_t unique) {
    return fihroste_find(BYTES(text), unique, false, out, sizeof out);
}

static fihroste_answer place(const char *module, const char *settings) {
    return fihroste_place(BYTES(module), BYTES(settings), FIHROSTE_NO_PROFILE, out, sizeof out);
}

static fihroste_answer tell(const char *settings) {
    return fihroste_settings(BYTES(settings), FIHROSTE_NO_PROFILE, out, sizeof out);
}

static void try_statuses(void) {
    const char *text = "import b\nimport a\n", *skipped = "# isort: skip_file\nimport b\nimport a\n";
    expect("SAME of a check", check("import a\n", "", 0), (fihroste_answer){.status = FIHROSTE_SAME});
    expect("SAME of a sort", sort("import a\n", "", 0), (fihroste_answer){.status = FIHROSTE_SAME});
    expect("CHANGED of a check", check(text, "", 0), (fihroste_answer){.status = FIHROSTE_CHANGED});
    expect("CHANGED of a sort", sort(text, "", 0), (fihroste_answer){.status = FIHROSTE_CHANGED, .size = 18});
    expect("SKIPPED of a check", check(skipped, "", 0), (fihroste_answer){.status = FIHROSTE_SKIPPED});
    expect("SKIPPED of a sort", sort(skipped, "", 0), (fihroste_answer){.status = FIHROSTE_SKIPPED});
    expect("ARGUMENT of a module", place("\xff", ""), (fihroste_answer){.status = FIHROSTE_ARGUMENT});
    expect("ARGUMENT of a profile", check(text, "", FIHROSTE_BLACK + 1), (fihroste_answer){.status = FIHROSTE_ARGUMENT});
    expect("ARGUMENT of a key", find(text, FIHROSTE_ALIAS + 1), (fihroste_answer){.status = FIHROSTE_ARGUMENT});
    refuses = true;
    fihroste_answer sorted = sort(text, "", 0), checked = check(text, "", 0), found = find(text, FIHROSTE_ALL);
    refuses = false;
    expect("MEMORY of a sort", sorted, (fihroste_answer){.status = FIHROSTE_MEMORY});
    expect("MEMORY of a check", checked, (fihroste_answer){.status = FIHROSTE_MEMORY});
    expect("MEMORY of a listing", found, (fihroste_answer){.status = FIHROSTE_MEMORY});
}

/* A text with this on its second line, after an import whose record has 20 bytes. */
static void try_fault(uint32_t label, uint64_t offset, const char *line) {
    char text[512], what[32];
    snprintf(text, sizeof text, "import b\n%s\n", line);
    snprintf(what, sizeof what, "F%u", (unsigned)label);
    fihroste_answer wanted = {.status = FIHROSTE_FAULT, .label = label, .offset = offset, .line = 2};
    expect(what, check(text, "", 0), wanted);
    expect(what, sort(text, "", 0), wanted);
    wanted.size = 20;
    expect(what, find(text, FIHROSTE_ALL), wanted);
}

static void try_faults(void) {
    char brackets[202];
    memset(brackets, '(', 201);
    brackets[201] = '\0';
    try_fault(FIHROSTE_BAD_UTF8, 13, "x = \xff");
    try_fault(FIHROSTE_BAD_CHAR, 13, "x = $");
    try_fault(FIHROSTE_OPEN_STRING, 13, "x = 'a");
    try_fault(FIHROSTE_OPEN_TRIPLE, 13, "x = '''a");
    try_fault(FIHROSTE_WRONG_CLOSE, 13, "x = )");
    try_fault(FIHROSTE_OPEN_BRACKET, 13, "x = (");
    try_fault(FIHROSTE_BAD_JOIN, 13, "x = \\ ");
    try_fault(FIHROSTE_TOO_DEEP, 9 + 200, brackets);
    try_fault(FIHROSTE_BAD_IMPORT, 9, "import a,");
    try_fault(FIHROSTE_OPEN_FIELD, 15, "x = f'{y");
}

static void try_refusals(void) {
    fihroste_answer wanted = {.status = FIHROSTE_SETTINGS};
    wanted.label = FIHROSTE_BAD_TOML;
    expect("S1", check("", "[tool.isort\n", 0), wanted);
    wanted.label = FIHROSTE_UNKNOWN_PROFILE;
    expect("S3", check("", "[tool.isort]\nprofile = 'white'\n", 0), wanted);
    wanted.label = FIHROSTE_UNSUPPORTED_MODE;
    expect("S4", check("", "[tool.isort]\nmulti_line_output = 7\n", 0), wanted);
    wanted = (fihroste_answer){.status = FIHROSTE_SETTINGS, .label = FIHROSTE_BAD_VALUE, .key = FIHROSTE_OWN_LIST};
    const char *own = "[tool.isort]\nsections = ['Mine']\nknown_mine = ['a*']\n";
    expect("S2 of an own list, of a check", check("", own, 0), wanted);
    expect("S2 of an own list, of a sort", sort("", own, 0), wanted);
    expect("S2 of an own list, of a section", place("a", own), wanted);
    wanted.size = strlen("known_mine");
    expect("S2 of an own list, of settings", tell(own), wanted);
    count(memcmp(out, "known_mine", wanted.size) == 0, "the name of an own list");
}

/* Under no profile two names have to fit 79 characters, and under black 88. */
static void try_profiles(void) {
    const char *text = "from m import aaaaaaaaaaaaaaaaaaaaaaaaaaaaaaaaaaa, bbbbbbbbbbbbbbbbbbbbbbbbbbbbbbbbbbb\n";
    const char *white = "[tool.isort]\nprofile = 'white'\n", *black = "[tool.isort]\nprofile = 'black'\n";
    expect("NO_PROFILE", check(text, "", FIHROSTE_NO_PROFILE), (fihroste_answer){.status = FIHROSTE_CHANGED});
    expect("NO_PROFILE over black", check(text, black, FIHROSTE_NO_PROFILE), (fihroste_answer){.status = FIHROSTE_SAME});
    expect("BLACK over another", check(text, white, FIHROSTE_BLACK), (fihroste_answer){.status = FIHROSTE_SAME});
}

/* Of these imports each key finds another number, each with a record of its own size. */
static void try_unique(void) {
    const char *text = "import a\nimport a.b\nfrom a.b import c\nfrom a.b import c as d\nfrom a.b import c as d\n";
    enum { A = 9 + 9 + 1 + 1, AB = A + 2, ABC = AB + 9, ABCD = ABC + 9 };
    const size_t sizes[] = {A + AB + ABC + 2 * ABCD, A, A + AB, A + AB + ABC, A + AB + ABC + ABCD};
    static const char *const names[] = {"ALL", "PACKAGE", "MODULE", "ATTRIBUTE", "ALIAS"};
    const uint32_t keys[] = {FIHROSTE_ALL, FIHROSTE_PACKAGE, FIHROSTE_MODULE, FIHROSTE_ATTRIBUTE, FIHROSTE_ALIAS};
    for (int i = 0; i < 5; i++) expect(names[i], find(text, keys[i]), (fihroste_answer){.size = sizes[i]});
}

static void try_section(uint32_t section, const char *name, const char *module) {
    const char *settings = "[tool.isort]\nsections = ['Mine', 'Other']\nknown_mine = ['m']\nknown_other = ['n']\n"
                           "known_first_party = ['p']\n";
    expect(name, place(module, settings), (fihroste_answer){.section = section, .size = strlen(name)});
    count(memcmp(out, name, strlen(name)) == 0, name);
}

static void try_sections(void) {
    try_section(FIHROSTE_FUTURE, "FUTURE", "__future__");
    try_section(FIHROSTE_STDLIB, "STDLIB", "os.path");
    try_section(FIHROSTE_THIRDPARTY, "THIRDPARTY", "unknown");
    try_section(FIHROSTE_FIRSTPARTY, "FIRSTPARTY", "p.a");
    try_section(FIHROSTE_LOCALFOLDER, "LOCALFOLDER", ".a");
    try_section(FIHROSTE_OWN, "Mine", "m");
    try_section(FIHROSTE_OWN + 1, "Other", "n.a");
}

/* A table is no value of any key. */
static void try_key(uint32_t key, const char *name, const char *settings) {
    fihroste_answer wanted = {.status = FIHROSTE_SETTINGS, .label = FIHROSTE_BAD_VALUE, .key = key};
    expect(name, check("", settings, 0), wanted);
    wanted.size = strlen(name);
    expect(name, tell(settings), wanted);
    memset(out, 0, sizeof out);
    count(fihroste_key_name(key, out, sizeof out) == strlen(name) && strcmp((char *)out, name) == 0, name);
}

static void try_keys(void) {
    static const char *const names[] = {"profile", "case_sensitive", "combine_as_imports", "default_section",
        "ensure_newline_before_comments", "extra_standard_library", "force_grid_wrap", "force_single_line",
        "force_sort_within_sections", "include_trailing_comma", "known_first_party", "known_future_library",
        "known_local_folder", "known_standard_library", "known_third_party", "line_length", "lines_after_imports",
        "lines_between_sections", "lines_between_types", "multi_line_output", "order_by_type", "use_parentheses",
        "sections"};
    try_key(1, "tool", "tool = 1\n");
    try_key(2, "tool.isort", "[tool]\nisort = 1\n");
    for (uint32_t i = 0; i < sizeof names / sizeof *names; i++) {
        char settings[64];
        snprintf(settings, sizeof settings, "[tool.isort]\n%s = {}\n", names[i]);
        try_key(3 + i, names[i], settings);
    }
    count(fihroste_key_name(0, out, sizeof out) == 0, "no key has the number 0");
    count(fihroste_key_name(FIHROSTE_OWN_LIST, out, sizeof out) == 0, "own lists have no name");
    count(fihroste_key_name(FIHROSTE_OWN_LIST + 1, out, sizeof out) == 0, "no key has a number above that of own lists");
}

/* A handle has 16 bytes, and no call writes beside it. */
static void try_handle(void) {
    static const uint8_t blank[8] = {0xAA, 0xAA, 0xAA, 0xAA, 0xAA, 0xAA, 0xAA, 0xAA};
    struct { uint8_t before[8]; fihroste_kept kept; uint8_t after[8]; } block = {.kept = {0}};
    memcpy(block.before, blank, 8);
    memcpy(block.after, blank, 8);
    fihroste_kept *kept = &block.kept;
    expect("nothing is kept", fihroste_check_kept(BYTES(""), kept), (fihroste_answer){.status = FIHROSTE_ARGUMENT});
    expect("read", fihroste_settings_read(BYTES("[tool.isort]\nx = 1\n"), 0, kept), (fihroste_answer){0});
    uint64_t pointer;
    memcpy(&pointer, (uint8_t *)kept + 8, 8);
    bool is_full = *(uint8_t *)kept == 1 && pointer != 0 && kept->full && (uint64_t)(uintptr_t)kept->settings == pointer;
    count(sizeof *kept == 16 && is_full, "the fields of a handle");
    expect("unknown", fihroste_settings_unknown(kept, out, sizeof out), (fihroste_answer){.size = 9});
    fihroste_settings_free(kept);
    memcpy(&pointer, (uint8_t *)kept + 8, 8);
    count(*(uint8_t *)kept == 0 && pointer == 0, "the fields of a handle that keeps nothing");
    count(memcmp(block.before, blank, 8) == 0 && memcmp(block.after, blank, 8) == 0, "bytes beside a handle");
}

int main(void) {
    try_statuses();
    try_faults();
    try_refusals();
    try_profiles();
    try_unique();
    try_sections();
    try_keys();
    try_handle();
    printf("%ld passed, %ld failed\n", passed, failed);
    return failed != 0;
}
