/* Checks a Python file, lists its imports with their sections, and prints it sorted: what docs/C.md shows, in one program.

       example FILE [SETTINGS]

   SETTINGS is a pyproject.toml. The status is 0, or 1 where the text or the settings are refused.  */
#include <inttypes.h>
#include <stdio.h>
#include <stdlib.h>
#include <string.h>

#include "fihroste.h"

typedef struct text {
    uint8_t *bytes;
    size_t size;
} text;

static void give_up(const char *why) {
    fprintf(stderr, "example: %s\n", why);
    exit(2);
}

/* A block of memory. It has a byte more than is asked for, so that it is never null. */
static uint8_t *block(size_t size) {
    uint8_t *bytes = malloc(size + 1);
    if (bytes == NULL) give_up("out of memory");
    return bytes;
}

static text read_file(const char *path) {
    FILE *file = fopen(path, "rb");
    if (file == NULL) give_up("a file cannot be read");
    text read = {block(4096), 0};
    size_t room = 4096, got;
    while ((got = fread(read.bytes + read.size, 1, room - read.size, file)) > 0) {
        read.size += got;
        if (read.size == room) {
            read.bytes = realloc(read.bytes, room *= 2);
            if (read.bytes == NULL) give_up("out of memory");
        }
    }
    if (ferror(file)) give_up("a file cannot be read");
    fclose(file);
    return read;
}

/* Tells a refusal. */
static int refused(fihroste_answer answer, text settings) {
    if (answer.status == FIHROSTE_MEMORY) give_up("out of memory");
    if (answer.status == FIHROSTE_FAULT) {
        printf("F%" PRIu32 " at line %" PRIu64 ", byte %" PRIu64 "\n", answer.label, answer.line, answer.offset);
    } else {
        size_t room = settings.size + 16;
        uint8_t *key = block(room);
        answer = fihroste_settings(settings.bytes, settings.size, FIHROSTE_NO_PROFILE, key, room);
        printf("S%" PRIu32 "%s%.*s\n", answer.label, answer.size > 0 ? " " : "", (int)answer.size, (const char *)key);
        free(key);
    }
    return 1;
}

/* A number of 8 bytes, the lowest first. */
static uint64_t number_at(const uint8_t *at) {
    uint64_t number = 0;
    for (int i = 7; i >= 0; i--) number = number << 8 | at[i];
    return number;
}

/* Prints the text that stands here, and answers where it ends. */
static const uint8_t *print_text(const char *before, const uint8_t *at) {
    size_t size = (size_t)number_at(at);
    printf("%s%.*s", before, (int)size, (const char *)at + 8);
    return at + 8 + size;
}

/* The same of a text that may be absent. */
static const uint8_t *print_option(const char *before, const uint8_t *at) {
    return *at == 0 ? at + 1 : print_text(before, at + 1);
}

/* Prints the name of a module's section. That of an own section stands in the settings, so there is room for it. */
static void print_section(const uint8_t *module, text settings, fihroste_kept *kept) {
    size_t room = settings.size + 16;
    uint8_t *name = block(room);
    fihroste_answer answer = fihroste_place_kept(module + 8, (size_t)number_at(module), kept, name, room);
    if (answer.status == FIHROSTE_SAME) printf(" (%.*s)", (int)answer.size, (const char *)name);
    free(name);
}

/* Lists the imports, one a line: the line, the module with its section, the attribute, the alias. */
static int list(text code, text settings, fihroste_kept *kept) {
    size_t room = 64;
    uint8_t *out = block(room);
    fihroste_answer answer = fihroste_find(code.bytes, code.size, FIHROSTE_ALL, false, out, room);
    if (answer.size > room) {
        free(out);
        out = block(room = answer.size);
        answer = fihroste_find(code.bytes, code.size, FIHROSTE_ALL, false, out, room);
    }
    for (const uint8_t *at = out, *end = out + answer.size; at < end;) {
        const uint8_t *module = at + 9;
        printf("%" PRIu64 "%s", number_at(at), at[8] == 1 ? " indented" : "");
        at = print_text(" ", module);
        print_section(module, settings, kept);
        at = print_option(" ", at);
        at = print_option(" as ", at);
        printf("\n");
    }
    free(out);
    return answer.status == FIHROSTE_SAME ? 0 : refused(answer, settings);
}

/* Prints the text sorted. */
static int sort(text code, text settings, fihroste_kept *kept) {
    size_t room = code.size + code.size / 8 + 64;
    uint8_t *out = block(room);
    fihroste_answer answer = fihroste_sort_kept(code.bytes, code.size, kept, out, room);
    if (answer.size > room) {
        free(out);
        out = block(room = answer.size);
        answer = fihroste_sort_kept(code.bytes, code.size, kept, out, room);
    }
    int status = 0;
    if (answer.status == FIHROSTE_CHANGED) {
        fwrite(out, 1, answer.size, stdout);
    } else if (answer.status == FIHROSTE_SAME || answer.status == FIHROSTE_SKIPPED) {
        fwrite(code.bytes, 1, code.size, stdout);
    } else {
        status = refused(answer, settings);
    }
    free(out);
    return status;
}

/* Tells the unknown keys of the settings. */
static void warn(text settings, fihroste_kept *kept) {
    uint8_t *out = block(settings.size * 9);
    fihroste_answer answer = fihroste_settings_unknown(kept, out, settings.size * 9);
    for (const uint8_t *at = out; answer.status == FIHROSTE_SAME && at < out + answer.size;) {
        at = print_text("unknown key: ", at);
        printf("\n");
    }
    free(out);
}

int main(int argc, char **argv) {
    if (argc != 2 && argc != 3) give_up("give a Python file, and perhaps a pyproject.toml");
    text code = read_file(argv[1]);
    text settings = argc == 3 ? read_file(argv[2]) : (text){block(0), 0};
    fihroste_kept kept = {0};
    fihroste_answer read = fihroste_settings_read(settings.bytes, settings.size, FIHROSTE_NO_PROFILE, &kept);
    warn(settings, &kept);
    fihroste_answer answer = fihroste_check_kept(code.bytes, code.size, &kept);
    if (answer.status == FIHROSTE_SAME) printf("sorted\n");
    if (answer.status == FIHROSTE_CHANGED) printf("not sorted\n");
    if (answer.status == FIHROSTE_SKIPPED) printf("left as it is\n");
    int status = list(code, settings, &kept);
    status |= read.status == FIHROSTE_SAME ? sort(code, settings, &kept) : refused(read, settings);
    fihroste_settings_free(&kept);
    free(code.bytes);
    free(settings.bytes);
    return status;
}
