/* Fihroste for C: sorting, checking and listing of the imports of a Python text, the section of a module, and what
   settings say. docs/C.md has examples.

   A call that makes something fills the buffer `out`, which is the caller's and has room for `room` bytes, and answers in
   `size` how many bytes the result has. If `size` is above `room`, then `out` is as it was, and the call can be made again
   with a larger buffer. After FIHROSTE_MEMORY and FIHROSTE_ARGUMENT `out` is as it was, and so it is after
   FIHROSTE_SETTINGS, except by fihroste_settings.

   A call takes memory from malloc for its own use, and gives all of it back before it returns, except what a handle keeps
   (fihroste_kept, below). Nothing else stays between calls, and calls may run in threads side by side.

   What a caller owes, and no call looks for:
   - Each pointer leads to as many bytes as the length after it says, and is not null, also where the length is 0. No
     length is above PTRDIFF_MAX.
   - `out` does not overlap what else is handed in. While a call runs, no other thread writes to what it reads, or reads
     or writes `out`.
   - `top_only` is `true` or `false`.
   - A handle is one whose bytes are all 0, or is as a call left it. It may be moved in memory, but not used in two places.
     It is handed to one call at a time. If the next call is in another thread, a lock, or the start or the end of a
     thread, stands between the two. The handles of fihroste_settings_share are two.
   - malloc, realloc and free belong together, and blocks are aligned as the C standard wants.
   - No call is made from a signal handler, or from the forked child of a process with threads. */
#ifndef FIHROSTE_H
#define FIHROSTE_H

#include <stdbool.h>
#include <stddef.h>
#include <stdint.h>

#ifdef __cplusplus
extern "C" {
#endif

/* What a call came to. */
enum fihroste_status {
    FIHROSTE_SAME = 0,     /* the text is sorted as it is; of a call that sorts nothing: it is done */
    FIHROSTE_CHANGED = 1,  /* the sorted text differs from the text */
    FIHROSTE_SKIPPED = 2,  /* the text asks to be left as it is: isort:skip_file */
    FIHROSTE_FAULT = 3,    /* the text can't be read to its end: F1 to F10, at `line` and `offset` */
    FIHROSTE_SETTINGS = 4, /* the settings are refused: S1 to S4 */
    FIHROSTE_MEMORY = 5,   /* memory ran out */
    FIHROSTE_ARGUMENT = 6  /* the name of a module is not UTF-8, `unique` or `profile` is none of the numbers below, or a
                              handle keeps nothing */
};

/* `label` at FIHROSTE_FAULT. */
enum fihroste_fault {
    FIHROSTE_BAD_UTF8 = 1,     /* F1 not UTF-8 */
    FIHROSTE_BAD_CHAR = 2,     /* F2 unexpected character */
    FIHROSTE_OPEN_STRING = 3,  /* F3 string not closed */
    FIHROSTE_OPEN_TRIPLE = 4,  /* F4 triple-quoted string not closed */
    FIHROSTE_WRONG_CLOSE = 5,  /* F5 closing bracket without its opening */
    FIHROSTE_OPEN_BRACKET = 6, /* F6 bracket not closed */
    FIHROSTE_BAD_JOIN = 7,     /* F7 backslash not before a line end */
    FIHROSTE_TOO_DEEP = 8,     /* F8 more than 200 brackets open */
    FIHROSTE_BAD_IMPORT = 9,   /* F9 import statement not understood */
    FIHROSTE_OPEN_FIELD = 10   /* F10 field not closed */
};

/* `label` at FIHROSTE_SETTINGS. */
enum fihroste_refusal {
    FIHROSTE_BAD_TOML = 1,        /* S1 not TOML */
    FIHROSTE_BAD_VALUE = 2,       /* S2 bad value for a key */
    FIHROSTE_UNKNOWN_PROFILE = 3, /* S3 unknown profile */
    FIHROSTE_UNSUPPORTED_MODE = 4 /* S4 unsupported multi_line_output */
};

/* The profile that replaces the one that the settings name. */
enum fihroste_profile {
    FIHROSTE_NO_PROFILE = 0, /* that of the settings, if they name one */
    FIHROSTE_BLACK = 1
};

/* By what two imports count as one. Only the first of them is listed. */
enum fihroste_unique {
    FIHROSTE_ALL = 0, /* all imports are listed */
    FIHROSTE_PACKAGE = 1,
    FIHROSTE_MODULE = 2,
    FIHROSTE_ATTRIBUTE = 3,
    FIHROSTE_ALIAS = 4
};

/* The sections. Own ones have FIHROSTE_OWN and the numbers after it, in the order of `sections` in the settings. */
enum fihroste_section {
    FIHROSTE_FUTURE = 0,
    FIHROSTE_STDLIB = 1,
    FIHROSTE_THIRDPARTY = 2,
    FIHROSTE_FIRSTPARTY = 3,
    FIHROSTE_LOCALFOLDER = 4,
    FIHROSTE_OWN = 5
};

/* The number of a key that has no name of its own: the list of an own section, such as `known_django`. fihroste_settings
   tells its name. */
enum fihroste_key {
    FIHROSTE_OWN_LIST = 26
};

/* An answer. What a status doesn't speak of is 0. */
typedef struct fihroste_answer {
    uint32_t status;  /* an enum fihroste_status */
    uint32_t label;   /* the number of a label: of a fault an enum fihroste_fault, of settings an enum fihroste_refusal */
    uint32_t key;     /* at S2 (bad value) the number of the key: fihroste_settings and fihroste_key_name have its name */
    uint32_t section; /* of fihroste_place: an enum fihroste_section, or more */
    uint64_t offset;  /* of a fault: its byte, from 0 */
    uint64_t line;    /* of a fault: the line of that byte, from 1 */
    size_t size;      /* how many bytes the result has */
} fihroste_answer;

/* `settings` is the text of a pyproject.toml, of which only the table [tool.isort] counts. It may be empty. `profile` is
   an enum fihroste_profile. */

/* Sorts the text. The result, at FIHROSTE_CHANGED alone, is the sorted text. A buffer of the size of the text and an
   eighth and 4096 bytes is nearly always large enough. */
fihroste_answer fihroste_sort(const uint8_t *text, size_t text_size, const uint8_t *settings, size_t settings_size,
                              uint32_t profile, uint8_t *out, size_t room);

/* What fihroste_sort answers, with no size: FIHROSTE_SAME says that the text is its own sorted text, FIHROSTE_CHANGED that
   it isn't. */
fihroste_answer fihroste_check(const uint8_t *text, size_t text_size, const uint8_t *settings, size_t settings_size,
                               uint32_t profile);

/* Lists the imports of the text. `unique` is an enum fihroste_unique; with `top_only` only the imports before the first
   function or class are listed. The result, at FIHROSTE_SAME and FIHROSTE_FAULT, is a record for each import, of all or
   of those before the fault:
     the line      8 bytes, the lowest first, from 1
     indented      1 byte: 1 if its logical line is indented, and else 0
     the module    a text: its length in 8 bytes, the lowest first, and so many bytes of UTF-8
     the attribute 1 byte 0; or 1 byte 1 and a text: the name after `from .. import`, or `*`
     the alias     likewise: the name after `as` */
fihroste_answer fihroste_find(const uint8_t *text, size_t text_size, uint32_t unique, bool top_only, uint8_t *out,
                              size_t room);

/* The section of the module of this name, by its number in `section`. The result, at FIHROSTE_SAME, is its name, as the
   settings spell it: `STDLIB`, say. */
fihroste_answer fihroste_place(const uint8_t *name, size_t name_size, const uint8_t *settings, size_t settings_size,
                               uint32_t profile, uint8_t *out, size_t room);

/* Whether the settings are refused, and which keys of [tool.isort] are unknown. The result, at FIHROSTE_SAME, is a text
   for each unknown key, its name, written as in fihroste_find; at S2 (bad value) it is the name of the key, and nothing
   else. */
fihroste_answer fihroste_settings(const uint8_t *settings, size_t settings_size, uint32_t profile, uint8_t *out,
                                  size_t room);

/* A handle to settings that were read once, for calls that read no text of settings. It lies where the caller puts it. What
   it leads to is the library's memory: fihroste_settings_free gives that back, and whoever forgets to call it leaks it. A
   handle whose bytes are all 0, as `fihroste_kept kept = {0}`, keeps nothing. */
typedef struct fihroste_kept {
    bool full;      /* whether it keeps settings */
    void *settings; /* no caller follows this */
} fihroste_kept;

/* Reads settings, and keeps them and the names of their unknown keys. At FIHROSTE_SAME the handle keeps them, and what it kept
   before is given back. After every other answer it keeps what it kept. */
fihroste_answer fihroste_settings_read(const uint8_t *settings, size_t settings_size, uint32_t profile, fihroste_kept *kept);

/* Makes `other` keep what `kept` keeps, without reading it again. Each is freed by itself, and may be handed to a call while
   the other is, as in another thread. At FIHROSTE_SAME `other` keeps it, and what it kept before is given back. After every
   other answer it keeps what it kept. */
fihroste_answer fihroste_settings_share(fihroste_kept *kept, fihroste_kept *other);

/* Gives back what the handle keeps. It keeps nothing then, and can be used again. */
void fihroste_settings_free(fihroste_kept *kept);

/* The names of the unknown keys that were read, written as by fihroste_settings. */
fihroste_answer fihroste_settings_unknown(fihroste_kept *kept, uint8_t *out, size_t room);

/* What fihroste_sort, fihroste_check and fihroste_place do with the text that was read; FIHROSTE_ARGUMENT where the handle
   keeps nothing. A handle keeps what it kept. fihroste_place_kept takes no memory. */
fihroste_answer fihroste_sort_kept(const uint8_t *text, size_t text_size, fihroste_kept *kept, uint8_t *out, size_t room);
fihroste_answer fihroste_check_kept(const uint8_t *text, size_t text_size, fihroste_kept *kept);
fihroste_answer fihroste_place_kept(const uint8_t *name, size_t name_size, fihroste_kept *kept, uint8_t *out, size_t room);

/* The name of a key of the settings by its number, as in `key` of an answer: `tool` and `tool.isort` for the tables. It
   is written to `out`, with no zero at its end, and its length is answered: 0 if no key has the number, or if it is
   FIHROSTE_OWN_LIST. If the length is above `room`, then `out` is as it was; 32 bytes are enough. */
size_t fihroste_key_name(uint32_t key, uint8_t *out, size_t room);

#ifdef __cplusplus
}
#endif
#endif
