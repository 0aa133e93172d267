/* Parses command lines according to a table of options, as getopt_long does. The source that reads
 * them is formally verified.
 *
 *     static const struct getopts_option table[] = {
 *         { "o", "output", "FILE", "write to FILE", GETOPTS_YES + GETOPTS_REQ },
 *         { "v", "verbose", NULL, "say more", GETOPTS_NO + GETOPTS_MULTI },
 *         { "h", "help", NULL, "print this help", GETOPTS_NO },
 *         { NULL, NULL, NULL, NULL, GETOPTS_NO },
 *     };
 *
 *     struct getopts *options = getopts_new(table, GETOPTS_STRICT);
 *     int status = getopts_read(options, argc - 1, argv + 1);
 *     if (getopts_count(options, "help") > 0) ..
 *     if (status != GETOPTS_OK) .. getopts_message(options) ..
 *     const char *output = getopts_value(options, "output", 0);
 *
 * No function keeps a pointer to its arguments. Words are the strings of argv, which may contain
 * any bytes, and are returned unchanged. The strings in a table, and those passed to the usage
 * functions, must be UTF-8 with all characters below U+10FF80, because higher characters represent
 * the bytes of words that aren't UTF-8.
 *
 * There is no global state, and threads may share a struct getopts as long as none of them calls
 * getopts_read, getopts_next or getopts_delete on it, or changes a free word. No function reports
 * an error in errno, but functions that allocate or free memory may change it.
 *
 * `pkg-config --cflags --libs getopts` prints the flags for the shared library, and those for the
 * static library if `getopts-static` stands in place of `getopts`. PREFIX/share/doc/getopts/head.c
 * is a complete program. */
#ifndef GETOPTS_H
#define GETOPTS_H

#include <stdbool.h>
#include <stddef.h>
#include <stdint.h>

/* The version of this header. A program compiled with it can run with this version of the library,
 * and with later versions that have the same major number. For the preprocessor, the number is
 * 1000000 times the major number plus 1000 times the minor number plus the patch number:
 *
 *     #if GETOPTS_VERSION_NUMBER < 1002000
 *     #error "This program needs getopts.h 1.2 or later."
 *     #endif
 *
 * The version of the library is what getopts_version returns. */
#define GETOPTS_VERSION "1.0.0"
#define GETOPTS_VERSION_NUMBER 1000000

#if defined __GNUC__ && __GNUC__ >= 11 && !defined __clang__ && !defined __EDG__
/* -fanalyzer reports a result that is lost, or freed by another function. Other compilers that call
 * themselves gcc 11 may not know the attribute. */
#define GETOPTS_FREED_BY(function) __attribute__((__malloc__(function, 1), __warn_unused_result__))
#elif defined __GNUC__
#define GETOPTS_FREED_BY(function) __attribute__((__warn_unused_result__))
#else
#define GETOPTS_FREED_BY(function)
#endif

#ifdef __cplusplus
extern "C" {
#endif

/* What getopts_read, getopts_canonical and getopts_status return. Later versions may add some:
 * treat any value but GETOPTS_OK as an error. */
enum {
    GETOPTS_OK,
    GETOPTS_ARGUMENT_MISSING,    /* this and the next four: the words are rejected */
    GETOPTS_UNRECOGNIZED_OPTION,
    GETOPTS_OPTION_MISSING,
    GETOPTS_OPTION_DUPLICATED,
    GETOPTS_UNEXPECTED_ARGUMENT,
    GETOPTS_NO_MEMORY,           /* out of memory */
    GETOPTS_BAD                  /* the table is invalid, or a word is NULL */
};

/* The kind of an option: whether it takes an argument, plus how often it may be given: once, unless
 * GETOPTS_REQ or GETOPTS_MULTI is added. With both, it must be given at least once.
 *
 * With GETOPTS_MAYBE, a short option also takes the next word if that is `-` or doesn't begin with
 * a dash, so that `-O f` gives O the argument f, while getopt_long accepts only `-Of`. A long
 * option takes an optional argument only after `=`, and so does any option in the mode
 * GETOPTS_LONG_ONLY. */
enum getopts_kind {
    GETOPTS_NO = 0,    /* takes no argument; may be omitted */
    GETOPTS_YES = 1,   /* needs an argument, in the same word or the next */
    GETOPTS_MAYBE = 2, /* may have an argument */
    GETOPTS_REQ = 4,   /* must be given exactly once */
    GETOPTS_MULTI = 8, /* may be given any number of times */
    GETOPTS_KIND_MAX = 0x7fffffff /* not a kind: makes the enum four bytes wide */
};

/* A row of a table, which declares an option. NULL and "" both mean that a string is absent. The
 * table ends with a row whose names are both NULL; a row with the names NULL and "" is an error. If
 * an option that takes an argument has no hint, usage texts have nothing in its place: `[-n ]`. */
struct getopts_option {
    const char *short_name;  /* one byte; one of the two names may be absent */
    const char *long_name;   /* more than one byte */
    const char *hint;        /* the argument's name in usage texts */
    const char *description; /* the option's description in the help */
    enum getopts_kind kind;  /* such as GETOPTS_YES + GETOPTS_REQ */
};

/* How words are read. Modes can be added, but a mode used as a kind, or a kind used as a mode, is
 * an error: see getopts_new. With GETOPTS_LONG_ONLY, short options can't be combined, and take
 * arguments as long options do, so write `-I dir` or `-I=dir`, and `-v -v`: `-Idir` and `-vv`,
 * which getopt_long_only accepts, are rejected.
 *
 * With GETOPTS_REPEAT, an option whose kind doesn't include GETOPTS_MULTI may be given again. Its
 * last occurrence then replaces the others, except for getopts_next and getopts_canonical, and
 * usage lines show `..` after it, unless it is required.
 *
 * With GETOPTS_STRICT, a function that is passed NULL or the name of no option prints the name to
 * stderr and calls abort(), as assert() does, even if nothing was read. Only getopts_defined
 * accepts such names. If the table is invalid, GETOPTS_STRICT has no effect. */
enum getopts_modes {
    GETOPTS_ORDINARY = 0,    /* no mode */
    GETOPTS_STOP = 16,       /* the first free word ends the options */
    GETOPTS_LONG_ONLY = 32,  /* long options begin with one dash or two */
    GETOPTS_REPEAT = 64,     /* options may be repeated: the last occurrence counts */
    GETOPTS_STRICT = 128,    /* a mistaken call ends the program */
    GETOPTS_MODES_MAX = 0x7fffffff /* not a mode: makes the enum four bytes wide */
};

/* The options of a table, and what getopts_read read last. */
struct getopts;

/* Frees options, and all results that are valid until the next getopts_read. NULL is allowed. */
void getopts_delete(struct getopts *options);

/* Creates options from a table, to be freed with getopts_delete, or returns NULL if out of memory.
 * You needn't check for NULL, because all functions accept NULL options: getopts_read,
 * getopts_canonical and getopts_status return GETOPTS_NO_MEMORY, getopts_next returns -1,
 * getopts_message returns "Out of memory", the usage functions return NULL, and the others behave
 * as if nothing had been read.
 *
 * If the table is NULL, or a row or the modes are invalid, getopts_message says what is wrong,
 * such as "table[2]: short name 'ab' isn't one ASCII character". Then getopts_read and
 * getopts_canonical return GETOPTS_BAD, and the usage functions return NULL.
 *
 * No two rows may share a short name or a long name, no name begins with a dash, and only options
 * that take an argument have a hint. To give an option another name, add a row, as order.c does;
 * counts and values are those of a row, so that the program has to look at both. */
GETOPTS_FREED_BY(getopts_delete)
struct getopts *getopts_new(const struct getopts_option *table, enum getopts_modes modes);

/* Reads `count` words, such as argc - 1 and argv + 1. If `count` is negative, as argc - 1 may be,
 * there are no words. Returns GETOPTS_OK or an error:
 *
 * - GETOPTS_OPTION_MISSING, GETOPTS_OPTION_DUPLICATED: a required option is missing, or an option
 *   was given too often. If this is true of several options, the error is about the first in the
 *   table. The functions below return what was read, so that a program can look for its help
 *   option.
 * - GETOPTS_ARGUMENT_MISSING, GETOPTS_UNRECOGNIZED_OPTION, GETOPTS_UNEXPECTED_ARGUMENT: a word
 *   is invalid. The functions below behave as if nothing had been read.
 * - GETOPTS_NO_MEMORY: out of memory. What was read before is kept.
 * - GETOPTS_BAD: the table is invalid, or a word is NULL. What was read before is kept. */
int getopts_read(struct getopts *options, int count, char *const *words);

/* The status of the last getopts_read or getopts_next. If there was none, GETOPTS_OK, or
 * GETOPTS_BAD if the table is invalid. */
int getopts_status(const struct getopts *options);

/* Why the last getopts_read or getopts_next failed, such as "Unrecognized option: 'x'". Returns ""
 * if it succeeded, or if nothing was read and the table is valid. The string is valid until the
 * next getopts_read or getopts_next. Of an unknown character from U+10FF80 up in a cluster such as
 * -vx, it shows only the first byte.
 *
 * The message contains words as given, even control characters. If others choose the words, replace
 * at least the bytes for which iscntrl() is true before a terminal or a log shows the message. In
 * UTF-8, control characters are also the two bytes 0xC2 and 0x80 to 0x9F. */
const char *getopts_message(const struct getopts *options);

/* The option's name in getopts_message, such as "x", or "" if the message names no option. With the
 * status of getopts_read, a program can print errors in another language:
 *
 *     if (status == GETOPTS_UNRECOGNIZED_OPTION)
 *         fprintf(stderr, "Unbekannte Option: %s\n", getopts_message_name(options));
 *
 * The string is valid until the next getopts_read or getopts_next. */
const char *getopts_message_name(const struct getopts *options);

/* In the next functions, `name` is the short or long name of an option, and nth counts from 0. If
 * nothing was read, if the name is unknown or NULL (see GETOPTS_STRICT), or if nth is out of range,
 * getopts_long_value returns true, and the others 0, -1 or NULL. */

/* Pass this as nth for the last occurrence. */
#define GETOPTS_LAST SIZE_MAX

/* Whether an option of the table has this name, also if nothing was read. False if the options are
 * NULL or the table is invalid. */
bool getopts_defined(const struct getopts *options, const char *name);

/* How often the option was given. */
size_t getopts_count(const struct getopts *options, const char *name);

/* The index of the word with the option's nth occurrence, from 0 for the first word read. */
int getopts_position(const struct getopts *options, const char *name, size_t nth);

/* The value of the option's nth occurrence, or NULL if it has none, as it may with GETOPTS_MAYBE:
 * so loop up to the count, not to NULL. Valid until the next getopts_read. */
const char *getopts_value(const struct getopts *options, const char *name, size_t nth);

/* What getopts_next returns for a free word. No row has this number. */
#define GETOPTS_FREE_WORD 0x7fffffff

/* What a loop hasn't read yet. At first, it is { argc - 1, argv + 1, NULL, NULL }. With a copy, a
 * program can go back to where the copy was made. */
struct getopts_unread {
    int count;               /* the number of words that are left */
    char *const *words;      /* these words */
    const char *names;       /* what is left of the word before, as x after v in -vx, or NULL */
    char *const *free_words; /* NULL while options may follow: see below */
};

/* Reads the next option or free word, and moves `unread` past it. For an option, returns its table
 * row, counted from 0, and stores its value in *value, or NULL if it has none. For a free word,
 * returns GETOPTS_FREE_WORD, and stores the word. Both are parts of the words, not copies. `value`
 * may be NULL.
 *
 * Returns -1 at the end, and if what is next can't be read. Then getopts_status and getopts_message
 * say why, and `unread` stays as it was: an invalid word is unread.words[0] or, if names are left,
 * unread.words[-1].
 *
 *     struct getopts_unread unread = { argc - 1, argv + 1, NULL, NULL };
 *     while ((row = getopts_next(options, &unread, &value)) != -1)
 *         switch (row) {
 *         case HELP: ..
 *         case GETOPTS_FREE_WORD: ..
 *         }
 *     if (getopts_status(options) != GETOPTS_OK) .. getopts_message(options) ..
 *
 * Once all of unread.words are free words, as after `--`, unread.free_words begins with the free
 * word that was returned last, and equals unread.words at the end. So with GETOPTS_STOP, it is a
 * command and its arguments, as execvp() takes them. Without that mode, it is NULL after the first
 * free word, because options may follow.
 *
 * A program may stop anywhere, and change `unread`:
 *
 * - For a subcommand's options, make a new { unread.count, unread.words, NULL, NULL }.
 * - To take a word as it is, such as a negative number, add 1 to unread.words, and subtract 1 from
 *   unread.count, if unread.names is NULL and unread.count isn't 0.
 * - To skip the names that are left, set unread.names to NULL.
 * - To end the options, set unread.free_words to unread.words. Names that are left are still read
 *   first.
 *
 * getopts_next doesn't check how often options were given: to do so, call getopts_read after the
 * loop. What getopts_read read is kept. PREFIX/share/doc/getopts/order.c is a complete program. */
int getopts_next(struct getopts *options, struct getopts_unread *unread, const char **value);

/* If the value of the option's nth occurrence is a decimal number that fits in a long, stores the
 * number in *value and returns true. Such a number consists of digits, perhaps after `+` or `-`,
 * without blanks; `08` is 8. If there is no value, or no option of that name (see getopts_defined),
 * keeps *value and returns true. Otherwise keeps *value and returns false. */
bool getopts_long_value(const struct getopts *options, const char *name, size_t nth, long *value);

/* The number of free words, which are the positional arguments. */
int getopts_free_count(const struct getopts *options);

/* The free words and then NULL, as in argv. Each is a copy that you may change up to its end, for
 * example with strtok(); don't change the list. Valid until the next getopts_read. */
char *const *getopts_free_words(const struct getopts *options);

/* The index, in the free words, of the first word after the `--` that ended the options; -1 if
 * there is no such word. */
int getopts_trailing_start(const struct getopts *options);

/* Frees what one of the next four functions returned or stored. NULL is allowed. Don't use free():
 * on Windows, it may belong to another C library than the DLL's. */
void getopts_free(void *block);

/* The help text: `brief`, then each option with its description. Free it with getopts_free. Returns
 * NULL if out of memory, if the table is invalid, or if `brief` is NULL or isn't UTF-8 below
 * U+10FF80. */
GETOPTS_FREED_BY(getopts_free)
char *getopts_usage(const struct getopts *options, const char *brief);

/* Like getopts_usage, but descriptions end within this many columns, such as the width of a
 * terminal; getopts_usage wraps them within 78. They begin after 24 columns, and a word that
 * doesn't fit has a row of its own. */
GETOPTS_FREED_BY(getopts_free)
char *getopts_usage_in(const struct getopts *options, const char *brief, size_t columns);

/* A line with the program's name and all options, such as "Usage: head [-n COUNT] [-h]"; otherwise
 * like getopts_usage. It doesn't show that a required option may be repeated. */
GETOPTS_FREED_BY(getopts_free)
char *getopts_short_usage(const struct getopts *options, const char *program);

/* Rewrites words in a canonical form: `--main` or `--main=value` for each option, in order, then
 * `--`, then the free words. An option's main name is its long name or, if it has none, its short
 * name. Returns what getopts_read would return, but keeps what was read before.
 *
 * Stores the result in *line: a list like argv, to free with one getopts_free. Stores NULL if the
 * status isn't GETOPTS_OK, and also, with GETOPTS_OK, if the words give an option whose main name
 * contains `=`. */
int getopts_canonical(const struct getopts *options, int count, char *const *words, char ***line);

/* The version of the library that the program runs with, in the form of GETOPTS_VERSION. */
const char *getopts_version(void);

#ifdef __cplusplus
}

/* `+`, `|` and `|=` combine kinds and modes in C++, as they do in C. */
constexpr getopts_kind operator+(getopts_kind one, getopts_kind other) {
    return static_cast<getopts_kind>(static_cast<int>(one) + static_cast<int>(other));
}
constexpr getopts_kind operator|(getopts_kind one, getopts_kind other) {
    return static_cast<getopts_kind>(static_cast<int>(one) | static_cast<int>(other));
}
inline getopts_kind &operator|=(getopts_kind &one, getopts_kind other) {
    return one = one | other;
}
constexpr getopts_modes operator+(getopts_modes one, getopts_modes other) {
    return static_cast<getopts_modes>(static_cast<int>(one) + static_cast<int>(other));
}
constexpr getopts_modes operator|(getopts_modes one, getopts_modes other) {
    return static_cast<getopts_modes>(static_cast<int>(one) | static_cast<int>(other));
}
inline getopts_modes &operator|=(getopts_modes &one, getopts_modes other) {
    return one = one | other;
}
#endif

#endif
