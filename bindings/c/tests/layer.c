/* Tests what answers.c doesn't: messages about invalid tables and modes, NULL, numbers, where a loop stops, and misspelt
 * names. */
#include "../getopts.h"

#include <errno.h>
#include <limits.h>
#include <stdio.h>
#include <stdlib.h>
#include <string.h>
#include <time.h>

#define LEN_37 "1234567890123456789012345678901234567"
#define LEN_38 LEN_37 "8"
#define KINDS ": combine one of GETOPTS_NO, YES and MAYBE with GETOPTS_REQ, MULTI, both or neither"
#define MODES ": combine GETOPTS_STOP, LONG_ONLY, REPEAT and STRICT, or write GETOPTS_ORDINARY"
#define NO_ARGUMENT "' on an option without argument: remove it, or use GETOPTS_YES or MAYBE"
#define NOT_SHORT "' isn't one ASCII character"
#define NO_TEXT " must be UTF-8 with all characters below U+10FF80"

_Static_assert(sizeof(enum getopts_kind) == 4 && sizeof(enum getopts_modes) == 4, "as the library expects");

static int failed;

static void expect(bool holds, const char *what) {
    if (holds)
        return;
    printf("FAILED: %s\n", what);
    failed = 1;
}

/* Whether a table with these modes gives this message; if it is empty, they are valid. */
static void expect_message(const struct getopts_option *table, int modes, const char *message) {
    struct getopts *options = getopts_new(table, (enum getopts_modes)modes);
    int status = *message != '\0' ? GETOPTS_BAD : GETOPTS_OK;
    char **line, *usage = getopts_usage(options, "brief");
    expect(strcmp(getopts_message(options), message) == 0 && getopts_status(options) == status, message);
    expect(getopts_read(options, 0, NULL) == status, "the status of a table");
    expect(strcmp(getopts_message(options), message) == 0, "the message after getopts_read");
    expect(getopts_canonical(options, 0, NULL, &line) == status, "the canonical line of a table");
    expect((usage == NULL) == (status == GETOPTS_BAD), "usage of a table");
    struct getopts_unread unread = { 0, NULL, NULL, NULL };
    expect(getopts_next(options, &unread, NULL) == -1 && getopts_status(options) == status, "a loop over no words");
    expect(strcmp(getopts_message(options), message) == 0, "the message after getopts_next");
    getopts_free(usage);
    getopts_free(line);
    getopts_delete(options);
}

/* A table of three rows, of which the second may be invalid. */
static void wrong_rows_are_reported(void) {
    static const struct {
        struct getopts_option row;
        const char *message;
    } rows[] = {
        { { "ab", NULL, NULL, NULL, GETOPTS_NO }, "table[1]: short name 'ab" NOT_SHORT },
        { { "ab", NULL, NULL, "\xff", GETOPTS_NO }, "table[1]: short name 'ab" NOT_SHORT },
        { { "a", "b", NULL, NULL, GETOPTS_NO }, "table[1]: long name 'b' has 1 byte: write it as the short name" },
        { { "", "", NULL, NULL, GETOPTS_NO }, "table[1]: both names are empty" },
        { { "", NULL, NULL, NULL, GETOPTS_NO }, "table[1]: both names are empty" },
        { { NULL, "", NULL, NULL, GETOPTS_NO }, "table[1]: both names are empty" },
        { { "a", NULL, NULL, NULL, (enum getopts_kind)7 }, "table[1]: invalid kind 7" KINDS },
        { { "a", NULL, NULL, NULL, (enum getopts_kind)(GETOPTS_YES + GETOPTS_STOP) }, "table[1]: invalid kind 17" KINDS },
        { { "a", NULL, NULL, NULL, (enum getopts_kind)GETOPTS_LONG_ONLY }, "table[1]: invalid kind 32" KINDS },
        { { "a", NULL, NULL, NULL, (enum getopts_kind)-1 }, "table[1]: invalid kind 4294967295" KINDS },
        /* At most 40 bytes of a name are shown, without cutting a character. */
        { { LEN_38 "\u00e9", NULL, NULL, NULL, GETOPTS_NO }, "table[1]: short name '" LEN_38 "\u00e9" NOT_SHORT },
        { { LEN_38 "\u00e9x", NULL, NULL, NULL, GETOPTS_NO }, "table[1]: short name '" LEN_38 "\u00e9" NOT_SHORT },
        { { LEN_38 "x\u00e9", NULL, NULL, NULL, GETOPTS_NO }, "table[1]: short name '" LEN_38 "x" NOT_SHORT },
        { { LEN_38 "\u65e5", NULL, NULL, NULL, GETOPTS_NO }, "table[1]: short name '" LEN_38 "" NOT_SHORT },
        { { LEN_37 "\U0001f600", NULL, NULL, NULL, GETOPTS_NO }, "table[1]: short name '" LEN_37 "" NOT_SHORT },
        { { LEN_38 "xxyy", NULL, NULL, NULL, GETOPTS_NO }, "table[1]: short name '" LEN_38 "xx" NOT_SHORT },
        { { LEN_37 "\x80\x80\x80\x80", NULL, NULL, NULL, GETOPTS_NO }, "table[1]: short name '" LEN_37 NOT_SHORT },
        { { "\xc3\xa9", NULL, NULL, NULL, GETOPTS_NO }, "table[1]: short name '\u00e9" NOT_SHORT },
        { { "\xff", NULL, NULL, NULL, GETOPTS_NO }, "table[1]: the short name" NO_TEXT },
        { { "a", "\xff\xff", NULL, NULL, GETOPTS_NO }, "table[1]: the long name" NO_TEXT },
        { { "a", "ab", "\xff", NULL, GETOPTS_YES }, "table[1]: the hint" NO_TEXT },
        { { "a", "\xf4\x8f\xbe\x80", NULL, NULL, GETOPTS_NO }, "table[1]: the long name" NO_TEXT },
        { { "a", "ab", NULL, "\xf4\x8f\xbf\xbf", GETOPTS_NO }, "table[1]: the description" NO_TEXT },
        { { "-", NULL, NULL, NULL, GETOPTS_NO }, "table[1]: short name '-' can't be given: choose another" },
        { { "a", "--ab", "x", NULL, GETOPTS_NO }, "table[1]: long name '--ab' begins with '-': remove it" },
        { { "a", "-" LEN_38 "\u00e9x", NULL, NULL, GETOPTS_NO }, "table[1]: long name '-" LEN_38 "' begins with '-': remove it" },
        { { "a", "ab", "x", NULL, GETOPTS_MULTI }, "table[1]: hint 'x" NO_ARGUMENT },
        { { "a", "ab", LEN_38 "xxyy", NULL, GETOPTS_NO }, "table[1]: hint '" LEN_38 "xx" NO_ARGUMENT },
        { { "x", "ab", NULL, NULL, GETOPTS_NO }, "table[1]: short name 'x' is also in table[0]: rename one" },
        { { "", "xx", NULL, NULL, GETOPTS_NO }, "table[1]: long name 'xx' is also in table[0]: rename one" },
        { { "y", "ab", NULL, NULL, GETOPTS_NO }, "table[2]: short name 'y' is also in table[1]: rename one" },
        { { "a", "a-", "", NULL, GETOPTS_NO }, "" }, { { "X", "x-", "-", NULL, GETOPTS_MAYBE }, "" },
        { { "a", "\xf4\x8f\xbd\xbf", "\u00e9", NULL, GETOPTS_YES }, "" },
        { { "a", "\u00e9", "\u00e9", "\u00e9", GETOPTS_MAYBE + GETOPTS_MULTI }, "" },
        { { NULL, "ab", NULL, NULL, GETOPTS_NO }, "" },
    };
    for (size_t nth = 0; nth < sizeof rows / sizeof *rows; nth++) {
        const struct getopts_option table[] = {
            { "x", "xx", NULL, NULL, GETOPTS_NO }, rows[nth].row, { "y", NULL, NULL, NULL, GETOPTS_NO },
            { NULL, NULL, NULL, NULL, GETOPTS_NO },
        };
        expect_message(table, GETOPTS_ORDINARY, rows[nth].message);
    }
}

/* Among 200 similar names, only equal ones are reported; and each short name that is repeated. */
static void repeated_names_are_found(void) {
    enum { ROWS = 200 };
    static char names[ROWS][16];
    static struct getopts_option table[ROWS + 1];
    for (int nth = 0; nth < ROWS; nth++) {
        snprintf(names[nth], sizeof names[nth], "name%03d", nth);
        table[nth].long_name = names[nth];
    }
    for (int nth = 0; nth < ROWS; nth++) {
        char wanted[80] = "";
        if (nth > 0)
            snprintf(wanted, sizeof wanted, "table[%d]: long name 'name%03d' is also in table[%d]: rename one", nth, nth / 2, nth / 2);
        table[nth].long_name = names[nth / 2];
        expect_message(table, GETOPTS_ORDINARY, wanted);
        table[nth].long_name = names[nth];
    }
    for (char name = 1; name > 0 && name < 127; name++) {
        const char text[] = { name, '\0' };
        const struct getopts_option twice[] = {
            { text, NULL, NULL, NULL, GETOPTS_NO }, { text, NULL, NULL, NULL, GETOPTS_NO }, { NULL, NULL, NULL, NULL, GETOPTS_NO },
        };
        char wanted[80];
        snprintf(wanted, sizeof wanted, "table[1]: short name '%s' is also in table[0]: rename one", text);
        if (name != '-')
            expect_message(twice, GETOPTS_ORDINARY, wanted);
    }
    /* Whatever name is between two equal ones. */
    for (int nth = 1; nth < 26 * 26; nth++) {
        const char other[] = { (char)('a' + nth / 26), (char)('a' + nth % 26), '\0' };
        const struct getopts_option three[] = {
            { NULL, "aa", NULL, NULL, GETOPTS_NO }, { NULL, other, NULL, NULL, GETOPTS_NO }, { NULL, "aa", NULL, NULL, GETOPTS_NO },
            { NULL, NULL, NULL, NULL, GETOPTS_NO },
        };
        expect_message(three, GETOPTS_ORDINARY, "table[2]: long name 'aa' is also in table[0]: rename one");
    }
    /* Of rows that repeat a name, or are wrong by themselves, an early one is reported. */
    static const struct {
        const char *names[4][2], *wanted;
    } rows[] = {
        { { { "x", "xx" }, { "x", "xx" } }, "table[1]: long name 'xx' is also in table[0]: rename one" },
        { { { "a", "xx" }, { "x", "xx" }, { "x", "yy" } }, "table[1]: long name 'xx' is also in table[0]: rename one" },
        { { { "x", "aa" }, { "x", "bb" }, { "x", NULL } }, "table[2]: short name 'x' is also in table[0]: rename one" },
        { { { "x", NULL }, { "x", "aa" }, { "x", "bb" } }, "table[1]: short name 'x' is also in table[0]: rename one" },
        { { { "x", "xx" }, { "y", "xx" }, { "ab", NULL } }, "table[1]: long name 'xx' is also in table[0]: rename one" },
        { { { "x", "xx" }, { "ab", NULL }, { "x", NULL } }, "table[1]: short name 'ab" NOT_SHORT },
        { { { "x", "bb" }, { "y", "aa" }, { "y", NULL }, { "x", NULL } }, "table[2]: short name 'y' is also in table[1]: rename one" },
        { { { NULL, "bb" }, { "z", NULL }, { NULL, "bb" }, { "z", "bb" } }, "table[2]: long name 'bb' is also in table[0]: rename one" },
        { { { "x", NULL }, { "y", NULL }, { "x", NULL } }, "table[2]: short name 'x' is also in table[0]: rename one" },
        { { { "x", "bb" }, { "b", "xx" }, { NULL, "x-" } }, "" },
    };
    for (size_t nth = 0; nth < sizeof rows / sizeof *rows; nth++) {
        struct getopts_option four[5];
        for (int row = 0; row < 4; row++)
            four[row] = (struct getopts_option){ rows[nth].names[row][0], rows[nth].names[row][1], NULL, NULL, GETOPTS_NO };
        four[4] = (struct getopts_option){ NULL, NULL, NULL, NULL, GETOPTS_NO };
        expect_message(four, GETOPTS_ORDINARY, rows[nth].wanted);
    }
}

/* Comparing each of many names with all others would take a minute. */
static void many_names_are_compared(void) {
    enum { ROWS = 60000 };
    char (*names)[16] = calloc(ROWS, sizeof *names);
    struct getopts_option *table = calloc(ROWS + 1, sizeof *table);
    time_t start = time(NULL);
    for (int nth = 0; nth < ROWS; nth++) {
        snprintf(names[nth], sizeof names[nth], "n%06d", nth);
        table[nth].long_name = names[nth];
    }
    for (int same = 0; same < 2; same++) {
        table[ROWS - 1].long_name = names[same ? 0 : ROWS - 1];
        struct getopts *options = getopts_new(table, GETOPTS_ORDINARY);
        expect(strcmp(getopts_message(options), same ? "table[59999]: long name 'n000000' is also in table[0]: rename one" : "") == 0,
               "60,000 names");
        getopts_delete(options);
    }
    expect(time(NULL) - start < 25, "60,000 names within 25 seconds");
    free(table);
    free(names);
}

static void modes_are_checked(void) {
    static const struct getopts_option table[] = { { NULL, NULL, NULL, NULL, GETOPTS_NO } };
    static const struct {
        int modes;
        const char *message;
    } rows[] = {
        { 4, "invalid modes 4" MODES }, { GETOPTS_STOP + GETOPTS_YES, "invalid modes 17" MODES },
        { GETOPTS_LONG_ONLY + GETOPTS_MULTI, "invalid modes 40" MODES }, { 256, "invalid modes 256" MODES },
        { GETOPTS_ORDINARY, "" }, { GETOPTS_STOP + GETOPTS_LONG_ONLY + GETOPTS_REPEAT + GETOPTS_STRICT, "" },
    };
    for (size_t nth = 0; nth < sizeof rows / sizeof *rows; nth++)
        expect_message(table, rows[nth].modes, rows[nth].message);
}

/* A table or brief that is NULL is an error, and so is a word that is NULL; no option is named NULL. */
static void null_is_rejected(void) {
    static const struct getopts_option table[] = { { "v", NULL, NULL, NULL, GETOPTS_NO }, { NULL, NULL, NULL, NULL, 0 } };
    char *words[] = { "-v", NULL, "x", NULL }, **line;
    struct getopts *none = getopts_new(NULL, GETOPTS_ORDINARY), *options = getopts_new(table, GETOPTS_ORDINARY);
    expect_message(NULL, GETOPTS_ORDINARY, "the table is NULL");
    expect(!getopts_defined(none, "v"), "a name without a table");
    expect(getopts_read(options, 1, words) == GETOPTS_OK, "words before a NULL");
    expect(getopts_read(options, 3, words) == GETOPTS_BAD, "a NULL word");
    expect(strcmp(getopts_message(options), "a word is NULL") == 0 && *getopts_message_name(options) == '\0', "its message");
    expect(getopts_count(options, "v") == 1, "what was read before");
    expect(getopts_canonical(options, 3, words, &line) == GETOPTS_BAD && line == NULL, "a line with a NULL word");
    expect(!getopts_defined(options, NULL) && getopts_count(options, NULL) == 0, "a NULL name");
    expect(getopts_position(options, NULL, 0) == -1 && getopts_value(options, NULL, 0) == NULL, "what it was given");
    expect(getopts_usage(options, NULL) == NULL && getopts_short_usage(options, NULL) == NULL, "a NULL brief");
    expect(getopts_usage_in(options, NULL, 40) == NULL && getopts_usage_in(none, "brief", 40) == NULL, "within 40 columns");
    expect(getopts_canonical(options, 1, words, NULL) == GETOPTS_OK, "nowhere to store a line");
    expect(getopts_read(options, 1, NULL) == GETOPTS_BAD, "NULL words");
    expect(getopts_read(options, 1, words + 1) == GETOPTS_BAD, "a NULL first word");
    expect(getopts_read(options, 0, NULL) == GETOPTS_OK && getopts_read(options, -1, words + 1) == GETOPTS_OK, "no words");
    expect(getopts_canonical(options, -1, words + 1, NULL) == GETOPTS_OK, "a line of no words");
    expect(strcmp(getopts_message(options), "") == 0 && getopts_count(options, "v") == 0, "nothing after no words");
    getopts_delete(none);
    getopts_delete(options);
}

/* All functions without options, as after a failed getopts_new. */
static void null_options_mean_no_memory(void) {
    char *words[] = { "-v", NULL }, **line = words;
    const char *text = "";
    long value = 42;
    expect(getopts_read(NULL, 1, words) == GETOPTS_NO_MEMORY, "getopts_read without options");
    expect(strcmp(getopts_message(NULL), "Out of memory") == 0 && *getopts_message_name(NULL) == '\0', "its message");
    expect(getopts_canonical(NULL, 1, words, &line) == GETOPTS_NO_MEMORY && line == NULL, "a line without options");
    expect(getopts_usage(NULL, "brief") == NULL && getopts_short_usage(NULL, "program") == NULL, "a usage of NULL");
    expect(getopts_usage_in(NULL, "brief", 40) == NULL, "a usage of NULL within 40 columns");
    expect(!getopts_defined(NULL, "v") && getopts_count(NULL, "v") == 0, "a name without options");
    expect(getopts_position(NULL, "v", 0) == -1 && getopts_value(NULL, "v", GETOPTS_LAST) == NULL, "what it was given");
    expect(getopts_free_words(NULL)[0] == NULL, "a list without options");
    expect(getopts_long_value(NULL, "v", 0, &value) && value == 42, "a number without options");
    struct getopts_unread unread = { 1, words, NULL, NULL };
    expect(getopts_next(NULL, &unread, &text) == -1 && text == NULL && unread.count == 1, "a loop without options");
    expect(getopts_status(NULL) == GETOPTS_NO_MEMORY, "its status");
    expect(getopts_free_count(NULL) == 0 && getopts_trailing_start(NULL) == -1, "free words without options");
    getopts_delete(NULL);
}

static const struct getopts_option required[] = {
    { "o", "output", "FILE", NULL, GETOPTS_YES + GETOPTS_REQ },
    { "h", "help", NULL, NULL, GETOPTS_NO },
    { NULL, NULL, NULL, NULL, GETOPTS_NO },
};

static void numbers_are_checked(void) {
    static const struct {
        const char *text;
        bool fits;
        long value;
    } rows[] = {
        { "0", true, 0 }, { "7", true, 7 }, { "-7", true, -7 }, { "+7", true, 7 }, { "007", true, 7 },
        { "08", true, 8 }, { "010", true, 10 }, { "-08", true, -8 },
#if LONG_MAX > 2147483647
        { "9223372036854775807", true, LONG_MAX }, { "-9223372036854775808", true, LONG_MIN },
        { "9223372036854775808", false, 0 }, { "-9223372036854775809", false, 0 }, { "", false, 0 },
#else
        { "2147483647", true, LONG_MAX }, { "-2147483648", true, LONG_MIN },
        { "2147483648", false, 0 }, { "-2147483649", false, 0 }, { "", false, 0 },
#endif
        { "2x", false, 0 }, { " 2", false, 0 }, { "2 ", false, 0 }, { "x", false, 0 }, { "-", false, 0 },
        { "- 2", false, 0 }, { "0x10", false, 0 }, { "1.5", false, 0 }, { "\t2", false, 0 },
    };
    struct getopts *options = getopts_new(required, GETOPTS_ORDINARY);
    for (size_t nth = 0; nth < sizeof rows / sizeof *rows; nth++) {
        char *words[] = { "-o", (char *)rows[nth].text, NULL };
        long value = 42;
        expect(getopts_read(options, 2, words) == GETOPTS_OK, "a number");
        errno = 5;
        expect(getopts_long_value(options, "output", 0, &value) == rows[nth].fits, rows[nth].text);
        expect(value == (rows[nth].fits ? rows[nth].value : 42) && errno == 5, rows[nth].text);
    }
    long value = 42;
    expect(getopts_long_value(options, "output", 1, &value) && value == 42, "a missing number");
    expect(getopts_long_value(options, "nope", 0, &value) && value == 42, "a number of an unknown option");
    char *seven[] = { "-o7", NULL };
    expect(getopts_read(options, 1, seven) == GETOPTS_OK && getopts_long_value(options, "o", 0, NULL), "nowhere to store a number");
    getopts_delete(options);
}

/* A program may change free words: nothing else changes with them. */
static void free_words_are_copies(void) {
    struct getopts *options = getopts_new(required, GETOPTS_ORDINARY);
    char *words[] = { "-o", "a,b", "a,b", "a,b", NULL };
    expect(getopts_read(options, 4, words) == GETOPTS_OK && getopts_free_count(options) == 2, "free words");
    char *const *free_words = getopts_free_words(options);
    expect(strcmp(strtok(free_words[0], ","), "a") == 0 && strcmp(strtok(NULL, ","), "b") == 0, "a free word in parts");
    expect(strcmp(free_words[1], "a,b") == 0 && strcmp(getopts_value(options, "o", 0), "a,b") == 0, "other results");
    expect(strcmp(words[2], "a,b") == 0 && getopts_free_words(options)[0] == free_words[0], "the words that were read");
    getopts_delete(options);
}

/* Reads words in a loop, and compares it with `wanted`: the row of an option, or f for a free word, and `=` and the value; last
 * `.` at the end, or a status; and then how many words are left, the names that are, and `-` if there are free_words. */
static void expect_loop(struct getopts *options, struct getopts_unread unread, const char *wanted) {
    char all[200] = "", *end = all;
    const char *value = "?";
    int row;
    for (int copies = 0; copies < 2; copies++) {
        struct getopts_unread before = unread;
        while (row = getopts_next(options, &unread, &value), row != -1 && end < all + 150) {
            end += sprintf(end, "%c%s%s ", row == GETOPTS_FREE_WORD ? 'f' : '0' + row, value != NULL ? "=" : "", value != NULL ? value : "");
            expect(row != GETOPTS_FREE_WORD || value == unread.words[-1], "a free word is one of the words");
            expect(row != GETOPTS_FREE_WORD || unread.free_words == NULL || unread.free_words == unread.words - 1, "and the first left");
        }
        /* A copy goes back. */
        unread = copies == 0 ? before : unread;
        end = copies == 0 ? all : end;
    }
    struct getopts_unread left = unread;
    expect(getopts_next(options, &unread, NULL) == -1 && value == NULL, "what ended the loop ends it again");
    expect(unread.count == left.count && unread.words == left.words && unread.names == left.names
           && unread.free_words == left.free_words, "and changes nothing");
    end += sprintf(end, "%c%d", getopts_status(options) == GETOPTS_OK ? '.' : '0' + getopts_status(options), unread.count);
    sprintf(end, "%s%s", unread.names != NULL ? unread.names : "", unread.free_words != NULL ? "-" : "");
    if (strcmp(all, wanted) != 0)
        printf("a loop gave: %s\n", all);
    expect(strcmp(all, wanted) == 0, wanted);
    expect(getopts_status(options) != GETOPTS_OK || unread.free_words == unread.words, "no free words are left at the end");
    expect((*getopts_message(options) == '\0') == (getopts_status(options) == GETOPTS_OK), "a message if there is an error");
}

static const struct getopts_option in_loops[] = {
    { "v", "verbose", NULL, NULL, GETOPTS_NO }, { "o", "output", NULL, NULL, GETOPTS_YES + GETOPTS_REQ },
    { "O", NULL, NULL, NULL, GETOPTS_MAYBE }, { NULL, NULL, NULL, NULL, GETOPTS_NO },
};

/* What a loop reads before an error, what it leaves, and what a program may set. `ended`: the program ended the options. */
static void loops_stop_and_go_on(void) {
    static const struct {
        const char *words[5], *names;
        int count;
        bool ended;
        const char *wanted;
    } rows[] = {
        { { "-vv", "-oa", "f", "-O", "-" }, NULL, 5, false, "0 0 1=a f=f 2=- .0-" },
        { { "-v", "f", "--nope", "g" }, NULL, 4, false, "0 f=f 22" },
        { { "-vx", "f" }, NULL, 2, false, "0 21x" }, { { "-v\xc3\xa9z", "f" }, NULL, 2, false, "0 21\xc3\xa9z" },
        { { "f", "--verbose=x" }, NULL, 2, false, "f=f 51" }, { { "-v", "-o" }, NULL, 2, false, "0 11" },
        { { "-vo" }, NULL, 1, false, "0 10o" }, { { "f", "g", NULL, "-v" }, NULL, 4, false, "f=f 73" },
        { { NULL }, NULL, 1, false, "71" }, { { "-v", "f" }, NULL, 1, false, "0 .0-" }, { { "f" }, NULL, 0, false, ".0-" },
        { { "f" }, NULL, -2, false, ".-2-" }, { { "--", "-v" }, NULL, 2, false, "f=-v .0-" },
        { { "f" }, "vo", 1, false, "0 1=f .0-" }, { { "f" }, "voa", 1, false, "0 1=a f=f .0-" }, { { "f" }, "", 1, false, "f=f .0-" },
        { { "f" }, "-v", 1, false, "21-v" }, { { NULL }, "o", 0, false, "10o" },
        { { "-o\xff", "-vo\xff\xfe", "-O", "\xff" }, NULL, 4, false, "1=\xff 0 1=\xff\xfe 2=\xff .0-" },
        { { "--output=\xff=", "\xf4\x8f\xbf\xbf", "-v\xff" }, NULL, 3, false, "1=\xff= f=\xf4\x8f\xbf\xbf 0 20\xff" },
        { { "-o\xc3\xa9\xff", "-v", "\xff" }, NULL, 3, false, "1=\xc3\xa9\xff 0 f=\xff .0-" },
        /* If a program ends the options within a cluster, the rest of the cluster comes first, and then all words. */
        { { "--", "-v" }, NULL, 2, true, "f=-- f=-v .0-" }, { { "f" }, "vvv", 1, true, "0 0 0 f=f .0-" },
        { { "--", "-x" }, "v", 2, true, "0 f=-- f=-x .0-" }, { { "-v", "-v" }, "vo", 2, true, "0 1=-v f=-v .0-" },
        { { "-v" }, "voa", 1, true, "0 1=a f=-v .0-" }, { { "a", "b" }, "O", 2, true, "2=a f=b .0-" }, { { "-v" }, "O", 1, true, "2 f=-v .0-" },
        { { "f" }, "vx", 1, true, "0 21x-" }, { { NULL }, "vo", 0, true, "0 10o-" }, { { "f" }, "", 1, true, "f=f .0-" },
        { { "\xff", "f" }, "vo", 2, true, "0 1=\xff f=f .0-" }, { { "f" }, "\xff", 1, true, "21\xff-" }, { { "f", NULL }, "v", 2, true, "72v-" },
    };
    struct getopts *options = getopts_new(in_loops, GETOPTS_ORDINARY);
    char *f[] = { "f", NULL };
    expect(getopts_read(options, 1, f) == GETOPTS_OPTION_MISSING, "words before all loops");
    for (size_t nth = 0; nth < sizeof rows / sizeof *rows; nth++) {
        char *const *words = (char *const *)rows[nth].words;
        expect_loop(options, (struct getopts_unread){ rows[nth].count, words, rows[nth].names, rows[nth].ended ? words : NULL },
                    rows[nth].wanted);
    }
    expect_loop(options, (struct getopts_unread){ 0, NULL, NULL, NULL }, ".0");
    expect_loop(options, (struct getopts_unread){ 1, NULL, NULL, NULL }, "71");
    expect(getopts_free_count(options) == 1 && getopts_free_words(options)[0] != f[0], "what was read before the loops");
    getopts_delete(options);
}

/* A command with its words, a subcommand's options, and a word that is taken as it is. */
static void commands_are_handed_over(void) {
    struct getopts *options = getopts_new(in_loops, GETOPTS_ORDINARY), *stops = getopts_new(in_loops, GETOPTS_STOP);
    char *words[] = { "-v", "add", "-v", "-5", "--", "-v", NULL };
    struct getopts_unread unread = { 6, words, NULL, NULL };
    const char *value;
    expect(getopts_next(stops, &unread, &value) == 0 && unread.free_words == NULL, "an option before a command");
    expect(getopts_next(stops, &unread, &value) == GETOPTS_FREE_WORD && value == words[1], "a command");
    expect(unread.free_words == words + 1 && unread.words == words + 2 && unread.count == 4, "where it is");
    struct getopts_unread its = { unread.count, unread.words, NULL, NULL };
    expect(getopts_next(options, &its, NULL) == 0 && getopts_next(options, &its, NULL) == -1, "its options");
    expect(getopts_status(options) == GETOPTS_UNRECOGNIZED_OPTION && its.words == words + 3, "a number");
    its.words++, its.count--;
    expect_loop(options, its, "f=-v .0-");
    expect_loop(stops, unread, "f=-v f=-5 f=-- f=-v .0-");
    /* Without GETOPTS_STOP, options may follow. */
    unread = (struct getopts_unread){ 5, words + 1, NULL, NULL };
    expect(getopts_next(options, &unread, &value) == GETOPTS_FREE_WORD && unread.free_words == NULL, "a forgotten mode");
    getopts_delete(options);
    getopts_delete(stops);
}

/* An error in a loop frees nothing that getopts_read returned: a loop over its free words goes on. */
static void errors_keep_free_words(void) {
    struct getopts *options = getopts_new(in_loops, GETOPTS_ORDINARY);
    char *words[] = { "-o", "a", "--", "f", "-x", "--nope", "g", NULL };
    expect(getopts_read(options, 7, words) == GETOPTS_OK && *getopts_message(options) == '\0', "words to read again");
    char *const *free_words = getopts_free_words(options);
    const char *value = getopts_value(options, "o", 0);
    struct getopts_unread unread = { getopts_free_count(options), free_words, NULL, NULL };
    int errors = 0;
    for (int steps = 0; unread.count > 0 && steps < 9; steps++)
        if (getopts_next(options, &unread, NULL) == -1)
            errors++, unread.words++, unread.count--;
        else
            expect(*getopts_message(options) == '\0' && *getopts_message_name(options) == '\0', "no message of an earlier error");
    expect(errors == 2 && getopts_free_words(options) == free_words && strcmp(free_words[3], "g") == 0, "the free words stay");
    expect(strcmp(value, "a") == 0 && getopts_value(options, "o", 0) == value, "and the values");
    expect(getopts_status(options) == GETOPTS_OK && getopts_next(options, &unread, NULL) == -1, "the end after errors");
    getopts_delete(options);
}

/* With GETOPTS_STRICT, passes a misspelt name to the function whose name begins with a letter. Returns if no name does. */
static int misspell(char function, int count, char **words) {
    struct getopts *options = getopts_new(required, GETOPTS_STRICT);
    if (count > 0)
        getopts_read(options, count, words);
    bool fine = getopts_count(options, "help") == getopts_count(options, "h") && getopts_defined(options, "help")
        && !getopts_defined(options, "hepl");
    switch (function) {
    case 'c': return (int)getopts_count(options, "hepl");
    case 'p': return getopts_position(options, "hepl", 0);
    case 'v': return getopts_value(options, "hepl", 0) != NULL;
    case 'l': return getopts_long_value(options, "hepl", 0, NULL);
    case 'N': return (int)getopts_count(options, NULL);
    }
    getopts_delete(options);
    return fine ? 0 : 4;
}

int main(int argc, char **argv) {
    if (argc > 1)
        return misspell(argv[1][0], argc - 2, argv + 2);
    wrong_rows_are_reported();
    repeated_names_are_found();
    many_names_are_compared();
    modes_are_checked();
    null_is_rejected();
    null_options_mean_no_memory();
    numbers_are_checked();
    free_words_are_copies();
    loops_stop_and_go_on();
    commands_are_handed_over();
    errors_keep_free_words();
    expect(strcmp(getopts_version(), GETOPTS_VERSION) == 0, "the version of header and library");
    if (!failed)
        printf("all tests passed\n");
    return failed;
}
