/* Tests what README.md and getopts.h say of functions and modes, and of getopt_long. Prints the sentences that are true. */
#define _GNU_SOURCE
#include <getopt.h>
#include "../getopts.h"

#include <stdio.h>
#include <stdlib.h>
#include <string.h>

enum { MOST = 8 };

static char *words[MOST + 2] = { "program" }; /* of the line that is read */
static bool failed;

static bool is(const char *text, const char *other) {
    return text != NULL && strcmp(text, other) == 0;
}

/* Makes words of a line, in which they are separated by `|`. Returns their number. */
static int split(const char *line) {
    static char copy[99];
    int count = 0;
    strcpy(copy, line);
    for (char *word = strtok(copy, "|"); word != NULL; word = strtok(NULL, "|"))
        words[++count] = word;
    words[count + 1] = NULL;
    return count;
}

static int read_line(struct getopts *it, const char *line) {
    return getopts_read(it, split(line), words + 1);
}

/* Appends `key`, or `key=value`, to a line. */
static void add(char *line, const char *key, const char *value) {
    if (*line != '\0')
        strcat(line, "|");
    strcat(strcat(line, key), value != NULL && *key != '\0' ? "=" : "");
    strcat(line, value != NULL ? value : "");
}

static bool frees_are(const struct getopts *it, const char *line) {
    char all[99] = "";
    for (char *const *word = getopts_free_words(it); *word != NULL; word++)
        add(all, *word, NULL);
    return is(all, line);
}

/* Whether a loop over the words gives these rows, each with its value, and free words. */
static bool loop_is(struct getopts *it, const char *line) {
    struct getopts_unread unread = { 0, words + 1, NULL, NULL };
    char all[99] = "", digit[] = "0";
    const char *value;
    int row;
    while (words[1 + unread.count] != NULL)
        unread.count++;
    while ((row = getopts_next(it, &unread, &value)) != -1) {
        digit[0] = (char)('0' + row % 10);
        add(all, row == GETOPTS_FREE_WORD ? "" : digit, value);
    }
    return is(all, line);
}

/* Whether getopt_long returns this for the words, with these short options and three long ones: keys with arguments, and then
 * the words that it leaves. */
static bool glibc_is(const char *short_options, const char *line) {
    static const struct option long_options[] = {
        { "verbose", no_argument, NULL, 'V' }, { "file", required_argument, NULL, 'F' },
        { "color", optional_argument, NULL, 'C' }, { NULL, 0, NULL, 0 },
    };
    char *moved[MOST + 2], all[99] = "", letter[] = "v";
    int count = 0;
    while ((moved[count] = words[count]) != NULL)
        count++;
    opterr = optind = 0;
    for (int key; (key = getopt_long(count, moved, short_options, long_options, NULL)) != -1;) {
        letter[0] = (char)key;
        add(all, key == 1 ? "" : letter, optarg);
    }
    while (optind < count)
        add(all, moved[optind++], NULL);
    return is(all, line);
}

static long number(const struct getopts *it, size_t nth) {
    long number = 42;
    return getopts_long_value(it, "n", nth, &number) ? number : -1;
}

/* Says a sentence if the condition is true of `it`, which has these rows and modes, after a line was read. */
#define CLAIM(sentence, modes, line, condition, ...) do { \
        static const struct getopts_option table[] = { __VA_ARGS__, { NULL, NULL, NULL, NULL, GETOPTS_NO } }; \
        struct getopts *it = getopts_new(table, modes); \
        char *text = getopts_short_usage(it, "it"); \
        int status = read_line(it, line); \
        bool holds = condition; \
        (void)status; \
        printf("%s%s\n", holds ? "" : "FALSE: ", sentence); \
        failed |= !holds; \
        getopts_free(text); \
        getopts_delete(it); \
    } while (0)
#define ROW(short_name, kind) { short_name, NULL, NULL, NULL, kind }
#define LONG(long_name, kind) { NULL, long_name, NULL, NULL, kind }
#define FLAG ROW("v", GETOPTS_NO)
#define COUNT(name) getopts_count(it, name)
#define VALUE(name) getopts_value(it, name, 0)

static void differences_from_getopt_long(void) {
    CLAIM("Long names can't be abbreviated, as in `--verb` for `--verbose`.", GETOPTS_ORDINARY, "--verb",
          status == GETOPTS_UNRECOGNIZED_OPTION && glibc_is("", "V"), LONG("verbose", GETOPTS_NO));
    CLAIM("`no_argument`, `required_argument`, `optional_argument` | the kinds `GETOPTS_NO`, `GETOPTS_YES`, `GETOPTS_MAYBE`",
          GETOPTS_ORDINARY, "--verbose|--file|f|--color=c|--color|c",
          loop_is(it, "0|1=f|2=c|2|c") && glibc_is("", "V|F=f|C=c|C|c"),
          LONG("verbose", GETOPTS_NO), LONG("file", GETOPTS_YES), LONG("color", GETOPTS_MAYBE + GETOPTS_MULTI));
    CLAIM("`argv` isn't permuted", GETOPTS_ORDINARY, "f|-v", is(words[1], "f") && frees_are(it, "f") && glibc_is("v", "v|f"), FLAG);
    CLAIM("`-` before the short options | a loop over `getopts_next`", GETOPTS_ORDINARY, "f|-v",
          loop_is(it, "f|0") && glibc_is("-v", "f|v"), FLAG);
    CLAIM("`+` before them, or `POSIXLY_CORRECT` | the mode `GETOPTS_STOP`", GETOPTS_STOP, "f|-v",
          frees_are(it, "f|-v") && glibc_is("+v", "f|-v"), FLAG);
    setenv("POSIXLY_CORRECT", "", 1);
    CLAIM("the variable has no effect", GETOPTS_ORDINARY, "f|-v", frees_are(it, "f") && glibc_is("v", "f|-v"), FLAG);
    unsetenv("POSIXLY_CORRECT");
    CLAIM("`getopts_message_name(options)`, which is the whole name", GETOPTS_ORDINARY, "--nope",
          is(getopts_message_name(it), "nope") && glibc_is("", "?") && optopt == 0, FLAG);
    CLAIM("the results `?` and `:` | what `getopts_read` or, after a loop, `getopts_status` returns", GETOPTS_ORDINARY, "-o",
          status == GETOPTS_ARGUMENT_MISSING && loop_is(it, "") && getopts_status(it) == status && glibc_is(":o:", ":"), ROW("o", GETOPTS_YES));
    CLAIM("to read other words | nothing: call `getopts_read` again", GETOPTS_ORDINARY, "-v|f",
          read_line(it, "a") == GETOPTS_OK && COUNT("v") == 0 && frees_are(it, "a"), FLAG);
    CLAIM("takes the next word**, as in `-O f`", GETOPTS_ORDINARY, "-O|f", is(VALUE("O"), "f"), ROW("O", GETOPTS_MAYBE));
    CLAIM("unless that begins with a dash", GETOPTS_ORDINARY, "-O|-v", VALUE("O") == NULL && COUNT("v") == 1,
          ROW("O", GETOPTS_MAYBE), FLAG);
    CLAIM("(the word `-` is taken)", GETOPTS_ORDINARY, "-O|-", is(VALUE("O"), "-"), ROW("O", GETOPTS_MAYBE));
    CLAIM("while `getopt_long` accepts only `-Of`.", GETOPTS_ORDINARY, "-O|f|-Of", glibc_is("O::", "O|O=f|f"),
          ROW("O", GETOPTS_MAYBE));
    CLAIM("So write `-I dir` or `-I=dir`, and `-v -v`", GETOPTS_LONG_ONLY, "-I|dir|-I=dir|-v|-v",
          is(VALUE("I"), "dir") && is(getopts_value(it, "I", 1), "dir") && COUNT("v") == 2,
          ROW("I", GETOPTS_YES + GETOPTS_MULTI), ROW("v", GETOPTS_MULTI));
    CLAIM("`-Idir` and `-vv` are rejected.", GETOPTS_LONG_ONLY, "-Idir",
          status != GETOPTS_OK && read_line(it, "-vv") != GETOPTS_OK, ROW("I", GETOPTS_YES), ROW("v", GETOPTS_MULTI));
    CLAIM("An optional argument needs `=` in this mode, after a short name too, as in `-O=f`.", GETOPTS_LONG_ONLY, "-O|f",
          VALUE("O") == NULL && read_line(it, "-O=f") == GETOPTS_OK && is(VALUE("O"), "f"), ROW("O", GETOPTS_MAYBE));
}

static void how_often_options_occur(void) {
    CLAIM("**A repeated option is an error**", GETOPTS_ORDINARY, "-vv", status == GETOPTS_OPTION_DUPLICATED, FLAG);
    CLAIM("unless its kind includes `GETOPTS_MULTI`, or the mode", GETOPTS_ORDINARY, "-vv", COUNT("v") == 2 && status == GETOPTS_OK,
          ROW("v", GETOPTS_MULTI));
    CLAIM("options may be repeated, and the last occurrence counts", GETOPTS_REPEAT,
          "-n1|-r2|-n3|-r4", status == GETOPTS_OK && is(VALUE("n"), "3") && is(VALUE("r"), "4"),
          ROW("n", GETOPTS_YES), ROW("r", GETOPTS_YES + GETOPTS_REQ));
    CLAIM("`getopts_count` is at most 1, unless the kind includes `GETOPTS_MULTI`", GETOPTS_REPEAT, "-vvmmrrbb",
          COUNT("v") == 1 && COUNT("m") == 2 && COUNT("r") == 1 && COUNT("b") == 2 && is(text, "Usage: it [-v].. [-m].. -r -b"),
          FLAG, ROW("m", GETOPTS_MULTI), ROW("r", GETOPTS_REQ), ROW("b", GETOPTS_REQ + GETOPTS_MULTI));
    CLAIM("`+ GETOPTS_REQ` | must be given once", GETOPTS_ORDINARY, "-rr",
          status == GETOPTS_OPTION_DUPLICATED && read_line(it, "") == GETOPTS_OPTION_MISSING, ROW("r", GETOPTS_REQ));
    CLAIM("or with `GETOPTS_REQ` at least once", GETOPTS_ORDINARY, "-bb",
          status == GETOPTS_OK && COUNT("b") == 2 && read_line(it, "") == GETOPTS_OPTION_MISSING,
          ROW("b", GETOPTS_REQ + GETOPTS_MULTI));
    CLAIM("It doesn't show that a required option may be repeated.", GETOPTS_ORDINARY, "",
          is(text, "Usage: it [-m].. -r -b"), ROW("m", GETOPTS_MULTI), ROW("r", GETOPTS_REQ), ROW("b", GETOPTS_REQ + GETOPTS_MULTI));
    for (int times = 0; times < 3; times++)
        CLAIM("the error is about the first in the table.", GETOPTS_ORDINARY, times > 1 ? "-vvb|-cc" : "-vv|-cc",
              is(getopts_message_name(it), times > 1 ? "v" : "both"),
              { "b", "both", NULL, NULL, GETOPTS_REQ + GETOPTS_MULTI }, FLAG, ROW("c", GETOPTS_NO));
    CLAIM("the error is about the first in the table.", GETOPTS_ORDINARY, "-vv", is(getopts_message_name(it), "v"),
          FLAG, ROW("b", GETOPTS_REQ + GETOPTS_MULTI), ROW("r", GETOPTS_REQ));
    CLAIM("Each row then has a count and values of its own", GETOPTS_ORDINARY, "-q|--silent",
          COUNT("quiet") == 1 && COUNT("silent") == 1 && loop_is(it, "0|1"),
          { "q", "quiet", NULL, NULL, GETOPTS_NO }, LONG("silent", GETOPTS_NO));
}

static void errors(void) {
    CLAIM("`-x` and `--x` give the same error.", GETOPTS_ORDINARY, "-x", is(getopts_message(it), "Unrecognized option: 'x'")
          && read_line(it, "--x") == GETOPTS_UNRECOGNIZED_OPTION && is(getopts_message(it), "Unrecognized option: 'x'"), FLAG);
    CLAIM("**A message contains words as given**, even control characters", GETOPTS_ORDINARY, "--\033x",
          is(getopts_message(it), "Unrecognized option: '\033x'"), FLAG);
    CLAIM("In `head --help --nope`, the second word is an error", GETOPTS_ORDINARY, "--help|--nope", COUNT("help") == 0,
          { "h", "help", NULL, NULL, GETOPTS_NO });
    CLAIM("A loop would print it.", GETOPTS_ORDINARY, "--help|--nope",
          loop_is(it, "0") && getopts_status(it) == GETOPTS_UNRECOGNIZED_OPTION && is(getopts_message_name(it), "nope"),
          { "h", "help", NULL, NULL, GETOPTS_NO });
    CLAIM("A loop doesn't check how often options are given, so `getopts_read` does it afterwards", GETOPTS_ORDINARY, "-vv",
          loop_is(it, "0|0") && getopts_status(it) == GETOPTS_OK && read_line(it, "-vv") == GETOPTS_OPTION_DUPLICATED, FLAG);
    CLAIM("The functions below return what was read", GETOPTS_ORDINARY, "-n|1|-n|2|f",
          status == GETOPTS_OPTION_DUPLICATED && COUNT("n") == 2 && number(it, GETOPTS_LAST) == 2 && frees_are(it, "f"),
          ROW("n", GETOPTS_YES));
    CLAIM("The functions below behave as if nothing had been read.", GETOPTS_ORDINARY, "-n|1|f|--nope",
          COUNT("n") == 0 && VALUE("n") == NULL && getopts_free_count(it) == 0, ROW("n", GETOPTS_YES));
    CLAIM("No two rows may share a short name or a long name", GETOPTS_ORDINARY, "", status == GETOPTS_BAD
          && is(getopts_message(it), "table[3]: short name 'v' is also in table[1]: rename one"), ROW("a", GETOPTS_NO), FLAG,
          ROW("b", GETOPTS_NO), FLAG);
    CLAIM("No two rows may share a short name or a long name", GETOPTS_ORDINARY, "",
          is(getopts_message(it), "table[1]: long name 'out' is also in table[0]: rename one"),
          { "v", "out", NULL, NULL, GETOPTS_NO }, { "o", "out", NULL, NULL, GETOPTS_NO });
    CLAIM("only options that take an argument have a hint.", GETOPTS_ORDINARY, "",
          status == GETOPTS_BAD && strstr(getopts_message(it), "hint 'H' on an option without argument"),
          { "v", NULL, "H", NULL, GETOPTS_NO });
    CLAIM("has no hint, usage texts have nothing in its place: `[-n ]`.", GETOPTS_ORDINARY, "", is(text, "Usage: it [-n ]"),
          ROW("n", GETOPTS_YES));
    CLAIM("and aborts, unless the table is invalid.", GETOPTS_STRICT, "-v", COUNT("nope") == 0, FLAG, FLAG);
}

static void results(void) {
    CLAIM("consists of digits, perhaps after `+` or `-`, without blanks; `08` is 8.", GETOPTS_ORDINARY, "-n010|-n+10|-n0x10|-n 10|-n-10|-n08",
          number(it, 0) == 10 && number(it, 1) == 10 && number(it, 2) == -1 && number(it, 3) == -1 && number(it, 4) == -10
          && number(it, 5) == 8,
          ROW("n", GETOPTS_YES + GETOPTS_MULTI));
    CLAIM("If there is no value, or no option of that name (see getopts_defined), keeps *value and returns true.", GETOPTS_ORDINARY, "", number(it, 0) == 42, ROW("n", GETOPTS_YES));
    CLAIM("**Negative numbers** such as `-5` are read as options, unless they are the argument of the option before them.",
          GETOPTS_ORDINARY, "-n|-5", number(it, 0) == -5 && read_line(it, "-5") == GETOPTS_UNRECOGNIZED_OPTION, ROW("n", GETOPTS_YES));
    CLAIM("all words from it on are free words, as they were given.", GETOPTS_STOP, "-v|f|-v|--|f", frees_are(it, "f|-v|--|f"), FLAG);
    CLAIM("the first free word ends the options", GETOPTS_STOP, "-v|--|-v|--", frees_are(it, "-v|--"), FLAG);
    CLAIM("getopts_read(other, getopts_free_count(options) - 1, getopts_free_words(options) + 1)", GETOPTS_STOP, "-v|add|-v|x",
          getopts_read(it, getopts_free_count(it) - 1, getopts_free_words(it) + 1) == GETOPTS_OK && COUNT("v") == 1
          && frees_are(it, "x"), FLAG);
}

int main(void) {
    differences_from_getopt_long();
    how_often_options_occur();
    errors();
    results();
    return failed;
}
