/* Runs three jobs of getopts_bench in C, with bindings/c and two parsers of glibc, and prints the same checksums.
 *
 * usage: c_peers PEER whole|order|read ROWS TIMES
 *
 * PEER is `getopts`, `getopt_long` or `argp`. Tables and words are prepared before the first iteration. With
 * bindings/c, an iteration creates the options (`read`: all share those created before), parses the words, and takes
 * each count and value or, for `order`, each option and free word in order. The other two have no options to create.
 * They return one option after the other, and an iteration takes each value as it comes; except for `order`, they
 * reorder the words, so each iteration gets a copy of the pointers. */
#define _GNU_SOURCE
#include <argp.h>
#include <getopt.h>
#include <getopts.h>
#include <stdio.h>
#include <stdlib.h>
#include <string.h>

enum { MOST = 32, FREE_KEY = 1, FIRST_KEY = 256 };

static struct getopts_option table[MOST + 1];
static struct option long_options[MOST + 1];
static struct argp_option argp_options[MOST + 1];
static char short_options[2 * MOST + 2] = "-"; /* with the dash, getopt_long returns free words in order */
static char **words, **moved;
static int options, count;
static struct getopts *shared; /* the options of all iterations, if they share them */
static bool in_order;

/* Adds an option to each table. */
static void declare(int takes, const char *short_name, const char *long_name) {
    int key = *short_name ? *short_name : FIRST_KEY + options;
    enum getopts_kind kind = GETOPTS_MULTI + (takes ? GETOPTS_YES : GETOPTS_NO);
    table[options] = (struct getopts_option){ short_name, long_name, takes ? "H" : NULL, "d", kind };
    /* A name that no word has, for options without a long name. */
    long_options[options] = (struct option){ *long_name ? long_name : "\1", takes, NULL, key };
    argp_options[options++] = (struct argp_option){ *long_name ? long_name : NULL, key, takes ? "H" : NULL, 0, "d", 0 };
    if (*short_name)
        strcat(strcat(short_options, short_name), takes ? ":" : "");
}

/* Reads the rows of a file. */
static int read_rows(const char *name) {
    static char row[4096];
    FILE *file = fopen(name, "r");
    while (file && fgets(row, sizeof row, file)) {
        char *rest = strdup(row), *fields[3] = { "", "", "" };
        for (int at = 0; at < 3; at++)
            if (!(fields[at] = strsep(&rest, "\t\n")))
                fields[at] = "";
        if (strcmp(fields[0], "words") == 0) {
            words = calloc(atoi(fields[1]) + 2, sizeof *words);
            moved = calloc(atoi(fields[1]) + 2, sizeof *moved);
            words[count++] = "c_peers";
        } else if (strcmp(fields[0], "word") == 0) {
            words[count++] = fields[1];
        } else {
            declare(strcmp(fields[0], "optmulti") == 0, fields[1], fields[2]);
        }
    }
    return file && words;
}

static size_t length(const char *value) {
    return value ? strlen(value) : 0;
}

static size_t getopts_iteration(void) {
    struct getopts *given = shared ? shared : getopts_new(table, GETOPTS_ORDINARY);
    if (getopts_read(given, count - 1, words + 1) != GETOPTS_OK)
        exit(2);
    size_t sum = 0;
    for (const struct getopts_option *row = table; row < table + options; row++) {
        const char *name = *row->long_name ? row->long_name : row->short_name;
        size_t times = getopts_count(given, name);
        for (size_t nth = 0; nth < times; nth++)
            sum += 1 + length(getopts_value(given, name, nth));
    }
    for (char *const *word = getopts_free_words(given); *word; word++)
        sum += strlen(*word);
    if (!shared)
        getopts_delete(given);
    return sum;
}

static size_t order_iteration(void) {
    struct getopts *given = getopts_new(table, GETOPTS_ORDINARY);
    struct getopts_unread unread = { count - 1, words + 1, NULL, NULL };
    const char *value;
    size_t sum = 0;
    for (int row; (row = getopts_next(given, &unread, &value)) != -1;)
        sum += (row != GETOPTS_FREE_WORD) + length(value);
    getopts_delete(given);
    return sum;
}

static size_t getopt_long_iteration(void) {
    size_t sum = 0;
    memcpy(moved, words, (count + 1) * sizeof *words);
    optind = 0;
    for (int key; (key = getopt_long(count, moved, short_options + !in_order, long_options, NULL)) != -1;) {
        if (key == '?')
            exit(2);
        sum += (key != FREE_KEY) + length(optarg);
    }
    for (int at = optind; at < count; at++)
        sum += strlen(moved[at]);
    return sum;
}

static error_t take(int key, char *value, struct argp_state *state) {
    if (key >= ARGP_KEY_END)
        return ARGP_ERR_UNKNOWN;
    *(size_t *)state->input += (key != ARGP_KEY_ARG) + length(value);
    return 0;
}

static size_t argp_iteration(void) {
    static const struct argp argp = { argp_options, take, "FILE..", NULL, NULL, NULL, NULL };
    size_t sum = 0;
    memcpy(moved, words, (count + 1) * sizeof *words);
    if (argp_parse(&argp, count, moved, in_order ? ARGP_IN_ORDER : 0, NULL, &sum) != 0)
        exit(2);
    return sum;
}

int main(int argc, char **argv) {
    bool reads = argc == 5 && strcmp(argv[2], "read") == 0;
    in_order = argc == 5 && strcmp(argv[2], "order") == 0;
    if (argc != 5 || (!reads && !in_order && strcmp(argv[2], "whole") != 0) || !read_rows(argv[3]))
        return 2;
    shared = reads ? getopts_new(table, GETOPTS_ORDINARY) : NULL;
    size_t (*iteration)(void) = in_order ? order_iteration : getopts_iteration;
    size_t sum = 0;
    if (strcmp(argv[1], "getopt_long") == 0)
        iteration = getopt_long_iteration;
    if (strcmp(argv[1], "argp") == 0)
        iteration = argp_iteration;
    for (int times = atoi(argv[4]); times > 0; times--)
        sum += iteration();
    printf("%zu\n", sum);
    return 0;
}
