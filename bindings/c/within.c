/* Runs a command in another folder, or with its output in a file: an example of getopts.h, for a
 * program whose options end at the first free word. Usage:
 *
 *     within [-C DIR | -o FILE].. COMMAND [ARGUMENT]..
 *
 * FILE is in the DIR before it. */
#define _POSIX_C_SOURCE 200809L
#include <getopts.h>
#include <stdio.h>
#include <unistd.h>

enum { DIRECTORY, OUTPUT, ROWS };

static const struct getopts_option table[ROWS + 1] = {
    [DIRECTORY] = { "C", NULL, "DIR", "change to this folder", GETOPTS_YES },
    [OUTPUT] = { "o", NULL, "FILE", "write to this file", GETOPTS_YES },
};

static int usage(const struct getopts *options) {
    const char *message = getopts_message(options);
    fprintf(stderr, "within: %s\n", *message != '\0' ? message : "no command");
    return 2;
}

static int failed(const char *name) {
    perror(name);
    return 3;
}

static int run(struct getopts *options, int count, char **words) {
    struct getopts_unread unread = { count, words, NULL, NULL };
    const char *value;
    int row;
    while ((row = getopts_next(options, &unread, &value)) == DIRECTORY || row == OUTPUT)
        if (row == DIRECTORY ? chdir(value) != 0 : freopen(value, "w", stdout) == NULL)
            return failed(value);
    if (row == -1)
        return usage(options);
    execvp(value, unread.free_words);
    return failed(value);
}

int main(int argc, char **argv) {
    struct getopts *options = getopts_new(table, GETOPTS_STOP);
    int status = run(options, argc - 1, argv + 1);
    getopts_delete(options);
    return status;
}
