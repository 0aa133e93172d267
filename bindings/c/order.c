/* Handles options and free words in the order in which they were given, as a loop over getopt_long
 * does: an example of getopts.h. The last of -q and -v wins, as in -qv. -C applies to the files
 * after it, as in -C a f -C b g. --silent is another name for --quiet. In C++, leave out
 * `[QUIET] =` and the like. */
#include <getopts.h>
#include <stdio.h>

enum { QUIET, SILENT, VERBOSE, DIRECTORY, EXCLUDE, ROWS };

static const struct getopts_option table[ROWS + 1] = {
    [QUIET] = { "q", "quiet", NULL, "say less", GETOPTS_NO },
    [SILENT] = { NULL, "silent", NULL, "the same as --quiet", GETOPTS_NO },
    [VERBOSE] = { "v", "verbose", NULL, "say more", GETOPTS_NO },
    [DIRECTORY] = { "C", "directory", "DIR", "take the next files from this folder", GETOPTS_YES },
    [EXCLUDE] = { "X", NULL, "NAME", "skip files of this name", GETOPTS_YES },
};

static int run(struct getopts *options, int count, char **words) {
    struct getopts_unread unread = { count, words, NULL, NULL };
    const char *value, *folder = ".";
    bool quiet = false;
    int row;
    while ((row = getopts_next(options, &unread, &value)) != -1) {
        switch (row) {
        case QUIET: case SILENT: quiet = true; break;
        case VERBOSE: quiet = false; break;
        case DIRECTORY: folder = value; break;
        case EXCLUDE: printf("skip %s\n", value); break;
        case GETOPTS_FREE_WORD: printf("take %s/%s\n", folder, value); break;
        }
    }
    if (getopts_status(options) != GETOPTS_OK) {
        fprintf(stderr, "order: %s\n", getopts_message(options));
        return 2;
    }
    puts(quiet ? "quiet" : "verbose");
    return 0;
}

int main(int argc, char **argv) {
    struct getopts *options = getopts_new(table, GETOPTS_ORDINARY);
    int status = run(options, argc - 1, argv + 1);
    getopts_delete(options);
    return status;
}
