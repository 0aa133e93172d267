/* Prints the first lines of files: an example of getopts.h. */
#include <errno.h>
#include <getopts.h>
#include <stdio.h>
#include <string.h>

static const struct getopts_option table[] = {
    { "n", "lines", "COUNT", "print COUNT lines of each file, not 10", GETOPTS_YES },
    { "h", "help", NULL, "print this help", GETOPTS_NO },
    { NULL, NULL, NULL, NULL, GETOPTS_NO },
};

static int print_help(const struct getopts *options) {
    char *text = getopts_usage(options, "Usage: head [options] FILE..");
    printf("%s", text != NULL ? text : "");
    getopts_free(text);
    return text != NULL ? 0 : 3;
}

static int print_lines(const char *name, long lines) {
    FILE *file = fopen(name, "r");
    for (int byte; file != NULL && lines > 0 && (byte = getc(file)) != EOF; lines -= byte == '\n')
        putchar(byte);
    bool failed = file == NULL || ferror(file);
    if (failed)
        fprintf(stderr, "head: %s: %s\n", name, strerror(errno));
    if (file != NULL)
        fclose(file);
    return failed;
}

/* The status, or 1 if the output couldn't be written. */
static int finish(int status) {
    if (fflush(stdout) == 0 && !ferror(stdout))
        return status;
    fprintf(stderr, "head: can't write its output\n");
    return 1;
}

static int run(struct getopts *options, int count, char **words) {
    int status = getopts_read(options, count, words), failed = 0;
    long lines = 10;
    if (getopts_count(options, "help") > 0)
        return print_help(options);
    if (status != GETOPTS_OK) {
        fprintf(stderr, "head: %s\n", getopts_message(options));
        return 2;
    }
    if (!getopts_long_value(options, "lines", 0, &lines) || lines < 0) {
        fprintf(stderr, "head: '%s' isn't a number of lines\n", getopts_value(options, "lines", 0));
        return 2;
    }
    for (char *const *name = getopts_free_words(options); *name != NULL; name++)
        failed |= print_lines(*name, lines);
    return failed;
}

int main(int argc, char **argv) {
    struct getopts *options = getopts_new(table, GETOPTS_STRICT);
    int status = run(options, argc - 1, argv + 1);
    getopts_delete(options);
    return finish(status);
}
