/* Answers cases by calling every function of getopts.h. A case is a table, modes, names and words. Reads strings that end
 * with a zero byte from standard input, and prints answers as such strings: "-" for NULL, or "=" and the string.
 *
 * With REFUSES, it prints nothing: for each case, each allocation of each call fails in turn, once alone and once with all
 * later ones. Link it with --wrap for malloc, realloc and free. */
#include "../getopts.h"

#include <stdint.h>
#include <stdio.h>
#include <stdlib.h>
#include <string.h>
#ifdef _WIN32
#include <fcntl.h>
#include <io.h>
#endif

enum { MOST = 32 };

static char input[1 << 24], *at = input, *names[2 * MOST], *words[MOST];
static struct getopts_option table[MOST];
static int count;      /* of the words */
static size_t columns; /* of a help text */
static uint64_t hash;
#ifdef REFUSES
static const bool quiet = true;
#else
static const bool quiet = false;
#endif

/* The next string of the input; NULL if it is "-". */
static char *next(void) {
    char *text = at;
    at += strlen(at) + 1;
    return text[0] == '-' ? NULL : text + 1;
}

/* Prints a string, and adds it to the hash. */
static void say(const char *text) {
    hash = hash * 31 + (text == NULL);
    for (const char *from = text; from != NULL && *from != '\0'; from++)
        hash = hash * 31 + (unsigned char)*from;
    if (!quiet)
        printf("%s%s%c", text != NULL ? "=" : "-", text != NULL ? text : "", 0);
}

static void say_number(long number) {
    char text[24];
    snprintf(text, sizeof text, "%ld", number);
    say(text);
}

static void say_list(const char *const *texts, size_t len) {
    for (size_t nth = 0; nth <= len; nth++)
        say(texts[nth]);
}

static void say_and_free(char *text) {
    say(text);
    getopts_free(text);
}

/* Says what was read, also for an occurrence after the last one, and for the last. */
static void say_reading(const struct getopts *options) {
    for (char **name = names; *name != NULL; name++) {
        size_t times = getopts_count(options, *name);
        say_number(getopts_defined(options, *name));
        say_number((long)times);
        for (size_t step = 0; step <= times + 1; step++) {
            size_t nth = step <= times ? step : GETOPTS_LAST;
            long number = 42;
            say_number(getopts_position(options, *name, nth));
            say(getopts_value(options, *name, nth));
            say_number(getopts_long_value(options, *name, nth, &number));
            say_number(number);
        }
    }
    say_number(getopts_free_count(options));
    say_list((const char *const *)getopts_free_words(options), (size_t)getopts_free_count(options));
    say_number(getopts_trailing_start(options));
}

/* Says what a loop reads, if it can read all words, and its status. */
static void say_loop(struct getopts *options) {
    const char *value;
    int row = 0;
    for (int times = 0; times < 2; times++) {
        struct getopts_unread unread = { count, words, NULL, NULL };
        while ((row = getopts_next(options, &unread, &value)) != -1)
            if (times > 0)
                say_number(row), say(value);
        if (getopts_status(options) != GETOPTS_OK)
            break;
    }
    say_number(row);
    say_number(getopts_status(options));
    say(getopts_message(options));
}

/* Answers with new options. Nothing of an earlier reading shows, and nothing of a loop. */
static void answer(struct getopts *options) {
    char **line;
    say(getopts_message(options));
    for (char **name = names; *name != NULL; name++)
        say_number(getopts_defined(options, *name));
    getopts_read(options, count / 2, words);
    say_number(getopts_read(options, count, words));
    say(getopts_message(options));
    say(getopts_message_name(options));
    say_loop(options);
    say_reading(options);
    say_number(getopts_canonical(options, count, words, &line));
    for (size_t nth = 0; line != NULL && line[nth] != NULL; nth++)
        say(line[nth]);
    say(NULL);
    getopts_free(line);
    say_and_free(getopts_usage(options, ""));
    say_and_free(getopts_usage_in(options, "brief", columns));
    say_and_free(getopts_short_usage(options, "brief"));
}

#ifdef REFUSES
__typeof__(malloc) __real_malloc, __wrap_malloc;
__typeof__(realloc) __real_realloc, __wrap_realloc;
__typeof__(free) __real_free, __wrap_free;

/* Which allocation fails (0: none), and whether later ones fail too (on). Counts: allocations, failures, used blocks. */
static struct {
    size_t at, requests, failures, blocks, runs;
    bool on;
} heap;

static bool fails(void) {
    heap.requests++;
    bool now = heap.at > 0 && (heap.requests == heap.at || (heap.on && heap.requests > heap.at));
    heap.failures += now;
    return now;
}

void *__wrap_malloc(size_t size) {
    void *block = fails() ? NULL : __real_malloc(size);
    heap.blocks += block != NULL;
    return block;
}

void *__wrap_realloc(void *block, size_t size) {
    bool is_new = block == NULL;
    block = fails() ? NULL : __real_realloc(block, size);
    heap.blocks += is_new && block != NULL;
    return block;
}

void __wrap_free(void *block) {
    heap.blocks -= block != NULL;
    __real_free(block);
}

static void expect(bool holds, const char *what) {
    if (!holds) {
        printf("FAILED: %s\n", what);
        exit(1);
    }
}

static int status_of_text(char *text) {
    getopts_free(text);
    return text != NULL ? GETOPTS_OK : GETOPTS_NO_MEMORY;
}

/* Reads the words in a loop, which goes on if an allocation failed. Returns GETOPTS_NO_MEMORY if one did. */
static int read_in_loop(struct getopts *options) {
    struct getopts_unread unread = { count, words, NULL, NULL };
    int row, failed = GETOPTS_OK;
    do {
        struct getopts_unread before = unread;
        row = getopts_next(options, &unread, NULL);
        if (getopts_status(options) == GETOPTS_NO_MEMORY) {
            expect(row == -1 && strcmp(getopts_message(options), "Out of memory") == 0, "the message of a loop");
            expect(before.count == unread.count && before.words == unread.words && before.names == unread.names
                   && before.free_words == unread.free_words, "what is left after an allocation failed");
            failed = GETOPTS_NO_MEMORY;
            row = 0;
            heap.at = 0;
        }
    } while (row != -1);
    return failed;
}

/* Makes one of eight calls, and returns its status. */
static int call(int which, struct getopts *options, enum getopts_modes modes) {
    char **line = NULL;
    if (which == 0 || which == 5) {
        /* 512 isn't a mode, so the message about it is allocated, too. */
        struct getopts *other = getopts_new(table, which == 0 ? modes : (enum getopts_modes)512);
        getopts_delete(other);
        return other != NULL ? GETOPTS_OK : GETOPTS_NO_MEMORY;
    }
    if (which == 1)
        return getopts_read(options, count, words);
    if (which == 7)
        return read_in_loop(options);
    if (which == 6)
        return status_of_text(getopts_usage_in(options, "brief", columns));
    if (which > 2)
        return status_of_text((which == 3 ? getopts_usage : getopts_short_usage)(options, "brief"));
    int status = getopts_canonical(options, count, words, &line);
    getopts_free(line);
    return status;
}

static uint64_t hash_of_reading(const struct getopts *options) {
    hash = 0;
    say_reading(options);
    return hash;
}

/* If an allocation fails, a call reports it, leaks nothing, and keeps what was read before (half of the words). A loop keeps a
 * table of names. */
static void check_failures(enum getopts_modes modes) {
    for (int which = 0; which < 8; which++)
        for (int on = 0; on < 2; on++)
            for (size_t nth = 1; nth == 1 || heap.failures > 0; nth++, heap.runs += heap.failures > 0) {
                struct getopts *options = getopts_new(table, modes);
                getopts_read(options, count / 2, words);
                size_t blocks = heap.blocks;
                uint64_t before = hash_of_reading(options);
                heap.at = nth, heap.on = on == 1, heap.requests = heap.failures = 0;
                int status = call(which, options, modes);
                heap.at = 0;
                if (heap.failures > 0) {
                    expect(status == GETOPTS_NO_MEMORY && (which == 7 || heap.blocks == blocks), "reported, and nothing leaked");
                    expect(hash_of_reading(options) == before, "earlier results stay");
                    expect(which != 1 || strcmp(getopts_message(options), "Out of memory") == 0, "its message");
                }
                getopts_delete(options);
            }
}
#endif

/* Reads a case, and answers it. */
static void answer_case(void) {
    int modes = atoi(next());
    columns = strtoul(next(), NULL, 10);
    int rows = atoi(next());
    for (struct getopts_option *row = table; row < table + rows; row++) {
        row->short_name = next();
        row->long_name = next();
        row->hint = next();
        row->description = next();
        row->kind = (enum getopts_kind)atoi(next());
    }
    table[rows] = (struct getopts_option){ .short_name = NULL };
    for (char **name = names; (*name = next()) != NULL;)
        name++;
    for (count = 0; (words[count] = next()) != NULL;)
        count++;
    struct getopts *options = getopts_new(table, (enum getopts_modes)modes);
    answer(options);
#ifdef REFUSES
    check_failures((enum getopts_modes)modes);
#endif
    getopts_delete(options);
}

int main(void) {
#ifdef _WIN32
    /* As text, it would end at a byte 0x1A. */
    _setmode(0, _O_BINARY);
#endif
    size_t len = fread(input, 1, sizeof input - 1, stdin);
    while (at < input + len)
        answer_case();
#ifdef REFUSES
    printf("%zu allocations failed\n", heap.runs);
    expect(heap.runs > 100 && heap.blocks == 0, "allocations failed, and nothing leaked");
#endif
    return 0;
}
