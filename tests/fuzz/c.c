/* Calls all functions of getopts.h with valid and invalid tables, and with NULL where it is allowed, under
 * AddressSanitizer and UndefinedBehaviorSanitizer. What they answer, and how they behave if an allocation fails, is
 * tested by bindings/c/tests/answers.c; here, answers only have to agree with each other. */
#include <getopts.h>
#include <stdint.h>
#include <stdio.h>
#include <stdlib.h>
#include <string.h>

#define CHECK(holds) ((holds) ? (void)0 : report(#holds, __LINE__))

/* Never called: without link-time optimization, parts of Rust's core refer to it. */
void rust_eh_personality(void);
void rust_eh_personality(void) { abort(); }

static void report(const char *what, int line) {
    fprintf(stderr, "FAILED c.c:%d: %s\n", line, what);
    abort();
}

/* The input: fields that end with 0xFE. Each is copied into a block of its size, so that the sanitizer reports reads
 * past its end. */
static const uint8_t *input, *end;
static char *owned[600];
static size_t owned_len;

static unsigned byte(void) { return input < end ? *input++ : 0; }

static char *exact(const void *bytes, size_t len) {
    char *text = malloc(len + 1);
    memcpy(text, bytes, len);
    text[len] = 0;
    return owned[owned_len++] = text;
}

/* A field; NULL if it begins with 0xFF. Bytes from 0xC0 to 0xDF stand for names of the table. */
static char *field(const struct getopts_option *table, size_t rows) {
    static char text[5000];
    size_t len = 0;
    bool null = input < end && *input == 0xFF;
    for (; input < end && *input != 0xFE; input++) {
        const char *name = NULL;
        if (table != NULL && (*input & 0xE0) == 0xC0 && (*input & 15u) < rows)
            name = *input & 16 ? table[*input & 15].long_name : table[*input & 15].short_name;
        if (name != NULL && len + strlen(name) < sizeof text - 2) {
            memcpy(text + len, name, strlen(name));
            len += strlen(name);
        } else if (*input != 0 && len < sizeof text - 2) {
            text[len++] = (char)*input;
        }
    }
    if (input < end)
        input++;
    return null ? NULL : exact(text, len);
}

/* Reads all strings of a list, so that the sanitizer checks them. */
size_t looked_at;
static void look_at(const void *list, size_t count) {
    const char *const *texts = list;
    for (size_t nth = 0; nth < count; nth++)
        if (texts[nth] != NULL)
            looked_at += strlen(texts[nth]);
    CHECK(texts[count] == NULL);
}

/* Asks for the occurrences of an option. */
static void ask_for(const struct getopts *options, const char *name) {
    size_t count = getopts_count(options, name);
    const char *value = NULL;
    long number;
    for (size_t nth = 0; nth < count; nth++) {
        value = getopts_value(options, name, nth);
        looked_at += value != NULL ? strlen(value) : 0;
        CHECK(getopts_position(options, name, nth) >= 0);
        CHECK(getopts_long_value(options, name, nth, &number) == getopts_long_value(options, name, nth, NULL));
    }
    CHECK(getopts_value(options, name, count) == NULL && getopts_position(options, name, count) == -1);
    CHECK(getopts_value(options, name, GETOPTS_LAST - 1) == NULL && getopts_long_value(options, name, count, &number));
    CHECK(getopts_value(options, name, GETOPTS_LAST) == value);
    CHECK(count == 0 || getopts_defined(options, name));
}

/* Makes all queries. */
static void ask(const struct getopts *options, const struct getopts_option *table, size_t rows, const char *other) {
    CHECK(strstr(getopts_message(options), getopts_message_name(options)) != NULL);
    int free_count = getopts_free_count(options);
    char *const *free_words = getopts_free_words(options);
    look_at(free_words, (size_t)free_count);
    CHECK(getopts_trailing_start(options) <= free_count);
    for (size_t nth = 0; nth < rows; nth++) {
        ask_for(options, table[nth].short_name);
        ask_for(options, table[nth].long_name);
    }
    ask_for(options, other);
    ask_for(options, NULL);
}

/* Reads words in a loop, from names that may be any text, and goes on after words that can't be read. */
static void loop(struct getopts *options, size_t rows, struct getopts_unread unread) {
    const char *value = "";
    for (int row;;) {
        struct getopts_unread before = unread, again = unread;
        row = getopts_next(options, &unread, &value);
        looked_at += (value != NULL ? strlen(value) : 0) + (unread.names != NULL ? strlen(unread.names) : 0);
        CHECK(getopts_next(options, &again, NULL) == row && again.words == unread.words && again.names == unread.names
              && again.free_words == unread.free_words);
        CHECK((*getopts_message(options) == 0) == (getopts_status(options) == GETOPTS_OK));
        CHECK(unread.count <= before.count && before.count - unread.count == unread.words - before.words);
        CHECK(row == -1 ? value == NULL : row == GETOPTS_FREE_WORD ? value != NULL : (size_t)row < rows);
        /* Options that are left in a cluster come first, whatever free_words is. */
        if (before.names != NULL && *before.names != 0)
            CHECK(row != GETOPTS_FREE_WORD && unread.free_words == before.free_words);
        else if (before.free_words != NULL)
            CHECK(row == (before.count > 0 ? GETOPTS_FREE_WORD : -1) || getopts_status(options) == GETOPTS_BAD);
        if (row == GETOPTS_FREE_WORD)
            CHECK(unread.words[-1] == value && (unread.free_words == NULL || unread.free_words == unread.words - 1));
        if (row != -1)
            continue;
        CHECK(getopts_status(options) == GETOPTS_OK
              ? unread.count <= 0 && unread.names == NULL && unread.free_words == unread.words
              : unread.count == before.count && unread.names == before.names && unread.free_words == before.free_words);
        if (unread.names != NULL)
            unread.names = NULL;
        else if (unread.count > 0)
            unread.words++, unread.count--;
        else
            return;
    }
}

int LLVMFuzzerTestOneInput(const uint8_t *bytes, size_t len);
int LLVMFuzzerTestOneInput(const uint8_t *bytes, size_t len) {
    input = bytes;
    end = bytes + len;
    owned_len = 0;
    unsigned head = byte(), modes = (head & 15) << 4, more = byte(), columns = byte();
    if (head >= 0xF8)
        modes = byte() << 8 | more;
    bool wrong_modes = (modes & ~0xF0u) != 0;
    size_t rows = byte() % 16;
    /* The last row ends the table: its other fields stay uninitialized. */
    struct getopts_option *table = malloc((rows + 1) * sizeof *table);
    for (size_t row = 0; row < rows; row++) {
        unsigned kind = byte();
        table[row].kind = (enum getopts_kind)(kind < 0xF0 ? kind % 3 + 4 * (kind / 3 % 4) : kind * 0x01010101u);
        table[row].short_name = field(table, row);
        table[row].long_name = field(table, row);
        table[row].hint = field(table, row);
        table[row].description = field(table, row);
        /* Most rows are valid: otherwise, few command lines would be read. */
        if (kind < 0xE0) {
            char *name = (char *)(uintptr_t)table[row].short_name, *text = (char *)(uintptr_t)table[row].long_name;
            if (name != NULL && *name != 0)
                name[0] = (char)('a' + row), name[1] = 0;
            if (text != NULL && strlen(text) == 1)
                text[0] = 0;
            if ((name == NULL || *name == 0) && (text == NULL || *text == 0))
                table[row].short_name = exact((char[]){ (char)('a' + row) }, 1);
            if (table[row].kind % 4 == 0)
                table[row].hint = NULL;
        }
        if (table[row].short_name == NULL && table[row].long_name == NULL)
            table[row].short_name = exact("", 0);
    }
    table[rows].short_name = table[rows].long_name = NULL;
    const char *brief = field(NULL, 0), *other = field(table, rows);
    static char *given[63];
    int count = 0;
    while (input < end && count < 63)
        given[count++] = field(table, rows);
    char **words = malloc((size_t)count * sizeof *words), **line = words;
    memcpy(words, given, (size_t)count * sizeof *words);

    /* With GETOPTS_STRICT, a name that isn't declared would end the program. */
    struct getopts *options = getopts_new(table, (enum getopts_modes)(modes & ~(unsigned)GETOPTS_STRICT));
    bool bad = *getopts_message(options) != 0;
    CHECK(bad || !wrong_modes);
    ask(options, table, rows, other);

    /* Help texts. */
    char *texts[] = { getopts_usage(options, "Usage: x"), getopts_short_usage(options, brief),
                      getopts_usage_in(options, brief, columns < 250 ? columns : SIZE_MAX - columns), NULL };
    CHECK((texts[0] == NULL) == bad);
    CHECK((texts[1] == NULL) == (texts[2] == NULL));
    look_at(texts, 3);
    for (int nth = 0; nth < 3; nth++)
        getopts_free(texts[nth]);

    /* Read the words without the last, then all words, then the free words among these. */
    getopts_read(options, count - 1, words);
    ask(options, table, rows, other);
    int status = getopts_read(options, count, words);
    CHECK(status == GETOPTS_BAD || (*getopts_message(options) == 0) == (status == GETOPTS_OK));
    ask(options, table, rows, other);
    CHECK(getopts_canonical(options, count, words, NULL) == status);
    CHECK(getopts_canonical(options, count, words, &line) == status);
    CHECK(line == NULL || status == GETOPTS_OK);
    for (char **word = line; word != NULL && *word != NULL; word++)
        looked_at += strlen(*word);
    getopts_free(line);
    getopts_read(options, getopts_free_count(options), getopts_free_words(options));
    ask(options, table, rows, other);
    loop(options, rows, (struct getopts_unread){ count, words, head & 16 ? other : NULL, head & 32 ? words : NULL });
    ask(options, table, rows, other);
    getopts_delete(options);
    while (owned_len > 0)
        free(owned[--owned_len]);
    free(words);
    free(table);
    return 0;
}
