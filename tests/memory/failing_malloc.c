/* Makes allocations fail. It is loaded before the C library, by LD_PRELOAD.
 *
 * It counts all allocations of the program; with FAIL_MARKS=1, only those between a request for BEFORE bytes and one
 * for AFTER bytes. The allocation with the number FAIL_AT fails; with FAIL_ON=1, all later ones fail too. When the
 * program ends, a line on standard error says how many allocations failed, how many of these would have made a long
 * block smaller, and how many marks there were. */
#include <malloc.h>
#include <stdbool.h>
#include <stdio.h>
#include <stdlib.h>
#include <unistd.h>

/* A short block may have some bytes more than were requested, and grow into them. */
enum { BEFORE = 7919, AFTER = 7927, LONG = 1024 };

static bool counting, marked, keeps_on;
static size_t at, requests, failed, kept, marks;

static size_t number_in(const char *name) {
    const char *text = getenv(name);
    return text != NULL ? strtoul(text, NULL, 10) : 0;
}

/* Earlier allocations aren't counted. */
__attribute__((constructor)) static void begin(void) {
    at = number_in("FAIL_AT");
    keeps_on = number_in("FAIL_ON") == 1;
    marked = number_in("FAIL_MARKS") == 1;
    counting = !marked;
}

static bool fails(size_t bytes) {
    if (marked && (bytes == BEFORE || bytes == AFTER)) {
        counting = bytes == BEFORE;
        marks++;
        return false;
    }
    requests += counting;
    bool now = counting && (requests == at || (keeps_on && at > 0 && requests > at));
    failed += now;
    return now;
}

void *__libc_malloc(size_t bytes);
void *__libc_realloc(void *place, size_t bytes);

void *malloc(size_t bytes) {
    return fails(bytes) ? NULL : __libc_malloc(bytes);
}

void *realloc(void *place, size_t bytes) {
    if (!fails(bytes))
        return __libc_realloc(place, bytes);
    kept += place != NULL && bytes > LONG && bytes <= malloc_usable_size(place);
    return NULL;
}

__attribute__((destructor)) static void end(void) {
    dprintf(STDERR_FILENO, "failed %zu kept %zu marks %zu\n", failed, kept, marks);
}
