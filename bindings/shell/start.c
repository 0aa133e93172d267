/* What the program needs from the system, for a static program: arguments, errors, signals and memory. Each function
 * does what Rattle's crates `os` and `libc` declare. No proof covers this file.
 *
 * It is linked with --wrap=main: the C library calls __wrap_main, and __real_main is the proved program's main. */
#define _DEFAULT_SOURCE
#include "start.h"

#include <errno.h>
#include <signal.h>
#include <string.h>
#include <sys/mman.h>

int __real_main(void);
int __wrap_main(int count, char **words);

static size_t given;
static char **given_words;

int __wrap_main(int count, char **words) {
    given = (size_t)count;
    given_words = words;
    return __real_main();
}

ssize_t rattle_arg(size_t nth, unsigned char *buffer, size_t len) {
    if (nth >= given)
        return -1;
    size_t whole = strlen(given_words[nth]);
    memcpy(buffer, given_words[nth], whole < len ? whole : len);
    return whole <= len ? (ssize_t)whole : -2;
}

int rattle_errno(void) {
    return errno;
}

void rattle_set_errno(int error) {
    errno = error;
}

/* Only glibc has this name. The program first ignores SIGPIPE, so that writing to a closed pipe fails. */
void (*__sysv_signal(int number, void (*handler)(int)))(int) {
    return signal(number, handler);
}

/* The heap: blocks lie one after the other in chunks from the system, and only the last one can be freed or grow in place.
 * With musl's malloc, a call would take a quarter longer. */
enum { CHUNK = 1 << 18 };

static unsigned char nothing, *last, *unused = &nothing, *end = &nothing;

static size_t rounded(size_t len) {
    return (len + 15) / 16 * 16;
}

struct block rattle_alloc(size_t size, size_t align) {
    size_t len = size != 0 ? size : align;
    if (len > (size_t)(end - unused)) {
        size_t chunk_len = len > CHUNK ? len : CHUNK;
        void *chunk = mmap(NULL, chunk_len, PROT_READ | PROT_WRITE, MAP_PRIVATE | MAP_ANONYMOUS, -1, 0);
        if (chunk == MAP_FAILED)
            return (struct block){ false, &nothing };
        unused = chunk;
        end = unused + rounded(chunk_len);
    }
    last = unused;
    unused += rounded(len);
    return (struct block){ true, last };
}

void rattle_dealloc(void *block) {
    if (block == last)
        unused = last;
}

struct block rattle_realloc(void *block, size_t kept, size_t size, size_t align) {
    if (size <= kept)
        return (struct block){ true, block };
    unsigned char *was = unused;
    rattle_dealloc(block);
    struct block moved = rattle_alloc(size, align);
    if (!moved.ok)
        unused = was;
    else if (moved.block != block)
        memcpy(moved.block, block, kept);
    return moved;
}
