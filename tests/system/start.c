/* Tests bindings/shell/start.c: its functions have to do what Rattle's crates `os` and `libc` declare. It is linked
 * with --wrap=main, like a program, and run with the arguments "" and "three". */
#define _DEFAULT_SOURCE
#include "../../bindings/shell/start.h"

#include <errno.h>
#include <signal.h>
#include <stdint.h>
#include <stdio.h>
#include <stdlib.h>
#include <string.h>
#include <unistd.h>

static int failed;

static void expect(bool holds, const char *what) {
    if (!holds && failed++ < 10)
        printf("FAILED: %s\n", what);
}

/* Reads arguments into buffers of various lengths, up to more than needed. */
static void words(void) {
    static const char *const given[] = { "", "three" };
    for (size_t nth = 0; nth < 2; nth++)
        for (size_t len = 0; len < 8; len++) {
            unsigned char buffer[9], wanted[9];
            size_t whole = strlen(given[nth]);
            memset(buffer, '.', sizeof buffer);
            memset(wanted, '.', sizeof wanted);
            memcpy(wanted, given[nth], whole < len ? whole : len);
            expect(rattle_arg(nth + 1, buffer, len) == (whole <= len ? (ssize_t)whole : -2), "the length of a word");
            expect(memcmp(buffer, wanted, sizeof buffer) == 0, "a word, or as much of it as fits");
        }
    unsigned char none = '.';
    expect(rattle_arg(3, &none, 1) == -1 && rattle_arg(SIZE_MAX, &none, 1) == -1 && none == '.', "no such word");
}

static void errors_and_signals(void) {
    int ends[2];
    rattle_set_errno(EBADF);
    expect(rattle_errno() == EBADF && errno == EBADF, "errno after it was set");
    expect(__sysv_signal(SIGPIPE, SIG_IGN) == SIG_DFL && __sysv_signal(SIGPIPE, SIG_IGN) == SIG_IGN, "the old handler");
    expect(pipe(ends) == 0 && close(ends[0]) == 0, "a pipe");
    expect(write(ends[1], "x", 1) == -1 && rattle_errno() == EPIPE, "a write to a pipe without a reader");
    close(ends[1]);
}

/* Allocated blocks, each with the byte that fills it. */
enum { BLOCKS = 200, STEPS = 20000 };

static struct {
    unsigned char *at, fill;
    size_t size;
} blocks[BLOCKS];

static size_t below(size_t limit) {
    static uint64_t state = 0x9e3779b97f4a7c15;
    state ^= state << 13;
    state ^= state >> 7;
    state ^= state << 17;
    return (size_t)(state >> 11) % limit;
}

static bool is_filled(const unsigned char *at, unsigned char fill, size_t size) {
    return size == 0 || (at[0] == fill && memcmp(at, at + 1, size - 1) == 0);
}

/* Allocates, grows, shrinks or frees one block; nothing else may change its bytes. */
static void step(void) {
    size_t nth = below(BLOCKS), size = below(100) > 0 ? below(below(20) > 0 ? 200 : 20000) : below(1000000);
    unsigned char *old = blocks[nth].at, fill = (unsigned char)below(256);
    expect(old == NULL || is_filled(old, blocks[nth].fill, blocks[nth].size), "the bytes of a block");
    if (old != NULL && below(2) == 0) {
        rattle_dealloc(old);
        blocks[nth].at = NULL;
        return;
    }
    size_t kept = old == NULL ? 0 : blocks[nth].size < size ? blocks[nth].size : size;
    struct block got = old == NULL ? rattle_alloc(size, 16) : rattle_realloc(old, kept, size, 16);
    expect(got.ok && (uintptr_t)got.block % 16 == 0, "a block");
    if (!got.ok)
        return;
    expect(is_filled(got.block, blocks[nth].fill, kept), "the kept bytes of a block");
    memset(got.block, fill, size);
    blocks[nth].at = got.block, blocks[nth].fill = fill, blocks[nth].size = size;
}

/* Allocations that are too large fail, and leave the block unchanged, also once more is allocated. */
static void too_much(void) {
    static const size_t sizes[] = { (size_t)1 << 47, ((size_t)1 << 62) - 16, (size_t)1 << 62, SIZE_MAX / 2, SIZE_MAX };
    for (size_t nth = 0; nth < sizeof sizes / sizeof *sizes; nth++) {
        struct block block = rattle_alloc(10, 1);
        memset(block.block, 'x', 10);
        struct block none = rattle_alloc(sizes[nth], 16), same = rattle_realloc(block.block, 10, sizes[nth], 16);
        expect(!none.ok && none.block != NULL && !same.ok && same.block != NULL, "more memory than there is");
        struct block other = rattle_alloc(10, 1);
        memset(other.block, 'y', 10);
        expect(is_filled(block.block, 'x', 10), "the block that couldn't grow");
    }
}

int main(void) {
    words();
    errors_and_signals();
    for (size_t nth = 0; nth < STEPS; nth++)
        step();
    too_much();
    struct block first = rattle_alloc(1000000, 1);
    rattle_dealloc(first.block);
    struct block second = rattle_alloc(1000000, 1);
    expect(first.ok && second.ok && first.block == second.block, "reusing a freed block");
    if (failed == 0)
        puts("as declared");
    return failed > 0;
}
