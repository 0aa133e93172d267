/* What the program needs from the system, as Rattle's crates `os` and `libc` declare it. */
#ifndef START_H
#define START_H

#include <stdbool.h>
#include <stddef.h>
#include <sys/types.h>

/* A block, or a failure; in both cases the pointer isn't null. */
struct block {
    bool ok;
    void *block;
};

/* Allocates size bytes; align bytes if size is 0. */
struct block rattle_alloc(size_t size, size_t align);

/* Resizes a block and keeps its first kept bytes. On failure the block is unchanged. */
struct block rattle_realloc(void *block, size_t kept, size_t size, size_t align);

/* Frees a block. */
void rattle_dealloc(void *block);

/* Copies an argument to the start of a buffer and returns its length; -1 if there is no such argument, and -2 if it
 * doesn't fit: then the buffer has as much of it as fits. */
ssize_t rattle_arg(size_t nth, unsigned char *buffer, size_t len);

int rattle_errno(void);
void rattle_set_errno(int error);
void (*__sysv_signal(int number, void (*handler)(int)))(int);

#endif
