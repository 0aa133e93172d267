/* Wraps calls of the C library, by LD_PRELOAD.
 *
 * WRITE_MOST=N: a write accepts at most N bytes. WRITE_AT=N: the Nth write fails with the error WRITE_ERROR; if that
 * is 0, it returns 0 bytes instead. NO_WORDS=1: the program gets no arguments, not even its name. */
#define _GNU_SOURCE
#include <dlfcn.h>
#include <errno.h>
#include <stdlib.h>
#include <unistd.h>

typedef int main_of(int count, char **words, char **environment);
typedef int start_of(main_of *, int, char **, void (*)(void), void (*)(void), void (*)(void), void *);

ssize_t __write(int file, const void *bytes, size_t count);
start_of __libc_start_main;

static size_t number_in(const char *name, size_t otherwise) {
    const char *text = getenv(name);
    return text != NULL ? strtoul(text, NULL, 10) : otherwise;
}

ssize_t write(int file, const void *bytes, size_t count) {
    static size_t writes;
    size_t most = number_in("WRITE_MOST", count);
    if (++writes == number_in("WRITE_AT", 0)) {
        errno = (int)number_in("WRITE_ERROR", 0);
        return errno != 0 ? -1 : 0;
    }
    return __write(file, bytes, count < most ? count : most);
}

int __libc_start_main(main_of *main, int count, char **words, void (*first)(void), void (*last)(void),
                      void (*loader)(void), void *stack) {
    start_of *start = (start_of *)dlsym(RTLD_NEXT, "__libc_start_main");
    environ = words + count + 1;
    /* The environment follows the NULL at the end of the arguments. */
    int left_out = number_in("NO_WORDS", 0) > 0 ? count : 0;
    return start(main, count - left_out, words + left_out, first, last, loader, stack);
}
