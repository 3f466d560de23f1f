/* Errors that end the program, as libgomp's do: a message on standard error, and exit status 1. */
#include "gomp.h"
#include <stdarg.h>
#include <stdio.h>
#include <stdlib.h>
#include <string.h>
#include <unistd.h>

void fatal(const char *format, ...) {
    va_list words;
    fputs("\nlibgomp (lithe): ", stderr);
    va_start(words, format);
    vfprintf(stderr, format, words);
    va_end(words);
    fputc('\n', stderr);
    exit(EXIT_FAILURE);
}

/* Why the child ends: its parent's region waits for harts that the child doesn't have. */
void child_returned(void) {
    static const char text[] = "lithe: a child forked inside a region returned into it; it must call exec or _exit\n";
    if (write(2, text, sizeof text - 1) < 0) _exit(70);
    _exit(70);
}

void *zeroed(size_t size) {
    void *block = calloc(1, size ? size : 1);
    if (!block) fatal("Out of memory allocating %zu bytes", size);
    return block;
}

void *on_lines(size_t size) {
    void *block = aligned_alloc(64, (size + 63) / 64 * 64);
    if (!block) fatal("Out of memory allocating %zu bytes", size);
    return memset(block, 0, size);
}
