/* A test names its cases; a condition that isn't met ends the program with status 1. */
#ifndef MUST_H
#define MUST_H
#include <stdio.h>
#include <stdlib.h>

#define MUST(condition)                                                    \
    do {                                                                   \
        if (!(condition)) {                                                \
            printf("%s:%d: not so: %s\n", __FILE__, __LINE__, #condition); \
            fflush(stdout);                                                \
            _Exit(1);                                                      \
        }                                                                  \
    } while (0)
#endif
