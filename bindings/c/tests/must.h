/* Tests end at the first condition that isn't met. */
#ifndef MUST_H
#define MUST_H
#include <stdio.h>
#include <stdlib.h>

#define MUST(condition)                                                         \
    do {                                                                        \
        if (!(condition)) {                                                     \
            printf("%s:%d: not so: %s\n", __FILE__, __LINE__, #condition);      \
            exit(1);                                                            \
        }                                                                       \
    } while (0)
#endif
