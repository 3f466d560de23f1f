/* Prints each refused call: LOGGED(&me->at, lithe_yield(&me->at)) returns the call's status. */
#ifndef LOGGED_H
#define LOGGED_H
#include <stdio.h>

#include "lithe.h"

static inline lithe_status logged(const char *call, lithe_hart *hart, lithe_status status) {
    char text[80];
    if (status != LITHE_DONE) {
        lithe_status_text(status, text, sizeof text);
        fprintf(stderr, "site %u: %s: %s\n", (unsigned)lithe_owner(hart), call, text);
    }
    return status;
}
#define LOGGED(hart, call) logged(#call, (hart), (call))

#endif
