/* A logged call returns the call's status, and a refused one is printed to standard error. */
#include "logged.h"

int main(void) {
    lithe_hart hart[1];
    if (lithe_make(hart, 1, 1) != LITHE_DONE) return 1;
    if (LOGGED(&hart[0], lithe_yield(&hart[0])) != LITHE_NOT_GUEST) return 2;
    return (int)LOGGED(&hart[0], lithe_end(hart, 1));
}
