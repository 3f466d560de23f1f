// The header from C++.
#include "lithe.h"

int main() {
    lithe_hart hart;
    uint16_t site = 0;
    if (lithe_make(&hart, 1, 1) != LITHE_DONE || lithe_register(&hart, &site) != LITHE_DONE) return 1;
    if (lithe_close(&hart) != LITHE_DONE || lithe_unregister(&hart) != LITHE_DONE) return 1;
    return lithe_end(&hart, 1) == LITHE_DONE ? 0 : 1;
}
