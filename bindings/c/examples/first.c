/* The life of a site. Here one thread makes the calls of both harts. */
#include "lithe.h"

int main(void) {
    lithe_hart harts[2];
    uint16_t site;
    if (lithe_make(harts, 2, 1) != LITHE_DONE) return 1; /* two harts, one level */
    lithe_register(&harts[0], &site);                    /* hart 0 is the home of site 1 */
    lithe_request(&harts[0], 1);
    lithe_enter(&harts[1], site); /* hart 1 is its guest */
    lithe_close(&harts[0]);
    lithe_yield(&harts[1]);
    lithe_unregister(&harts[0]);
    return (int)lithe_end(harts, 2);
}
