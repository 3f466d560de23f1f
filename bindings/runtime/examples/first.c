/* Two calls at once, each with a loop inside, all on one set of harts. */
#include "lithe_rt.h"
#include <stdio.h>

static void square(void *cells, long i) { ((double *)cells)[i] = (double)i * (double)i; }
static void left(void *cells) { lithe_for(500, 0, square, cells); }
static void right(void *cells) { lithe_for(500, 0, square, (double *)cells + 500); }

int main(void) {
    static double cells[1000];
    lithe_join(left, cells, right, cells);
    printf("%.0f %.0f\n", cells[499], cells[999]);
    return 0;
}
