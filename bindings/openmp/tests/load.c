/* Teams beside busy processes: those of a dynamic size, and those inside other work, become smaller, and come back. Others keep their
 * size. Sums are right, and a team has as many members as was promised. */
#define _GNU_SOURCE
#include "../../runtime/tests/busy.h"
#include "lithe_rt.h"
#include <omp.h>

enum { TURNS = 1000, SECONDS = 50 };

static int region(void) {
    long sum = 0;
    int size = 0;
#pragma omp parallel reduction(+ : sum)
    {
#pragma omp single
        size = omp_get_num_threads();
#pragma omp for
        for (long i = 0; i < TURNS; i++) sum += i;
    }
    MUST(sum == TURNS * (TURNS - 1L) / 2);
    return size;
}

/* Asks for the size, then depends on it, and on all members running at the same time. */
static int promised(void) {
    int n = omp_get_max_threads();
    _Atomic int here = 0;
#pragma omp parallel
    {
        here++;
        while (here < n) usleep(100);
    }
    MUST(here == n);
    return n;
}

static int inside_size, inside_promise;
static void body(void *arg, long i) {
    (void)arg;
    int size = i == 0 ? region() : promised();
    if (i == 0)
        inside_size = size;
    else
        inside_promise = size;
}

static int dynamic_size(void) {
    omp_set_dynamic(1);
    int size = region();
    omp_set_dynamic(0);
    return size;
}

static int size_inside(void) {
    lithe_for(2, 1, body, NULL);
    return inside_size > inside_promise ? inside_size : inside_promise;
}

/* Until the size is `wanted`: a single time shows it, for harts also come late. */
static int comes_to(int wanted, int (*size)(void), int seconds) {
    int64_t end = lithe_now_ns() + seconds * INT64_C(1000000000);
    for (; lithe_now_ns() < end; usleep(20000))
        if (size() == wanted) return 1;
    return 0;
}

static int is_back(void) { return comes_to(lithe_count(), lithe_processors, 5) && comes_to(lithe_count(), dynamic_size, 5); }

int main(void) {
    prepare_busy();
    start_busy();
    MUST(comes_to(1, lithe_processors, SECONDS));
    MUST(comes_to(1, dynamic_size, SECONDS));
    MUST(comes_to(1, size_inside, SECONDS));
    MUST(comes_to(lithe_count(), region, SECONDS));
    MUST(comes_to(lithe_count(), promised, SECONDS));
    end_busy();
    int back = is_back();
    for (int tries = 0; !back && !others_are_busy(); tries++) {
        MUST(tries < 10);
        back = is_back();
    }
    if (back) printf("load: teams of 1 beside busy processes, and back to %d\n", lithe_count());
    return 0;
}
