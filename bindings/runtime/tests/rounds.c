/* Many rounds of open and shut with random sleeps, so that harts are called, taken back, and sleep, at all times.
 *   rounds [ROUNDS] */
#define _GNU_SOURCE
#include "lithe_rt.h"
#include "must.h"
#include <stdatomic.h>
#include <time.h>
#include <unistd.h>

static unsigned seed = 1;

static void spend(long ns) {
    int64_t end = lithe_now_ns() + ns;
    while (lithe_now_ns() < end) lithe_pause();
}

static void body(void *arg, long i) {
    atomic_fetch_add((_Atomic long *)arg, i);
    if (i % 3 == 0) spend(500);
}

static void nap(void) {
    int what = rand_r(&seed) % 64;
    if (what == 0) usleep((unsigned)rand_r(&seed) % 200);
    if (what < 8) spend(rand_r(&seed) % 20000);
}

static void inside(void *arg) {
    nap();
    lithe_for(5, 1, body, arg);
}

int main(int count, char **words) {
    long rounds = count > 1 ? atol(words[1]) : 10000;
    for (long r = 0; r < rounds; r++) {
        _Atomic long sum = 0;
        lithe_for(1 + r % 9, 1, body, (void *)&sum);
        MUST(sum == (1 + r % 9) * (r % 9) / 2);
        nap();
        sum = 0;
        lithe_join(inside, (void *)&sum, inside, (void *)&sum);
        MUST(sum == 20);
    }
    MUST(lithe_count_of(LITHE_REFUSALS) == 0);
    printf("rounds: %ld times open and shut on %d harts, %ld harts lent, %ld sleeps\n", 2 * rounds, lithe_count(),
           lithe_count_of(LITHE_LENDS), lithe_count_of(LITHE_SLEEPS));
    return 0;
}
