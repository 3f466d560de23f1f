/* An idle process uses at most 1 % of a processor: after a region, and in a region whose home sleeps. */
#define _GNU_SOURCE
#include "lithe_rt.h"
#include "must.h"
#include <stdatomic.h>
#include <sys/resource.h>
#include <unistd.h>

static double used(void) {
    struct rusage r;
    getrusage(RUSAGE_SELF, &r);
    return (double)(r.ru_utime.tv_sec + r.ru_stime.tv_sec) + (double)(r.ru_utime.tv_usec + r.ru_stime.tv_usec) * 1e-6;
}

static void rest(void *name) {
    usleep(100000);
    double before = used();
    int64_t start = lithe_now_ns();
    usleep(800000);
    double part = (used() - before) / ((double)(lithe_now_ns() - start) * 1e-9);
    printf("idle: %s: %.2f %% of a processor\n", (char *)name, part * 100);
    MUST(part <= 0.01);
}

static void spin(void *arg, long i) {
    (void)arg, (void)i;
    int64_t end = lithe_now_ns() + 300000;
    while (lithe_now_ns() < end) lithe_pause();
}

static void nothing(void *arg) { (void)arg; }

static void busy_then_rest(void *arg) {
    lithe_for(64, 1, spin, NULL); /* the harts come */
    rest(arg);
}

int main(void) {
    lithe_for(64, 1, spin, NULL);
    MUST(lithe_count() == 1 || lithe_count_of(LITHE_LENDS) > 0);
    rest("after a region");
    lithe_join(busy_then_rest, "in a region", nothing, NULL);
    return 0;
}
