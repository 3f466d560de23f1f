/* Counts: each hart counts for itself; other threads share one row. */
#include "rt.h"
#include <stdio.h>
#include <stdlib.h>

static _Atomic long others[LITHE_COUNTERS];

static const char *const names[LITHE_COUNTERS] = {
    "sites",    "lends",     "calls",      "leaves",     "wakes",   "sleeps",   "steals",
    "in place", "too deep",  "no memory",  "no thread",  "threads", "refusals",
};

void count(lithe_counter counter) {
    _Atomic long *at = me ? &me->counts[counter] : &others[counter];
    atomic_fetch_add_explicit(at, 1, memory_order_relaxed);
}

long lithe_count_of(lithe_counter counter) {
    if ((unsigned)counter >= LITHE_COUNTERS) return 0;
    long sum = atomic_load(&others[counter]);
    for (int h = 0; all.hart && h < all.harts; h++) sum += atomic_load(&all.hart[h].counts[counter]);
    return sum;
}

const char *lithe_counter_name(lithe_counter counter) {
    return (unsigned)counter < LITHE_COUNTERS ? names[counter] : "";
}

static void print_stats(void) {
    fprintf(stderr, "lithe: %d harts", all.harts);
    for (int k = 0; k < LITHE_COUNTERS; k++) fprintf(stderr, ", %s %ld", names[k], lithe_count_of(k));
    fprintf(stderr, "\n");
}

void start_stats(void) {
    const char *text = getenv("LITHE_STATS");
    if (text && atoi(text)) atexit(print_stats);
}
