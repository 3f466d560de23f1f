/* The runtime's own costs in ns: best and median of 41 tries. Run it with chrt -r 1 on a quiet machine. */
#define _GNU_SOURCE
#include "lithe_rt.h"
#include <stdio.h>
#include <stdlib.h>
#include <unistd.h>

enum { TRIES = 41 };

static void nothing(void *arg) { (void)arg; }
static void nothing_i(void *arg, long i) { (void)arg, (void)i; }

static int by_size(const void *a, const void *b) {
    double x = *(const double *)a, y = *(const double *)b;
    return x < y ? -1 : x > y;
}

static void measure(const char *name, int times, void (*what)(void)) {
    double each[TRIES];
    for (int t = 0; t < TRIES; t++) {
        int64_t start = lithe_now_ns();
        for (int k = 0; k < times; k++) what();
        each[t] = (double)(lithe_now_ns() - start) / times;
    }
    qsort(each, TRIES, sizeof *each, by_size);
    printf("%-50s %9.0f %9.0f\n", name, each[0], each[TRIES / 2]);
}

static void join(void) { lithe_join(nothing, NULL, nothing, NULL); }
static void loop_8(void) { lithe_for(8, 1, nothing_i, NULL); }
static void loop_1000(void) { lithe_for(1000, 1, nothing_i, NULL); }

static void in_pool(void *name) {
    char text[80];
    snprintf(text, sizeof text, "join of two empty calls in a pool, %s", (char *)name);
    measure(text, 1000, join);
    snprintf(text, sizeof text, "loop of 8 empty turns in a pool, %s", (char *)name);
    measure(text, 1000, loop_8);
    snprintf(text, sizeof text, "loop of 1,000 empty turns in a pool, %s", (char *)name);
    measure(text, 100, loop_1000);
}

static _Atomic int busy, stop;
static void spin(void *arg, long i) {
    if (i == 0) {
        while (busy < lithe_count() - 1) lithe_pause();
        in_pool(arg);
        stop = 1;
        return;
    }
    busy++;
    while (!stop) lithe_pause();
}

static _Atomic int64_t woken_at;
static void note_time(void *arg) {
    (void)arg;
    woken_at = lithe_now_ns();
}
static void wait_note(void *arg) {
    (void)arg;
    while (!woken_at) lithe_pause();
}

/* From a push to the first step of the task on a hart that slept. */
static void wakes(void) {
    double each[TRIES];
    for (int t = 0; t < TRIES; t++) {
        woken_at = 0;
        usleep(2000);
        int64_t start = lithe_now_ns();
        lithe_join(wait_note, NULL, note_time, NULL);
        each[t] = (double)(woken_at - start);
    }
    qsort(each, TRIES, sizeof *each, by_size);
    printf("%-50s %9.0f %9.0f\n", "a sleeping hart begins a task", each[0], each[TRIES / 2]);
}

int main(void) {
    printf("%-50s %9s %9s\n", "ns", "best", "median");
    measure("join of two empty calls, opens a pool", 1000, join);
    measure("loop of 8 empty turns, opens a pool", 1000, loop_8);
    lithe_join(in_pool, "other harts idle", nothing, NULL);
    lithe_for(lithe_count(), 1, spin, "no hart idle");
    if (lithe_count() > 1) wakes();
    return 0;
}
