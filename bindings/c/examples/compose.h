/* The composition that each program of this folder computes: `rounds` times, 2 tasks of fork-join, each with a loop over
 * 4 indices, each with 4 tasks of fork-join. The leaf is `grain` steps of a
 * random number generator. */
#ifndef COMPOSE_H
#define COMPOSE_H
#ifndef _GNU_SOURCE
#define _POSIX_C_SOURCE 200809L
#endif
#include <stdint.h>
#include <stdio.h>
#include <stdlib.h>
#include <string.h>
#include <time.h>

enum { OUTER = 2, MIDDLE = 4, INNER = 4, LEAVES = OUTER * MIDDLE * INNER };

typedef struct leaves {
    struct {
        uint64_t value;
        char apart[56];
    } at[LEAVES];
    long grain;
} leaves;

static inline void leaf(leaves *all, int index) {
    uint64_t x = all->at[index].value;
    for (long i = 0; i < all->grain; i++) {
        x = x * 6364136223846793005u + 1442695040888963407u;
        x ^= x >> 29;
    }
    all->at[index].value = x;
}

static inline double now_ns(void) {
    struct timespec t;
    clock_gettime(CLOCK_MONOTONIC, &t);
    return (double)t.tv_sec * 1e9 + (double)t.tv_nsec;
}

/* The number of threads of this process. */
static inline int threads_now(void) {
    char line[128];
    int count = 0;
    FILE *file = fopen("/proc/self/status", "r");
    while (file && fgets(line, sizeof line, file))
        if (strncmp(line, "Threads:", 8) == 0) count = atoi(line + 8);
    if (file) fclose(file);
    return count;
}

/* What the leaves come to after `rounds` rounds, without any threads. */
static inline uint64_t expected(long rounds, long grain) {
    static leaves all;
    uint64_t sum = 0;
    memset(&all, 0, sizeof all);
    all.grain = grain;
    for (long r = 0; r < rounds; r++)
        for (int i = 0; i < LEAVES; i++) leaf(&all, i);
    for (int i = 0; i < LEAVES; i++) sum += all.at[i].value;
    return sum;
}

/* Runs `round` many times, and prints the best time of a round out of `tries` measurements. */
static inline int report(const char *name, void (*round)(void *), void *context, leaves *all, int tries, long rounds) {
    double best = 1e30;
    int threads = 0;
    for (int t = 0; t < tries; t++) {
        memset(all->at, 0, sizeof all->at);
        double start = now_ns();
        for (long r = 0; r < rounds; r++) round(context);
        double each = (now_ns() - start) / (double)rounds;
        if (each < best) best = each;
        if (threads_now() > threads) threads = threads_now();
        uint64_t sum = 0;
        for (int i = 0; i < LEAVES; i++) sum += all->at[i].value;
        if (sum != expected(rounds, all->grain)) {
            printf("%-28s wrong sum\n", name);
            return 1;
        }
    }
    printf("%-28s %10.2f us a round   %3d threads\n", name, best / 1000, threads);
    fflush(stdout);
    return 0;
}
#endif
