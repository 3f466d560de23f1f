/* What the calls cost: `speed` prints nanoseconds of one thread, and of three threads at sites of their own. */
#define _POSIX_C_SOURCE 200809L
#include "lithe.h"
#include "must.h"
#include <pthread.h>
#include <stdatomic.h>
#include <time.h>

enum { THREADS = 3, MOST = 64, ROUNDS = 500000, TRIES = 8 };

static lithe_hart harts[THREADS];

static double now_ns(void) {
    struct timespec t;
    clock_gettime(CLOCK_THREAD_CPUTIME_ID, &t);
    return (double)t.tv_sec * 1e9 + (double)t.tv_nsec;
}

/* Nanoseconds of processor time for register, request, close, unregister: four changing steps, four loads more. */
static double cycle(lithe_hart *hart) {
    uint16_t site;
    double start = now_ns();
    for (int i = 0; i < ROUNDS; i++) {
        lithe_register(hart, &site);
        lithe_request(hart, 1);
        lithe_close(hart);
        lithe_unregister(hart);
    }
    return (now_ns() - start) / ROUNDS;
}

/* Nanoseconds of processor time for enter and yield: two changing steps, one load more. */
static double lend(lithe_hart *home, lithe_hart *guest) {
    uint16_t site;
    double spent = 0;
    for (int i = 0; i < ROUNDS / MOST; i++) {
        MUST(lithe_register(home, &site) == LITHE_DONE && lithe_request(home, MOST - 1) == LITHE_DONE);
        double start = now_ns();
        for (int k = 1; k < MOST; k++)
            if (lithe_enter(guest, site) != LITHE_DONE || lithe_yield(guest) != LITHE_DONE) MUST(0);
        spent += now_ns() - start;
        MUST(lithe_close(home) == LITHE_DONE && lithe_unregister(home) == LITHE_DONE);
    }
    return spent / (ROUNDS / MOST * (MOST - 1));
}

/* The same loads and changes as those of `cycle`, on a word of this program and with no test. */
static double bare(void) {
    _Alignas(64) _Atomic uint64_t word;
    uint64_t seen = 0;
    double start = now_ns();
    for (int i = 0; i < ROUNDS; i++) {
        atomic_store(&word, 1);
        seen += atomic_load(&word);
        atomic_fetch_add(&word, 256);
        seen += atomic_load(&word);
        atomic_fetch_add(&word, 2);
        seen += atomic_load(&word);
        seen += atomic_load(&word);
        seen += atomic_exchange(&word, 0);
    }
    double each = (now_ns() - start) / ROUNDS;
    MUST(seen != 0);
    return each;
}

static double least(double a, double b) { return a < b ? a : b; }

/* What one thread measured: the least of some tries each. */
typedef struct times {
    lithe_hart *hart;
    double cycle, bare;
} times;

static void *measure(void *arg) {
    times *best = arg;
    best->cycle = best->bare = 1e30;
    for (int t = 0; t < TRIES; t++) {
        best->cycle = least(best->cycle, cycle(best->hart));
        best->bare = least(best->bare, bare());
    }
    return NULL;
}

int main(void) {
    double visit = 1e30, worst = 0, worst_bare = 0;
    pthread_t threads[THREADS];
    lithe_hart many[MOST];
    times all[THREADS], one = {.hart = &harts[0]};
    MUST(lithe_make(many, MOST, 1) == LITHE_DONE);
    for (int t = 0; t < TRIES; t++) visit = least(visit, lend(&many[0], &many[1]));
    MUST(lithe_end(many, MOST) == LITHE_DONE);
    MUST(lithe_make(harts, THREADS, 2) == LITHE_DONE);
    measure(&one);
    for (int h = 0; h < THREADS; h++) {
        all[h].hart = &harts[h];
        MUST(pthread_create(&threads[h], NULL, measure, &all[h]) == 0);
    }
    for (int h = 0; h < THREADS; h++) {
        pthread_join(threads[h], NULL);
        if (all[h].cycle > worst) worst = all[h].cycle;
        if (all[h].bare > worst_bare) worst_bare = all[h].bare;
    }
    printf("register, request, close, unregister: %.1f ns, %.1f ns a changing step\n", one.cycle, one.cycle / 4);
    printf("the same loads and changes, bare: %.1f ns\n", one.bare);
    printf("enter, yield: %.1f ns, %.1f ns a changing step\n", visit, visit / 2);
    printf("three threads at own sites, the slowest: %.1f ns, %.2f of one; bare: %.1f ns, %.2f of one\n", worst,
           worst / one.cycle, worst_bare, worst_bare / one.bare);
    MUST(lithe_end(harts, THREADS) == LITHE_DONE);
    return 0;
}
