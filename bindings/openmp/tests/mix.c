/* lithe_rt's schedulers and OpenMP regions, nested in all orders, from several outside threads. Arguments: rounds, threads. */
#include "lithe_rt.h"
#include <omp.h>
#include <stdatomic.h>
#include <pthread.h>
#include <stdio.h>
#include <stdlib.h>
#include <sys/wait.h>
#include <unistd.h>
static _Atomic int bad;
#define CHECK(c) do { if (!(c)) { bad++; printf("line %d: %s\n", __LINE__, #c); } } while (0)
typedef struct fib { int n; long v; } fib;
static void run_fib(void *arg) {
    fib *f = arg;
    if (f->n < 2) { f->v = f->n; return; }
    fib a = {f->n - 1, 0}, b = {f->n - 2, 0};
    lithe_join(run_fib, &a, run_fib, &b);
    f->v = a.v + b.v;
}
static void count_one(void *arg, long i) { atomic_fetch_add((_Atomic long *)arg, i); }
static long omp_sum(int want) {
    long sum = 0;
    if (want) {
        #pragma omp parallel for num_threads(want) reduction(+ : sum)
        for (int i = 0; i < 1000; i++) sum += i;
    } else {
        #pragma omp parallel for reduction(+ : sum)
        for (int i = 0; i < 1000; i++) sum += i;
    }
    return sum;
}
/* As OpenBLAS: asks, then depends on all members running at the same time. */
static int spin_team(void) {
    int n = omp_get_max_threads();
    if (n == 1 || omp_in_parallel()) return 1;
    _Atomic int here = 0;
    for (int k = 0; k < 3; k++) {
        here = 0;
        #pragma omp parallel
        {
            atomic_fetch_add(&here, 1);
            if (omp_get_thread_num() < n) while (atomic_load(&here) < n) __builtin_ia32_pause();
        }
        CHECK(here == n);
    }
    return n;
}
static void inner(void *arg, long i) {
    _Atomic long *sum = arg;
    switch (i % 5) {
    case 0: { fib f = {10, 0}; run_fib(&f); CHECK(f.v == 55); break; }
    case 1: CHECK(omp_sum(0) == 499500); break;
    case 2: spin_team(); break;
    case 3: { _Atomic long s = 0; lithe_for(50, 3, count_one, (void *)&s); CHECK(s == 1225); break; }
    case 4: CHECK(omp_sum(3) == 499500); spin_team(); break;
    }
    atomic_fetch_add(sum, 1);
}
static void outer(void *arg) {
    _Atomic long s = 0;
    lithe_for(10, 1, inner, (void *)&s);
    CHECK(s == 10);
    (void)arg;
}
static void *outside(void *arg) {
    for (int i = 0; i < (int)(long)arg; i++) {
        fib f = {12, 0};
        run_fib(&f);
        CHECK(f.v == 144);
        lithe_join(outer, 0, outer, 0);
        outer(0);
        CHECK(omp_sum(i % 7) == 499500);
        spin_team();
        if (i % 10 == 0) usleep(300);
    }
    return NULL;
}
int main(int count, char **words) {
    long rounds = count > 1 ? atol(words[1]) : 2;
    int outsiders = count > 2 ? atoi(words[2]) : 6;
    outside((void *)rounds);
    for (int k = 0; k < 3; k++) {
        pthread_t t[16];
        for (int i = 0; i < outsiders; i++) pthread_create(&t[i], NULL, outside, (void *)rounds);
        for (int i = 0; i < outsiders; i++) pthread_join(t[i], NULL);
    }
    omp_set_max_active_levels(4);
    for (int i = 0; i < rounds; i++) {
        #pragma omp parallel num_threads(3)
        {
            fib f = {8, 0};
            run_fib(&f);
            CHECK(f.v == 21);
            CHECK(omp_sum(0) == 499500);
            CHECK(omp_sum(2) == 499500);
        }
    }
#ifndef NO_FORK
    fflush(stdout);
    pid_t p = fork();
    if (p == 0) { outside((void *)3L); _exit(bad != 0); }
    int st = 0;
    waitpid(p, &st, 0);
    CHECK(st == 0);
#endif
    outside((void *)rounds);
    puts(bad ? "FAILED" : "ok");
    return bad != 0;
}
