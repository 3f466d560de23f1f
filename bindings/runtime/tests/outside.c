/* Threads from outside, all at once: joins, loops, groups, schedulers nested in pools, random sleeps.
 *   outside [ROUNDS [THREADS]] */
#define _GNU_SOURCE
#include "lithe_rt.h"
#include "must.h"
#include <pthread.h>
#include <stdatomic.h>
#include <unistd.h>

static int rounds;

typedef struct fib {
    int n;
    long value;
} fib;

static void run_fib(void *arg) {
    fib *f = arg;
    if (f->n < 2) {
        f->value = f->n;
        return;
    }
    fib a = {f->n - 1, 0}, b = {f->n - 2, 0};
    lithe_join(run_fib, &a, run_fib, &b);
    f->value = a.value + b.value;
}

/* A scheduler of its own between two pools: turns of a counter, and guests that stay until all are done. */
typedef struct turns {
    lithe_sched as;
    _Atomic long next, done;
    long count;
    void (*body)(void *, long);
    void *arg;
} turns;

static void work(turns *t) {
    for (long i; (i = atomic_fetch_add(&t->next, 1)) < t->count;) {
        t->body(t->arg, i);
        if (atomic_fetch_add(&t->done, 1) + 1 == t->count) lithe_poke_all(&t->as);
    }
}

static int all_done(void *arg) {
    turns *t = arg;
    return atomic_load(&t->done) == t->count;
}

static void turns_enter(lithe_sched *self) {
    work((turns *)self);
    lithe_wait(self, all_done, self, 0);
}

static const lithe_ops turns_ops = {.enter = turns_enter, .name = "turns"};

static void run_turns(long count, void (*body)(void *, long), void *arg) {
    turns t = {.count = count, .body = body, .arg = arg};
    if (!lithe_begin()) {
        for (long i = 0; i < count; i++) body(arg, i);
        return;
    }
    lithe_settle();
    if (lithe_open(&t.as, &turns_ops)) {
        lithe_want(&t.as);
        work(&t);
        lithe_wait(&t.as, all_done, &t, 0);
        lithe_shut(&t.as);
    } else
        for (long i = 0; i < count; i++) body(arg, i);
    lithe_end_call();
}

static void inner(void *arg, long i) {
    fib f = {6 + (int)(i % 3), 0};
    run_fib(&f);
    atomic_fetch_add((_Atomic long *)arg, f.value);
}

static void middle(void *arg, long i) {
    if (i % 2)
        run_turns(4, inner, arg);
    else
        lithe_for(4, 1, inner, arg);
}

static void outer(void *arg) { lithe_for(6, 1, middle, arg); }

static void *outside(void *arg) {
    unsigned seed = (unsigned)(size_t)arg;
    for (int r = 0; r < rounds; r++) {
        _Atomic long sum = 0;
        lithe_join(outer, (void *)&sum, outer, (void *)&sum);
        MUST(sum == 12 * (8 + 13 + 21 + 8)); /* fib 6, 7, 8, 6 */
        sum = 0;
        run_turns(5, middle, (void *)&sum);
        MUST(sum == 5 * 50);
        if (rand_r(&seed) % 4 == 0) usleep(rand_r(&seed) % 300);
    }
    return NULL;
}

int main(int count, char **words) {
    rounds = count > 1 ? atoi(words[1]) : 20;
    int threads = count > 2 ? atoi(words[2]) : 16;
    pthread_t thread[64];
    for (int k = 0; k < 2; k++) {
        for (int i = 0; i < threads; i++) MUST(pthread_create(&thread[i], NULL, outside, (void *)(size_t)(i + 1)) == 0);
        for (int i = 0; i < threads; i++) pthread_join(thread[i], NULL);
    }
    MUST(lithe_count_of(LITHE_REFUSALS) == 0);
    printf("outside: 2 times %d threads, %d rounds, on %d harts\n", threads, rounds, lithe_count());
    return 0;
}
