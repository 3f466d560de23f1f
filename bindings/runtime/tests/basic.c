/* Joins, loops, reductions, groups and the mutex, alone and nested. Expected values: sums and Fibonacci numbers.
 *   basic [ROUNDS] */
#include "lithe_rt.h"
#include "must.h"
#include <stdatomic.h>

typedef struct fib {
    int n;
    long value;
} fib;

static void run_fib(void *arg) {
    fib *f = arg;
    if (f->n < 2) {
        f->value = f->n;
        return;
    }
    fib a = {f->n - 1, 0}, b = {f->n - 2, 0};
    lithe_join(run_fib, &a, run_fib, &b);
    f->value = a.value + b.value;
}

static void joins(void) {
    static const long fibs[] = {0, 1, 1, 2, 3, 5, 8, 13, 21, 34, 55, 89, 144, 233, 377, 610};
    for (int n = 0; n < 16; n++) {
        fib f = {n, -1};
        run_fib(&f);
        MUST(f.value == fibs[n]);
    }
}

enum { SIZE = 10007 };
static _Atomic int hits[SIZE];

static void hit(void *arg, long i) {
    (void)arg;
    atomic_fetch_add(&hits[i], 1);
}

static void hit_range(void *arg, long from, long to) {
    for (long i = from; i < to; i++) hit(arg, i);
}

static void loops(void) {
    static const long chunks[] = {0, 1, 2, 7, 1000, SIZE, SIZE + 1, 1L << 62};
    for (int c = 0; c < 8; c++) {
        for (int n = 0; n <= SIZE; n = n < 3 ? n + 1 : n * 10 > SIZE && n < SIZE ? SIZE : n * 10) {
            for (int i = 0; i < SIZE; i++) hits[i] = 0;
            lithe_for(n, chunks[c], hit, NULL);
            lithe_for_ranges(n, chunks[c], hit_range, NULL);
            for (int i = 0; i < SIZE; i++) MUST(hits[i] == (i < n ? 2 : 0));
        }
    }
    lithe_for(-1, 1, hit, NULL);
}

typedef struct wide {
    long sum, first, last, bytes[200]; /* above the limit for parts on the stack */
} wide;

static void add_wide(void *arg, long from, long to, void *part) {
    wide *w = part;
    (void)arg;
    if (w->first < 0) w->first = from;
    MUST(w->last < 0 || w->last == from);
    w->last = to;
    for (long i = from; i < to; i++) w->sum += i;
}

static void join_wide(void *arg, void *into, const void *part) {
    wide *w = into;
    const wide *p = part;
    (void)arg;
    MUST(w->last == p->first);
    w->last = p->last;
    w->sum += p->sum;
}

static void add(void *arg, long from, long to, void *part) {
    (void)arg;
    for (long i = from; i < to; i++) *(long *)part += i;
}

static void join_sums(void *arg, void *into, const void *part) {
    (void)arg;
    *(long *)into += *(const long *)part;
}

static void add_parts(void *arg, long from, long to, void *part) {
    (void)arg;
    for (long i = from; i < to; i++) *(double *)part += 1.0 / (double)(i + 1);
}

static void join_parts(void *arg, void *into, const void *part) {
    (void)arg;
    *(double *)into += *(const double *)part;
}

static void reductions(void) {
    for (long n = 0; n < 3000; n = n * 2 + 1) {
        for (long chunk = 0; chunk < 40; chunk += 13) {
            long sum = 0;
            wide w = {.first = -1, .last = -1};
            lithe_reduce(n, chunk, sizeof sum, &sum, add, join_sums, NULL);
            lithe_reduce(n, chunk, sizeof w, &w, add_wide, join_wide, NULL);
            MUST(sum == n * (n - 1) / 2 && w.sum == sum);
            MUST(n == 0 || (w.first == 0 && w.last == n));
        }
    }
    double harmonic = 0;
    lithe_reduce(100000, 100, sizeof harmonic, &harmonic, add_parts, join_parts, NULL);
    /* The 100,000th harmonic number is 12.0901461298634... The script compares the bits between numbers of harts. */
    MUST(harmonic > 12.09014612986 && harmonic < 12.09014612987);
    static int is_printed;
    if (!is_printed++) printf("harmonic %a\n", harmonic);
}

static _Atomic long total;
static void count_one(void *arg) { atomic_fetch_add(&total, (long)(size_t)arg); }

typedef struct node {
    int depth;
    lithe_group *group;
} node;

static void grow(void *arg) {
    node *at = arg;
    atomic_fetch_add(&total, 1);
    if (at->depth == 0) return;
    lithe_group group;
    lithe_task tasks[3];
    node below[3];
    lithe_group_init(&group);
    for (int i = 0; i < 3; i++) {
        below[i] = (node){at->depth - 1, NULL};
        lithe_spawn(&group, &tasks[i], grow, &below[i]);
    }
    lithe_group_wait(&group);
}

static void groups(void) {
    lithe_group group, other;
    static lithe_task tasks[1000], more[10];
    lithe_group_init(&group);
    lithe_group_wait(&group);
    for (int round = 0; round < 2; round++) {
        total = 0;
        for (int i = 0; i < 1000; i++) lithe_spawn(&group, &tasks[i], count_one, (void *)(size_t)i);
        lithe_group_wait(&group);
        MUST(total == 999 * 1000 / 2);
    }
    total = 0;
    node root = {5, NULL};
    grow(&root);
    MUST(total == (729 - 1) / 2); /* 1 + 3 + ... + 3^5 */
    /* Two groups that end in the order in which they began. */
    total = 0;
    lithe_group_init(&other);
    for (int i = 0; i < 10; i++) {
        lithe_spawn(&group, &tasks[i], count_one, (void *)1);
        lithe_spawn(&other, &more[i], count_one, (void *)1);
    }
    lithe_group_wait(&group);
    lithe_group_wait(&other);
    MUST(total == 20 && lithe_number() == -1);
}

/* A join in a loop in a join ..., `level` levels deep. */
static void nest(void *arg);
static void nest_i(void *arg, long i) {
    (void)i;
    nest(arg);
}
static void nest(void *arg) {
    int level = (int)(size_t)arg;
    if (level == 0) {
        atomic_fetch_add(&total, 1);
        return;
    }
    void *below = (void *)(size_t)(level - 1);
    if (level % 2)
        lithe_join(nest, below, nest, below);
    else
        lithe_for(3, 1, nest_i, below);
}

static void nests(void) {
    total = 0;
    nest((void *)8);
    MUST(total == 1296); /* 2^4 * 3^4 */
}

static lithe_mutex mutex = LITHE_MUTEX_INIT;
static long plain;
static void locked(void *arg, long i) {
    (void)arg;
    lithe_mutex_lock(&mutex);
    plain += i;
    lithe_mutex_unlock(&mutex);
}

static void mutexes(void) {
    plain = 0;
    lithe_for(2000, 1, locked, NULL);
    MUST(plain == 1999 * 1000);
    MUST(lithe_mutex_try_lock(&mutex) && !lithe_mutex_try_lock(&mutex));
    lithe_mutex_unlock(&mutex);
}

int main(int count, char **words) {
    int rounds = count > 1 ? atoi(words[1]) : 10;
    for (int i = 0; i < rounds; i++) {
        joins();
        loops();
        reductions();
        groups();
        nests();
        mutexes();
    }
    MUST(lithe_count_of(LITHE_REFUSALS) == 0 && lithe_number() == -1);
    printf("basic: %d rounds on %d harts\n", rounds, lithe_count());
    return 0;
}
