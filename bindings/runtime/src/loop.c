/* Loops over ranges, and reductions. */
#include "pool.h"
#include <stdlib.h>
#include <string.h>

/* Harts claim chunks by one counter. The tasks of a loop are helpers, which claim as long as there are chunks; each helper
 * that starts pushes the next one, so a loop that no hart helps pushes one task. */
typedef struct loop {
    unsigned long chunks;
    long n, chunk;
    void (*body)(void *, long, long);
    void *arg;
    pool *p;
    lithe_group helpers;
    _Atomic int pushed;
    _Alignas(64) _Atomic unsigned long next;
    lithe_task tasks[LITHE_MAX_HARTS];
} loop;

typedef struct span {
    loop *of;
    long from, to;
} span;

static void run_span(void *arg) {
    span *s = arg;
    s->of->body(s->of->arg, s->from, s->to);
}

static void claim(loop *l) {
    for (;;) {
        unsigned long c = atomic_fetch_add(&l->next, 1);
        if (c >= l->chunks) return;
        long from = (long)c * l->chunk;
        span s = {l, from, l->n - from < l->chunk ? l->n : from + l->chunk};
        call_user(run_span, &s);
    }
}

static void help(void *arg);

/* Pushes the next helper, if there is work for it. */
static void enlist(loop *l) {
    if (atomic_load(&l->next) + 1 >= l->chunks) return;
    int k = atomic_fetch_add(&l->pushed, 1);
    if (k >= all.harts - 1) return;
    lithe_task *t = &l->tasks[k];
    *t = (lithe_task){.run = help, .arg = l, .group = &l->helpers, .owner = me->number};
    atomic_fetch_add(state_of(&l->helpers), 1);
    if (push(own_deque(l->p), t))
        offer(l->p);
    else
        atomic_fetch_sub(state_of(&l->helpers), 1);
}

static void help(void *arg) {
    enlist(arg);
    claim(arg);
}

/* The helpers use the loop's memory. Those that no hart has begun find no chunk. */
static void wait_for_helpers(loop *l) {
    atomic_store(&l->next, l->chunks);
    if (tasks_left(&l->helpers) == 0) return;
    uint64_t waiter = (uint64_t)(me->number + 1) << COUNT_BITS;
    atomic_fetch_or(state_of(&l->helpers), waiter);
    work_until((goal){.of = l->p, .group = &l->helpers});
}

static void in_place(long n, long chunk, void (*body)(void *, long, long), void *arg) {
    count(LITHE_IN_PLACE);
    for (long from = 0; from < n; from = n - from < chunk ? n : from + chunk) body(arg, from, n - from < chunk ? n : from + chunk);
}

static void loop_in(pool *p, long n, long chunk, void (*body)(void *, long, long), void *arg) {
    ENDS_BY(wait_for_helpers) loop l;
    l.n = n;
    l.chunk = chunk;
    l.chunks = (unsigned long)(n / chunk) + (n % chunk > 0);
    l.body = body;
    l.arg = arg;
    l.p = p;
    lithe_group_init(&l.helpers);
    atomic_init(&l.pushed, 0);
    atomic_init(&l.next, 0);
    enlist(&l);
    claim(&l);
}

/* Why eight chunks for each hart: so that the last chunk is a small part of the whole. */
static long choose_chunk(long n, long chunk) {
    if (chunk > 0) return chunk;
    chunk = n / (8L * lithe_count());
    return chunk < 1 ? 1 : chunk;
}

static void loop_outside(long n, long chunk, void (*body)(void *, long, long), void *arg) {
    ENDS_BY(close_region) region r = {0};
    if (open_region(&r)) {
        loop_in(r.p, n, chunk, body, arg);
    } else {
        r.p = NULL;
        in_place(n, chunk, body, arg);
    }
}

void lithe_for_ranges(long n, long chunk, void (*body)(void *, long, long), void *arg) {
    if (n <= 0) return;
    pool *p = current_pool();
    chunk = choose_chunk(n, chunk);
    if (p)
        loop_in(p, n, chunk, body, arg);
    else
        loop_outside(n, chunk, body, arg);
}

typedef struct each {
    void (*body)(void *, long);
    void *arg;
} each;

static void run_each(void *arg, long from, long to) {
    each e = *(each *)arg;
    for (long i = from; i < to; i++) e.body(e.arg, i);
}

void lithe_for(long n, long chunk, void (*body)(void *, long), void *arg) {
    each e = {body, arg};
    lithe_for_ranges(n, chunk, run_each, &e);
}
