/* Parallel regions. */
#include "gomp.h"
#include <stdlib.h>
#include <string.h>

_Atomic long regions, shortfalls;

/* --- sizes ---------------------------------------------------------------------------------------------------------- */

/* omp_set_num_threads, or more members than harts by OMP_NUM_THREADS for an outermost region. */
bool is_asked_for(const context *c) {
    if (c->dynamic) return false;
    return c->is_chosen || (is_outside(c) && set.is_given && c->nthreads > set.procs);
}

int size_under_load(int n) {
    int processors = lithe_processors(), harts = lithe_count();
    if (processors == harts) return n;
    int others = lithe_number() < 0 ? 0 : harts - 1 - lithe_callable(lithe_current(), 1);
    int size = processors > others ? processors - others : 1;
    return size < n ? size : n;
}

/* `is_exact`: what the program was promised or asked for. Otherwise the team has the harts that come. */
int team_size(context *c, unsigned wanted, bool *is_exact) {
    *is_exact = true;
    if (wanted == 1 || c->of->active_level >= c->max_active) return 1;
    if (wanted == 0 && c->promise) return c->promise;
    int n = wanted == 0 ? c->nthreads : wanted > NO_LIMIT ? NO_LIMIT : (int)wanted;
    *is_exact = wanted == 0 ? is_asked_for(c) : !c->dynamic;
    if (*is_exact || (is_outside(c) && !c->dynamic)) return n;
    return size_under_load(n);
}

/* Takes up to n - 1 threads of the contention group. Returns the size of the team. */
static int take_of_limit(limit *l, int n) {
    if (!l) return n;
    int used = atomic_load(&l->used), take;
    do {
        int left = l->most - used;
        take = left < 0 ? 0 : left < n - 1 ? left : n - 1;
    } while (!atomic_compare_exchange_weak(&l->used, &used, used + take));
    return take + 1;
}

static void return_to_limit(limit *l, int n) {
    if (l) atomic_fetch_sub(&l->used, n - 1);
}

/* --- start and end -------------------------------------------------------------------------------------------------- */

typedef struct region {
    void (*fn)(void *);
    void *data;
    const plan *first;
    group *of_reductions;
} region;

static void set_up(team *t, context *c, dock *d, int n, const region *r) {
    t->fn = r->fn;
    t->data = r->data;
    t->n = n;
    t->level = c->of->level + 1;
    t->active_level = c->of->active_level + (n > 1);
    t->is_outermost = is_outside(c);
    t->process = forks;
    t->dock = d;
    t->outer = c;
    t->group = r->of_reductions;
    clear_work(&t->first);
    if (r->first) t->first.plan = *r->first;
    atomic_store_explicit(&t->ready.oldest, NULL, memory_order_relaxed);
    t->ready.newest = NULL;
    atomic_store_explicit(&t->done, 0, memory_order_relaxed);
    atomic_store_explicit(&t->arrived, 0, memory_order_relaxed);
    atomic_store_explicit(&t->cancelled, 0, memory_order_relaxed);
    atomic_store_explicit(&t->is_crowded, 0, memory_order_relaxed);
    atomic_store_explicit(&t->late_next, n, memory_order_relaxed);
    atomic_store_explicit(&t->queued, 0, memory_order_relaxed);
    atomic_store_explicit(&t->pending, 0, memory_order_relaxed);
    atomic_fetch_add_explicit(&regions, 1, memory_order_relaxed);
}

/* Sets up a team, and starts all members but number 0. Null without memory for it. */
static team *start_team(context *c, dock *d, int n, bool is_exact, const region *r) {
    uint64_t harts = 0;
    bool is_outermost = is_outside(c);
    team *t = d ? &d->region : aligned_alloc(64, sizeof *t);
    if (!t) return NULL;
    if (!d) memset(t, 0, sizeof *t);
    if (d) gather(c, n, is_exact || is_outermost);
    int manned = 1 + (d ? take_seats(d, n - 1, &harts) : 0), size = manned;
    if (is_exact && manned < n) size += reserve_threads(t, n - manned);
    set_up(t, c, d, size, r);
    if (d) {
        atomic_store(&d->is_busy, 1);
        atomic_fetch_add(&d->turn, 1);
    }
    atomic_store(&t->late_next, manned);
    if (harts) start_guests(d, harts);
    if (manned == size) return t;
    atomic_fetch_add(&shortfalls, 1);
    if (is_outermost)
        overflow(t);
    else
        watch(t);
    return t;
}

static int is_done(team *t) { return atomic_load(&t->done) == t->n && atomic_load(&t->pending) == 0; }
static int is_done_or_has_task(void *arg) { return is_done(arg) || atomic_load(&((team *)arg)->queued) > 0; }

/* The home runs what has not started: late members, and members whose guest is still on its way. */
static void run_the_rest(team *t) {
    for (int num; (num = take_late(t)) >= 0;) {
        run_one(t, num);
        atomic_fetch_add(&t->done, 1);
    }
    if (!t->dock || is_done(t)) return;
    for (uint64_t h = atomic_load(&t->dock->here); h; h &= h - 1) {
        seat *s = &t->dock->seats[__builtin_ctzll(h)];
        int member = s->member;
        if (!cancel_start(s)) continue;
        run_one(t, member);
        atomic_fetch_add(&t->done, 1);
    }
}

static void end_team(team *t, context *home) {
    settle_dock(home);
    /* Why not: the members of an outermost region keep their threads from region to region, for threadprivate. */
    if (!t->is_outermost) run_the_rest(t);
    atomic_fetch_add(&t->done, 1);
    while (!is_done(t))
        if (!run_some_task(home, OF_ANY)) wait_in_team(home, is_done_or_has_task, t, LENDS);
    unwatch(t);
    return_threads(t);
    if (t->dock) {
        atomic_store(&t->dock->is_busy, 0);
        if (atomic_load(&t->dock->parked)) lithe_poke_all(&t->dock->as);
    }
    wait_for_visitors(t);
    free_works(t, home->at);
}

static void run_alone(context *c, const region *r) {
    context m;
    begin_alone(&m, c, c->of->level + 1, c->of->active_level);
    m.own.group = r->of_reductions;
    if (r->first) m.solo.first.plan = *r->first;
    lithe_client = &m;
    r->fn(r->data);
    run_tasks_until(&m, &m.own.children, OF_ANY);
    wait_for_visitors(&m.solo);
    free_works(&m.solo, m.at);
    end_member(&m);
    lithe_client = c;
}

/* The dock for a region of n members. Why not without idle harts: a dock costs more than the region then. */
static dock *dock_for(context *c, int n, bool is_exact) {
    if (n == 1) return NULL;
    if (is_exact || c->dock || lithe_number() < 0 || lithe_callable(lithe_current(), 1) > 0) return use_dock(c);
    return NULL;
}

/* Starts the team of a region, or returns null: the region is to be run alone. */
static team *open_team(context *c, unsigned wanted, const region *r, int *of_limit) {
    bool is_exact;
    int n = *of_limit = take_of_limit(c->limit, team_size(c, wanted, &is_exact));
    dock *d = dock_for(c, n, is_exact);
    team *t = n > 1 && (d || is_exact) ? start_team(c, d, n, is_exact, r) : NULL;
    if (!t && d) leave_dock(c);
    if (!t || t->n < n) {
        return_to_limit(c->limit, n - (t ? t->n : 1) + 1);
        *of_limit = t ? t->n : 1;
    }
    return t;
}

static void close_team(context *c, team *t, context *m, int of_limit) {
    bool has_dock = t->dock != NULL;
    run_tasks_until(m, &m->own.children, OF_ANY);
    end_team(t, m);
    end_member(m);
    lithe_client = c;
    if (has_dock)
        leave_dock(c);
    else
        free(t);
    return_to_limit(c->limit, of_limit);
}

unsigned run_region(void (*fn)(void *), void *data, unsigned wanted, const plan *first, group *of_reductions) {
    context *c = here(), m;
    region r = {fn, data, first, of_reductions};
    int of_limit;
    team *t = open_team(c, wanted, &r, &of_limit);
    if (!t) {
        run_alone(c, &r);
        return 1;
    }
    int n = t->n;
    begin_member(&m, t, 0);
    lithe_client = &m;
    fn(data);
    if (t->process != forks) child_returned();
    close_team(c, t, &m, of_limit);
    return (unsigned)n;
}

/* --- entry points --------------------------------------------------------------------------------------------------- */

API void GOMP_parallel(void (*fn)(void *), void *data, unsigned n, unsigned flags) {
    (void)flags;
    run_region(fn, data, n, NULL, NULL);
}

/* The interface before gcc 4.9: the caller itself runs member 0 between the start and the end. */
static void start_old(void (*fn)(void *), void *data, unsigned wanted, const plan *first) {
    context *c = here(), *m = on_lines(sizeof *m);
    region r = {fn, data, first, NULL};
    int of_limit;
    team *t = open_team(c, wanted, &r, &of_limit);
    if (t) {
        begin_member(m, t, 0);
    } else {
        begin_alone(m, c, c->of->level + 1, c->of->active_level);
        if (first) m->solo.first.plan = *first;
    }
    m->old_team = t;
    lithe_client = m;
}

API void GOMP_parallel_start(void (*fn)(void *), void *data, unsigned wanted) { start_old(fn, data, wanted, NULL); }

API void GOMP_parallel_end(void) {
    context *m = lithe_client;
    if (!m || !m->outer) return; /* not after a start */
    context *c = m->outer;
    team *t = m->old_team;
    if (t) {
        close_team(c, t, m, t->n);
    } else {
        run_tasks_until(m, &m->own.children, OF_ANY);
        free_works(&m->solo, m->at);
        end_member(m);
        lithe_client = c;
    }
    free(m);
}

#define PARALLEL_LOOP(name, kind)                                                                                      \
    API void GOMP_parallel_loop_##name(void (*fn)(void *), void *data, unsigned n, long s, long e, long i, long chunk, \
                                       unsigned flags) {                                                               \
        (void)flags;                                                                                                   \
        plan w = loop_plan(s, e, i, kind, (unsigned long)chunk);                                                       \
        run_region(fn, data, n, &w, NULL);                                                                             \
    }
PARALLEL_LOOP(static, RUN_STATIC)
PARALLEL_LOOP(dynamic, RUN_DYNAMIC)
PARALLEL_LOOP(guided, RUN_GUIDED)
PARALLEL_LOOP(nonmonotonic_dynamic, RUN_DYNAMIC)
PARALLEL_LOOP(nonmonotonic_guided, RUN_GUIDED)

#define PARALLEL_RUNTIME(name)                                                                             \
    API void GOMP_parallel_loop_##name(void (*fn)(void *), void *data, unsigned n, long s, long e, long i, \
                                       unsigned flags) {                                                   \
        (void)flags;                                                                                       \
        unsigned long chunk;                                                                               \
        int kind = runtime_kind(here(), &chunk);                                                           \
        plan w = loop_plan(s, e, i, kind, chunk);                                                          \
        run_region(fn, data, n, &w, NULL);                                                                 \
    }
PARALLEL_RUNTIME(runtime)
PARALLEL_RUNTIME(nonmonotonic_runtime)
PARALLEL_RUNTIME(maybe_nonmonotonic_runtime)

#define OLD_LOOP(name, kind)                                                                                          \
    API void GOMP_parallel_loop_##name##_start(void (*fn)(void *), void *data, unsigned n, long s, long e, long i,    \
                                               long chunk) {                                                          \
        plan w = loop_plan(s, e, i, kind, (unsigned long)chunk);                                                      \
        start_old(fn, data, n, &w);                                                                                   \
    }
OLD_LOOP(static, RUN_STATIC)
OLD_LOOP(dynamic, RUN_DYNAMIC)
OLD_LOOP(guided, RUN_GUIDED)
API void GOMP_parallel_loop_runtime_start(void (*fn)(void *), void *data, unsigned n, long s, long e, long i) {
    unsigned long chunk;
    int kind = runtime_kind(here(), &chunk);
    plan w = loop_plan(s, e, i, kind, chunk);
    start_old(fn, data, n, &w);
}

API void GOMP_parallel_sections(void (*fn)(void *), void *data, unsigned n, unsigned count, unsigned flags) {
    (void)flags;
    plan w = {.kind = RUN_DYNAMIC, .count = count};
    run_region(fn, data, n, &w, NULL);
}
API void GOMP_parallel_sections_start(void (*fn)(void *), void *data, unsigned n, unsigned count) {
    plan w = {.kind = RUN_DYNAMIC, .count = count};
    start_old(fn, data, n, &w);
}
