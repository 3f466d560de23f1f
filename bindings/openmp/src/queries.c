/* The omp_ functions that read and set what OpenMP calls internal control variables. */
#include "gomp.h"

enum { COMING_NS = 50000 }; /* how long a first call in a task waits for harts on their way to the outer scheduler */

API int omp_get_thread_num(void) {
    context *c = lithe_client;
    return c ? c->num : 0;
}
API int omp_get_num_threads(void) {
    context *c = lithe_client;
    return c ? c->of->n : 1;
}
API int omp_get_level(void) { return here()->of->level; }
API int omp_get_active_level(void) { return here()->of->active_level; }
API int omp_get_num_procs(void) {
    read_settings();
    return set.procs;
}

/* --- omp_get_max_threads ------------------------------------------------------------------------------------------------ */

/* When an outer parallel call has just begun, its harts are still waking up; some will find no work there. */
static void wait_for_coming(lithe_sched *s) {
    int64_t end = lithe_now_ns() + COMING_NS;
    int waited = 0;
    for (; lithe_coming(s) > 0 && lithe_now_ns() < end; waited = 1) lithe_pause();
    end = lithe_now_ns() + COMING_NS / 10;
    while (waited && lithe_callable(s, 1) < set.procs - 1 && lithe_now_ns() < end) lithe_pause();
}

/* Reserves the harts that are idle. Returns how many members the next region of this task has. */
static int reserve(context *c, int most) {
    if (!use_dock(c)) return 1;
    int have = 1 + gather(c, most, false);
    if (have < most && lithe_reclaim() > 0) have = 1 + gather(c, most, false);
    int promise = hold_promise(c, have < most ? have : most);
    leave_dock(c);
    return promise;
}

static int promise_now(context *c, int most) {
    drop_promise(c);
    /* Members of a library's own region don't ask. So the library call that an outer promise was for is over. */
    for (context *o = c->of->outer; o; o = o->of->outer) drop_hold(o->pledge);
    bool is_inside = lithe_number() >= 0;
    /* Nothing else runs on harts: all. They are called when the region starts. */
    if (!is_inside && c->is_external && !c->dock && most <= set.procs && lithe_idle_at_base() == set.procs)
        return hold_promise(c, most);
    if (is_inside && !c->dock) {
        wait_for_coming(lithe_current());
        if (lithe_callable(lithe_current(), 1) == 0) return 1;
    }
    if (!is_outside(c)) most = size_under_load(most);
    return most == 1 ? 1 : reserve(c, most);
}

API int omp_get_max_threads(void) {
    context *c = here();
    int most = c->nthreads, left = c->limit ? c->limit->most : NO_LIMIT;
    if (most > left) most = left;
    if (most == 1 || c->of->active_level >= c->max_active) return most;
    if (c->of->active_level == 0 && c->is_external && is_asked_for(c)) return most;
    return c->promise = promise_now(c, most);
}

API void omp_set_num_threads(int n) {
    context *c = here();
    if (n < 1) n = 1;
    if (n == c->promise) return; /* the program repeats what it heard */
    c->nthreads = n;
    c->is_chosen = 1;
    drop_promise(c);
}

/* --- levels ------------------------------------------------------------------------------------------------------------- */

API int omp_in_parallel(void) {
    context *c = here();
    if (c->of->active_level == 0) return 0;
    return !(set.flat && c->of->active_level < c->max_active);
}
API void omp_set_dynamic(int v) { here()->dynamic = v != 0; }
API int omp_get_dynamic(void) { return here()->dynamic; }
API void omp_set_nested(int v) {
    context *c = here();
    if (v)
        c->max_active = MOST_LEVELS;
    else if (c->max_active > 1)
        c->max_active = 1;
}
API int omp_get_nested(void) {
    context *c = here();
    return c->max_active > 1 && c->max_active > c->of->active_level;
}
API void omp_set_max_active_levels(int v) {
    if (v >= 0) here()->max_active = v < MOST_LEVELS ? v : MOST_LEVELS;
}
API int omp_get_max_active_levels(void) { return here()->max_active; }
API int omp_get_supported_active_levels(void) { return MOST_LEVELS; }
API int omp_get_thread_limit(void) {
    context *c = here();
    return c->limit ? c->limit->most : NO_LIMIT;
}

static context *ancestor(int level) {
    context *c = here();
    if (level < 0 || level > c->of->level) return NULL;
    while (c->of->level > level) c = c->of->outer;
    return c;
}
API int omp_get_ancestor_thread_num(int level) {
    context *c = ancestor(level);
    return c ? c->num : -1;
}
API int omp_get_team_size(int level) {
    context *c = ancestor(level);
    return c ? c->of->n : -1;
}

/* --- schedules ---------------------------------------------------------------------------------------------------------- */

#define MONOTONIC 0x80000000u
API void omp_set_schedule(unsigned kind, int chunk) {
    context *c = here();
    int plain = (int)(kind & ~MONOTONIC);
    if (plain < RUN_STATIC || plain > RUN_AUTO) return;
    c->run_kind = plain;
    c->run_is_monotonic = (kind & MONOTONIC) != 0;
    if (plain != RUN_AUTO) c->run_chunk = chunk > 0 ? (unsigned long)chunk : plain == RUN_STATIC ? 0 : 1;
}
API void omp_get_schedule(unsigned *kind, int *chunk) {
    context *c = here();
    *kind = (unsigned)c->run_kind | (c->run_is_monotonic ? MONOTONIC : 0);
    *chunk = (int)c->run_chunk;
}

/* --- the rest ----------------------------------------------------------------------------------------------------------- */

API int omp_in_final(void) { return here()->now->is_final; }
API double omp_get_wtime(void) { return (double)lithe_now_ns() * 1e-9; }
API double omp_get_wtick(void) { return 1e-9; }
API int omp_get_cancellation(void) {
    read_settings();
    return set.cancellation;
}
API int omp_get_max_task_priority(void) {
    read_settings();
    return set.max_priority;
}
/* Nothing of this library can be given back while harts may use it. */
API int omp_pause_resource(int kind, int device) {
    (void)kind;
    return device == 0 || device == -1 ? 0 : -1;
}
API int omp_pause_resource_all(int kind) {
    (void)kind;
    return 0;
}
API void omp_display_env(int verbose) {
    read_settings();
    display_settings(verbose);
}
