/* Task groups, taskloop, and cancellation. */
#include "gomp.h"
#include <limits.h>
#include <stdlib.h>

API void GOMP_taskgroup_start(void) {
    context *c = here();
    group *g = zeroed(sizeof *g);
    g->outer = c->now->group;
    if (g->outer) g->reductions = g->outer->reductions;
    c->now->group = g;
}

API void GOMP_taskgroup_end(void) {
    context *c = here();
    group *g = c->now->group;
    if (!g) return; /* not after a start */
    run_tasks_until(c, &g->pending, OF_NEWEST_GROUP);
    c->now->group = g->outer;
    free(g);
}

/* --- taskloop -------------------------------------------------------------------------------------------------------- */

enum {
    FLAG_FINAL = 1 << 1,
    FLAG_PRIORITY = 1 << 4,
    FLAG_UP = 1 << 8,
    FLAG_GRAIN = 1 << 9,
    FLAG_IF = 1 << 10,
    FLAG_NOGROUP = 1 << 11,
    FLAG_REDUCTION = 1 << 12,
    FLAG_STRICT = 1 << 14
};

/* What the compiler puts first in the argument of a taskloop's tasks. */
typedef struct head {
    unsigned long start, end;
    uintptr_t *reductions;
} head;

typedef struct loop {
    plan plan;
    unsigned long tasks, grain; /* grain: with `strict`, of each task but the last */
    unsigned flags;
    int priority;
} loop;

static void set_tasks(context *c, loop *l, unsigned long number) {
    unsigned long count = l->plan.count;
    if (l->flags & FLAG_GRAIN) {
        if (number == 0) number = 1;
        l->tasks = count / number;
        if (l->flags & FLAG_STRICT) {
            l->tasks += count % number != 0;
            l->grain = number;
        }
    } else {
        l->tasks = number ? number : (unsigned long)c->of->n;
        if (l->flags & FLAG_STRICT) {
            l->grain = (count + l->tasks - 1) / l->tasks;
            l->tasks = (count + l->grain - 1) / l->grain;
        }
    }
    if (l->tasks < 1) l->tasks = 1;
    if (l->tasks > count) l->tasks = count;
}

static unsigned long bound(const loop *l, unsigned long i) {
    unsigned long count = l->plan.count, each = count / l->tasks, more = count % l->tasks;
    if (l->grain) return i * l->grain < count ? i * l->grain : count;
    return each * i + (i < more ? i : more);
}

static void make_tasks(context *c, const body *b, const loop *l) {
    bool is_deferred = (l->flags & FLAG_IF) && !c->now->is_final && c->of->n > 1;
    for (unsigned long i = 0; i < l->tasks; i++) {
        task *k = new_task(c, b, true);
        head *h = k->arg;
        h->start = l->plan.start + bound(l, i) * l->plan.step;
        h->end = l->plan.start + bound(l, i + 1) * l->plan.step;
        if (l->flags & FLAG_FINAL) k->is_final = true;
        if (l->flags & FLAG_PRIORITY) k->priority = l->priority < set.max_priority ? l->priority : set.max_priority;
        if (is_deferred) {
            atomic_store(&k->waits_for, 1);
            submit(c, k);
        } else
            run_now(c, k);
    }
}

static void run_taskloop(const body *b, loop *l, unsigned long number) {
    context *c = here();
    bool has_group = !(l->flags & FLAG_NOGROUP);
    if (set.cancellation && !has_group && is_cancelled_for(c)) return;
    if (l->plan.count == 0) {
        /* Reports to the caller that nothing was registered. */
        if (has_group && (l->flags & FLAG_REDUCTION)) ((head *)b->data)->reductions[2] = 0;
        return;
    }
    set_tasks(c, l, number);
    if (has_group) {
        GOMP_taskgroup_start();
        if (l->flags & FLAG_REDUCTION) GOMP_taskgroup_reduction_register(((head *)b->data)->reductions);
    }
    make_tasks(c, b, l);
    if (has_group) GOMP_taskgroup_end();
}

API void GOMP_taskloop(void (*fn)(void *), void *data, void (*copy)(void *, void *), long size, long align, unsigned flags,
                       unsigned long number, int priority, long start, long end, long step) {
    body b = {fn, data, copy, size, align};
    loop l = {loop_plan(start, end, step, 0, 0), 0, 0, flags, priority};
    run_taskloop(&b, &l, number);
}
API void GOMP_taskloop_ull(void (*fn)(void *), void *data, void (*copy)(void *, void *), long size, long align,
                           unsigned flags, unsigned long number, int priority, unsigned long start, unsigned long end,
                           unsigned long step) {
    body b = {fn, data, copy, size, align};
    loop l = {loop_plan_ull((flags & FLAG_UP) != 0, start, end, step, 0, 0), 0, 0, flags, priority};
    run_taskloop(&b, &l, number);
}

/* --- cancellation ----------------------------------------------------------------------------------------------------- */

enum { CANCEL_LOOP = 2, CANCEL_SECTIONS = 4, CANCEL_TASKGROUP = 8 };

API bool GOMP_cancellation_point(int which) {
    context *c = here();
    if (!set.cancellation) return false;
    if (which & (CANCEL_LOOP | CANCEL_SECTIONS)) return atomic_load(&c->at->cancelled);
    if (which & CANCEL_TASKGROUP) return is_cancelled_for(c);
    return atomic_load(&c->of->cancelled);
}

API bool GOMP_cancel(int which, bool go) {
    context *c = here();
    if (!set.cancellation) return false;
    if (!go) return GOMP_cancellation_point(which);
    if (which & (CANCEL_LOOP | CANCEL_SECTIONS)) {
        atomic_store(&c->at->cancelled, 1);
        return true;
    }
    if (which & CANCEL_TASKGROUP) {
        group *g = c->now->group;
        if (g && g->is_of_workshare && g->outer) g = g->outer;
        if (g) atomic_store(&g->cancelled, 1);
        return true;
    }
    atomic_store(&c->of->cancelled, 1);
    tell(c->of);
    return true;
}
