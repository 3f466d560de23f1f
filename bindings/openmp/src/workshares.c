/* Workshares: the list of a team's loops, sections and singles, and the claims of iterations. */
#include "gomp.h"
#include <stdlib.h>

static void free_parts(work *w) {
    across *x = atomic_exchange(&w->across, NULL);
    if (x) free((void *)x->posted);
    free(x);
    free(atomic_exchange(&w->shared, NULL));
    free(atomic_exchange(&w->reductions, NULL));
}

void clear_work(work *w) {
    atomic_store_explicit(&w->next_index, 0, memory_order_relaxed);
    atomic_store_explicit(&w->next, NULL, memory_order_relaxed);
    atomic_store_explicit(&w->left, 0, memory_order_relaxed);
    atomic_store_explicit(&w->taken, 0, memory_order_relaxed);
    atomic_store_explicit(&w->cancelled, 0, memory_order_relaxed);
    atomic_store_explicit(&w->turn, 0, memory_order_relaxed);
    w->copy = NULL;
}

void free_works(team *t, work *w) {
    while (w) {
        work *next = atomic_load_explicit(&w->next, memory_order_relaxed);
        free_parts(w);
        if (w != &t->first) free(w);
        w = next;
    }
}

/* Goes on to the team's next workshare. The first member that comes makes it, with the plan. */
work *advance(context *c, const plan *model) {
    work *old = c->at, *next = atomic_load(&old->next);
    if (!next) {
        work *fresh = c->spare ? c->spare : on_lines(sizeof *fresh);
        c->spare = NULL;
        clear_work(fresh);
        if (model) fresh->plan = *model;
        if (atomic_compare_exchange_strong(&old->next, &next, fresh))
            next = fresh;
        else
            c->spare = fresh;
    }
    c->at = next;
    c->static_trip = 0;
    c->chunk_from = c->chunk_to = 0;
    if (atomic_fetch_add(&old->left, 1) + 1 == c->of->n && old != &c->of->first) {
        free_parts(old);
        free(c->spare);
        c->spare = old;
    }
    return next;
}

static unsigned long trips(bool is_up, unsigned long start, unsigned long end, unsigned long step) {
    return is_up ? (end - start + step - 1) / step : (start - end - step - 1) / -step;
}

plan loop_plan(long start, long end, long step, int kind, unsigned long chunk) {
    plan w = {.kind = kind, .start = (unsigned long)start, .step = (unsigned long)step, .chunk = chunk};
    if (step > 0 ? start < end : start > end) w.count = trips(step > 0, w.start, (unsigned long)end, w.step);
    return w;
}

plan loop_plan_ull(bool is_up, unsigned long start, unsigned long end, unsigned long step, int kind, unsigned long chunk) {
    plan w = {.kind = kind, .start = start, .step = step, .chunk = chunk};
    if (is_up ? start < end : start > end) w.count = trips(is_up, start, end, step);
    return w;
}

static bool claim_static(context *c, unsigned long *from, unsigned long *to) {
    const plan *w = &c->at->plan;
    unsigned long n = (unsigned long)c->of->n, id = (unsigned long)c->num, trip = c->static_trip++;
    if (w->chunk == 0) {
        if (trip) return false;
        unsigned long each = w->count / n, more = w->count % n;
        *from = id * each + (id < more ? id : more);
        *to = *from + each + (id < more);
        return *from < *to;
    }
    *from = (trip * n + id) * w->chunk;
    if (*from >= w->count) return false;
    *to = w->count - *from < w->chunk ? w->count : *from + w->chunk;
    return true;
}

static bool claim_dynamic(context *c, unsigned long *from, unsigned long *to) {
    work *at = c->at;
    const plan *w = &at->plan;
    unsigned long n = (unsigned long)c->of->n, chunk = w->chunk ? w->chunk : 1;
    /* Then the sums below can't overflow, since each member adds at most once too often. */
    bool is_plain = w->kind == RUN_DYNAMIC && (w->count | chunk << 16) >> 62 == 0 && chunk >> 46 == 0;
    unsigned long f = is_plain ? atomic_fetch_add(&at->next_index, chunk) : atomic_load(&at->next_index), t;
    do {
        if (f >= w->count) return false;
        unsigned long rest = w->count - f, size = chunk;
        if (w->kind == RUN_GUIDED) {
            size = (rest + n - 1) / n;
            if (size < chunk) size = chunk;
        }
        t = size < rest ? f + size : w->count;
    } while (!is_plain && !atomic_compare_exchange_weak(&at->next_index, &f, t));
    *from = f;
    *to = t;
    return true;
}

/* Claims the member's next chunk of iterations. */
bool claim(context *c, unsigned long *from, unsigned long *to) {
    const plan *w = &c->at->plan;
    unsigned long f, t;
    if (!(w->kind == RUN_STATIC ? claim_static(c, &f, &t) : claim_dynamic(c, &f, &t))) return false;
    c->chunk_from = f;
    c->chunk_to = t;
    *from = w->start + f * w->step;
    *to = w->start + t * w->step;
    return true;
}

int runtime_kind(context *c, unsigned long *chunk) {
    *chunk = c->run_kind == RUN_AUTO ? 0 : c->run_chunk;
    return c->run_kind == RUN_AUTO ? RUN_STATIC : c->run_kind;
}

/* The compiler's number of a schedule: 0 and 4 stand for schedule(runtime). */
int adjust_kind(context *c, long schedule, unsigned long *chunk) {
    int kind = (int)(schedule & 0x7fffffff);
    return kind == RUN_STATIC || kind == RUN_DYNAMIC || kind == RUN_GUIDED ? kind : runtime_kind(c, chunk);
}

/* Memory that the members share, for lastprivate(conditional) and scans. On entry `*memory` is its size. */
void share_memory(context *c, void **memory) {
    if (!memory) return;
    void *there = atomic_load(&c->at->shared);
    if (!there) {
        void *fresh = zeroed((size_t)(uintptr_t)*memory);
        if (atomic_compare_exchange_strong(&c->at->shared, &there, fresh))
            there = fresh;
        else
            free(fresh);
    }
    *memory = there;
}
