/* Doacross loops: iterations post that they are done, and wait for iterations that they depend on.
 *
 * The outermost dimension is cut into parts, each run by one member in ascending order. Each part has a number: that of its
 * last posted iteration, counted through all dimensions, plus 1. */
#include "gomp.h"
#include <stdarg.h>
#include <stdlib.h>

typedef unsigned long ull;

static size_t parts_of(const plan *w, int n) {
    if (w->kind == RUN_STATIC && w->chunk == 0) return (size_t)n;
    ull chunk = w->kind == RUN_GUIDED || w->chunk == 0 ? 1 : w->chunk;
    return (size_t)(w->count / chunk + 1);
}

static size_t part_of(const plan *w, int n, ull i) {
    if (w->kind == RUN_STATIC && w->chunk == 0) {
        ull each = w->count / (ull)n, more = w->count % (ull)n, low = more * (each + 1);
        if (i < low) return (size_t)(i / (each + 1));
        return each ? (size_t)(more + (i - low) / each) : (size_t)more;
    }
    return (size_t)(w->kind == RUN_GUIDED || w->chunk == 0 ? i : i / w->chunk);
}

static void set_up(context *c, unsigned dimensions, const ull *counts) {
    if (atomic_load(&c->at->across) || c->of->n == 1) return;
    across *x = zeroed(sizeof *x), *none = NULL;
    x->dimensions = dimensions < 32 ? dimensions : 32;
    for (unsigned k = 0; k < x->dimensions; k++) x->counts[k] = counts[k];
    x->entries = parts_of(&c->at->plan, c->of->n);
    x->posted = zeroed(x->entries * sizeof *x->posted);
    if (atomic_compare_exchange_strong(&c->at->across, &none, x)) return;
    free((void *)x->posted);
    free(x);
}

static bool start(unsigned dimensions, const ull *counts, int kind, ull chunk, ull *from, ull *to) {
    context *c = here();
    plan w = {.kind = kind, .count = counts[0], .chunk = chunk, .step = 1};
    advance(c, &w);
    set_up(c, dimensions, counts);
    return from ? claim(c, from, to) : true;
}

static bool start_with(unsigned dimensions, const ull *counts, long schedule, ull chunk, ull *from, ull *to,
                       uintptr_t *reductions, void **memory) {
    context *c = here();
    int kind = adjust_kind(c, schedule, &chunk);
    start(dimensions, counts, kind, chunk, NULL, NULL);
    if (reductions) start_workshare_reductions(c, reductions);
    share_memory(c, memory);
    return from ? claim(c, from, to) : true;
}

static ull position(const across *x, const ull *at) {
    ull sum = at[0];
    for (unsigned k = 1; k < x->dimensions; k++) sum = sum * x->counts[k] + at[k];
    return sum;
}

static void post(const ull *at) {
    context *c = here();
    across *x = atomic_load(&c->at->across);
    if (!x) return;
    atomic_store(&x->posted[part_of(&c->at->plan, c->of->n, at[0])], position(x, at) + 1);
    tell(c->of);
}

typedef struct sink {
    _Atomic ull *posted;
    ull position;
} sink;

static int is_posted(void *arg) {
    sink *s = arg;
    return atomic_load(s->posted) > s->position;
}

static void wait_for(context *c, const across *x, const ull *at) {
    if (at[0] >= c->at->plan.count) return; /* not an iteration */
    sink s = {&x->posted[part_of(&c->at->plan, c->of->n, at[0])], position(x, at)};
    if (is_posted(&s)) return;
    overflow(c->of);
    wait_in_team(c, is_posted, &s, KEEPS);
}

#define WAIT(name, type)                                                                      \
    API void name(type first, ...) {                                                          \
        context *c = here();                                                                  \
        across *x = atomic_load(&c->at->across);                                              \
        ull at[32] = {(ull)first};                                                            \
        if (!x) return;                                                                       \
        va_list more;                                                                         \
        va_start(more, first);                                                                \
        for (unsigned k = 1; k < x->dimensions; k++) at[k] = (ull)va_arg(more, type);          \
        va_end(more);                                                                         \
        wait_for(c, x, at);                                                                   \
    }
WAIT(GOMP_doacross_wait, long)
WAIT(GOMP_doacross_ull_wait, ull)
API void GOMP_doacross_post(long *at) { post((ull *)at); }
API void GOMP_doacross_ull_post(ull *at) { post(at); }

#define DOACROSS(prefix, type)                                                                                          \
    API bool prefix##_doacross_static_start(unsigned n, type *counts, type chunk, type *from, type *to) {               \
        return start(n, (ull *)counts, RUN_STATIC, (ull)chunk, (ull *)from, (ull *)to);                                 \
    }                                                                                                                   \
    API bool prefix##_doacross_dynamic_start(unsigned n, type *counts, type chunk, type *from, type *to) {              \
        return start(n, (ull *)counts, RUN_DYNAMIC, (ull)chunk, (ull *)from, (ull *)to);                                \
    }                                                                                                                   \
    API bool prefix##_doacross_guided_start(unsigned n, type *counts, type chunk, type *from, type *to) {               \
        return start(n, (ull *)counts, RUN_GUIDED, (ull)chunk, (ull *)from, (ull *)to);                                 \
    }                                                                                                                   \
    API bool prefix##_doacross_runtime_start(unsigned n, type *counts, type *from, type *to) {                          \
        return start_with(n, (ull *)counts, 0, 0, (ull *)from, (ull *)to, NULL, NULL);                                  \
    }                                                                                                                   \
    API bool prefix##_doacross_start(unsigned n, type *counts, long schedule, type chunk, type *from, type *to,         \
                                     uintptr_t *reductions, void **memory) {                                            \
        return start_with(n, (ull *)counts, schedule, (ull)chunk, (ull *)from, (ull *)to, reductions, memory);          \
    }
DOACROSS(GOMP_loop, long)
DOACROSS(GOMP_loop_ull, ull)
