/* The entry points of loops. */
#include "gomp.h"

typedef unsigned long ull;

static bool start(const plan *w, ull *from, ull *to) {
    context *c = here();
    advance(c, w);
    return claim(c, from, to);
}

static bool start_runtime(plan w, ull *from, ull *to) {
    context *c = here();
    w.kind = runtime_kind(c, &w.chunk);
    advance(c, &w);
    return claim(c, from, to);
}

static bool next_chunk(ull *from, ull *to) { return claim(here(), from, to); }

static bool next_ordered(ull *from, ull *to) {
    context *c = here();
    end_turn(c);
    return claim(c, from, to);
}

#define NEXT(name, how)                                                                                    \
    API bool GOMP_loop_##name##_next(long *from, long *to) { return how((ull *)from, (ull *)to); }         \
    API bool GOMP_loop_ull_##name##_next(ull *from, ull *to) { return how(from, to); }

#define LOOPS(name, kind, how)                                                                             \
    API bool GOMP_loop_##name##_start(long s, long e, long i, long chunk, long *from, long *to) {          \
        plan w = loop_plan(s, e, i, kind, (ull)chunk);                                                     \
        return start(&w, (ull *)from, (ull *)to);                                                          \
    }                                                                                                      \
    API bool GOMP_loop_ull_##name##_start(bool up, ull s, ull e, ull i, ull chunk, ull *from, ull *to) {   \
        plan w = loop_plan_ull(up, s, e, i, kind, chunk);                                                  \
        return start(&w, from, to);                                                                        \
    }                                                                                                      \
    NEXT(name, how)
LOOPS(static, RUN_STATIC, next_chunk)
LOOPS(dynamic, RUN_DYNAMIC, next_chunk)
LOOPS(guided, RUN_GUIDED, next_chunk)
LOOPS(nonmonotonic_dynamic, RUN_DYNAMIC, next_chunk)
LOOPS(nonmonotonic_guided, RUN_GUIDED, next_chunk)
LOOPS(ordered_static, RUN_STATIC, next_ordered)
LOOPS(ordered_dynamic, RUN_DYNAMIC, next_ordered)
LOOPS(ordered_guided, RUN_GUIDED, next_ordered)

#define RUNTIME_LOOPS(name, how)                                                                           \
    API bool GOMP_loop_##name##_start(long s, long e, long i, long *from, long *to) {                      \
        return start_runtime(loop_plan(s, e, i, 0, 0), (ull *)from, (ull *)to);                            \
    }                                                                                                      \
    API bool GOMP_loop_ull_##name##_start(bool up, ull s, ull e, ull i, ull *from, ull *to) {              \
        return start_runtime(loop_plan_ull(up, s, e, i, 0, 0), from, to);                                  \
    }                                                                                                      \
    NEXT(name, how)
RUNTIME_LOOPS(runtime, next_chunk)
RUNTIME_LOOPS(nonmonotonic_runtime, next_chunk)
RUNTIME_LOOPS(maybe_nonmonotonic_runtime, next_chunk)
RUNTIME_LOOPS(ordered_runtime, next_ordered)

/* The form with reductions with `task`, and with memory that the members share. */
static bool start_with(plan *w, long schedule, ull *from, ull *to, uintptr_t *reductions, void **memory) {
    context *c = here();
    w->kind = adjust_kind(c, schedule, &w->chunk);
    advance(c, w);
    if (reductions) start_workshare_reductions(c, reductions);
    share_memory(c, memory);
    return from ? claim(c, from, to) : true;
}

#define START(name)                                                                                          \
    API bool GOMP_loop_##name(long s, long e, long i, long schedule, long chunk, long *from, long *to,       \
                              uintptr_t *reductions, void **memory) {                                        \
        plan w = loop_plan(s, e, i, 0, (ull)chunk);                                                          \
        return start_with(&w, schedule, (ull *)from, (ull *)to, reductions, memory);                         \
    }                                                                                                        \
    API bool GOMP_loop_ull_##name(bool up, ull s, ull e, ull i, long schedule, ull chunk, ull *from, ull *to, \
                                  uintptr_t *reductions, void **memory) {                                    \
        plan w = loop_plan_ull(up, s, e, i, 0, chunk);                                                       \
        return start_with(&w, schedule, from, to, reductions, memory);                                       \
    }
START(start)
START(ordered_start)

API void GOMP_loop_end(void) { team_barrier(here(), false); }
API void GOMP_loop_end_nowait(void) {}
API bool GOMP_loop_end_cancel(void) { return team_barrier(here(), true); }
