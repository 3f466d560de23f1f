/* Sections, single, and scope. */
#include "gomp.h"

static unsigned next_section(context *c) {
    unsigned long k = atomic_fetch_add(&c->at->next_index, 1) + 1;
    return k <= c->at->plan.count ? (unsigned)k : 0;
}

static context *start(unsigned count) {
    context *c = here();
    plan w = {.kind = RUN_DYNAMIC, .count = count};
    advance(c, &w);
    return c;
}

API unsigned GOMP_sections_start(unsigned count) { return next_section(start(count)); }
API unsigned GOMP_sections2_start(unsigned count, uintptr_t *reductions, void **memory) {
    context *c = start(count);
    if (reductions) start_workshare_reductions(c, reductions);
    share_memory(c, memory);
    return next_section(c);
}
API unsigned GOMP_sections_next(void) { return next_section(here()); }
API void GOMP_sections_end(void) { team_barrier(here(), false); }
API bool GOMP_sections_end_cancel(void) { return team_barrier(here(), true); }
API void GOMP_sections_end_nowait(void) {}

API bool GOMP_single_start(void) { return atomic_exchange(&advance(here(), NULL)->taken, 1) == 0; }

/* With copyprivate: null for the member that runs the block, else what that member gives out. */
API void *GOMP_single_copy_start(void) {
    context *c = here();
    work *w = advance(c, NULL);
    if (atomic_exchange(&w->taken, 1) == 0) return NULL;
    team_barrier(c, false);
    return w->copy;
}
API void GOMP_single_copy_end(void *data) {
    context *c = here();
    c->at->copy = data;
    team_barrier(c, false);
}

API void GOMP_scope_start(uintptr_t *reductions) {
    context *c = here();
    advance(c, NULL);
    if (reductions) start_workshare_reductions(c, reductions);
}
