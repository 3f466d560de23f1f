/* Reductions with tasks. The compiler registers arrays of this form, linked from the newest to the oldest:
 *
 *   0 how many variables; 1 size of a member's part; 2 alignment, afterwards the memory; 3 allocator; 4 next array;
 *   5 not 0 for the first array of a registration; 6 end of the memory;
 *   then for each variable: its address, its offset in the part, and a word that is ours. */
#include "gomp.h"
#include <stdlib.h>
#include <string.h>

enum { COUNT, SIZE, MEMORY, ALLOCATOR, NEXT, IS_FIRST, END, VARIABLES, WORDS = 3 };

static uintptr_t *next_of(const uintptr_t *d) { return (uintptr_t *)d[NEXT]; }

static uintptr_t part_memory(uintptr_t align, size_t size) {
    void *block = NULL;
    if (align < sizeof(void *)) align = sizeof(void *);
    if (posix_memalign(&block, align, size ? size : 1) != 0) fatal("Out of memory allocating %zu bytes", size);
    memset(block, 0, size);
    return (uintptr_t)block;
}

/* `from`: the memory that another member has allocated. */
void register_reductions(uintptr_t *data, uintptr_t *older, unsigned members, const blocks *from) {
    size_t i = 0;
    for (uintptr_t *d = data;; d = next_of(d)) {
        size_t size = d[SIZE] * members;
        d[MEMORY] = from ? from->from[i++] : part_memory(d[MEMORY], size);
        d[END] = d[MEMORY] + size;
        d[IS_FIRST] = d == data;
        if (d[NEXT]) continue;
        d[NEXT] = (uintptr_t)older;
        return;
    }
}

API void GOMP_taskgroup_reduction_register(uintptr_t *data) {
    context *c = here();
    group *g = c->now->group;
    if (!g) return; /* not in a group */
    register_reductions(data, g->reductions, (unsigned)c->of->n, NULL);
    g->reductions = data;
}

API void GOMP_taskgroup_reduction_unregister(uintptr_t *data) {
    uintptr_t *d = data;
    do {
        free((void *)d[MEMORY]);
        d = next_of(d);
    } while (d && !d[IS_FIRST]);
}

static uintptr_t *variable(uintptr_t *d, size_t i) { return d + VARIABLES + i * WORDS; }

/* The array and the variable of an original address. */
static uintptr_t *find_original(uintptr_t *newest, void *at, uintptr_t **of) {
    for (uintptr_t *d = newest; d; d = next_of(d))
        for (size_t i = 0; i < d[COUNT]; i++)
            if (variable(d, i)[0] == (uintptr_t)at) {
                *of = d;
                return variable(d, i);
            }
    return NULL;
}

static uintptr_t *find_part(uintptr_t *newest, void *at) {
    uintptr_t *d = newest;
    while (d && ((uintptr_t)at < d[MEMORY] || (uintptr_t)at >= d[END])) d = next_of(d);
    if (!d) fatal("couldn't find matching task_reduction or reduction with task modifier for %p", at);
    return d;
}

static void *original_at(uintptr_t *d, uintptr_t offset) {
    for (size_t i = 0; i < d[COUNT]; i++)
        if (variable(d, i)[1] == offset) return (void *)variable(d, i)[0];
    fatal("couldn't find matching task_reduction or reduction with task modifier");
}

/* Changes each of the `count` addresses, of variables or of another member's parts, to that of the member's own part.
 * The originals of the first `originals` go behind them. */
API void GOMP_task_reduction_remap(size_t count, size_t originals, void **at) {
    context *c = here();
    uintptr_t *newest = c->now->group ? c->now->group->reductions : NULL, id = (uintptr_t)c->num;
    for (size_t i = 0; i < count; i++) {
        uintptr_t *d, *v = find_original(newest, at[i], &d), offset;
        if (v) {
            offset = v[1];
            if (i < originals) at[count + i] = (void *)v[0];
        } else {
            d = find_part(newest, at[i]);
            offset = ((uintptr_t)at[i] - d[MEMORY]) % d[SIZE];
            if (i < originals) at[count + i] = original_at(d, offset);
        }
        at[i] = (void *)(d[MEMORY] + id * d[SIZE] + offset);
    }
}

/* --- of workshares and regions ---------------------------------------------------------------------------------------- */

static blocks *blocks_of(uintptr_t *data, unsigned members) {
    size_t count = 0, i = 0;
    for (uintptr_t *d = data; d; d = next_of(d)) count++;
    blocks *b = zeroed(sizeof *b + count * sizeof b->from[0]);
    b->count = count;
    for (uintptr_t *d = data; d; d = next_of(d)) b->from[i++] = part_memory(d[MEMORY], d[SIZE] * members);
    return b;
}

/* The first member allocates for all. */
static blocks *shared_blocks(context *c, uintptr_t *data) {
    blocks *there = atomic_load(&c->at->reductions);
    if (there) return there;
    blocks *fresh = blocks_of(data, (unsigned)c->of->n);
    if (atomic_compare_exchange_strong(&c->at->reductions, &there, fresh)) return fresh;
    for (size_t i = 0; i < fresh->count; i++) free((void *)fresh->from[i]);
    free(fresh);
    return there;
}

void start_workshare_reductions(context *c, uintptr_t *data) {
    GOMP_taskgroup_start();
    group *g = c->now->group;
    g->is_of_workshare = 1;
    register_reductions(data, g->reductions, (unsigned)c->of->n, shared_blocks(c, data));
    g->reductions = data;
}

API void GOMP_workshare_task_reduction_unregister(bool is_cancelled) {
    context *c = here();
    uintptr_t *data = c->now->group->reductions;
    GOMP_taskgroup_end();
    if (c->num == 0) GOMP_taskgroup_reduction_unregister(data);
    if (!is_cancelled) team_barrier(c, false);
}

/* The region's own reductions. The memory is for the largest team; the caller reads the team's size from the result. */
API unsigned GOMP_parallel_reductions(void (*fn)(void *), void *data, unsigned wanted, unsigned flags) {
    bool is_exact;
    group g = {0};
    uintptr_t *arrays = *(uintptr_t **)data;
    (void)flags;
    register_reductions(arrays, NULL, (unsigned)team_size(here(), wanted, &is_exact), NULL);
    g.reductions = arrays;
    return run_region(fn, data, wanted, NULL, &g);
}
