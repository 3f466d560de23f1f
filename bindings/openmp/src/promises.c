/* Promises: what omp_get_max_threads returned. OpenBLAS copies that number to a variable of the process, and frees the
 * buffers of higher threads. So while a promise of v > 1 may be in use, each thread gets v or 1. */
#include "gomp.h"
#include <stdlib.h>

static _Atomic uint64_t promised; /* holders << 32 | value */

void forget_promises(void) { atomic_store(&promised, 0); }

void drop_hold(pledge *p) {
    if (p && atomic_load(&p->holds) && atomic_exchange(&p->holds, 0)) atomic_fetch_sub(&promised, (uint64_t)1 << 32);
}

void let_go(pledge *p) {
    if (p && atomic_fetch_sub(&p->refs, 1) == 1) free(p);
}

void drop_promise(context *c) {
    drop_hold(c->pledge);
    c->promise = 0;
}

static void keep(context *c) {
    if (!c->pledge) {
        c->pledge = zeroed(sizeof *c->pledge);
        atomic_init(&c->pledge->refs, 1);
    }
    atomic_store(&c->pledge->holds, 1);
    if (c->dock && !c->dock->pledge) {
        atomic_fetch_add(&c->pledge->refs, 1);
        c->dock->pledge = c->pledge;
    }
}

/* What may be returned to a thread that could have up to `most`: that, another's promise, or 1. */
int hold_promise(context *c, int most) {
    uint64_t old = atomic_load(&promised);
    while (most > 1) {
        int value = old >> 32 ? (int)(uint32_t)old : most;
        if (value > most) return 1;
        uint64_t fresh = (((old >> 32) + 1) << 32) | (uint32_t)value;
        if (!atomic_compare_exchange_weak(&promised, &old, fresh)) continue;
        keep(c);
        return value;
    }
    return 1;
}
