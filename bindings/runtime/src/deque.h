/* A work-stealing deque of fixed room, after Chase and Lev: the owner pushes and pops at the bottom, thieves take from the
 * top. The steps that decide who gets the last task are sequentially consistent. */
#ifndef DEQUE_H
#define DEQUE_H
#include "rt.h"

enum { DEQUE_ROOM = 256 };

typedef struct deque {
    _Alignas(64) _Atomic long top;
    _Alignas(64) _Atomic long bottom;
    _Atomic(lithe_task *) tasks[DEQUE_ROOM];
} deque;

/* 0: no room. */
static inline int push(deque *d, lithe_task *t) {
    long b = atomic_load_explicit(&d->bottom, memory_order_relaxed);
    if (b - atomic_load_explicit(&d->top, memory_order_acquire) >= DEQUE_ROOM) return 0;
    atomic_store_explicit(&d->tasks[b % DEQUE_ROOM], t, memory_order_relaxed);
    atomic_store(&d->bottom, b + 1);
    return 1;
}

static inline lithe_task *pop(deque *d) {
    long b = atomic_load_explicit(&d->bottom, memory_order_relaxed) - 1;
    atomic_store(&d->bottom, b);
    long t = atomic_load(&d->top);
    if (t > b) {
        atomic_store_explicit(&d->bottom, b + 1, memory_order_relaxed);
        return NULL;
    }
    lithe_task *task = atomic_load_explicit(&d->tasks[b % DEQUE_ROOM], memory_order_relaxed);
    if (t == b) {
        if (!atomic_compare_exchange_strong(&d->top, &t, t + 1)) task = NULL;
        atomic_store_explicit(&d->bottom, b + 1, memory_order_relaxed);
    }
    return task;
}

static inline int has_tasks(deque *d) { return atomic_load(&d->top) < atomic_load(&d->bottom); }

static inline lithe_task *steal(deque *d) {
    for (;;) {
        long t = atomic_load(&d->top);
        if (t >= atomic_load(&d->bottom)) return NULL;
        lithe_task *task = atomic_load_explicit(&d->tasks[t % DEQUE_ROOM], memory_order_relaxed);
        if (atomic_compare_exchange_strong(&d->top, &t, t + 1)) return task;
    }
}
#endif
