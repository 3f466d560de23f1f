/* The ready scheduler: harts with a deque each. Joins, groups and loops use it. */
#ifndef POOL_H
#define POOL_H
#include "deque.h"

typedef struct pool {
    lithe_sched as;
    int groups;       /* groups that began in the home's own region and haven't been waited for */
    int ends_later;   /* the group that opened the pool has ended; the last group shuts it */
    _Alignas(64) _Atomic int over;
    _Alignas(64) _Atomic int searching; /* harts that look for a task, or have been woken to */
    _Atomic uint64_t woken;             /* harts that were woken, and are counted in `searching` */
    deque deques[];
} pool;

/* What a hart works for: a task, a group, or (a guest) the pool's end. */
typedef struct goal {
    pool *of;
    lithe_task *task;
    lithe_group *group;
} goal;

/* A group's state: its tasks left, and above them the waiting hart: 0 if none waits, its number and 1, or SEVERAL. */
enum { COUNT_BITS = 32, SEVERAL = 255 };
static inline _Atomic uint64_t *state_of(lithe_group *g) { return (_Atomic uint64_t *)&g->state; }
static inline uint32_t tasks_left(lithe_group *g) { return (uint32_t)atomic_load(state_of(g)); }
static inline int is_done(lithe_task *t) { return (int)atomic_load((_Atomic uint32_t *)&t->done); }

extern const lithe_ops pool_ops;

/* The pool that the calling hart is in; null elsewhere. */
static inline pool *current_pool(void) {
    hart *h = me;
    if (!h || h->in->ops != &pool_ops || UNLIKELY(h->left_open)) return NULL;
    return (pool *)h->in;
}

/* A region: the calling thread is a hart in a pool. */
typedef struct region {
    pool *p;
    int owns;
} region;
/* Enters the current pool, or opens one below the current scheduler. 0: no hart, memory or level; nothing is open. */
int open_region(region *r);
/* All tasks of the region are done. */
void close_region(region *r);

/* Runs tasks until the goal is met; waits in between. */
void work_until(goal g);
/* A task of the pool, or null: first of the hart's own. */
lithe_task *find_task(pool *p);
void run_task(pool *p, lithe_task *t);
/* Makes an idle hart come and look for tasks, unless one looks already. */
void offer_slowly(pool *p, int k);

static inline void offer(pool *p) {
    if (atomic_load(&p->searching) > 0) return;
    place *at = place_of(&p->as);
    if (atomic_load(&at->idle) || atomic_load(&at->tokens) > 0 || atomic_load(&at->left) > 0) offer_slowly(p, 1);
}

static inline deque *own_deque(pool *p) { return &p->deques[me->number]; }

/* Calls a user's function. The task's state of another library is set aside meanwhile. */
static inline void call_user(void (*f)(void *), void *arg) {
    hart *h = me;
    void *old = lithe_task_begin();
    f(arg);
    check_hart(h);
    if (UNLIKELY(lithe_client || h->left_open))
        lithe_task_end(old);
    else
        lithe_client = old;
}
#endif
