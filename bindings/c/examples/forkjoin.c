/* Fork-join with work stealing: one deque for each hart. */
#include "forkjoin.h"

enum { ROOM = 64 };

/* The tasks of one call of forkjoin. `left` counts those that haven't returned. */
typedef struct batch {
    void (*run)(hart *, void *, int);
    void *arg;
    atomic_int left;
} batch;

typedef struct task {
    batch *of;
    int index;
} task;

/* The owner pushes and pops at the end; others steal at the front. */
typedef struct deque {
    atomic_flag lock;
    _Atomic int front, end;
    task tasks[ROOM];
} deque;

typedef struct pool {
    sched as;
    atomic_int over;
    deque deques[];
} pool;

static void lock(deque *d) {
    int tries = 0;
    while (atomic_flag_test_and_set_explicit(&d->lock, memory_order_acquire)) lend_pause(&tries);
}

static void unlock(deque *d) { atomic_flag_clear_explicit(&d->lock, memory_order_release); }

static int is_empty(deque *d) {
    return atomic_load_explicit(&d->front, memory_order_relaxed) == atomic_load_explicit(&d->end, memory_order_relaxed);
}

/* Puts a task at the end. Returns 0 if there is no room. */
static int push(deque *d, task t) {
    lock(d);
    int front = d->front, end = d->end, fits = end - front < ROOM;
    if (fits) {
        d->tasks[end % ROOM] = t;
        d->end = end + 1;
    }
    unlock(d);
    return fits;
}

/* Takes a task: from the end of one's own deque, from the front of another's. */
static int take(deque *d, int own, task *t) {
    if (is_empty(d)) return 0;
    lock(d);
    int front = d->front, end = d->end, found = front != end;
    if (found) {
        *t = d->tasks[(own ? end - 1 : front) % ROOM];
        if (own)
            d->end = end - 1;
        else
            d->front = front + 1;
    }
    unlock(d);
    return found;
}

static void run(hart *me, task t) {
    t.of->run(me, t.of->arg, t.index);
    atomic_fetch_sub(&t.of->left, 1);
}

/* Runs one task of the pool, or lends the hart to a child of the pool. Returns 0 if there was nothing to do. */
static int work_once(pool *p, hart *me) {
    task t;
    for (int k = 0; k < me->harts; k++)
        if (take(&p->deques[(me->number + k) % me->harts], k == 0, &t)) {
            run(me, t);
            return 1;
        }
    return lend_help(&p->as, me);
}

static void pool_enter(sched *self, hart *me) {
    pool *p = (pool *)self;
    int tries = 0;
    while (!atomic_load_explicit(&p->over, memory_order_acquire))
        if (work_once(p, me))
            tries = 0;
        else
            lend_pause(&tries);
}

static void spread(pool *p, hart *me, int n, void (*each)(hart *, void *, int), void *arg) {
    batch of = {.run = each, .arg = arg};
    int tries = 0;
    atomic_init(&of.left, n);
    for (int i = n - 1; i > 0; i--)
        if (!push(&p->deques[me->number], (task){&of, i})) run(me, (task){&of, i});
    run(me, (task){&of, 0});
    while (atomic_load(&of.left) > 0)
        if (work_once(p, me))
            tries = 0;
        else
            lend_pause(&tries);
}

static void open_pool(hart *me, int n, void (*each)(hart *, void *, int), void *arg) {
    _Alignas(64) char room[sizeof(pool) + (size_t)me->harts * sizeof(deque)];
    pool *p = (pool *)room;
    p->as.enter = pool_enter;
    p->as.child_wants = lend_note;
    atomic_init(&p->over, 0);
    for (int h = 0; h < me->harts; h++) {
        atomic_flag_clear(&p->deques[h].lock);
        atomic_init(&p->deques[h].front, 0);
        atomic_init(&p->deques[h].end, 0);
    }
    lend_open(&p->as, me);
    spread(p, me, n, each, arg);
    atomic_store_explicit(&p->over, 1, memory_order_release);
    lend_close(&p->as, me);
}

void forkjoin(hart *me, int n, void (*each)(hart *, void *, int), void *arg) {
    if (n <= 0) return;
    if (me->in->enter == pool_enter)
        spread((pool *)me->in, me, n, each, arg);
    else
        open_pool(me, n, each, arg);
}
