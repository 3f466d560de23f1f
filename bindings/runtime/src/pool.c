/* The ready scheduler: who looks for tasks, who sleeps, who is woken. */
#include "pool.h"
#include <stdlib.h>
#include <string.h>

static int is_met(goal *g) {
    if (g->task) return is_done(g->task);
    if (g->group) return tasks_left(g->group) == 0;
    return atomic_load(&g->of->over);
}

static int is_guest(goal *g) { return !g->task && !g->group; }

static int any_tasks(pool *p) {
    for (int k = 0; k < all.harts; k++)
        if (has_tasks(&p->deques[k])) return 1;
    return 0;
}

/* --- waking ---------------------------------------------------------------------------------------------------------
 * A push looks for a searching hart, and wakes one if there is none. A hart that stops searching goes into the idle set
 * first and looks for tasks again after that. All these steps are sequentially consistent, so a task is never left to
 * sleeping harts. The last searcher that finds a task wakes the next hart if there is more. */

static void wake_up(lithe_sched *s, int h) {
    pool *p = (pool *)s;
    atomic_fetch_or(&p->woken, bit(h));
    atomic_fetch_add(&p->searching, 1);
}

static int was_woken(pool *p) {
    int h = me->number;
    return (atomic_load(&p->woken) & bit(h)) && take_bit(&p->woken, h);
}

__attribute__((noinline)) void offer_slowly(pool *p, int k) {
    for (; k > 0; k--)
        if (!lithe_poke_with(&p->as, wake_up)) break;
    if (k > 0 && lithe_room(&p->as) > 0 && (lithe_callable(&p->as, 0) > 0 || atomic_load(&all.loafers)))
        lithe_call(&p->as, k, wake_up);
}

/* --- working -------------------------------------------------------------------------------------------------------- */

typedef struct running {
    pool *p;
    lithe_group *group;
    lithe_task *task;
    int owner;
} running;

/* The task's memory, or the group's, may be gone as soon as it is counted as done. */
static void complete(running *r) {
    pool *p = r->p;
    if (!r->group) {
        atomic_store((_Atomic uint32_t *)&r->task->done, 1);
        lithe_poke(&p->as, r->owner);
        return;
    }
    uint64_t old = atomic_fetch_sub(state_of(r->group), 1);
    uint32_t waiter = (uint32_t)(old >> COUNT_BITS);
    if ((uint32_t)old != 1 || waiter == 0) return;
    if (waiter == SEVERAL) {
        lithe_poke_all(&p->as);
        lithe_futex_wake(&r->group->state, 1 << 30);
    } else
        lithe_poke(&p->as, (int)waiter - 1);
}

void run_task(pool *p, lithe_task *t) {
    ENDS_BY(complete) running r = {p, t->group, t, t->owner};
    call_user(t->run, t->arg);
}

static lithe_task *steal_any(pool *p) {
    int n = all.harts, h = me->number;
    for (int k = 1; k < n; k++) {
        lithe_task *t = steal(&p->deques[h + k < n ? h + k : h + k - n]);
        if (t) {
            count(LITHE_STEALS);
            return t;
        }
    }
    return NULL;
}

lithe_task *find_task(pool *p) {
    lithe_task *t = pop(own_deque(p));
    return t ? t : steal_any(p);
}

/* A task that a thief has seen once. */
typedef struct sight {
    deque *of;
    long top;
} sight;

/* Steals a task that isn't the only one of its deque, or was seen before. Why: the owner takes back the only task of a short
 * join itself, faster than a thief could do it. */
static lithe_task *steal_settled(pool *p, sight *seen) {
    int n = all.harts, h = me->number;
    for (int k = 1; k < n; k++) {
        deque *d = &p->deques[h + k < n ? h + k : h + k - n];
        long top = atomic_load(&d->top), more = atomic_load(&d->bottom) - top;
        if (more <= 0) continue;
        if (more > 1 || (seen->of == d && seen->top == top)) {
            lithe_task *t = steal(d);
            if (t) count(LITHE_STEALS);
            if (t) return t;
        }
        *seen = (sight){d, top};
        return NULL;
    }
    return NULL;
}

static int should_leave(goal *g) { return is_guest(g) && lithe_wanted_above(&g->of->as); }

/* Looks for a task to steal, for a bounded time. Null also if the goal is met, or harts are wanted elsewhere. Why the last look
 * takes any task: the caller goes on only if there is none. */
static lithe_task *look(goal *g) {
    int64_t end = 0;
    int pauses = 1;
    sight seen = {0};
    for (int i = 1;; i++) {
        deque *last = seen.of;
        lithe_task *t = steal_settled(g->of, &seen);
        if (seen.of != last) pauses = 1;
        if (t || is_met(g)) return t;
        if (may_serve(&g->of->as)) return steal_any(g->of);
        for (int k = 0; k < pauses; k++) lithe_pause();
        if (pauses < 64) pauses *= 2;
        if (i % 8) continue;
        int64_t now = lithe_now_ns();
        if (end == 0) end = now + lithe_spin_ns;
        if (now >= end || should_leave(g)) return steal_any(g->of);
    }
}

static lithe_task *search(goal *g, int counted) {
    pool *p = g->of;
    if (!counted) atomic_fetch_add(&p->searching, 1);
    lithe_task *t = look(g);
    if (atomic_fetch_sub(&p->searching, 1) == 1 && t && any_tasks(p)) offer(p);
    return t;
}

static int should_look(void *arg) {
    goal *g = arg;
    pool *p = g->of;
    return is_met(g) || any_tasks(p) || (atomic_load(&p->woken) & bit(me->number)) || should_leave(g);
}

void work_until(goal g) {
    pool *p = g.of;
    int counted = was_woken(p);
    while (!is_met(&g)) {
        lithe_task *t = counted ? NULL : pop(own_deque(p));
        if (!t) {
            t = search(&g, counted);
            counted = 0;
        }
        if (t) {
            run_task(p, t);
            continue;
        }
        /* Why first the tasks: a push that saw this hart search has woken no other. */
        if (!any_tasks(p) && should_leave(&g)) {
            count(LITHE_LEAVES);
            break;
        }
        if (is_guest(&g))
            lithe_wait_as_guest(&p->as, should_look, &g);
        else
            lithe_wait(&p->as, should_look, &g, 0);
        counted = was_woken(p);
    }
    if (counted) atomic_fetch_sub(&p->searching, counted);
}

static void pool_enter(lithe_sched *self) { work_until((goal){.of = (pool *)self}); }

const lithe_ops pool_ops = {.enter = pool_enter, .name = "pool"};

/* --- regions -------------------------------------------------------------------------------------------------------- */

static pool *take_memory(hart *h) {
    pool *p = h->spare_pool;
    h->spare_pool = NULL;
    if (p) return p;
    size_t size = sizeof(pool) + (size_t)all.harts * sizeof(deque);
    p = aligned_alloc(64, (size + 63) / 64 * 64);
    if (p)
        memset(p, 0, size);
    else
        count(LITHE_NO_MEMORYS);
    return p;
}

static void give_memory(hart *h, pool *p) {
    if (h->spare_pool)
        free(p);
    else
        h->spare_pool = p;
}

static pool *open_pool(void) {
    pool *p = take_memory(me);
    if (!p) return NULL;
    /* The deques are empty: each task of an earlier use was taken. */
    p->groups = p->ends_later = 0;
    atomic_store(&p->over, 0);
    atomic_store(&p->searching, 0);
    atomic_store(&p->woken, 0);
    if (!lithe_open(&p->as, &pool_ops)) {
        give_memory(me, p);
        return NULL;
    }
    /* Why not lithe_want: a push calls a hart, and no hart should come before there is a task. */
    if (p->as.parent->ops->child_requests)
        p->as.parent->ops->child_requests(p->as.parent, &p->as);
    else
        lithe_note(p->as.parent, &p->as);
    return p;
}

int open_region(region *r) {
    if (!lithe_begin()) return 0;
    lithe_settle();
    r->p = current_pool();
    r->owns = !r->p;
    if (r->p || (r->p = open_pool())) return 1;
    lithe_end_call();
    return 0;
}

void close_region(region *r) {
    pool *p = r->p;
    if (!p) return;
    if (r->owns) {
        atomic_store(&p->over, 1);
        lithe_shut(&p->as);
        give_memory(me, p);
    }
    lithe_end_call();
}
