/* Groups: tasks spawned one by one, and waited for together. */
#include "pool.h"

static pool *_Atomic *pool_of(lithe_group *g) { return (pool *_Atomic *)&g->pool; }

/* A thread is known by the address of its `me`. */
void lithe_group_init(lithe_group *g) { *g = (lithe_group){.maker = &me}; }

/* The pool that takes the group's tasks; null if the task must run in place. */
static pool *pool_for(lithe_group *g) {
    pool *p = current_pool(), *is = atomic_load(pool_of(g));
    if (is) return p == is ? p : NULL;
    if (g->maker != &me) return NULL;
    region r = {0};
    if (!p) {
        if (!open_region(&r)) return NULL;
        g->owns = 1;
        p = r.p;
    }
    atomic_store(pool_of(g), p);
    if (me->number == p->as.home) p->groups++;
    return p;
}

int lithe_group_open(lithe_group *g) { return pool_for(g) != NULL; }

static void in_place(void (*run)(void *), void *arg) {
    count(LITHE_IN_PLACE);
    if (me)
        call_user(run, arg);
    else
        run(arg);
}

void lithe_spawn(lithe_group *g, lithe_task *t, void (*run)(void *), void *arg) {
    pool *p = pool_for(g);
    *t = (lithe_task){.run = run, .arg = arg, .group = g, .owner = me ? me->number : 0};
    if (!p) {
        in_place(run, arg);
        return;
    }
    atomic_fetch_add(state_of(g), 1);
    if (push(own_deque(p), t)) {
        offer(p);
        return;
    }
    /* Why the task is run as one of the pool: it is counted already. */
    count(LITHE_IN_PLACE);
    run_task(p, t);
}

/* Registers who is to be woken. 0: the group is done already. */
static int announce(lithe_group *g, uint64_t waiter) {
    uint64_t old = atomic_load(state_of(g));
    while ((uint32_t)old > 0) {
        uint64_t is = old >> COUNT_BITS, next = is == 0 || is == waiter ? waiter : SEVERAL;
        if (atomic_compare_exchange_weak(state_of(g), &old, next << COUNT_BITS | (uint32_t)old)) return 1;
    }
    return 0;
}

/* The caller is below another scheduler, or isn't a hart. It runs the group's pool's tasks as long as it finds some. */
static void wait_elsewhere(lithe_group *g, pool *p) {
    uint32_t left;
    announce(g, SEVERAL);
    while ((left = tasks_left(g)) > 0) {
        lithe_task *t = me ? find_task(p) : NULL;
        if (t)
            run_task(p, t);
        else
            lithe_futex_wait(&g->state, left, 1000000);
    }
}

/* The group that opened the pool shuts it; or the last one does, if others have begun meanwhile. */
static void end_group(lithe_group *g, pool *p) {
    if (me->number != p->as.home) return;
    p->groups--;
    if (g->owns) p->ends_later = 1;
    if (!p->ends_later || p->groups > 0 || me->in != &p->as) return;
    close_region(&(region){p, 1});
}

void lithe_group_wait(lithe_group *g) {
    pool *p = g->pool;
    if (!p) return;
    if (current_pool() != p) {
        wait_elsewhere(g, p);
    } else if (announce(g, (uint64_t)me->number + 1)) {
        work_until((goal){.of = p, .group = g});
    }
    if (me) end_group(g, p);
    lithe_group_init(g);
}
