/* Fork-join: two calls, or n of them. */
#include "pool.h"

typedef struct joining {
    lithe_task task;
    pool *p;
    int pending; /* the task is in a deque, or another hart runs it */
} joining;

/* Runs what was pushed after the task and not waited for, then the task, unless a thief has it: then waits. */
static void finish(joining *j, int runs) {
    while (!is_done(&j->task)) {
        lithe_task *t = pop(own_deque(j->p));
        if (t == &j->task) {
            j->pending = 0;
            if (runs) call_user(t->run, t->arg);
            return;
        }
        if (!t) break;
        run_task(j->p, t);
    }
    work_until((goal){.of = j->p, .task = &j->task});
    j->pending = 0;
}

/* The thread ends, or an exception passes. A thief may still be at the task, whose memory is on this stack. */
static void give_up(joining *j) {
    if (UNLIKELY(j->pending)) finish(j, 0);
}

static void join_in(pool *p, void (*a)(void *), void *arg_a, void (*b)(void *), void *arg_b) {
    ENDS_BY(give_up) joining j = {.task = {.run = b, .arg = arg_b, .owner = me->number}, .p = p};
    if (push(own_deque(p), &j.task)) {
        j.pending = 1;
        offer(p);
        call_user(a, arg_a);
        finish(&j, 1);
    } else {
        count(LITHE_IN_PLACE);
        call_user(a, arg_a);
        call_user(b, arg_b);
    }
}

static void join_outside(void (*a)(void *), void *arg_a, void (*b)(void *), void *arg_b) {
    ENDS_BY(close_region) region r = {0};
    if (open_region(&r)) {
        join_in(r.p, a, arg_a, b, arg_b);
    } else {
        r.p = NULL;
        count(LITHE_IN_PLACE);
        a(arg_a);
        b(arg_b);
    }
}

void lithe_join(void (*a)(void *), void *arg_a, void (*b)(void *), void *arg_b) {
    pool *p = current_pool();
    if (p)
        join_in(p, a, arg_a, b, arg_b);
    else
        join_outside(a, arg_a, b, arg_b);
}

typedef struct calls {
    void (*run)(void *);
    void *const *args;
} calls;

static void run_calls(void *arg, long i) {
    calls *c = arg;
    c->run(c->args[i]);
}

void lithe_all(int n, void (*run)(void *), void *const *args) {
    calls c = {run, args};
    lithe_for(n, 1, run_calls, &c);
}
