/* SCHEDULER.md walks through this file. */
#include "priority.h"

/* --- the heap ------------------------------------------------------------------------------------------------------ */

static void swap(job *a, job *b) {
    job c = *a;
    *a = *b;
    *b = c;
}

static int add(queue *q, job j) {
    lithe_mutex_lock(&q->lock);
    int k = q->count, room = k < QUEUE_ROOM;
    if (room) {
        q->heap[q->count++] = j;
        for (; k > 0 && q->heap[(k - 1) / 2].priority < q->heap[k].priority; k = (k - 1) / 2)
            swap(&q->heap[(k - 1) / 2], &q->heap[k]);
        atomic_fetch_add(&q->ready, 1);
    }
    lithe_mutex_unlock(&q->lock);
    return room;
}

static void sink(queue *q) {
    for (int k = 0;;) {
        int most = k;
        for (int below = 2 * k + 1; below < 2 * k + 3 && below < q->count; below++)
            if (q->heap[below].priority > q->heap[most].priority) most = below;
        if (most == k) return;
        swap(&q->heap[k], &q->heap[most]);
        k = most;
    }
}

static int take(queue *q, job *j) {
    lithe_mutex_lock(&q->lock);
    int some = q->count > 0;
    if (some) {
        *j = q->heap[0];
        q->heap[0] = q->heap[--q->count];
        sink(q);
        atomic_fetch_sub(&q->ready, 1);
    }
    lithe_mutex_unlock(&q->lock);
    return some;
}

/* --- what a hart does ------------------------------------------------------------------------------------------------ */

static void run(queue *q, job j) {
    void *old = lithe_task_begin();
    j.run(q, j.arg);
    lithe_task_end(old);
    if (atomic_fetch_sub(&q->left, 1) == 1 && q->is_open) lithe_poke_all(&q->as);
}

static int home_ready(void *arg) {
    queue *q = arg;
    return atomic_load(&q->ready) > 0 || atomic_load(&q->left) == 0;
}

static void work_as_home(queue *q) {
    for (job j; atomic_load(&q->left) > 0;) {
        if (take(q, &j))
            run(q, j);
        else
            lithe_wait(&q->as, home_ready, q, 0);
    }
}

static int guest_ready(void *arg) {
    queue *q = arg;
    return home_ready(q) || lithe_wanted_above(&q->as);
}

static void enter(lithe_sched *self) {
    queue *q = (queue *)self;
    for (job j; atomic_load(&q->left) > 0;) {
        if (take(q, &j))
            run(q, j);
        else if (lithe_wanted_above(self))
            return;
        else
            lithe_wait_as_guest(self, guest_ready, q);
    }
}

static const lithe_ops queue_ops = {.enter = enter, .name = "queue"};

/* --- what the program calls ------------------------------------------------------------------------------------------ */

void queue_put(queue *q, job j) {
    atomic_fetch_add(&q->left, 1);
    if (!add(q, j)) {
        run(q, j);
        return;
    }
    if (q->is_open && !lithe_poke_with(&q->as, NULL)) lithe_call(&q->as, 1, NULL);
}

static void run_alone(queue *q, job first) {
    q->is_open = 0;
    queue_put(q, first);
    for (job j; take(q, &j);) run(q, j);
}

static void run_with_others(queue *q, job first) {
    q->is_open = 1;
    lithe_want(&q->as);
    queue_put(q, first);
    work_as_home(q);
    lithe_shut(&q->as);
}

void queue_run(queue *q, job first) {
    q->lock = (lithe_mutex)LITHE_MUTEX_INIT;
    q->count = 0;
    atomic_store(&q->ready, 0);
    atomic_store(&q->left, 0);
    if (!lithe_begin()) {
        run_alone(q, first);
        return;
    }
    lithe_settle();
    if (lithe_open(&q->as, &queue_ops))
        run_with_others(q, first);
    else
        run_alone(q, first);
    lithe_end_call();
}
