/* A pending task of a pool, and a child site that wants harts, at one time: each idle hart takes one of them, and none spins
 * over both. */
#define _GNU_SOURCE
#include "lithe_rt.h"
#include "must.h"
#include <stdatomic.h>
#include <unistd.h>

typedef struct child {
    lithe_sched as;
    _Atomic int here, is_over;
} child;

static int is_over(void *arg) { return ((child *)arg)->is_over; }

static void enter(lithe_sched *self) {
    child *c = (child *)self;
    c->here++;
    lithe_wait(self, is_over, c, 0);
}

static const lithe_ops ops = {.enter = enter, .name = "child"};

static _Atomic int stage; /* 1: the task runs; 2: it may end */

static void open_child(void *arg) {
    child c = {.here = 0};
    int64_t end = lithe_now_ns() + 60000000000;
    (void)arg;
    MUST(lithe_open(&c.as, &ops));
    lithe_want(&c.as);
    /* One hart runs the task, and stays in it. The others come here. */
    while (c.here < lithe_count() - 2 || stage != 1) {
        MUST(lithe_now_ns() < end);
        usleep(50);
    }
    c.is_over = 1;
    lithe_poke_all(&c.as);
    lithe_shut(&c.as);
    stage = 2;
}

static void pending(void *arg) {
    (void)arg;
    stage = 1;
    while (stage != 2) usleep(50);
}

int main(void) {
    MUST(lithe_count() > 1);
    for (int i = 0; i < 100; i++) {
        stage = 0;
        lithe_join(open_child, NULL, pending, NULL);
    }
    printf("children: a task and a child site, on %d harts\n", lithe_count());
    return 0;
}
