/* The queue alone, over the ready loops and below them. */
#define _GNU_SOURCE
#include "../tests/must.h"
#include "priority.h"
#include <unistd.h>

static int order[8], ran;

static void note(queue *q, void *arg) {
    (void)q;
    order[ran++] = (int)(size_t)arg;
}

static void put_in_disorder(queue *q, void *arg) {
    static const int levels[] = {3, 7, 1, 6, 2, 5, 0, 4};
    (void)arg;
    for (int i = 0; i < 8; i++) queue_put(q, (job){levels[i], note, (void *)(size_t)levels[i]});
}

/* On one hart the order is exact. */
static void highest_first(void) {
    static queue q;
    ran = 0;
    queue_run(&q, (job){9, put_in_disorder, NULL});
    for (int i = 0; i < 8; i++) MUST(order[i] == 7 - i);
}

static _Atomic long sum;
static void add(void *arg, long i) {
    (void)arg;
    atomic_fetch_add(&sum, i);
}

/* Each job runs a loop, whose pool is a child of the queue: harts that are idle in the queue go there. */
static void split(queue *q, void *arg) {
    long level = (long)(size_t)arg;
    lithe_for(10, 1, add, NULL);
    for (int i = 0; i < 2 && level > 0; i++) queue_put(q, (job){(int)level, split, (void *)(size_t)(level - 1)});
}

static void many(void *arg) {
    queue *q = arg;
    queue_run(q, (job){0, split, (void *)7});
}

static _Atomic int here;
static void meet(queue *q, void *arg) {
    (void)q, (void)arg;
    atomic_fetch_add(&here, 1);
    for (int k = 0; atomic_load(&here) < 2; k++) {
        MUST(k < 100000);
        usleep(100);
    }
}
static void two(queue *q, void *arg) {
    (void)arg;
    queue_put(q, (job){1, meet, NULL});
    queue_put(q, (job){1, meet, NULL});
}

static void fill(queue *q, void *arg) {
    (void)arg;
    for (int i = 0; i < QUEUE_ROOM + 100; i++) queue_put(q, (job){0, split, (void *)0});
}

int main(void) {
    static queue q[2];
    if (lithe_count() == 1) highest_first();
    for (int round = 0; round < 50; round++) {
        sum = 0;
        many(&q[0]);
        MUST(sum == 255 * 45); /* 1 + 2 + ... + 2^7 jobs */
        sum = 0;
        lithe_join(many, &q[0], many, &q[1]); /* two queues below a pool */
        MUST(sum == 2 * 255 * 45);
        here = 0;
        if (lithe_count() > 1) queue_run(&q[0], (job){0, two, NULL});
    }
    sum = 0;
    queue_run(&q[0], (job){0, fill, NULL});
    MUST(sum == (QUEUE_ROOM + 100) * 45 && lithe_count_of(LITHE_REFUSALS) == 0);
    printf("priority: a queue alone, over loops and below a join, on %d harts\n", lithe_count());
    return 0;
}
