/* Fails if a construct runs in order, and if a hart that is idle in one site doesn't come to another. Two bodies meet: each
 * waits until the other has begun. */
#define _GNU_SOURCE
#include "lithe_rt.h"
#include "must.h"
#include <pthread.h>
#include <stdatomic.h>
#include <time.h>
#include <unistd.h>

static _Atomic int here;

static void meet_n(int n) {
    int64_t end = lithe_now_ns() + 20000000000;
    atomic_fetch_add(&here, 1);
    while (atomic_load(&here) < n) {
        MUST(lithe_now_ns() < end);
        usleep(20);
    }
}

static void meet(void *arg) { meet_n((int)(size_t)arg); }
static void meet_i(void *arg, long i) {
    (void)i;
    meet(arg);
}
static void nothing(void *arg) { (void)arg; }

static void join_meets(void *arg) {
    (void)arg;
    here = 0;
    lithe_join(meet, (void *)2, meet, (void *)2);
}

static void loop_meets(int n) {
    here = 0;
    lithe_for(n, 1, meet_i, (void *)(size_t)n);
}

static void group_meets(int n) {
    lithe_group group;
    lithe_task tasks[64];
    lithe_group_init(&group);
    here = 0;
    for (int i = 0; i < n; i++) lithe_spawn(&group, &tasks[i], meet, (void *)(size_t)n);
    lithe_group_wait(&group);
}

/* One thread holds its region open over a long body, while its guests are idle in it. Another region gets one of them. A round
 * in which either thread finds no hart at the base doesn't count: it works alone. */
static _Atomic int opened, may_end;
static int counted;
static void hold(void *arg) {
    (void)arg;
    opened = 1;
    while (!may_end) usleep(100);
}
static void *holder(void *arg) {
    (void)arg;
    if (!lithe_begin()) {
        opened = -1;
        return NULL;
    }
    loop_meets(2); /* calls a hart */
    lithe_join(hold, NULL, nothing, NULL);
    lithe_end_call();
    return NULL;
}
static void leaves(void) {
    pthread_t thread;
    opened = may_end = 0;
    MUST(pthread_create(&thread, NULL, holder, NULL) == 0);
    while (!opened) usleep(100);
    usleep(20000);
    if (opened > 0 && lithe_begin()) {
        join_meets(NULL);
        lithe_end_call();
        counted++;
    }
    may_end = 1;
    pthread_join(thread, NULL);
}

/* Guests that left come back when there is work again. The loop below needs them all. */
static void come_back(void *arg) {
    int n = (int)(size_t)arg;
    for (int k = 0; k < 20; k++) {
        loop_meets(n);
        usleep(k % 5 * 200);
    }
}

int main(void) {
    int n = lithe_count();
    MUST(n >= 2);
    for (int k = 0; k < 20; k++) {
        join_meets(NULL);
        loop_meets(n);
        group_meets(n);
        lithe_join(join_meets, NULL, nothing, NULL);
        lithe_join(come_back, (void *)(size_t)n, nothing, NULL);
        if (n > 2) leaves();
    }
    printf("parallel: bodies met on %d harts, %d of 20 rounds with two regions\n", n, counted);
    return 0;
}
