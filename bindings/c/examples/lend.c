/* The base scheduler: it owns the threads, and lends each hart to the children of the base. */
#define _GNU_SOURCE
#include "lend.h"
#include <pthread.h>
#include <sched.h>
#include <stdlib.h>

/* The scheduler of each live site. A home writes it before it asks for harts, and a guest reads it after it entered. */
static sched **scheds;

typedef struct base {
    sched as;
    atomic_int over;
    hart *harts;
} base;

void lend_pause(int *tries) {
    if (++*tries < 200)
        __builtin_ia32_pause();
    else
        sched_yield();
}

void lend_note(sched *self, hart *me, uint16_t site) { atomic_store(&self->wanting[me->number], site); }

void lend_open(sched *self, hart *me) {
    self->parent = me->in;
    for (int h = 0; h < me->harts; h++) atomic_init(&self->wanting[h], 0);
    if (lithe_register(&me->at, &self->site) != LITHE_DONE) abort();
    scheds[self->site] = self;
    me->in = self;
    if (lithe_request(&me->at, (uint8_t)(me->harts - 1)) != LITHE_DONE) abort();
    self->parent->child_wants(self->parent, me, self->site);
}

void lend_close(sched *self, hart *me) {
    int tries = 0;
    lithe_status status;
    self->parent->child_wants(self->parent, me, 0);
    if (lithe_close(&me->at) != LITHE_DONE) abort();
    while ((status = lithe_unregister(&me->at)) == LITHE_NOT_EMPTY)
        if (lend_help(self, me))
            tries = 0;
        else
            lend_pause(&tries);
    if (status != LITHE_DONE) abort();
    me->in = self->parent;
}

int lend_help(sched *self, hart *me) {
    for (int k = 1; k < me->harts; k++) {
        uint16_t site = atomic_load_explicit(&self->wanting[(me->number + k) % me->harts], memory_order_relaxed);
        if (site == 0 || lithe_enter(&me->at, site) != LITHE_DONE) continue;
        me->in = scheds[site];
        me->in->enter(me->in, me);
        me->in = self;
        if (lithe_yield(&me->at) != LITHE_DONE) abort();
        return 1;
    }
    return 0;
}

static void base_enter(sched *self, hart *me) {
    int tries = 0;
    while (!atomic_load(&((base *)self)->over))
        if (lend_help(self, me))
            tries = 0;
        else
            lend_pause(&tries);
}

static void *run_hart(void *arg) {
    hart *me = arg;
    me->in->enter(me->in, me);
    return NULL;
}

lithe_status lend_run(int harts, int levels, void (*program)(hart *, void *), void *arg) {
    static base all;
    pthread_t threads[MAX_HARTS];
    lithe_hart made[MAX_HARTS];
    lithe_status status = lithe_make(made, (size_t)harts, (uint8_t)levels);
    if (status != LITHE_DONE) return status;
    scheds = calloc((size_t)(harts * levels + 1), sizeof *scheds);
    all.harts = calloc((size_t)harts, sizeof *all.harts);
    if (!scheds || !all.harts) abort();
    all.as = (sched){.enter = base_enter, .child_wants = lend_note};
    atomic_store(&all.over, 0);
    for (int h = 0; h < harts; h++)
        all.harts[h] = (hart){.at = made[h], .number = h, .harts = harts, .in = &all.as};
    for (int h = 1; h < harts; h++)
        if (pthread_create(&threads[h], NULL, run_hart, &all.harts[h]) != 0) abort();
    program(&all.harts[0], arg);
    atomic_store(&all.over, 1);
    for (int h = 1; h < harts; h++) pthread_join(threads[h], NULL);
    for (int h = 0; h < harts; h++) made[h] = all.harts[h].at;
    status = lithe_end(made, (size_t)harts);
    free(all.harts);
    free(scheds);
    return status;
}
