/* What the two example libraries share: threads that are harts, and the callbacks of a scheduler. */
#ifndef LEND_H
#define LEND_H
#include "lithe.h"
#include <stdatomic.h>

enum { MAX_HARTS = 64 };

typedef struct sched sched;

/* A thread with its hart. `in` is the scheduler of the site that the hart is in. */
typedef struct hart {
    lithe_hart at;
    int number;
    int harts;
    sched *in;
    char apart[128];
} hart;

/* A scheduler: all that its children and the harts know of it. */
struct sched {
    sched *parent;
    uint16_t site;
    /* A hart that the parent lends works here, and returns when there is nothing more for it. */
    void (*enter)(sched *self, hart *me);
    /* A child that hart `me` opened wants harts at this site, or wants no more (site 0). */
    void (*child_wants)(sched *self, hart *me, uint16_t site);
    /* For lend_help: the site that wants harts and whose home is hart h, or 0. */
    _Atomic uint16_t wanting[MAX_HARTS];
};

/* Opens a site for `self` below the scheduler that the hart is in, and asks there for all other harts. */
void lend_open(sched *self, hart *me);
/* Closes the site. Helps below it until all guests have left, then ends it. */
void lend_close(sched *self, hart *me);
/* Lends the hart to one child of `self` that wants it. Returns 0 if no child took it. */
int lend_help(sched *self, hart *me);
/* What a scheduler has for child_wants if it notes the wishes for lend_help. */
void lend_note(sched *self, hart *me, uint16_t site);
/* Waits a moment; `tries` counts the moments since the last success. */
void lend_pause(int *tries);

/* Makes `harts` harts, each with a thread, and runs program(hart 0, arg). Returns a status. */
lithe_status lend_run(int harts, int levels, void (*program)(hart *, void *), void *arg);
#endif
