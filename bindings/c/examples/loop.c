/* Loops whose chunks are claimed by one counter. */
#include "loop.h"

/* One loop. A hart that finds no chunk left lends itself to what the bodies opened below, and leaves. */
typedef struct team {
    sched as;
    long n, chunk;
    void (*body)(hart *, void *, long);
    double (*term)(hart *, void *, long);
    void *arg;
    struct {
        double sum;
        char apart[56];
    } sums[MAX_HARTS];
    _Alignas(64) atomic_long next;
} team;

/* Claims chunks until none is left. */
static void claim(team *t, hart *me) {
    for (;;) {
        long from = atomic_fetch_add(&t->next, t->chunk);
        if (from >= t->n) return;
        long to = t->n - from < t->chunk ? t->n : from + t->chunk;
        if (t->body) {
            for (long i = from; i < to; i++) t->body(me, t->arg, i);
        } else {
            double sum = 0;
            for (long i = from; i < to; i++) sum += t->term(me, t->arg, i);
            t->sums[me->number].sum += sum;
        }
    }
}

static void team_enter(sched *self, hart *me) {
    claim((team *)self, me);
    /* The last bodies may have opened sites of their own. */
    while (lend_help(self, me)) {
    }
}

/* The home claims chunks as its guests do; lend_close waits until these have left. */
static void run(team *t, hart *me) {
    t->as.enter = team_enter;
    t->as.child_wants = lend_note;
    atomic_init(&t->next, 0);
    lend_open(&t->as, me);
    claim(t, me);
    lend_close(&t->as, me);
}

void loop(hart *me, long n, long chunk, void (*body)(hart *, void *, long), void *arg) {
    team t;
    t.n = n;
    t.chunk = chunk < 1 ? 1 : chunk;
    t.body = body;
    t.term = 0;
    t.arg = arg;
    if (n > 0) run(&t, me);
}

double loop_sum(hart *me, long n, long chunk, double (*body)(hart *, void *, long), void *arg) {
    team t;
    t.n = n;
    t.chunk = chunk < 1 ? 1 : chunk;
    t.body = 0;
    t.term = body;
    t.arg = arg;
    for (int h = 0; h < me->harts; h++) t.sums[h].sum = 0;
    if (n > 0) run(&t, me);
    double all = 0;
    for (int h = 0; h < me->harts; h++) all += t.sums[h].sum;
    return all;
}
