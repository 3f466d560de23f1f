/* Threads that lend their harts to each other at random sites. Each counts what it did, and the counts add up. */
#include "lithe.h"
#include "must.h"
#include <pthread.h>
#include <sched.h>
#include <stdatomic.h>
#include <string.h>

enum { MOST = 64, LEVELS = 3 };

/* What one thread did. */
typedef struct counts {
    unsigned long registered, asked, entered, yielded, ended, not_wanted, moved, not_empty;
} counts;

typedef struct roamer {
    lithe_hart hart;
    int number;
    unsigned seed;
    counts did;
    char apart[128];
} roamer;

static roamer roamers[MOST];
static int harts, rounds;
/* For each site how many guests the threads themselves count, and how many entered since it was registered. */
static atomic_int inside[MOST * LEVELS + 1], came[MOST * LEVELS + 1];

static unsigned chance(roamer *me, unsigned below) {
    me->seed = me->seed * 1103515245u + 12345u;
    return (me->seed >> 16) % below;
}

static void lead(roamer *me, int depth);

/* Tries each site in turn, and works in those that it enters. */
static void visit(roamer *me, int depth) {
    unsigned sites = (unsigned)(harts * LEVELS), from = chance(me, sites);
    uint16_t before = lithe_owner(&me->hart);
    for (unsigned k = 0; k < sites; k++) {
        uint16_t site = (uint16_t)(1 + (from + k) % sites);
        lithe_status status = lithe_enter(&me->hart, site);
        if (status == LITHE_DONE) {
            me->did.entered++;
            atomic_fetch_add(&inside[site], 1);
            atomic_fetch_add(&came[site], 1);
            MUST(lithe_owner(&me->hart) == site);
            lead(me, depth);
            atomic_fetch_sub(&inside[site], 1);
            MUST(lithe_yield(&me->hart) == LITHE_DONE);
            me->did.yielded++;
            MUST(lithe_owner(&me->hart) == before);
        } else if (status == LITHE_MOVED) {
            me->did.moved++;
        } else {
            MUST(status == LITHE_NOT_WANTED);
            me->did.not_wanted++;
        }
    }
}

/* Opens a site, asks for some harts, visits sites below, and ends it. */
static void lead(roamer *me, int depth) {
    uint16_t site = 0, before = lithe_owner(&me->hart);
    if (depth == 0) return;
    lithe_status status = lithe_register(&me->hart, &site);
    if (status == LITHE_TOO_DEEP) return;
    MUST(status == LITHE_DONE && site > me->number * LEVELS && site <= (me->number + 1) * LEVELS);
    me->did.registered++;
    atomic_store(&came[site], 0);
    unsigned asked = chance(me, (unsigned)harts);
    MUST(lithe_request(&me->hart, (uint8_t)asked) == LITHE_DONE);
    me->did.asked += asked;
    /* So that others see the site while it is open. */
    for (unsigned k = chance(me, 4); k > 0; k--) sched_yield();
    visit(me, depth - 1);
    MUST(lithe_close(&me->hart) == LITHE_DONE);
    while ((status = lithe_see_empty(&me->hart)) == LITHE_NOT_EMPTY) {
        me->did.not_empty++;
        sched_yield();
    }
    MUST(status == LITHE_DONE && atomic_load(&inside[site]) == 0);
    MUST(atomic_load(&came[site]) <= (int)asked);
    MUST(lithe_unregister(&me->hart) == LITHE_DONE);
    me->did.ended++;
    MUST(lithe_owner(&me->hart) == before);
}

static void *roam(void *arg) {
    roamer *me = arg;
    for (int round = 0; round < rounds; round++) {
        lead(me, LEVELS);
        visit(me, LEVELS);
    }
    return NULL;
}

int main(int count, char **words) {
    pthread_t threads[MOST];
    lithe_hart made[MOST];
    counts all;
    harts = count > 1 ? atoi(words[1]) : 8;
    rounds = count > 2 ? atoi(words[2]) : 1000;
    MUST(harts >= 1 && harts <= MOST);
    memset(&all, 0, sizeof all);
    MUST(lithe_make(made, (size_t)harts, LEVELS) == LITHE_DONE);
    for (int h = 0; h < harts; h++) {
        roamers[h].hart = made[h];
        roamers[h].number = h;
        roamers[h].seed = 77u * (unsigned)h + 1;
    }
    for (int h = 0; h < harts; h++) MUST(pthread_create(&threads[h], NULL, roam, &roamers[h]) == 0);
    for (int h = 0; h < harts; h++) {
        pthread_join(threads[h], NULL);
        counts *one = &roamers[h].did;
        all.registered += one->registered;
        all.asked += one->asked;
        all.entered += one->entered;
        all.yielded += one->yielded;
        all.ended += one->ended;
        all.moved += one->moved;
        made[h] = roamers[h].hart;
        MUST(lithe_owner(&made[h]) == 0);
    }
    for (int site = 1; site <= harts * LEVELS; site++) MUST(atomic_load(&inside[site]) == 0);
    MUST(all.registered >= (unsigned long)harts * (unsigned long)rounds && all.ended == all.registered);
    MUST(all.entered == all.yielded && all.entered <= all.asked);
    MUST(lithe_end(made, (size_t)harts) == LITHE_DONE);
    printf("%2d threads: %lu sites, %lu harts asked for, %lu entered and yielded, %lu moved\n", harts, all.registered,
           all.asked, all.entered, all.moved);
    return 0;
}
