/* Two hangs, and their mends. HANGS.md walks through what they look like.
 *
 *   hang parts     8 bodies of a loop wait for each other, and there are fewer harts
 *   hang locks     the two sides of a join lock two mutexes, each in another order
 *   hang mended    both without the mistake
 */
#define _GNU_SOURCE
#include "lithe_rt.h"
#include <stdio.h>
#include <string.h>
#include <unistd.h>

enum { PARTS = 8 };
static long cell[PARTS], sum[PARTS];
static _Atomic int computed;

static void compute(void *arg, long i) {
    (void)arg;
    cell[i] = i * i;
}

static void add_up(void *arg, long i) {
    (void)arg;
    for (int k = 0; k < PARTS; k++) sum[i] += cell[k];
}

static void part(void *arg, long i) {
    compute(arg, i);
    computed++;
    while (computed < PARTS) usleep(1000); /* for the cells of the other parts */
    add_up(arg, i);
}

static void parts(void) { lithe_for(PARTS, 1, part, NULL); }

static void parts_mended(void) {
    lithe_for(PARTS, 1, compute, NULL);
    lithe_for(PARTS, 1, add_up, NULL);
}

static lithe_mutex in = LITHE_MUTEX_INIT, out = LITHE_MUTEX_INIT;
static long taken, given;
static _Atomic int locked;

/* Only so that the hang comes in each run. */
static void meet(void) {
    locked++;
    while (locked < 2) usleep(1000);
}

static void take(void *arg) {
    (void)arg;
    lithe_mutex_lock(&in);
    meet();
    lithe_mutex_lock(&out);
    taken++;
    lithe_mutex_unlock(&out);
    lithe_mutex_unlock(&in);
}

static void give(void *arg) {
    (void)arg;
    lithe_mutex_lock(&out);
    meet();
    lithe_mutex_lock(&in);
    given++;
    lithe_mutex_unlock(&in);
    lithe_mutex_unlock(&out);
}

static void give_mended(void *arg) {
    (void)arg;
    lithe_mutex_lock(&in);
    lithe_mutex_lock(&out);
    given++;
    lithe_mutex_unlock(&out);
    lithe_mutex_unlock(&in);
}

int main(int count, char **words) {
    const char *which = count > 1 ? words[1] : "mended";
    if (!strcmp(which, "parts")) {
        parts();
    } else if (!strcmp(which, "locks")) {
        lithe_join(take, NULL, give, NULL);
    } else {
        parts_mended();
        locked = 1; /* `take` meets no other side */
        lithe_join(take, NULL, give_mended, NULL);
    }
    printf("%ld %ld %ld\n", sum[PARTS - 1], taken, given);
    return 0;
}
