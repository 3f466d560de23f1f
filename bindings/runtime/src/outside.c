/* Threads from outside: each takes a free hart's seat while it is inside. */
#include "rt.h"
#include <fcntl.h>
#include <stdio.h>
#include <string.h>
#include <unistd.h>

/* The hart that a thread from outside left with a site open, and the number of its stay, to know it again. */
__thread hart *mine __attribute__((tls_model("initial-exec")));
static __thread uint64_t my_stay __attribute__((tls_model("initial-exec")));
static _Atomic uint64_t stays, stay_of[LITHE_MAX_HARTS];

void forget_stays(void) {
    mine = NULL;
    my_stay = 0;
}

/* Whether the thread sleeps, as /proc reports. */
static int sleeps(int tid) {
    char name[64], text[256];
    snprintf(name, sizeof name, "/proc/self/task/%d/stat", tid);
    int file = open(name, O_RDONLY | O_CLOEXEC);
    if (file < 0) return 1;
    ssize_t n = read(file, text, sizeof text - 1);
    close(file);
    if (n <= 0) return 1;
    text[n] = 0;
    char *end = strrchr(text, ')');
    return end && end[1] && end[2] == 'S';
}

/* Makes the hart of a thread that is outside the current one. */
static int rob(int h) {
    int out = OUTSIDE;
    if (atomic_load(&all.hart[h].state) != OUTSIDE) return 0;
    if (all.sticky && !sleeps(atomic_load(&all.hart[h].tid))) return 0;
    if (!atomic_compare_exchange_strong(&all.hart[h].state, &out, INSIDE)) return 0;
    me = &all.hart[h];
    lithe_sched *s = me->left_open;
    me->left_open = NULL;
    if (s) s->ops->settle(s, 1);
    return 1;
}

int lithe_reclaim(void) {
    static _Atomic int64_t last;
    int64_t now, then = atomic_load(&last);
    int got = 0;
    if (!make_all() || !all.sticky || (now = lithe_now_ns()) - then < 20000) return 0;
    if (!atomic_compare_exchange_strong(&last, &then, now)) return 0;
    for (int h = 0; h < all.harts; h++) {
        hart *old = me;
        if (rob(h)) {
            release_seat();
            got++;
        }
        me = old;
    }
    return got;
}

static int take_seat(void) {
    _Atomic uint64_t *idle = &all.place[0].idle;
    for (uint64_t set; (set = atomic_load(idle));) {
        int h = __builtin_ctzll(set);
        if (!take_bit(idle, h)) continue;
        become(&all.hart[h]);
        return 1;
    }
    /* None is idle. Another thread from outside may have left one behind. */
    for (int h = 0; h < all.harts; h++)
        if (rob(h)) return 1;
    return 0;
}

/* The thread left with a site open. If no thread took its hart, it goes on with it. */
static int come_back(void) {
    hart *h = mine;
    int out = OUTSIDE;
    mine = NULL;
    if (atomic_load(&stay_of[h->number]) != my_stay) return 0;
    if (!atomic_compare_exchange_strong(&h->state, &out, INSIDE)) return 0;
    if (atomic_load(&stay_of[h->number]) == my_stay) {
        me = h;
        me->depth = 1;
        return 1;
    }
    atomic_store(&h->state, OUTSIDE);
    return 0;
}

int lithe_begin(void) {
    if (me) {
        me->depth++;
        return 1;
    }
    if (!make_all()) return 0;
    if (mine && come_back()) return 1;
    if (!take_seat()) return 0;
    me->external = 1;
    me->depth = 1;
    atomic_store(&me->state, INSIDE);
    my_stay = atomic_fetch_add(&stays, 1) + 1;
    atomic_store(&stay_of[me->number], my_stay);
    return 1;
}

uint64_t lithe_stay(void) { return my_stay; }

void release_seat(void) {
    hart *h = me;
    me = NULL;
    h->external = 0;
    atomic_store(&h->state, AT_BASE);
    rest_at_base(h);
}

void lithe_end_call(void) {
    if (--me->depth > 0 || !me->external) return;
    if (me->left_open || all.sticky) {
        mine = me;
        watch_exit(me);
        me = NULL;
        atomic_store(&mine->state, OUTSIDE);
        return;
    }
    release_seat();
}

void leave_for_good(void *arg) {
    (void)arg;
    if (!mine || lithe_begin() == 0) return;
    lithe_settle();
    if (--me->depth == 0) release_seat();
}

void lithe_linger(lithe_sched *s) { me->left_open = s; }

void lithe_settle(void) {
    while (me && me->left_open) {
        lithe_sched *s = me->left_open;
        me->left_open = NULL;
        s->ops->settle(s, 0);
    }
}

void lithe_task_end(void *old) {
    lithe_settle();
    if (lithe_client) lithe_client_end(lithe_client);
    lithe_client = old;
}
