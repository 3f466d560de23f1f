/* Idle sets: harts that wait in a site, for messages and for children that want harts. */
#include "rt.h"

int may_serve(lithe_sched *x) {
    place *here = place_of(x);
    for (uint64_t w = atomic_load(&here->wishers); w; w &= w - 1)
        if (atomic_load(&all.place[atomic_load(&here->wish[__builtin_ctzll(w)])].tokens) > 0) return 1;
    return 0;
}

/* Lends the hart to the child of `x` that home `h` has, if the child wants one. */
static int serve_one(lithe_sched *x, int h) {
    place *p = &all.place[atomic_load(&place_of(x)->wish[h])];
    if (!take_tokens(p, 1)) return 0;
    /* Why after the token: it keeps the site open. The number may have been registered anew, elsewhere. */
    if (p->sched->parent != x) {
        give_tokens(p, 1);
        return 0;
    }
    lend(x, p->sched);
    return 1;
}

int lithe_serve(lithe_sched *x) {
    uint64_t w = atomic_load(&place_of(x)->wishers);
    if (w == 0) return 0;
    for (int k = 1; k <= all.harts; k++) {
        int h = (me->number + k) % all.harts;
        if ((w & bit(h)) && serve_one(x, h)) return 1;
    }
    return 0;
}

/* 1 if `x` has a child with a wish, other than the one on the way to the current hart. */
static int wants_beside(lithe_sched *x, lithe_sched *way) {
    place *here = place_of(x);
    for (uint64_t w = atomic_load(&here->wishers); w; w &= w - 1) {
        uint16_t site = atomic_load(&here->wish[__builtin_ctzll(w)]);
        if (site != way->site && atomic_load(&all.place[site].tokens) > 0) return 1;
    }
    return 0;
}

int lithe_wanted_above(lithe_sched *s) {
    for (; s != &all.base; s = s->parent)
        if (wants_beside(s->parent, s)) return 1;
    return 0;
}

int lithe_wait(lithe_sched *s, int (*ready)(void *), void *arg, int timed) {
    _Atomic uint64_t *idle = &place_of(s)->idle;
    int h = me->number;
    for (;;) {
        if (ready(arg)) return 1;
        if (lithe_serve(s)) continue;
        atomic_fetch_or(idle, bit(h));
        /* What makes the hart go on may have come before it was seen to be idle. */
        if ((ready(arg) || may_serve(s)) && take_bit(idle, h)) continue;
        uint64_t m = 0;
        if (timed) {
            m = spin_for(&me->inside, lithe_spin_ns);
            if (!m && take_bit(idle, h)) return 0;
        }
        if (!m) m = receive(&me->inside);
        if (m != POKE) lend(s, (lithe_sched *)(uintptr_t)(m >> 1));
    }
}

void lithe_wait_as_guest(lithe_sched *s, int (*ready)(void *), void *arg) {
    atomic_store(&me->loaf_site, s->site);
    atomic_fetch_or(&all.loafers, bit(me->number));
    lithe_wait(s, ready, arg, 0);
    atomic_fetch_and(&all.loafers, ~bit(me->number));
}

uint64_t lithe_idle(lithe_sched *s) { return atomic_load(&place_of(s)->idle); }

void lithe_poke(lithe_sched *s, int h) {
    _Atomic uint64_t *idle = &place_of(s)->idle;
    if ((atomic_load(idle) & bit(h)) && take_bit(idle, h)) post(&all.hart[h].inside, POKE);
}

int lithe_poke_with(lithe_sched *s, void (*chosen)(lithe_sched *, int)) {
    _Atomic uint64_t *idle = &place_of(s)->idle;
    for (uint64_t set; (set = atomic_load(idle));) {
        int h = __builtin_ctzll(set);
        if (!take_bit(idle, h)) continue;
        if (chosen) chosen(s, h);
        post(&all.hart[h].inside, POKE);
        return 1;
    }
    return 0;
}

void lithe_poke_one(lithe_sched *s) { lithe_poke_with(s, NULL); }

void lithe_poke_all(lithe_sched *s) {
    _Atomic uint64_t *idle = &place_of(s)->idle;
    if (atomic_load(idle) == 0) return;
    for (uint64_t set = atomic_exchange(idle, 0); set; set &= set - 1)
        post(&all.hart[__builtin_ctzll(set)].inside, POKE);
}
