/* Sites: open, want, shut. */
#include "rt.h"

enum { SPINS = 1000 };

static void fill_place(lithe_sched *s) {
    place *p = place_of(s);
    SEES(p);
    p->sched = s;
    atomic_store_explicit(&p->arrived, 0, memory_order_relaxed);
    atomic_store_explicit(&p->left, 0, memory_order_relaxed);
    atomic_store_explicit(&p->called, 0, memory_order_relaxed);
    atomic_store_explicit(&p->wishers, 0, memory_order_relaxed);
    atomic_store_explicit(&p->home, s->home, memory_order_relaxed);
    atomic_store_explicit(&p->parent, s->parent->site, memory_order_relaxed);
    atomic_store_explicit(&p->name, s->ops->name ? s->ops->name : "site", memory_order_relaxed);
    atomic_store_explicit(&p->live, 1, memory_order_relaxed);
}

int lithe_open(lithe_sched *s, const lithe_ops *ops) {
    uint32_t status = lithe_register_wishing(&me->at, (uint8_t)(all.harts - 1), &s->site);
    if (UNLIKELY(status != LITHE_DONE)) {
        refused("register", me->in->site, status);
        return 0;
    }
    s->ops = ops;
    s->parent = me->in;
    s->home = (uint16_t)me->number;
    fill_place(s);
    me->in = s;
    atomic_store_explicit(&me->in_site, s->site, memory_order_relaxed);
    atomic_store(&place_of(s)->tokens, all.harts - 1);
    count(LITHE_SITES);
    TRACE('B', ops->name ? ops->name : "site", me->number, s->site, s->parent->site);
    if (s->parent->ops->child_registers) s->parent->ops->child_registers(s->parent, s);
    return 1;
}

void lithe_note(lithe_sched *s, lithe_sched *child) {
    for (; s; child = s, s = s->parent) {
        place *p = place_of(s);
        /* Why first a look: siblings write this word often. */
        if (atomic_load(&p->wish[child->home]) != child->site) atomic_store(&p->wish[child->home], child->site);
        if (!(atomic_load(&p->wishers) & bit(child->home))) atomic_fetch_or(&p->wishers, bit(child->home));
    }
}

void lithe_want(lithe_sched *s) {
    if (s->parent->ops->child_requests)
        s->parent->ops->child_requests(s->parent, s);
    else
        lithe_note(s->parent, s);
    lithe_call(s, all.harts - 1, NULL);
}

/* Waits until no hart is on its way. Tokens are then 0 for good, so that none can be sent. */
static void drain(lithe_sched *s) {
    place *p = place_of(s);
    int tokens = 0;
    for (int i = 0;; i++) {
        tokens += atomic_exchange(&p->tokens, 0);
        if (tokens + atomic_load(&p->arrived) == all.harts - 1) return;
        take_back(s);
        if (i < SPINS) {
            lithe_pause();
            continue;
        }
        atomic_store(&p->home_waits, 1);
        if (atomic_load(&p->tokens) == 0 && tokens + atomic_load(&p->arrived) != all.harts - 1)
            lithe_futex_wait(&p->home_waits, 1, -1);
        atomic_store(&p->home_waits, 0);
    }
}

/* Ends the site in one step if it is empty; else closes it and waits until the last guest has left. */
static void unregister(lithe_sched *s) {
    place *p = place_of(s);
    if (lithe_end_if_empty(&me->at) == LITHE_DONE) {
        SEES(p);
        return;
    }
    uint32_t status = lithe_close(&me->at);
    if (status != LITHE_DONE) refused("close", s->site, status);
    for (int i = 0; (status = lithe_unregister(&me->at)) == LITHE_NOT_EMPTY; i++) {
        lithe_poke_all(s);
        if (i < SPINS) {
            lithe_pause();
            continue;
        }
        atomic_store(&p->home_waits, 1);
        if (lithe_see_empty(&me->at) == LITHE_NOT_EMPTY) lithe_futex_wait(&p->home_waits, 1, -1);
        atomic_store(&p->home_waits, 0);
    }
    if (status != LITHE_DONE) refused("unregister", s->site, status);
    SEES(p);
}

void lithe_shut(lithe_sched *s) {
    place *p = place_of(s);
    atomic_fetch_and(&place_of(s->parent)->wishers, ~bit(s->home));
    if (s->parent->ops->child_unregisters) s->parent->ops->child_unregisters(s->parent, s);
    lithe_poke_all(s);
    drain(s);
    atomic_store_explicit(&p->live, 0, memory_order_relaxed);
    unregister(s);
    me->in = s->parent;
    atomic_store_explicit(&me->in_site, s->parent->site, memory_order_relaxed);
    TRACE('E', "site", me->number, s->site, s->parent->site);
}
