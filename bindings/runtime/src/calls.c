/* Calling idle harts to a site, and lending the current hart. */
#include "rt.h"

int take_tokens(place *p, int k) {
    int have = atomic_load(&p->tokens);
    while (have > 0) {
        int take = have < k ? have : k;
        if (atomic_compare_exchange_weak(&p->tokens, &have, have - take)) return take;
    }
    return 0;
}

void give_tokens(place *p, int k) {
    if (k <= 0) return;
    atomic_fetch_add(&p->tokens, k);
    wake_home(p);
}

/* Where a call of the board that asks for wishes back, one at a time, would fit: the home gets back the wishes of the
 * guests that have left. The board lets only the home ask, while it is in the site. */
static void get_back(lithe_sched *s) {
    place *p = place_of(s);
    if (atomic_load_explicit(&p->left, memory_order_relaxed) == 0) return;
    if (me->number != s->home || me->in != s) return;
    int k = atomic_exchange(&p->left, 0);
    if (k == 0) return;
    /* Why: a guest says that it leaves before it does, so the board may still count it. */
    if (lithe_request(&me->at, (uint8_t)k) != LITHE_DONE) {
        atomic_fetch_add(&p->left, k);
        return;
    }
    atomic_fetch_sub(&p->arrived, k);
    atomic_fetch_add(&p->tokens, k);
}

int lithe_room(lithe_sched *s) {
    get_back(s);
    return atomic_load(&place_of(s)->tokens);
}

int lithe_coming(lithe_sched *s) {
    place *p = place_of(s);
    return s == &all.base ? 0 : all.harts - 1 - atomic_load(&p->tokens) - atomic_load(&p->arrived);
}

/* From the base the highest numbers: the lowest are for threads that call in from outside. */
static int pick(lithe_sched *x, uint64_t idle) { return x == &all.base ? 63 - __builtin_clzll(idle) : __builtin_ctzll(idle); }

/* Takes up to k harts out of the idle set of `x` and sends each into `target`, which is below `x`. */
static int call_from(lithe_sched *x, int k, lithe_sched *target, void (*chosen)(lithe_sched *, int)) {
    _Atomic uint64_t *idle = &place_of(x)->idle;
    int got = 0;
    for (uint64_t set; got < k && (set = atomic_load(idle));) {
        int h = pick(x, set);
        if (!take_bit(idle, h)) continue;
        if (x == &all.base && !start_worker(&all.hart[h])) {
            atomic_fetch_or(idle, bit(h));
            break;
        }
        if (chosen) chosen(target, h);
        atomic_store(&all.hart[h].called_from, x);
        atomic_fetch_or(&place_of(target)->called, bit(h));
        count(LITHE_CALLS);
        TRACE('i', "calls", me->number, target->site, h);
        post(x == &all.base ? &all.hart[h].at_base : &all.hart[h].inside, (uint64_t)(uintptr_t)target << 1);
        got++;
    }
    return got;
}

/* A hart from above `x` needs a token of `x` too: it enters `x` on its way. */
static int call_above(lithe_sched *x, int k, lithe_sched *target, void (*chosen)(lithe_sched *, int)) {
    int t = take_tokens(place_of(x), k), got;
    if (t == 0) return 0;
    got = call_from(x->parent, t, target, chosen);
    if (got < t && x->parent != &all.base) got += call_above(x->parent, t - got, target, chosen);
    give_tokens(place_of(x), t - got);
    return got;
}

/* Makes up to k idle guests of other sites look again: they leave if something above wants them. */
static void stir(int k) {
    for (uint64_t set = atomic_load(&all.loafers); set && k > 0; set &= set - 1) {
        int h = __builtin_ctzll(set);
        place *p = &all.place[atomic_load(&all.hart[h].loaf_site)];
        if (!(atomic_load(&p->idle) & bit(h)) || !take_bit(&p->idle, h)) continue;
        post(&all.hart[h].inside, POKE);
        k--;
    }
}

int lithe_call(lithe_sched *s, int k, void (*chosen)(lithe_sched *, int)) {
    if (k <= 0) return 0;
    get_back(s);
    int got = call_above(s, k, s, chosen);
    if (got < k && atomic_load(&all.loafers) && atomic_load(&place_of(s)->tokens) > 0) stir(k - got);
    return got;
}

int lithe_callable(lithe_sched *s, int is_parent) {
    int gate = is_parent ? all.harts : lithe_room(s), sum = 0;
    for (lithe_sched *x = is_parent ? s : s->parent; gate > 0; x = x->parent) {
        int here = __builtin_popcountll(atomic_load(&place_of(x)->idle));
        here = here < gate ? here : gate;
        sum += here;
        gate -= here;
        if (x == &all.base) break;
        int t = atomic_load(&place_of(x)->tokens);
        gate = t < gate ? t : gate;
    }
    return sum;
}

/* The home may sleep in lithe_shut. Why: `p` is never freed, so this is safe after the guest's last step in the site. */
void wake_home(place *p) {
    if (UNLIKELY(atomic_load(&p->home_waits)) && atomic_exchange(&p->home_waits, 0)) lithe_futex_wake(&p->home_waits, 1);
}

typedef struct visit {
    lithe_sched *from, *to;
    uint16_t site;
} visit;

/* Also if the thread ends in the site. */
static void leave_site(visit *v) {
    place *p = &all.place[v->site];
    me->in = v->from;
    atomic_store_explicit(&me->in_site, v->from->site, memory_order_relaxed);
    atomic_fetch_add(&p->left, 1);
    SHOWS(p);
    uint32_t status = lithe_yield(&me->at);
    if (status != LITHE_DONE) refused("yield", v->site, status);
    TRACE('E', "guest", me->number, v->site, v->from->site);
    wake_home(p);
}

static uint32_t enter_site(uint16_t site) {
    uint32_t status;
    /* Why this ends: LITHE_MOVED means that another hart has changed the word, each hart has few steps left at this site,
     * and the token keeps the site open and wishing for this hart. */
    while ((status = lithe_enter(&me->at, site)) == LITHE_MOVED) {
    }
    return status;
}

void lend(lithe_sched *x, lithe_sched *target) {
    lithe_sched *next = target;
    while (next->parent != x) next = next->parent;
    place *p = place_of(next);
    uint32_t status = enter_site(next->site);
    if (next == target) atomic_fetch_and(&p->called, ~bit(me->number));
    if (UNLIKELY(status != LITHE_DONE)) {
        refused("enter", next->site, status);
        for (lithe_sched *s = target; s != x; s = s->parent) give_tokens(place_of(s), 1);
        return;
    }
    ENDS_BY(leave_site) visit v = {x, next, next->site};
    count(LITHE_LENDS);
    TRACE('B', "guest", me->number, next->site, x->site);
    me->in = next;
    atomic_store_explicit(&me->in_site, next->site, memory_order_relaxed);
    atomic_fetch_add(&p->arrived, 1);
    wake_home(p);
    if (next != target) lend(next, target);
    next->ops->enter(next);
}

/* A call that its hart hasn't read. A token goes back for each site that the hart won't enter. */
static void take_back_from(lithe_sched *s, int h) {
    uint64_t message = (uint64_t)(uintptr_t)s << 1;
    lithe_sched *from = atomic_load(&all.hart[h].called_from);
    int at_base = from == &all.base;
    box *b = at_base ? &all.hart[h].at_base : &all.hart[h].inside;
    if (!atomic_compare_exchange_strong(&b->message, &message, at_base ? 0 : POKE)) return;
    atomic_fetch_and(&place_of(s)->called, ~bit(h));
    for (lithe_sched *x = s; x != from; x = x->parent) give_tokens(place_of(x), 1);
    /* At the base the hart is idle again at once, though its thread may be waking up. */
    if (at_base) rest_at_base(&all.hart[h]);
}

void take_back(lithe_sched *s) {
    for (uint64_t c = atomic_load(&place_of(s)->called); c; c &= c - 1) take_back_from(s, __builtin_ctzll(c));
}
