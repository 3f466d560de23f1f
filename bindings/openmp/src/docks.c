/* Docks: where a region's members run. */
#include "gomp.h"
#include <stdlib.h>
#include <string.h>

enum { GATHER_NS = 20000 }; /* how long a team that should be full waits for guests that are just leaving */

/* --- members -------------------------------------------------------------------------------------------------------- */

/* Counts a member that has finished. After the last count the team may be gone; its dock isn't, for a guest. */
static void count_done(team *t) {
    dock *d = t->dock;
    bool is_guest = d && lithe_number() >= 0;
    int n = t->n;
    if (!is_guest) visit(t);
    bool is_last = atomic_fetch_add(&t->done, 1) + 1 == n;
    if (is_guest) {
        if (is_last) lithe_poke(&d->as, d->as.home);
    } else if (is_last)
        tell(t);
    if (!is_guest) end_visit(t);
}

void run_one(team *t, int num) {
    context m;
    void *old = lithe_client;
    begin_member(&m, t, num);
    lithe_client = &m;
    t->fn(t->data);
    if (t->process != forks) child_returned();
    run_tasks_until(&m, &m.own.children, OF_ANY);
    end_member(&m);
    lithe_client = old;
}

/* Runs a member, and then members that no other hart has started. Before a member is counted the team can't end. */
void run_member(team *t, int num) {
    while (num >= 0) {
        run_one(t, num);
        int next = take_late(t);
        count_done(t);
        num = next;
    }
}

/* --- guests --------------------------------------------------------------------------------------------------------- */

typedef struct guest {
    dock *of;
    seat *mine;
    unsigned turn; /* the region in which the guest was member `num` */
    int num;
} guest;

/* A member that has finished still runs tasks of its region. */
static int has_tasks(guest *g) {
    return g->num >= 0 && atomic_load(&g->of->region.queued) > 0 && atomic_load(&g->of->turn) == g->turn;
}

static int has_something(void *arg) {
    guest *g = arg;
    return atomic_load(&g->mine->state) == SEAT_READY || atomic_load(&g->of->over) || has_tasks(g);
}

static int has_something_or_may_leave(void *arg) {
    return has_something(arg) || !atomic_load(&((guest *)arg)->of->is_busy);
}

/* Counts the guest as a task, so that the region can't end. */
static int join_pending(team *t) {
    int pending = atomic_load(&t->pending);
    while (pending > 0)
        if (atomic_compare_exchange_weak(&t->pending, &pending, pending + 1)) return 1;
    return 0;
}

static void help_with_tasks(guest *g) {
    team *t = &g->of->region;
    context m;
    void *old = lithe_client;
    if (!join_pending(t)) return;
    if (atomic_load(&g->of->turn) == g->turn) {
        begin_member(&m, t, g->num);
        lithe_client = &m;
        while (run_some_task(&m, OF_ANY)) {
        }
        end_member(&m);
        lithe_client = old;
    }
    drop_pending(t);
}

int cancel_start(seat *s) {
    int ready = SEAT_READY;
    return atomic_compare_exchange_strong(&s->state, &ready, SEAT_EMPTY);
}

/* Does one thing that there is to do. Returns 0 if there was nothing. */
static int do_something(guest *g) {
    if (cancel_start(g->mine)) {
        g->turn = atomic_load(&g->of->turn);
        g->num = g->mine->member;
        run_member(&g->of->region, g->num);
        return 1;
    }
    if (has_tasks(g)) {
        help_with_tasks(g);
        return 1;
    }
    return 0;
}

/* The home takes a seat first and looks who is here after that; a guest that leaves does it the other way round. So one
 * of them sees the other's store. */
static int leaves(guest *g, uint64_t mine) {
    atomic_fetch_and(&g->of->here, ~mine);
    if (atomic_load(&g->mine->state) == SEAT_EMPTY) return 1;
    atomic_fetch_or(&g->of->here, mine);
    return 0;
}

static void enter_dock(lithe_sched *self) {
    dock *d = (dock *)self;
    uint64_t mine = (uint64_t)1 << lithe_number();
    guest g = {d, &d->seats[lithe_number()], 0, -1};
    atomic_fetch_or(&d->here, mine); /* not yet so if it was called to a site below */
    while (!atomic_load(&d->over)) {
        if (do_something(&g)) continue;
        if (lithe_wait(self, has_something, &g, 1)) continue;
        if (atomic_load(&d->is_busy)) {
            atomic_fetch_add(&d->parked, 1);
            lithe_wait(self, has_something_or_may_leave, &g, 0);
            atomic_fetch_sub(&d->parked, 1);
        } else if (leaves(&g, mine))
            return;
    }
    atomic_fetch_and(&d->here, ~mine);
}

/* --- docks ---------------------------------------------------------------------------------------------------------- */

static void end_dock(dock *d) {
    atomic_store(&d->over, 1);
    lithe_shut(&d->as);
    let_go(d->pledge);
    free(d);
}

static void settle(lithe_sched *self, int robbed) {
    dock *d = (dock *)self;
    if (robbed) {
        drop_hold(d->pledge);
    } else {
        d->owner->dock = NULL;
        drop_promise(d->owner);
    }
    end_dock(d);
}

static const lithe_ops dock_ops = {.enter = enter_dock, .settle = settle, .name = "openmp"};

void settle_dock(context *c) {
    if (!c->dock) return;
    if (lithe_number() >= 0) {
        lithe_settle();
    } else if (lithe_begin()) { /* a thread from outside had left with the dock open */
        if (c->stay == lithe_stay()) lithe_settle();
        lithe_end_call();
    }
    c->dock = NULL;
}

static void open_dock(context *c) {
    dock *d = aligned_alloc(64, (sizeof *d + 63) / 64 * 64);
    if (!d) return;
    memset(d, 0, sizeof *d);
    d->owner = c;
    if (lithe_open(&d->as, &dock_ops))
        c->dock = d;
    else
        free(d);
}

/* The context's dock, in use; null if there is no hart, level or memory for it. Ended by leave_dock. */
dock *use_dock(context *c) {
    if (!lithe_begin()) return NULL;
    if (c->stay != lithe_stay()) {
        c->dock = NULL; /* another thread took the hart, and ended the dock */
        c->stay = lithe_stay();
    }
    if (c->dock) {
        lithe_linger(NULL);
        return c->dock;
    }
    lithe_settle(); /* what an outer context left open */
    open_dock(c);
    if (!c->dock) lithe_end_call();
    return c->dock;
}

void leave_dock(context *c) {
    lithe_linger(&c->dock->as);
    lithe_end_call();
}

static void chosen(lithe_sched *s, int hart) {
    dock *d = (dock *)s;
    atomic_fetch_or(&d->here, (uint64_t)1 << hart);
}

/* Has up to n - 1 guests in the dock or on their way. `waits`: a moment for guests that are just leaving. */
int gather(context *c, int n, bool waits) {
    dock *d = c->dock;
    int64_t end = 0;
    for (int i = 0;; i++) {
        int have = __builtin_popcountll(atomic_load(&d->here));
        if (have < n - 1) have += lithe_call(&d->as, n - 1 - have, chosen);
        if (have >= n - 1 || !waits) return have;
        if (i % 16 == 0) {
            int64_t now = lithe_now_ns();
            if (end == 0) end = now + GATHER_NS;
            if (now >= end) return have;
        }
        lithe_pause();
    }
}

/* A guest keeps the number that it had in the region before, if it can: threadprivate variables belong to threads. */
static void number_guests(dock *d, uint64_t harts, int taken) {
    uint64_t used = 1, others = 0; /* number 0 is the home's */
    for (; harts; harts &= harts - 1) {
        int number = d->seats[__builtin_ctzll(harts)].member;
        if (number <= taken && !(used >> number & 1))
            used |= (uint64_t)1 << number;
        else
            others |= harts & -harts;
    }
    for (; others; others &= others - 1) {
        int number = __builtin_ctzll(~used);
        d->seats[__builtin_ctzll(others)].member = number;
        used |= (uint64_t)1 << number;
    }
}

/* Takes seats of up to `most` guests, who then stay for the region. */
int take_seats(dock *d, int most, uint64_t *harts) {
    int taken = 0;
    *harts = 0;
    for (uint64_t left = atomic_load(&d->here); left && taken < most; left &= left - 1) {
        int h = __builtin_ctzll(left), state = SEAT_TAKEN;
        atomic_store(&d->seats[h].state, SEAT_TAKEN);
        if (atomic_load(&d->here) & left & -left) {
            *harts |= left & -left;
            taken++;
        } else
            atomic_compare_exchange_strong(&d->seats[h].state, &state, SEAT_EMPTY);
    }
    number_guests(d, *harts, taken);
    return taken;
}

void start_guests(dock *d, uint64_t harts) {
    for (; harts; harts &= harts - 1) atomic_store(&d->seats[__builtin_ctzll(harts)].state, SEAT_READY);
    lithe_poke_all(&d->as);
}
