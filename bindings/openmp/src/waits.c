/* Waiting in a team: spin for a bounded time, then sleep, or lend the hart to regions below. */
#include "gomp.h"
#include <limits.h>
#include <sys/syscall.h>
#include <unistd.h>

int spin_until(int (*is_ready)(void *), void *arg, int64_t ns) {
    int64_t end = 0;
    for (int i = 1;; i++) {
        if (is_ready(arg)) return 1;
        lithe_pause();
        if (i % 16) continue;
        int64_t now = lithe_now_ns();
        if (!end) end = now + ns;
        if (now >= end) return 0;
    }
}

/* The sleeper counts itself before it looks, and who changes something looks for sleepers after that, all sequentially
 * consistent. So one of them sees the other's store. */
static void sleep_in_team(team *t, int (*is_ready)(void *), void *arg) {
    atomic_fetch_add(&t->sleepers, 1);
    for (;;) {
        uint32_t seen = atomic_load(&t->news);
        if (is_ready(arg)) break;
        lithe_futex_wait(&t->news, seen, -1);
    }
    atomic_fetch_sub(&t->sleepers, 1);
}

void wait_in_team(context *c, int (*is_ready)(void *), void *arg, int how) {
    team *t = c->of;
    /* With more threads than processors, a spin keeps the others from coming. */
    if (spin_until(is_ready, arg, atomic_load(&t->is_crowded) ? 1000 : lithe_spin_ns)) return;
    settle_dock(c);
    if (how == LENDS && t->dock && lithe_number() >= 0 && lithe_current() == &t->dock->as)
        lithe_wait(&t->dock->as, is_ready, arg, 0);
    else
        sleep_in_team(t, is_ready, arg);
}

static void wake_sleepers(team *t) {
    if (atomic_load(&t->sleepers) == 0) return;
    atomic_fetch_add(&t->news, 1);
    lithe_futex_wake(&t->news, INT_MAX);
}

void tell(team *t) {
    if (t->dock) lithe_poke_all(&t->dock->as);
    wake_sleepers(t);
}

void tell_one(team *t) {
    if (atomic_load(&t->picky)) {
        tell(t);
        return;
    }
    if (t->dock && lithe_poke_with(&t->dock->as, NULL)) return;
    wake_sleepers(t);
}

/* --- who may still touch a team ------------------------------------------------------------------------------------- */

#define HOME_WAITS ((uint32_t)1 << 31)

void visit(team *t) { atomic_fetch_add(&t->visitors, 1); }

/* Why a wake after the last access: it takes the address alone, so the memory may be gone. */
void end_visit(team *t) {
    if (atomic_fetch_sub(&t->visitors, 1) == (HOME_WAITS | 1)) lithe_futex_wake(&t->visitors, 1);
}

void wait_for_visitors(team *t) {
    for (int i = 0; i < 1000; i++) {
        if (atomic_load(&t->visitors) == 0) return;
        lithe_pause();
    }
    uint32_t seen = atomic_fetch_or(&t->visitors, HOME_WAITS) | HOME_WAITS;
    while (seen != HOME_WAITS) {
        lithe_futex_wait(&t->visitors, seen, -1);
        seen = atomic_load(&t->visitors);
    }
    atomic_store(&t->visitors, 0);
}

/* --- barriers ------------------------------------------------------------------------------------------------------- */

typedef struct phase_wait {
    team *of;
    uint32_t phase;
    bool is_cancellable;
} phase_wait;

static int phase_is_over(phase_wait *w) {
    return atomic_load(&w->of->phase) != w->phase || (w->is_cancellable && atomic_load(&w->of->cancelled));
}

static int phase_or_task(void *arg) {
    phase_wait *w = arg;
    return phase_is_over(w) || atomic_load(&w->of->queued) > 0;
}

static void end_phase(context *c, uint32_t phase) {
    team *t = c->of;
    run_tasks_until(c, &t->pending, OF_ANY);
    atomic_store(&t->arrived, 0);
    atomic_store(&t->phase, phase + 1);
    tell(t);
}

bool team_barrier(context *c, bool is_cancellable) {
    team *t = c->of;
    if (t->n == 1) {
        run_tasks_until(c, &t->pending, OF_ANY);
        return is_cancellable && atomic_load(&t->cancelled);
    }
    phase_wait w = {t, atomic_load(&t->phase), is_cancellable};
    if (is_cancellable && atomic_load(&t->cancelled)) return true;
    while (run_some_task(c, OF_ANY)) {
    }
    if (atomic_fetch_add(&t->arrived, 1) + 1 == t->n) {
        end_phase(c, w.phase);
        return is_cancellable && atomic_load(&t->cancelled);
    }
    overflow(t);
    while (!phase_is_over(&w))
        if (!run_some_task(c, OF_ANY)) wait_in_team(c, phase_or_task, &w, LENDS);
    return is_cancellable && atomic_load(&t->cancelled);
}

API void GOMP_barrier(void) { team_barrier(here(), false); }
API bool GOMP_barrier_cancel(void) { return team_barrier(here(), true); }

#ifndef __SANITIZE_THREAD__
/* A library that spins by sched_yield (OpenBLAS does) waits for others: they may be members that haven't started. */
API int sched_yield(void) {
    if (lithe_client) overflow_all(lithe_client);
    return (int)syscall(SYS_sched_yield);
}
#endif
