/* Overflow threads: they run members that no hart has come for. Each is reserved before its region starts, so a member
 * that needs one has one. */
#include "gomp.h"
#include <pthread.h>
#include <signal.h>
#include <stdlib.h>

typedef struct spare {
    _Atomic uint32_t go;
    team *of;
    int num;
    struct spare *next;
} spare;

_Atomic long overflows;
static pthread_mutex_t spare_lock = PTHREAD_MUTEX_INITIALIZER;
static spare *spares;
static int idle_spares, reserved_spares;
static team *watched;
static int watchdog_runs;
static _Atomic uint32_t watch_change;

static void put_back(spare *s) {
    pthread_mutex_lock(&spare_lock);
    s->next = spares;
    spares = s;
    idle_spares++;
    pthread_mutex_unlock(&spare_lock);
}

static void *run_spare(void *arg) {
    spare *s = arg;
    for (;;) {
        while (!atomic_load(&s->go)) lithe_futex_wait(&s->go, 0, -1);
        run_member(s->of, s->num);
        atomic_store(&s->go, 0);
        put_back(s);
    }
    return NULL;
}

/* Why no signals: their handlers are the program's, and run on the program's threads. */
static int start_thread(void *(*run)(void *), void *arg) {
    pthread_t thread;
    pthread_attr_t attr;
    sigset_t most, old;
    if (pthread_attr_init(&attr) != 0) return 0;
    pthread_attr_setdetachstate(&attr, PTHREAD_CREATE_DETACHED);
    sigfillset(&most);
    static const int own[] = {SIGSEGV, SIGBUS, SIGFPE, SIGILL, SIGTRAP, SIGPROF};
    for (size_t i = 0; i < sizeof own / sizeof own[0]; i++) sigdelset(&most, own[i]);
    pthread_sigmask(SIG_SETMASK, &most, &old);
    int failed = pthread_create(&thread, &attr, run, arg);
    pthread_sigmask(SIG_SETMASK, &old, NULL);
    pthread_attr_destroy(&attr);
    return !failed;
}

static int add_spare(void) {
    spare *s = calloc(1, sizeof *s);
    if (!s) return 0;
    if (!start_thread(run_spare, s)) {
        free(s);
        return 0;
    }
    put_back(s);
    return 1;
}

int reserve_threads(team *t, int k) {
    int got = 0;
    for (int may = 1; got < k && may;) {
        pthread_mutex_lock(&spare_lock);
        int free_now = idle_spares - reserved_spares, take = free_now < k - got ? free_now : k - got;
        if (take > 0) {
            reserved_spares += take;
            got += take;
        }
        pthread_mutex_unlock(&spare_lock);
        if (got < k) may = add_spare();
    }
    atomic_store(&t->reserved, got);
    return got;
}

void return_threads(team *t) {
    int k = atomic_exchange(&t->reserved, 0);
    if (k == 0) return;
    pthread_mutex_lock(&spare_lock);
    reserved_spares -= k;
    pthread_mutex_unlock(&spare_lock);
}

int take_late(team *t) {
    int k = atomic_load(&t->late_next);
    while (k < t->n)
        if (atomic_compare_exchange_weak(&t->late_next, &k, k + 1)) return k;
    return -1;
}

/* The team has a reserved thread for each late member. */
static void on_spare(team *t, int num) {
    pthread_mutex_lock(&spare_lock);
    spare *s = spares;
    spares = s->next;
    idle_spares--;
    reserved_spares--;
    pthread_mutex_unlock(&spare_lock);
    atomic_fetch_sub(&t->reserved, 1);
    atomic_fetch_add(&overflows, 1);
    atomic_store(&t->is_crowded, 1);
    s->of = t;
    s->num = num;
    atomic_store(&s->go, 1);
    lithe_futex_wake(&s->go, 1);
}

void overflow(team *t) {
    if (atomic_load_explicit(&t->late_next, memory_order_relaxed) >= t->n) return;
    for (int num; (num = take_late(t)) >= 0;) on_spare(t, num);
}

void overflow_all(context *c) {
    for (team *t = c->of; t; t = t->outer ? t->outer->of : NULL) overflow(t);
}

/* The first member that is due, or -1; `wait` is the time until the next will be. */
static int find_due(team **of, int64_t *wait) {
    int64_t now = lithe_now_ns();
    int num = -1;
    *wait = -1;
    pthread_mutex_lock(&spare_lock);
    for (team *t = watched; t && num < 0; t = t->next_watched) {
        if (atomic_load(&t->late_next) >= t->n) continue;
        int64_t left = t->deadline - now;
        if (left <= 0) {
            *of = t;
            num = take_late(t);
        } else if (*wait < 0 || left < *wait)
            *wait = left;
    }
    pthread_mutex_unlock(&spare_lock);
    return num;
}

static void *watchdog(void *arg) {
    (void)arg;
    for (;;) {
        uint32_t change = atomic_load(&watch_change);
        int64_t wait;
        team *due = NULL;
        int num = find_due(&due, &wait);
        if (num >= 0)
            on_spare(due, num); /* the team waits for this member */
        else
            lithe_futex_wait(&watch_change, change, wait);
    }
    return NULL;
}

void watch(team *t) {
    t->deadline = lithe_now_ns() + OVERFLOW_NS;
    pthread_mutex_lock(&spare_lock);
    if (!watchdog_runs) watchdog_runs = start_thread(watchdog, NULL);
    int runs = watchdog_runs;
    if (runs) {
        t->next_watched = watched;
        watched = t;
        atomic_store(&t->is_watched, 1);
    }
    pthread_mutex_unlock(&spare_lock);
    if (!runs) {
        overflow(t);
        return;
    }
    atomic_fetch_add(&watch_change, 1);
    lithe_futex_wake(&watch_change, 1);
}

void unwatch(team *t) {
    if (!atomic_exchange(&t->is_watched, 0)) return;
    pthread_mutex_lock(&spare_lock);
    team **p = &watched;
    while (*p && *p != t) p = &(*p)->next_watched;
    if (*p) *p = t->next_watched;
    pthread_mutex_unlock(&spare_lock);
}

void forget_threads(void) {
    spare_lock = (pthread_mutex_t)PTHREAD_MUTEX_INITIALIZER;
    spares = NULL;
    watched = NULL;
    idle_spares = reserved_spares = watchdog_runs = 0;
}
