/* The process's harts, and the worker threads. */
#include "rt.h"
#include <pthread.h>
#include <sched.h>
#include <signal.h>
#include <stdio.h>
#include <stdlib.h>
#include <string.h>
#include <sys/syscall.h>
#include <unistd.h>

process all;
__thread hart *me __attribute__((tls_model("initial-exec")));
__thread void *lithe_client __attribute__((tls_model("initial-exec")));
void (*lithe_client_end)(void *client);
int64_t lithe_spin_ns = 100000;

static pthread_mutex_t making = PTHREAD_MUTEX_INITIALIZER;
static pthread_key_t leaver;
static _Atomic int made;
static int has_key;
static __thread int tid __attribute__((tls_model("initial-exec")));

enum { RETRY_THREADS_NS = 10000000 };

static const lithe_ops base_ops = {.name = "base"};

static int processors(void) {
    cpu_set_t cores;
    return sched_getaffinity(0, sizeof cores, &cores) == 0 ? CPU_COUNT(&cores) : 1;
}

static void read_settings(void) {
    const char *text = getenv("LITHE_HARTS");
    int wanted = text ? atoi(text) : 0, cores = processors();
    all.harts = wanted < 1 ? cores : wanted;
    if (all.harts > LITHE_MAX_HARTS) all.harts = LITHE_MAX_HARTS;
    all.sticky = (text = getenv("LITHE_STICKY")) && atoi(text);
    /* Why: a hart that spins without a processor of its own delays the others. */
    if (all.harts > cores) lithe_spin_ns = 5000;
    if ((text = getenv("LITHE_SPIN_US"))) lithe_spin_ns = atol(text) * 1000;
}

static void fill_harts(const lithe_hart *from) {
    all.base = (lithe_sched){.ops = &base_ops};
    for (int h = 0; h < all.harts; h++) {
        all.hart[h].at = from[h];
        all.hart[h].number = h;
        all.hart[h].inside.hart = all.hart[h].at_base.hart = h;
        all.hart[h].in = &all.base;
    }
    all.place[0].sched = &all.base;
    atomic_store(&all.place[0].live, 1);
    atomic_store(&all.place[0].name, base_ops.name);
    atomic_store(&all.place[0].idle, all.harts == 64 ? ~(uint64_t)0 : bit(all.harts) - 1);
}

static void *zeroed(size_t size) {
    void *block = aligned_alloc(64, (size + 63) / 64 * 64);
    return block ? memset(block, 0, size) : NULL;
}

static int make_harts(void) {
    lithe_hart from[LITHE_MAX_HARTS] = {0};
    hart *harts = zeroed((size_t)all.harts * sizeof *harts);
    place *places = zeroed((size_t)(all.harts * LITHE_LEVELS + 1) * sizeof *places);
    uint32_t status = harts && places ? lithe_make(from, (size_t)all.harts, LITHE_LEVELS) : (uint32_t)LITHE_NO_MEMORY;
    if (status != LITHE_DONE) {
        free(harts);
        free(places);
        count(LITHE_NO_MEMORYS);
        return 0;
    }
    all.hart = harts;
    all.place = places;
    fill_harts(from);
    return 1;
}

/* As lithe_forget, for all harts at once. Why: the board's memory can't be given back without its harts, which other threads of
 * the parent held. */
static void forget_harts(void) {
    all.hart = NULL;
    all.place = NULL;
    atomic_store(&all.loafers, 0);
}

/* A forked child has one thread: it makes harts of its own when it first needs them. */
static void in_child(void) {
    making = (pthread_mutex_t)PTHREAD_MUTEX_INITIALIZER;
    me = NULL;
    tid = 0;
    forget_stays();
    forget_harts();
    stop_trace_in_child();
    forget_load();
    atomic_store(&made, 0);
}

static void first_time(void) {
    read_settings();
    has_key = pthread_key_create(&leaver, leave_for_good) == 0;
    pthread_atfork(NULL, NULL, in_child);
    start_stats();
    start_where();
    start_load();
    start_trace();
}

int make_all(void) {
    static int settled;
    if (atomic_load_explicit(&made, memory_order_acquire)) return 1;
    pthread_mutex_lock(&making);
    if (!settled) first_time();
    settled = 1;
    int ok = atomic_load(&made) || make_harts();
    if (ok) atomic_store(&made, 1);
    pthread_mutex_unlock(&making);
    return ok;
}

void watch_exit(hart *h) {
    if (has_key) pthread_setspecific(leaver, h);
}

int lithe_count(void) { return make_all() ? all.harts : 1; }
int lithe_number(void) { return me ? me->number : -1; }
lithe_sched *lithe_current(void) { return me ? me->in : NULL; }
int lithe_idle_at_base(void) { return make_all() ? __builtin_popcountll(atomic_load(&all.place[0].idle)) : 0; }

int own_tid(void) {
    if (UNLIKELY(!tid)) tid = (int)syscall(SYS_gettid);
    return tid;
}

void become(hart *h) {
    me = h;
    atomic_store_explicit(&h->tid, own_tid(), memory_order_relaxed);
    h->in = &all.base;
}

void rest_at_base(hart *h) {
    _Atomic uint64_t *idle = &all.place[0].idle;
    atomic_fetch_or(idle, bit(h->number));
    /* A wish may have come before the hart was seen to be idle. */
    if (!may_serve(&all.base) || !take_bit(idle, h->number)) return;
    if (start_worker(h))
        post(&h->at_base, POKE);
    else
        atomic_fetch_or(idle, bit(h->number));
}

/* The worker ends, since a body ended its thread. All sites that it was in have been left. */
static void hand_back(hart **at) {
    hart *h = *at;
    if (!h) return;
    me = NULL;
    atomic_store(&h->made, 0);
    rest_at_base(h);
}

static void *work(void *arg) {
    ENDS_BY(hand_back) hart *h = arg;
    char name[16];
    snprintf(name, sizeof name, "lithe %d", h->number);
    pthread_setname_np(pthread_self(), name);
    for (;;) {
        uint64_t m = receive(&h->at_base);
        become(h);
        if (m != POKE) lend(&all.base, (lithe_sched *)(uintptr_t)(m >> 1));
        while (lithe_serve(&all.base)) {
        }
        me = NULL;
        rest_at_base(h);
    }
    h = NULL;
    return NULL;
}

/* Why: a signal's handler is the program's, and runs on the program's threads, unless the worker itself is at fault. */
static int create_thread(hart *h) {
    pthread_t thread;
    pthread_attr_t attr;
    sigset_t most, old;
    if (pthread_attr_init(&attr) != 0) return 0;
    pthread_attr_setdetachstate(&attr, PTHREAD_CREATE_DETACHED);
    sigfillset(&most);
    sigdelset(&most, SIGSEGV);
    sigdelset(&most, SIGBUS);
    sigdelset(&most, SIGFPE);
    sigdelset(&most, SIGILL);
    sigdelset(&most, SIGTRAP);
    sigdelset(&most, SIGPROF);
    pthread_sigmask(SIG_SETMASK, &most, &old);
    int failed = pthread_create(&thread, &attr, work, h);
    pthread_sigmask(SIG_SETMASK, &old, NULL);
    pthread_attr_destroy(&attr);
    return !failed;
}

int start_worker(hart *h) {
    if (atomic_load(&h->made)) return 1;
    if (lithe_now_ns() < atomic_load(&all.threads_refused_until)) return 0;
    atomic_store(&h->made, 1);
    if (create_thread(h)) {
        count(LITHE_THREADS);
        return 1;
    }
    atomic_store(&h->made, 0);
    atomic_store(&all.threads_refused_until, lithe_now_ns() + RETRY_THREADS_NS);
    count(LITHE_NO_THREADS);
    return 0;
}

void check_hart(hart *h) {
    if (UNLIKELY(me != h)) child_returned();
}
