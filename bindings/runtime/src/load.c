/* A watch on the load: how many processors other processes leave to this one. */
#include "load.h"
#include "rt.h"
#include <errno.h>
#include <pthread.h>
#include <stdlib.h>
#include <sys/resource.h>
#include <time.h>
#include <unistd.h>

enum { LOOK_NS = 100000000 };

static cpu_set_t cores;
static _Atomic int left;          /* what lithe_processors returns */
static _Atomic int64_t next_look; /* INT64_MAX: a thread looks, or there is nothing to see */
/* Of the thread that looks. */
static sample last;
static int last_used;

static int64_t ns_of(clockid_t clock) {
    struct timespec t;
    clock_gettime(clock, &t);
    return (int64_t)t.tv_sec * 1000000000 + t.tv_nsec;
}

void start_load(void) {
    const char *text = getenv("LITHE_WATCH");
    int has_watch = (!text || atoi(text)) && sched_getaffinity(0, sizeof cores, &cores) == 0;
    atomic_store(&left, all.harts);
    atomic_store(&next_look, has_watch ? 0 : INT64_MAX);
}

/* The parent's thread that looks isn't in the child. */
void forget_load(void) {
    last = (sample){0};
    start_load();
}

static int take_sample(sample *s) {
    int64_t ticks;
    FILE *file = fopen("/proc/stat", "re");
    if (!file) return 0;
    s->at = lithe_now_ns();
    s->own = ns_of(CLOCK_PROCESS_CPUTIME_ID);
    int found = read_busy(file, &cores, getpriority(PRIO_PROCESS, 0) > 0, &ticks);
    fclose(file);
    s->busy = ticks * (1000000000 / sysconf(_SC_CLK_TCK));
    return found == CPU_COUNT(&cores);
}

/* Why the less of two: a short burst of others changes nothing, and their end counts at once. */
static void look(void) {
    sample now;
    int n = CPU_COUNT(&cores);
    if (!take_sample(&now)) return;
    int used = last.at ? used_by_others(&last, &now, n) : 0, sure = used < last_used ? used : last_used;
    last = now;
    last_used = used;
    int rest = sure == 0 ? all.harts : n - sure;
    atomic_store(&left, rest < 1 ? 1 : rest < all.harts ? rest : all.harts);
}

int lithe_processors(void) {
    if (!make_all()) return 1;
    int64_t due = atomic_load_explicit(&next_look, memory_order_relaxed), now = due == INT64_MAX ? 0 : ns_of(CLOCK_MONOTONIC_COARSE);
    if (now >= due && atomic_compare_exchange_strong(&next_look, &due, INT64_MAX)) {
        int kept = errno, cancel;
        /* Why: a thread that ends in here would end the watch. */
        pthread_setcancelstate(PTHREAD_CANCEL_DISABLE, &cancel);
        look();
        pthread_setcancelstate(cancel, NULL);
        errno = kept;
        atomic_store(&next_look, now + LOOK_NS);
    }
    return atomic_load_explicit(&left, memory_order_relaxed);
}
