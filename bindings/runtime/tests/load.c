/* The watch on the load: the estimate from given counts; how it follows simulated counts of the kernel (linked with --wrap=fopen); and
 * with as many busy processes as processors it falls to 1, whatever else the machine does. That it comes back from there can only be
 * tested where the machine is otherwise idle. */
#define _GNU_SOURCE
#include "busy.h"
#include "lithe_rt.h"
#include <time.h>
#include "must.h"

static int64_t busy_in(const char *text, int has_niced, int *found) {
    cpu_set_t cores;
    int64_t ticks;
    CPU_ZERO(&cores);
    CPU_SET(0, &cores);
    CPU_SET(2, &cores);
    FILE *file = fmemopen((void *)(uintptr_t)text, strlen(text), "r");
    MUST(file);
    *found = read_busy(file, &cores, has_niced, &ticks);
    fclose(file);
    return ticks;
}

static void counts(void) {
    static const char stat[] = "cpu  900 900 900 900 900 900 900 900 900 900\n"
                               "cpu0 1 20 300 4000 50000 600000 7000000 80000000 9 9\n"
                               "cpu1 900 900 900 900 900 900 900 900 900 900\n"
                               "cpu2 2 0 0 0 0 0 0 0 0 0\n"
                               "intr 900 900\ncpu2 900 0 0 0 0 0 0 0 0 0\n";
    int found;
    MUST(busy_in(stat, 0, &found) == 87600303 && found == 2);
    MUST(busy_in(stat, 1, &found) == 87600323 && found == 2);
    MUST(busy_in("cpu0 1 2\nintr 1\n", 0, &found) == 0 && found == 0);
    MUST(busy_in("\n", 0, &found) == 0 && found == 0);
}

/* Of 4 processors in 100: all used `busy`, and this process `own` of it. */
static int others(int64_t busy, int64_t own) {
    sample from = {1000, 5000, 700}, to = {1100, 5000 + busy, 700 + own};
    return used_by_others(&from, &to, 4);
}

static void estimates(void) {
    MUST(others(0, 0) == 0 && others(400, 400) == 0 && others(100, 130) == 0);
    MUST(others(440, 385) == 0 && others(400, 335) == 1);
    MUST(others(200, 0) == 2 && others(400, 200) == 2 && others(400, 0) == 4 && others(900, 0) == 4);
    sample same = {5, 5, 5};
    MUST(used_by_others(&same, &same, 4) == 0);
}

/* --- simulated counts --------------------------------------------------------------------------------------------------- */

static int simulated = -1; /* how many processors others use; -1: the kernel's counts */
static int64_t others_ns, since;

static void simulate(int used) {
    int64_t now = lithe_now_ns();
    if (simulated > 0) others_ns += simulated * (now - since);
    since = now;
    simulated = used;
}

FILE *__real_fopen(const char *name, const char *mode);
FILE *__wrap_fopen(const char *name, const char *mode) {
    static char text[CPU_SETSIZE * 40];
    if (simulated < 0 || strcmp(name, "/proc/stat") != 0) return __real_fopen(name, mode);
    struct timespec own;
    simulate(simulated);
    clock_gettime(CLOCK_PROCESS_CPUTIME_ID, &own);
    long long ticks = (long long)((others_ns + own.tv_sec * INT64_C(1000000000) + own.tv_nsec) * sysconf(_SC_CLK_TCK) / 1000000000);
    size_t size = 0;
    for (int core = 0; core < CPU_SETSIZE; core++) {
        if (!CPU_ISSET(core, &busy_cores)) continue;
        size += (size_t)snprintf(text + size, sizeof text - size, "cpu%d %lld 0 0 0 0 0 0 0 0 0\n", core, ticks);
        ticks = 0;
    }
    return fmemopen(text, size, "r");
}

/* --- the estimate --------------------------------------------------------------------------------------------------------- */

static void add(void *arg, long i) { __atomic_fetch_add((long *)arg, i, __ATOMIC_RELAXED); }

/* Until lithe_processors is at most or at least so many. Each look has work beside it. */
static int comes_to(int least, int most, double seconds) {
    int64_t end = lithe_now_ns() + (int64_t)(seconds * 1e9);
    for (int got; lithe_now_ns() < end; usleep(20000)) {
        long sum = 0;
        lithe_for(1000, 1, add, &sum);
        MUST(sum == 499500);
        got = lithe_processors();
        MUST(got >= 1 && got <= lithe_count());
        if (got >= least && got <= most) return 1;
    }
    return 0;
}

/* Up and down: none, one, all, one, none. */
static void follows(void) {
    int harts = lithe_count(), rest = busy_count > 1 ? busy_count - 1 : 1;
    if (rest > harts) rest = harts;
    const int used[] = {0, 1, busy_count, 1, 0}, wanted[] = {harts, rest, 1, rest, harts};
    for (int k = 0; k < 5; k++) {
        simulate(used[k]);
        MUST(comes_to(wanted[k], wanted[k], 20));
    }
    simulate(-1);
}

static void forked(void) {
    pid_t child = fork();
    MUST(child >= 0);
    if (child == 0) {
        MUST(lithe_processors() == lithe_count()); /* nothing seen yet */
        _exit(0);
    }
    int status;
    MUST(waitpid(child, &status, 0) == child && status == 0);
}

int main(void) {
    counts();
    estimates();
    prepare_busy();
    MUST(lithe_processors() == lithe_count()); /* nothing seen yet */
    follows();
    start_busy();
    MUST(comes_to(1, 1, 40));
    forked();
    end_busy();
    int back = comes_to(lithe_count(), lithe_count(), 5);
    for (int tries = 0; !back && !others_are_busy(); tries++) {
        MUST(tries < 10);
        back = comes_to(lithe_count(), lithe_count(), 5);
    }
    if (back) printf("load: 1 beside busy processes, and back to %d\n", lithe_count());
    return 0;
}
