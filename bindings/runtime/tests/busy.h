/* Busy processes beside a test, as many as processors. They end with the test. */
#ifndef BUSY_H
#define BUSY_H
#include "../src/load.h"
#include "must.h"
#include <sched.h>
#include <signal.h>
#include <string.h>
#include <sys/prctl.h>
#include <sys/wait.h>
#include <unistd.h>

static pid_t busy[CPU_SETSIZE];
static int busy_count;
static cpu_set_t busy_cores;

/* Why before the library has threads: the child is then the whole program, also for the sanitizers. */
static void prepare_busy(void) {
    pid_t parent = getpid();
    MUST(sched_getaffinity(0, sizeof busy_cores, &busy_cores) == 0);
    busy_count = CPU_COUNT(&busy_cores);
    for (int k = 0; k < busy_count; k++) {
        busy[k] = fork();
        MUST(busy[k] >= 0);
        if (busy[k]) continue;
        prctl(PR_SET_PDEATHSIG, SIGKILL);
        if (getppid() != parent) _exit(0);
        raise(SIGSTOP);
        for (volatile long i = 0;; i++) {
        }
    }
    /* Each has stopped. */
    for (int k = 0, status; k < busy_count; k++) MUST(waitpid(busy[k], &status, WUNTRACED) == busy[k] && WIFSTOPPED(status));
}

static void signal_busy(int number) {
    for (int k = 0; k < busy_count; k++) MUST(kill(busy[k], number) == 0);
}

static void start_busy(void) { signal_busy(SIGCONT); }

static void end_busy(void) {
    signal_busy(SIGKILL);
    for (int k = 0, status; k < busy_count; k++) MUST(waitpid(busy[k], &status, 0) == busy[k]);
}

/* 1 if the machine's processors are busy now without those. Says so. */
static int others_are_busy(void) {
    int64_t ticks[2] = {0, 0};
    for (int k = 0; k < 2; k++) {
        FILE *file = fopen("/proc/stat", "r");
        MUST(file && read_busy(file, &busy_cores, 0, &ticks[k]) == busy_count);
        fclose(file);
        if (k == 0) sleep(2);
    }
    double used = (double)(ticks[1] - ticks[0]) / (double)(2 * sysconf(_SC_CLK_TCK));
    if (used > 0.2) printf("skipped: the estimate that comes back, since other processes are busy\n");
    return used > 0.2;
}
#endif
