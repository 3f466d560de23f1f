/* fork, threads that end inside a region, signals. */
#define _GNU_SOURCE
#include "lithe_rt.h"
#include "must.h"
#include <pthread.h>
#include <signal.h>
#include <stdatomic.h>
#include <string.h>
#include <sys/time.h>
#include <sys/wait.h>
#include <unistd.h>

static void add(void *arg, long i) { atomic_fetch_add((_Atomic long *)arg, i); }

static void work(void) {
    _Atomic long sum = 0;
    lithe_for(1000, 3, add, (void *)&sum);
    MUST(sum == 999 * 500);
}

static int status_of(pid_t child) {
    int status = -1;
    MUST(child > 0 && waitpid(child, &status, 0) == child && WIFEXITED(status));
    return WEXITSTATUS(status);
}

/* --- fork ----------------------------------------------------------------------------------------------------------- */

static void fork_outside(void) {
    work();
    pid_t child = fork();
    if (child == 0) {
        for (int i = 0; i < 20; i++) work();
        pid_t grandchild = fork();
        if (grandchild == 0) {
            work();
            _exit(4);
        }
        _exit(status_of(grandchild) == 4 ? 3 : 1);
    }
    MUST(status_of(child) == 3);
    work();
}

static void fork_and_work(void *arg) {
    pid_t child = fork();
    if (child == 0) {
        MUST(lithe_number() == -1);
        work(); /* on harts of its own */
        _exit(5);
    }
    *(int *)arg = status_of(child);
}

static void fork_and_return(void *arg) {
    pid_t child = fork();
    if (child == 0) {
        close(2);
        return;
    }
    *(int *)arg = status_of(child);
}

static void forks_inside(void) {
    int a = 0, b = 0;
    lithe_join(fork_and_work, &a, fork_and_work, &b);
    MUST(a == 5 && b == 5);
    lithe_join(fork_and_return, &a, fork_and_return, &b);
    MUST(a == 70 && b == 70);
    work();
}

#ifndef __SANITIZE_ADDRESS__
/* --- threads that end ----------------------------------------------------------------------------------------------- */

static _Atomic long begun, ended;

static void leave(void *arg, long i) {
    _Atomic int *on = arg;
    atomic_fetch_add(&begun, 1);
    usleep(200);
    /* `on`: 0 workers end, 1 the thread from outside ends. The workers are never hart 0 here. */
    int is_worker = pthread_equal(pthread_self(), *(pthread_t *)(on + 2)) == 0;
    if (is_worker != on[0] && i % 4 == 1) pthread_exit(NULL);
    atomic_fetch_add(&ended, 1);
}

typedef struct exits {
    _Atomic int on[2];
    pthread_t self;
} exits;

static void *thread_ends(void *arg) {
    exits e = {.on = {arg != NULL}};
    memcpy((char *)&e + 2 * sizeof(int), &(pthread_t){pthread_self()}, sizeof(pthread_t));
    lithe_for(40, 1, leave, &e);
    return (void *)1;
}

/* Whether all harts come back to the base, within ten seconds. */
static int all_come_back(void) {
    for (int k = 0; k < 10000 && lithe_idle_at_base() != lithe_count(); k++) usleep(1000);
    return lithe_idle_at_base() == lithe_count();
}

static void threads_that_end(void) {
    for (int outside = 0; outside < 2; outside++) {
        for (int k = 0; k < 10; k++) {
            pthread_t thread;
            void *result = NULL;
            begun = ended = 0;
            MUST(pthread_create(&thread, NULL, thread_ends, outside ? (void *)1 : NULL) == 0);
            pthread_join(thread, &result);
            /* Where workers end, the loop is whole but for the bodies that ended. */
            if (!outside) MUST(result == (void *)1 && begun == 40);
            work();
        }
    }
    MUST(all_come_back());
    /* Workers did end, and others were made. */
    MUST(lithe_count() == 1 || lithe_count_of(LITHE_THREADS) >= lithe_count());
}

/* Why not usleep: the thread sanitizer loses track of a thread that is cancelled in a call that it intercepts. */
static void cancel_point(void *arg, long i) {
    int64_t end = lithe_now_ns() + 300000;
    (void)arg, (void)i;
    while (lithe_now_ns() < end) lithe_pause();
    pthread_testcancel();
}
static void *is_cancelled(void *arg) {
    for (;;) lithe_for(20, 1, cancel_point, arg);
    return NULL;
}
static void cancelled(void) {
    for (int k = 0; k < 5; k++) {
        pthread_t thread;
        void *result = NULL;
        MUST(pthread_create(&thread, NULL, is_cancelled, NULL) == 0);
        usleep(2000);
        pthread_cancel(thread);
        pthread_join(thread, &result);
        MUST(result == PTHREAD_CANCELED);
        work();
    }
}

#endif
/* --- signals -------------------------------------------------------------------------------------------------------- */

static pthread_t main_thread;
static _Atomic long alarms;
static void on_alarm(int number) {
    (void)number;
    if (!pthread_equal(pthread_self(), main_thread)) _exit(9);
    alarms++;
}

static void signals(void) {
    main_thread = pthread_self();
    signal(SIGALRM, on_alarm);
    struct itimerval often = {{0, 300}, {0, 300}}, never = {{0, 0}, {0, 0}};
    setitimer(ITIMER_REAL, &often, NULL);
    for (int i = 0; i < 200 || alarms < 20; i++) {
        work();
        if (i % 10 == 0) usleep(500);
    }
    setitimer(ITIMER_REAL, &never, NULL);
}

int main(void) {
    signals();
    fork_outside();
    forks_inside();
#ifdef __SANITIZE_ADDRESS__
    printf("skipped: threads that end in a region, which the address sanitizer doesn't follow\n");
#else
    threads_that_end();
    cancelled();
#endif
    MUST(lithe_count_of(LITHE_REFUSALS) == 0);
    printf("endings: forks, ended threads and %s signals on %d harts\n", alarms >= 20 ? "20" : "few", lithe_count());
    return 0;
}
