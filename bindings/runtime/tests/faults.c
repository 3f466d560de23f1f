/* Each allocation and each start of a thread refused in turn, and all of them: results are right, and nothing is lost.
 * Linked with --wrap for malloc, aligned_alloc and pthread_create. */
#define _GNU_SOURCE
#include "lithe_rt.h"
#include "must.h"
#include <pthread.h>
#include <stdatomic.h>
#include <sys/wait.h>
#include <unistd.h>

void *__real_malloc(size_t size);
void *__real_aligned_alloc(size_t align, size_t size);
void *__real_realloc(void *block, size_t size);
int __real_pthread_create(pthread_t *t, const pthread_attr_t *a, void *(*f)(void *), void *arg);

static _Atomic long blocks, threads, no_block = -1, no_thread = -1;
static _Atomic int all_blocks, all_threads;

static int refuses_block(void) {
    long k = atomic_fetch_add(&blocks, 1);
    return all_blocks || k == no_block;
}
void *__wrap_malloc(size_t size) { return refuses_block() ? NULL : __real_malloc(size); }
void *__wrap_realloc(void *block, size_t size) { return refuses_block() ? NULL : __real_realloc(block, size); }
void *__wrap_aligned_alloc(size_t align, size_t size) { return refuses_block() ? NULL : __real_aligned_alloc(align, size); }
int __wrap_pthread_create(pthread_t *t, const pthread_attr_t *a, void *(*f)(void *), void *arg) {
    long k = atomic_fetch_add(&threads, 1);
    return all_threads || k == no_thread ? 11 : __real_pthread_create(t, a, f, arg);
}

static void hit(void *arg, long i) {
    usleep(50);
    atomic_fetch_add((_Atomic long *)arg, i);
}
static void loop(void *arg) { lithe_for(10, 1, hit, arg); }

static void add(void *arg, long from, long to, void *part) {
    (void)arg;
    for (long i = from; i < to; i++) *(long *)part += i;
}
static void both(void *arg, void *into, const void *part) {
    (void)arg;
    *(long *)into += *(const long *)part;
}
static void one(void *arg) { atomic_fetch_add((_Atomic long *)arg, 1); }

static void work(void) {
    _Atomic long sum = 0;
    lithe_join(loop, (void *)&sum, loop, (void *)&sum);
    MUST(sum == 90);
    long reduced[200] = {0};
    lithe_reduce(500, 10, sizeof reduced, reduced, add, both, NULL);
    MUST(reduced[0] == 499 * 250);
    lithe_group group;
    lithe_task tasks[300];
    lithe_group_init(&group);
    sum = 0;
    for (int i = 0; i < 300; i++) lithe_spawn(&group, &tasks[i], one, (void *)&sum);
    lithe_group_wait(&group);
    MUST(sum == 300 && lithe_number() == -1);
}

/* In a child of its own, since the process makes its harts once. Returns how many blocks and threads the child asked for. */
static void in_child(long block, long thread, int every_block, int every_thread) {
    fflush(stdout);
    pid_t child = fork();
    MUST(child >= 0);
    if (child == 0) {
        no_block = block;
        no_thread = thread;
        all_blocks = every_block;
        all_threads = every_thread;
        blocks = threads = 0;
        work();
        work();
        /* Memory and threads are there again: so are the harts, once the pause for threads is over. */
        no_block = no_thread = -1;
        all_blocks = all_threads = 0;
        usleep(15000);
        work();
        MUST(every_block || every_thread || lithe_count_of(LITHE_SITES) > 0);
        _exit(0);
    }
    int status = -1;
    MUST(waitpid(child, &status, 0) == child && WIFEXITED(status) && WEXITSTATUS(status) == 0);
}

int main(void) {
    enum { BLOCKS = 16, THREADS = 6 };
    for (long k = 0; k < BLOCKS; k++) in_child(k, -1, 0, 0);
    for (long k = 0; k < THREADS; k++) in_child(-1, k, 0, 0);
    for (long k = 0; k < 4; k++) in_child(k, k, 0, 0);
    in_child(-1, -1, 1, 0);
    in_child(-1, -1, 0, 1);
    in_child(-1, -1, 1, 1);
    printf("faults: %d allocations and %d thread starts refused in turn, and all\n", BLOCKS, THREADS);
    return 0;
}
