/* A home sleeps until the last guest of its closed site wakes it, and a forked child gives up its parent's board. */
#include "lithe.h"
#include "must.h"
#include <pthread.h>
#include <sched.h>
#include <semaphore.h>
#include <stdatomic.h>
#include <string.h>
#include <sys/wait.h>
#include <unistd.h>

enum { HARTS = 4, LEVELS = 1, ROUNDS = 1000 };

/* One hart with what wakes it. The semaphore outlives each site. */
typedef struct sleeper {
    lithe_hart hart;
    sem_t wake;
    unsigned long slept, woke, stayed;
} sleeper;

static sleeper sleepers[HARTS];
/* The rounds that have ended, and the guests of this round that have left. */
static atomic_int ended, lasts;

static void *guest(void *arg) {
    sleeper *me = arg;
    uint8_t last = 99;
    while (atomic_load(&ended) < ROUNDS) {
        lithe_status status = lithe_enter(&me->hart, 1);
        if (status != LITHE_DONE) {
            MUST(status == LITHE_NOT_WANTED || status == LITHE_MOVED);
            sched_yield();
            continue;
        }
        MUST(lithe_yield_last(&me->hart, &last) == LITHE_DONE && last <= 1);
        if (last) {
            atomic_fetch_add(&lasts, 1);
            MUST(sem_post(&sleepers[(1 - 1) / LEVELS].wake) == 0);
            me->woke++;
        }
    }
    return NULL;
}

static void *home(void *arg) {
    sleeper *me = arg;
    uint16_t site = 99;
    uint8_t wishes, guests;
    for (int round = 0; round < ROUNDS; round++) {
        MUST(lithe_register_wishing(&me->hart, HARTS - 1, &site) == LITHE_DONE && site == 1);
        do {
            sched_yield();
            MUST(lithe_read_home(&me->hart, &wishes, &guests) == LITHE_DONE && wishes + guests < HARTS);
        } while (wishes == HARTS - 1);
        MUST(lithe_close(&me->hart) == LITHE_DONE);
        lithe_status status = lithe_see_empty(&me->hart);
        if (status == LITHE_DONE) me->stayed++;
        while (status == LITHE_NOT_EMPTY) {
            me->slept++;
            MUST(sem_wait(&me->wake) == 0);
            status = lithe_see_empty(&me->hart);
        }
        MUST(status == LITHE_DONE && lithe_unregister(&me->hart) == LITHE_DONE);
        atomic_fetch_add(&ended, 1);
    }
    return NULL;
}

static void sleeps(void) {
    pthread_t threads[HARTS];
    lithe_hart made[HARTS];
    unsigned long woke = 0;
    MUST(lithe_make(made, HARTS, LEVELS) == LITHE_DONE);
    for (int h = 0; h < HARTS; h++) {
        sleepers[h].hart = made[h];
        MUST(sem_init(&sleepers[h].wake, 0, 0) == 0);
    }
    for (int h = 0; h < HARTS; h++) MUST(pthread_create(&threads[h], NULL, h ? guest : home, &sleepers[h]) == 0);
    for (int h = 0; h < HARTS; h++) {
        MUST(pthread_join(threads[h], NULL) == 0);
        woke += sleepers[h].woke;
        made[h] = sleepers[h].hart;
    }
    /* At most one last guest a round, and one for each round in which the home saw a guest after its close. */
    MUST(woke <= ROUNDS && woke + sleepers[0].stayed >= ROUNDS && (unsigned long)atomic_load(&lasts) == woke);
    MUST(lithe_end(made, HARTS) == LITHE_DONE);
    for (int h = 0; h < HARTS; h++) MUST(sem_destroy(&sleepers[h].wake) == 0);
    printf("last: %d rounds, the home slept %lu times, %lu last guests\n", ROUNDS, sleepers[0].slept, woke);
}

/* The child of a process with a site open gives up the board, and makes one of its own. The parent's goes on. */
static void forks(void) {
    lithe_hart harts[2];
    uint16_t site = 99;
    int status = 0;
    MUST(lithe_make(harts, 2, 1) == LITHE_DONE);
    MUST(lithe_register_wishing(&harts[0], 1, &site) == LITHE_DONE && lithe_enter(&harts[1], site) == LITHE_DONE);
    fflush(stdout);
    pid_t child = fork();
    MUST(child >= 0);
    if (child == 0) {
        lithe_forget(harts, 2);
        MUST(harts[0].at == NULL && lithe_yield(&harts[1]) == LITHE_NO_HART && lithe_owner(&harts[1]) == 0);
        MUST(lithe_make(harts, 2, 1) == LITHE_DONE && lithe_owner(&harts[1]) == 0);
        MUST(lithe_register(&harts[1], &site) == LITHE_DONE && site == 2);
        MUST(lithe_end_if_empty(&harts[1]) == LITHE_DONE && lithe_end(harts, 2) == LITHE_DONE);
        _exit(0);
    }
    MUST(waitpid(child, &status, 0) == child && WIFEXITED(status) && WEXITSTATUS(status) == 0);
    MUST(lithe_owner(&harts[1]) == site && lithe_yield(&harts[1]) == LITHE_DONE);
    MUST(lithe_end_if_empty(&harts[0]) == LITHE_DONE && lithe_end(harts, 2) == LITHE_DONE);
    printf("last: a forked child gave up its parent's board\n");
}

int main(void) {
    forks();
    sleeps();
    return 0;
}
