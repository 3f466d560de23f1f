/* As OpenBLAS: asks for the size, then depends on it, and on all members running at the same time, in loops of its own. */
#include <omp.h>
#include <pthread.h>
#include <sched.h>
#include <stdatomic.h>
#include <stdio.h>

static _Atomic int wrong;
static void spin_team(int yields) {
    int n = omp_get_max_threads();
    for (int k = 0; k < 3; k++) {
        _Atomic int here = 0, size = 0;
#pragma omp parallel
        {
            size = omp_get_num_threads();
            atomic_fetch_add(&here, 1);
            while (atomic_load(&here) < n)
                if (yields) sched_yield();
        }
        if (here != n || size != n) wrong++;
    }
}
static void *outside(void *arg) {
    for (int i = 0; i < 3; i++) spin_team((int)(long)arg);
    return NULL;
}
int main(void) {
    pthread_t t[4];
    spin_team(0);
    spin_team(1);
    for (long i = 0; i < 4; i++) pthread_create(&t[i], NULL, outside, (void *)(i % 2));
    for (int i = 0; i < 4; i++) pthread_join(t[i], NULL);
    omp_set_max_active_levels(2);
#pragma omp parallel num_threads(3)
    spin_team(omp_get_thread_num() == 1);
    volatile int flag = 0;
#pragma omp parallel num_threads(9)
    {
        if (omp_get_thread_num() == 8) flag = 1;
        while (!flag) sched_yield();
    }
    puts(wrong ? "FAILED" : "ok");
    return wrong != 0;
}
