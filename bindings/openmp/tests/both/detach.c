/* Tasks that are complete only after an event. */
#include <omp.h>
#include <pthread.h>
#include <stdio.h>
#include <unistd.h>

static omp_event_handle_t handed;
static _Atomic int is_handed;
static void *outside(void *arg) {
    while (!is_handed) usleep(100);
    usleep(2000);
    *(int *)arg = 9;
    omp_fulfill_event(handed);
    return NULL;
}

int main(void) {
    for (int n = 1; n <= 4; n++) {
        int x = 0, y = 0, z = 0, from_outside = 0, seen = 0;
        pthread_t t;
        is_handed = 0;
        pthread_create(&t, NULL, outside, &from_outside);
#pragma omp parallel num_threads(n)
#pragma omp single
        {
            omp_event_handle_t e1, e2, e3;
#pragma omp task detach(e1) shared(x)
            x = 1;
#pragma omp task detach(e2) depend(out : y) shared(y)
            {
                y = 2;
                omp_fulfill_event(e2);
            }
#pragma omp task depend(in : y) shared(y, z)
            z = y + 1;
#pragma omp task detach(e3) depend(out : from_outside)
            {
                handed = e3;
                is_handed = 1;
            }
#pragma omp task depend(in : from_outside) shared(seen, from_outside)
            seen = from_outside;
            omp_fulfill_event(e1);
#pragma omp taskwait
        }
        pthread_join(t, NULL);
        printf("%d: %d %d %d seen %d\n", n, x, y, z, seen);
    }
    return 0;
}
