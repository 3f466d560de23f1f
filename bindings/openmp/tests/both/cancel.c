/* Cancellation. Run with OMP_CANCELLATION=true and without. */
#include <omp.h>
#include <stdio.h>

int main(void) {
    int on = omp_get_cancellation(), after = 0, found = -1, many = 0, done = 0, wrong = 0;
    printf("cancellation %d\n", on);
#pragma omp parallel num_threads(4)
    {
#pragma omp barrier
        if (omp_get_thread_num() == 2) {
#pragma omp cancel parallel
        }
#pragma omp cancellation point parallel
#pragma omp barrier
#pragma omp atomic
        after++;
    }
    printf("region: %s\n", on ? after == 0 ? "ended" : "went on" : after == 4 ? "went on" : "ended");
#pragma omp parallel num_threads(4)
    {
#pragma omp for schedule(dynamic)
        for (int i = 0; i < 100000; i++) {
            if (i == 500) {
#pragma omp atomic write
                found = i;
#pragma omp cancel for
            }
#pragma omp atomic
            many++;
#pragma omp cancellation point for
        }
#pragma omp atomic
        done++;
    }
    printf("loop: found %d, %s, done %d\n", found, on ? many < 100000 ? "ended" : "went on" : many == 100000 ? "went on" : "ended", done);
    done = 0;
#pragma omp parallel num_threads(3)
    {
#pragma omp sections
        {
#pragma omp section
            {
#pragma omp cancel sections
                wrong += on;
            }
#pragma omp section
            {
#pragma omp cancellation point sections
            }
        }
#pragma omp atomic
        done++;
    }
    printf("sections: wrong %d done %d\n", wrong, done);
    int ran = 0, all = 0;
#pragma omp parallel num_threads(4)
#pragma omp single
    {
#pragma omp taskgroup
        {
#pragma omp task shared(all)
            {
#pragma omp cancel taskgroup
#pragma omp atomic
                all += on;
            }
            for (int i = 0; i < 200; i++) {
#pragma omp task shared(ran)
                {
#pragma omp cancellation point taskgroup
#pragma omp atomic
                    ran++;
                }
            }
        }
#pragma omp task shared(done)
        done = 77;
    }
    printf("group: %s, wrong %d, done %d\n", on || ran == 200 ? "right" : "wrong", all, done);
    int rounds = 0;
    for (int i = 0; i < 20; i++) {
#pragma omp parallel num_threads(4) reduction(+ : rounds)
        {
            for (int k = 0; k < 5; k++) {
                if (k == 3 && omp_get_thread_num() == i % 4) {
#pragma omp cancel parallel
                }
#pragma omp barrier
            }
            rounds++;
        }
    }
    printf("barriers: %s\n", rounds == (on ? 0 : 80) ? "right" : "wrong");
    return 0;
}
