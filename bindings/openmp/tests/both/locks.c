/* Locks, critical, atomic, flush. */
#include <omp.h>
#include <stdio.h>

int main(void) {
    omp_lock_t l, hinted;
    omp_nest_lock_t m;
    int a = 0, b = 0, c = 0, d = 0, e = 0, tested = 0, held = 0;
    double f = 0;
    _Complex double z = 0;
    omp_init_lock(&l);
    omp_init_lock(&hinted);
    omp_init_nest_lock(&m);
#pragma omp parallel num_threads(6)
    for (int i = 0; i < 50; i++) {
        omp_set_lock(&l);
        a++;
        omp_unset_lock(&l);
        if (omp_test_lock(&hinted)) {
            tested++;
            omp_unset_lock(&hinted);
        }
        omp_set_nest_lock(&m);
        if (omp_test_nest_lock(&m) != 2) held++;
        b++;
        omp_unset_nest_lock(&m);
        omp_unset_nest_lock(&m);
#pragma omp critical
        c++;
#pragma omp critical(name) hint(omp_sync_hint_uncontended)
        d++;
#pragma omp atomic
        e += 2;
#pragma omp atomic
        f += 0.5;
#pragma omp critical(third)
        z += 1;
#pragma omp flush
    }
    printf("%d %d %d %d %d %g %g %d %d\n", a, b, c, d, e, f, __real__ z, tested > 0, held);
    omp_destroy_lock(&l);
    omp_destroy_lock(&hinted);
    omp_destroy_nest_lock(&m);
    return 0;
}
