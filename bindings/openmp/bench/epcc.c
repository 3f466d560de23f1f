/* The overheads of constructs: microseconds for each, best and median of many rounds. */
#include <omp.h>
#include <stdio.h>
#include <stdlib.h>
#include <unistd.h>
enum { ROUNDS = 41, TIMES = 200 };
static int by_value(const void *a, const void *b) {
    double x = *(const double *)a, y = *(const double *)b;
    return x < y ? -1 : x > y;
}
static volatile int sink;
static void delay(int n) {
    for (int i = 0; i < n; i++) sink = i;
}
static void print(const char *name, double *us) {
    qsort(us, ROUNDS, sizeof *us, by_value);
    printf("%-28s %8.3f %8.3f\n", name, us[0], us[ROUNDS / 2]);
}
#define MEASURE(name, times, ...)                                     \
    do {                                                              \
        double us[ROUNDS];                                            \
        for (int r = 0; r < ROUNDS; r++) {                            \
            double t = omp_get_wtime();                               \
            for (int k = 0; k < (times); k++) { __VA_ARGS__ }         \
            us[r] = (omp_get_wtime() - t) * 1e6 / (times);            \
        }                                                             \
        print(name, us);                                              \
    } while (0)
#define INSIDE(name, ...)                                             \
    do {                                                              \
        double us[ROUNDS];                                            \
        for (int r = 0; r < ROUNDS; r++) {                            \
            double t = omp_get_wtime();                               \
            _Pragma("omp parallel")                                   \
            for (int k = 0; k < TIMES; k++) { __VA_ARGS__ }           \
            us[r] = (omp_get_wtime() - t) * 1e6 / TIMES;              \
        }                                                             \
        print(name, us);                                              \
    } while (0)
int main(void) {
    long sum = 0;
    _Pragma("omp parallel") delay(1000);
    printf("%d threads; best and median us\n", omp_get_max_threads());
    MEASURE("parallel", TIMES, _Pragma("omp parallel") delay(1););
    MEASURE("parallel for", TIMES, _Pragma("omp parallel for") for (int i = 0; i < 64; i++) delay(1););
    MEASURE("parallel for dynamic", TIMES, _Pragma("omp parallel for schedule(dynamic)") for (int i = 0; i < 64; i++) delay(1););
    MEASURE("parallel reduction", TIMES, _Pragma("omp parallel for reduction(+:sum)") for (int i = 0; i < 64; i++) sum += i;);
    INSIDE("for", _Pragma("omp for") for (int i = 0; i < 64; i++) delay(1););
    INSIDE("for dynamic (64)", _Pragma("omp for schedule(dynamic)") for (int i = 0; i < 64; i++) delay(1););
    INSIDE("for guided (64)", _Pragma("omp for schedule(guided)") for (int i = 0; i < 64; i++) delay(1););
    INSIDE("barrier", _Pragma("omp barrier"));
    INSIDE("single", _Pragma("omp single") sink = k;);
    INSIDE("critical (all members)", _Pragma("omp critical") sink = k;);
    MEASURE("parallel after 1 ms alone", 20, usleep(0); double s = omp_get_wtime(); while (omp_get_wtime() - s < 1e-3); _Pragma("omp parallel") delay(1););
    omp_set_max_active_levels(2);
    MEASURE("nested parallel in parallel", 20, _Pragma("omp parallel") { _Pragma("omp parallel") delay(1); });
    return 0;
}
