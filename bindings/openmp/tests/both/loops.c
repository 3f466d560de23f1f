/* Every schedule, signed and unsigned, up and down; who runs which iteration where OpenMP says it. */
#include <limits.h>
#include <omp.h>
#include <stdio.h>
#include <string.h>

enum { N = 1003 };
static int hit[N + 1];
static void begin(void) { memset(hit, 0, sizeof hit); }
static void end(const char *name) {
    int wrong = 0;
    for (int i = 0; i < N; i++) wrong += hit[i] != 1;
    printf("%s: %d wrong\n", name, wrong);
}
#define MARK(i) _Pragma("omp atomic") hit[i]++
#define RUN(name, clauses)                                                                                         \
    begin();                                                                                                       \
    _Pragma("omp parallel num_threads(4)") {                                                                       \
        _Pragma(clauses) for (int i = 0; i < N; i++) { MARK(i); }                                                  \
    }                                                                                                              \
    end(name " up");                                                                                               \
    begin();                                                                                                       \
    _Pragma("omp parallel num_threads(4)") {                                                                       \
        _Pragma(clauses) for (long i = 3 * (N - 1); i >= 0; i -= 3) { MARK(i / 3); }                               \
    }                                                                                                              \
    end(name " down");                                                                                             \
    begin();                                                                                                       \
    _Pragma("omp parallel num_threads(4)") {                                                                       \
        _Pragma(clauses) for (unsigned long long i = ULLONG_MAX - N; i < ULLONG_MAX; i++) { MARK(i - (ULLONG_MAX - N)); } \
    }                                                                                                              \
    end(name " unsigned");                                                                                         \
    begin();                                                                                                       \
    _Pragma("omp parallel num_threads(4)") {                                                                       \
        _Pragma(clauses) for (unsigned long long i = ULLONG_MAX; i > ULLONG_MAX - N; i--) { MARK(ULLONG_MAX - i); } \
    }                                                                                                              \
    end(name " unsigned down");

static void runtime(const char *name, omp_sched_t kind, int chunk) {
    omp_sched_t got;
    int got_chunk;
    omp_set_schedule(kind, chunk);
    omp_get_schedule(&got, &got_chunk);
    printf("%s: kind %x chunk %d\n", name, got, got_chunk);
    RUN("runtime", "omp for schedule(runtime)")
    RUN("runtime monotonic", "omp for schedule(monotonic:runtime)")
    RUN("runtime nonmonotonic", "omp for schedule(nonmonotonic:runtime)")
    int last = -1, wrong = 0;
#pragma omp parallel for ordered schedule(runtime) num_threads(4)
    for (int i = 0; i < 100; i++) {
#pragma omp ordered
        { wrong += last != i - 1; last = i; }
    }
    printf("ordered runtime: last %d, %d wrong\n", last, wrong);
}

static void who(void) {
    int by[40];
#pragma omp parallel for schedule(static) num_threads(4)
    for (int i = 0; i < 40; i++) by[i] = omp_get_thread_num();
    for (int i = 0; i < 40; i++) printf("%d", by[i]);
    printf(" static\n");
#pragma omp parallel for schedule(static, 3) num_threads(4)
    for (int i = 0; i < 40; i++) by[i] = omp_get_thread_num();
    for (int i = 0; i < 40; i++) printf("%d", by[i]);
    printf(" static 3\n");
#pragma omp parallel for collapse(2) schedule(static, 5) num_threads(3)
    for (int i = 0; i < 5; i++)
        for (int k = 0; k < 8; k++) by[i * 8 + k] = omp_get_thread_num();
    for (int i = 0; i < 40; i++) printf("%d", by[i]);
    printf(" collapse\n");
}

static void special(void) {
    int last = 0, x = 0, sums[50], sum = 0;
#pragma omp parallel for lastprivate(conditional : last) num_threads(4) schedule(dynamic, 3)
    for (int i = 0; i < 200; i++)
        if (i % 7 == 3) last = i;
    printf("conditional %d\n", last);
#pragma omp parallel for lastprivate(x) num_threads(4) schedule(guided)
    for (int i = 0; i < 77; i++) x = i * 2;
    printf("lastprivate %d\n", x);
#pragma omp parallel for reduction(inscan, + : sum) num_threads(4)
    for (int i = 0; i < 50; i++) {
        sum += i;
#pragma omp scan inclusive(sum)
        sums[i] = sum;
    }
    for (int i = 0; i < 50; i++) printf("%d ", sums[i]);
    printf("scan, %d\n", sum);
    unsigned long long sum2 = 0;
#pragma omp parallel for ordered schedule(dynamic, 2) num_threads(4)
    for (unsigned long long i = ULLONG_MAX - 30; i < ULLONG_MAX - 1; i += 2)
#pragma omp ordered
        sum2 = sum2 * 3 + i;
    printf("unsigned ordered %llu\n", sum2);
#pragma omp parallel for ordered(1) schedule(static) num_threads(4)
    for (int i = 0; i < 0; i++) x++;
#pragma omp parallel for schedule(dynamic) num_threads(4)
    for (int i = 5; i < 5; i++) x++;
    printf("empty %d\n", x);
    int order[6] = {0};
#pragma omp parallel num_threads(4)
    {
#pragma omp for nowait schedule(dynamic)
        for (int i = 0; i < 20; i++)
#pragma omp atomic
            order[0]++;
#pragma omp for nowait
        for (int i = 0; i < 20; i++)
#pragma omp atomic
            order[1]++;
#pragma omp sections nowait
        {
#pragma omp section
            order[2]++;
#pragma omp section
            order[3]++;
        }
#pragma omp single nowait
        order[4]++;
#pragma omp masked
        order[5]++;
    }
    printf("nowait %d %d %d %d %d %d\n", order[0], order[1], order[2], order[3], order[4], order[5]);
}

int main(void) {
    RUN("static", "omp for schedule(static)")
    RUN("static 7", "omp for schedule(static, 7)")
    RUN("dynamic", "omp for schedule(dynamic)")
    RUN("dynamic 5", "omp for schedule(dynamic, 5)")
    RUN("guided", "omp for schedule(guided)")
    RUN("guided 9", "omp for schedule(guided, 9)")
    RUN("monotonic", "omp for schedule(monotonic:dynamic, 2)")
    RUN("auto", "omp for schedule(auto)")
    runtime("static", omp_sched_static, 0);
    runtime("static 4", omp_sched_static, 4);
    runtime("dynamic", omp_sched_dynamic, 2);
    runtime("guided", omp_sched_guided, 0);
    runtime("auto", omp_sched_auto, 0);
    runtime("monotonic", omp_sched_monotonic | omp_sched_dynamic, 3);
    who();
    special();
    return 0;
}
