/* The entry points that older compilers emit, called by name. */
#include <omp.h>
#include <stdbool.h>
#include <stdio.h>
void GOMP_parallel_start(void (*)(void *), void *, unsigned);
void GOMP_parallel_end(void);
void GOMP_parallel_loop_static_start(void (*)(void *), void *, unsigned, long, long, long, long);
void GOMP_parallel_loop_dynamic_start(void (*)(void *), void *, unsigned, long, long, long, long);
void GOMP_parallel_loop_guided_start(void (*)(void *), void *, unsigned, long, long, long, long);
void GOMP_parallel_loop_runtime_start(void (*)(void *), void *, unsigned, long, long, long);
void GOMP_parallel_sections_start(void (*)(void *), void *, unsigned, unsigned);
bool GOMP_loop_dynamic_next(long *, long *);
bool GOMP_loop_static_next(long *, long *);
bool GOMP_loop_guided_next(long *, long *);
bool GOMP_loop_runtime_next(long *, long *);
void GOMP_loop_end(void);
void GOMP_loop_end_nowait(void);
unsigned GOMP_sections_next(void);
void GOMP_sections_end_nowait(void);
void GOMP_atomic_start(void);
void GOMP_atomic_end(void);
static long sum;
static void count(void *arg) {
    (void)arg;
    GOMP_atomic_start();
    sum++;
    GOMP_atomic_end();
}
static void loop(void *arg) {
    bool (*next)(long *, long *) = (bool (*)(long *, long *))arg;
    long from, to;
    while (next(&from, &to))
        for (long i = from; i < to; i++) {
            GOMP_atomic_start();
            sum += i;
            GOMP_atomic_end();
        }
    GOMP_loop_end_nowait();
}
static void sections(void *arg) {
    (void)arg;
    for (unsigned k; (k = GOMP_sections_next()) != 0;) {
        GOMP_atomic_start();
        sum += 1l << (4 * k);
        GOMP_atomic_end();
    }
    GOMP_sections_end_nowait();
}
#define RUN(name, ...)         \
    sum = 0;                   \
    __VA_ARGS__;               \
    GOMP_parallel_end();       \
    printf(name " %ld\n", sum);
int main(void) {
    RUN("region", GOMP_parallel_start(count, NULL, 4), count(NULL))
    RUN("alone", GOMP_parallel_start(count, NULL, 1), count(NULL))
    RUN("static", GOMP_parallel_loop_static_start(loop, GOMP_loop_static_next, 4, 0, 100, 1, 0), loop(GOMP_loop_static_next))
    RUN("dynamic", GOMP_parallel_loop_dynamic_start(loop, GOMP_loop_dynamic_next, 4, 0, 100, 1, 3), loop(GOMP_loop_dynamic_next))
    RUN("guided", GOMP_parallel_loop_guided_start(loop, GOMP_loop_guided_next, 4, 0, 100, 1, 2), loop(GOMP_loop_guided_next))
    RUN("runtime", GOMP_parallel_loop_runtime_start(loop, GOMP_loop_runtime_next, 4, 0, 100, 1), loop(GOMP_loop_runtime_next))
    RUN("sections", GOMP_parallel_sections_start(sections, NULL, 3, 5), sections(NULL))
    return 0;
}
