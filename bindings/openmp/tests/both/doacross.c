/* Doacross loops: a table of binomials, filled in the order of its dependences, by every schedule. */
#include <omp.h>
#include <stdio.h>

enum { N = 40 };
static unsigned long t[N][N];
static unsigned long sum(void) {
    unsigned long s = 0;
    for (int i = 0; i < N; i++)
        for (int j = 0; j < N; j++) s = s * 31 + t[i][j];
    return s;
}
#define FILL(type, clauses)                                                                  \
    for (int i = 0; i < N; i++) t[i][0] = t[0][i] = 1;                                       \
    _Pragma(clauses) for (type i = 1; i < N; i++) for (type j = 1; j < N; j++) {             \
        _Pragma("omp ordered depend(sink : i - 1, j) depend(sink : i, j - 1)")               \
        t[i][j] = t[i - 1][j] + t[i][j - 1];                                                 \
        _Pragma("omp ordered depend(source)")                                                \
    }                                                                                        \
    printf("%lu " clauses " " #type "\n", sum());

int main(void) {
    FILL(int, "omp parallel for ordered(2) schedule(static) num_threads(4)")
    FILL(int, "omp parallel for ordered(2) schedule(static, 1) num_threads(4)")
    FILL(int, "omp parallel for ordered(2) schedule(static, 5) num_threads(3)")
    FILL(int, "omp parallel for ordered(2) schedule(dynamic) num_threads(4)")
    FILL(int, "omp parallel for ordered(2) schedule(dynamic, 3) num_threads(4)")
    FILL(int, "omp parallel for ordered(2) schedule(guided) num_threads(4)")
    FILL(int, "omp parallel for ordered(2) schedule(runtime) num_threads(4)")
    FILL(int, "omp parallel for ordered(2) num_threads(1)")
    FILL(unsigned long, "omp parallel for ordered(2) schedule(static) num_threads(4)")
    FILL(unsigned long, "omp parallel for ordered(2) schedule(dynamic, 2) num_threads(4)")
    FILL(unsigned long, "omp parallel for ordered(2) schedule(guided, 2) num_threads(4)")
    FILL(unsigned long, "omp parallel for ordered(2) schedule(runtime) num_threads(4)")
    int a[200] = {1}, wrong = 0;
#pragma omp parallel for ordered(1) schedule(dynamic, 4) num_threads(4)
    for (int i = 1; i < 200; i++) {
#pragma omp ordered depend(sink : i - 3) depend(sink : i - 1)
        a[i] = a[i - 1] + 1;
#pragma omp ordered depend(source)
    }
    for (int i = 0; i < 200; i++) wrong += a[i] != i + 1;
    printf("one dimension: %d wrong\n", wrong);
    static int c[6][7][8];
    wrong = 0;
#pragma omp parallel for ordered(3) schedule(static, 2) num_threads(4) reduction(+ : wrong)
    for (int i = 0; i < 6; i++)
        for (int j = 0; j < 7; j++)
            for (int k = 0; k < 8; k++) {
#pragma omp ordered depend(sink : i - 1, j + 1, k) depend(sink : i - 1, j, k - 2) depend(sink : i, j - 1, k + 3)
                if (i > 0 && j < 6) wrong += c[i - 1][j + 1][k] != 1;
                if (i > 0 && k > 1) wrong += c[i - 1][j][k - 2] != 1;
                if (j > 0 && k < 5) wrong += c[i][j - 1][k + 3] != 1;
                c[i][j][k] = 1;
#pragma omp ordered depend(source)
            }
    printf("three dimensions: %d wrong\n", wrong);
    return 0;
}
