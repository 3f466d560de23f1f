/* Tasks, groups, taskloops and dependences. An argument: how many rounds. */
#include <omp.h>
#include <stdio.h>
#include <stdlib.h>
static int bad;
#define CHECK(c) do { if (!(c)) { bad++; printf("line %d: %s\n", __LINE__, #c); } } while (0)
static long fib(int n) {
    long a, b;
    if (n < 2) return n;
    if (n < 6) return fib(n - 1) + fib(n - 2);
    #pragma omp task shared(a)
    a = fib(n - 1);
    #pragma omp task shared(b)
    b = fib(n - 2);
    #pragma omp taskwait
    return a + b;
}
static void deep(int n, _Atomic long *c) {
    (*c)++;
    for (int i = 0; n > 0 && i < 3; i++)
        #pragma omp task
        deep(n - 1, c);
}
int main(int count, char **words) {
    int rounds = count > 1 ? atoi(words[1]) : 3;
    for (int r = 0; r < rounds; r++) {
        long v = 0;
        #pragma omp parallel
        #pragma omp single
        v = fib(18);
        CHECK(v == 2584);
        #pragma omp parallel
        #pragma omp master
        v = fib(15);
        CHECK(v == 610);
        _Atomic long c = 0;
        #pragma omp parallel
        #pragma omp single nowait
        deep(6, &c);
        CHECK(c == 1093);
        c = 0;
        #pragma omp parallel num_threads(5)
        {
            #pragma omp master
            {
                #pragma omp taskgroup
                deep(5, &c);
                CHECK(c == 364);
            }
            #pragma omp barrier
            CHECK(c == 364);
            #pragma omp barrier
            #pragma omp for
            for (int i = 0; i < 10; i++)
                #pragma omp task
                c++;
            CHECK(c == 374);
        }
        long sum = 0;
        #pragma omp parallel
        #pragma omp single
        #pragma omp taskloop grainsize(7) shared(sum)
        for (long i = 100; i > -100; i -= 3)
            #pragma omp atomic
            sum += i;
        long want = 0;
        for (long i = 100; i > -100; i -= 3) want += i;
        CHECK(sum == want);
        unsigned long long us = 0;
        #pragma omp parallel
        #pragma omp single
        #pragma omp taskloop num_tasks(9) shared(us)
        for (unsigned long long i = 3; i < 1000; i += 7)
            #pragma omp atomic
            us += i;
        unsigned long long uw = 0;
        for (unsigned long long i = 3; i < 1000; i += 7) uw += i;
        CHECK(us == uw);
        int x = 0;
        #pragma omp parallel
        #pragma omp single
        {
            for (int i = 0; i < 5; i++) {
                #pragma omp task depend(inout : x) shared(x)
                x = x * 2 + 1;
            }
        }
        CHECK(x == 31);
    }
    puts(bad ? "FAILED" : "ok");
    return bad != 0;
}
