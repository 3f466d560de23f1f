/* Parallel regions, workshares, locks and nested regions. An argument: how many rounds. */
#include <omp.h>
#include <stdio.h>
#include <stdlib.h>
static int bad;
#define CHECK(c) do { if (!(c)) { bad++; printf("line %d: %s\n", __LINE__, #c); } } while (0)
static int tp;
#pragma omp threadprivate(tp)
int main(int count, char **words) {
    int rounds = count > 1 ? atoi(words[1]) : 3;
    enum { N = 10007 };
    static int hit[N];
    int n = 0;
    #pragma omp parallel
    {
        #pragma omp single
        n = omp_get_num_threads();
    }
    CHECK(n >= 1);
    for (int round = 0; round < rounds; round++) {
        for (int i = 0; i < N; i++) hit[i] = 0;
        #pragma omp parallel
        {
            #pragma omp for schedule(static)
            for (int i = 0; i < N; i++) hit[i]++;
            #pragma omp for schedule(dynamic, 3) nowait
            for (int i = 0; i < N; i++)
                #pragma omp atomic
                hit[i]++;
            #pragma omp for schedule(guided)
            for (int i = 0; i < N; i++)
                #pragma omp atomic
                hit[i]++;
            #pragma omp for schedule(runtime)
            for (int i = N - 1; i >= 0; i--) hit[i]++;
        }
        for (int i = 0; i < N; i++) CHECK(hit[i] == 4);
        long sum = 0;
        #pragma omp parallel for schedule(dynamic) reduction(+ : sum)
        for (int i = 0; i < N; i++) sum += i;
        CHECK(sum == (long)N * (N - 1) / 2);
        int c = 0, d = 0, e = 0, s[5] = {0}, last = -1, ordered_bad = 0;
        #pragma omp parallel num_threads(6)
        {
            #pragma omp critical
            c++;
            #pragma omp critical(other)
            d++;
            #pragma omp barrier
            #pragma omp single
            e++;
            #pragma omp single
            { CHECK(c == 6); CHECK(d == 6); }
            #pragma omp sections
            {
                #pragma omp section
                s[0]++;
                #pragma omp section
                s[1]++;
                #pragma omp section
                s[2]++;
                #pragma omp section
                s[3]++;
            }
            #pragma omp for ordered schedule(dynamic)
            for (int i = 0; i < 50; i++) {
                #pragma omp ordered
                { if (last != i - 1) ordered_bad++; last = i; }
            }
            int v;
            #pragma omp single copyprivate(v)
            v = round;
            CHECK(v == round);
            for (int k = 0; k < 20; k++) {
                #pragma omp barrier
            }
        }
        CHECK(c == 6 && d == 6 && e == 1 && last == 49 && !ordered_bad);
        CHECK(s[0] == 1 && s[1] == 1 && s[2] == 1 && s[3] == 1);
        /* Other members may run on other threads than before, if harts don't come. */
        tp = round;
        #pragma omp parallel copyin(tp)
        { CHECK(tp == round); tp += omp_get_thread_num() + 1; }
        #pragma omp parallel
        if (omp_get_thread_num() == 0) CHECK(tp == round + 1);
        unsigned long long u = 0;
        #pragma omp parallel for schedule(dynamic, 7) reduction(+ : u)
        for (unsigned long long i = 5; i < 1005; i += 5) u += i;
        CHECK(u == 5ull * 200 * 199 / 2 + 5 * 200);
        int f = 0;
        #pragma omp parallel
        #pragma omp single
        {
            for (int i = 0; i < 20; i++)
                #pragma omp task shared(f)
                #pragma omp atomic
                f++;
            #pragma omp taskwait
        }
        CHECK(f == 20);
        f = 0;
        #pragma omp parallel
        #pragma omp single
        #pragma omp taskloop shared(f)
        for (int i = 0; i < 33; i++)
            #pragma omp atomic
            f++;
        CHECK(f == 33);
        omp_lock_t l;
        omp_init_lock(&l);
        int g = 0;
        #pragma omp parallel for
        for (int i = 0; i < 100; i++) { omp_set_lock(&l); g++; omp_unset_lock(&l); }
        CHECK(g == 100);
        omp_nest_lock_t m;
        omp_init_nest_lock(&m);
        #pragma omp parallel for
        for (int i = 0; i < 100; i++) { omp_set_nest_lock(&m); omp_set_nest_lock(&m); g++; omp_unset_nest_lock(&m); omp_unset_nest_lock(&m); }
        CHECK(g == 200);
    }
    omp_set_max_active_levels(3);
    for (int round = 0; round < rounds; round++) {
        int a = 0, members = 0;
        #pragma omp parallel num_threads(3) reduction(+ : members)
        {
            int outer = omp_get_thread_num(), k = 0;
            #pragma omp parallel num_threads(4)
            {
                CHECK(omp_get_ancestor_thread_num(1) == outer);
                CHECK(omp_get_level() == 2);
                #pragma omp atomic
                a++;
                #pragma omp barrier
                #pragma omp atomic
                k++;
                #pragma omp barrier
                CHECK(k == 4);
            }
            members++;
            #pragma omp barrier
            #pragma omp parallel for reduction(+ : k)
            for (int i = 0; i < 1000; i++) k += i;
            CHECK(k == 4 + 999 * 500);
        }
        CHECK(a == 12 && members == 3);
    }
    _Atomic int flag = 0;
    #pragma omp parallel num_threads(9)
    {
        if (omp_get_thread_num() == 8) flag = 1;
        while (!flag) __builtin_ia32_pause();
    }
    puts(bad ? "FAILED" : "ok");
    return bad != 0;
}
