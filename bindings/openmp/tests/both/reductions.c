/* Reductions with tasks: of regions, loops, sections, scopes, groups and taskloops. */
#include <omp.h>
#include <stdio.h>

typedef struct pair {
    long a, b;
} pair;
static void add(pair *to, const pair *from) { to->a += from->a, to->b *= from->b; }
#pragma omp declare reduction(pair : pair : add(&omp_out, &omp_in)) initializer(omp_priv = {0, 1})

static long in_group(int n, int depth) {
    long sum = 0;
    pair p = {0, 1};
    (void)depth;
#pragma omp parallel num_threads(n)
#pragma omp single
#pragma omp taskgroup task_reduction(+ : sum) task_reduction(pair : p)
    for (int i = 1; i <= 20; i++) {
#pragma omp task in_reduction(+ : sum) in_reduction(pair : p) firstprivate(i)
        {
            sum += i;
            p.a += i;
            if (i <= 5) p.b *= i;
#pragma omp task in_reduction(+ : sum) firstprivate(i)
            sum += 1000 * i;
        }
    }
    printf("group: %ld %ld %ld\n", sum, p.a, p.b);
    return sum;
}

static void in_region(int n) {
    long sum = 0, largest = 0;
#pragma omp parallel reduction(task, + : sum) reduction(task, max : largest) num_threads(n)
    {
        sum++;
#pragma omp single
        for (int i = 1; i <= 30; i++) {
#pragma omp task in_reduction(+ : sum) in_reduction(max : largest) firstprivate(i)
            {
                sum += 100 * i;
                if (i * i > largest) largest = i * i;
            }
        }
    }
    printf("region: %ld %ld\n", sum > 46500 && sum <= 46500 + n ? 46500 : sum, largest);
}

static void in_workshares(int n) {
    long loop = 0, sections = 0, scope = 0;
    int a[4] = {0};
#pragma omp parallel num_threads(n)
    {
#pragma omp for reduction(task, + : loop, a[ : 4]) schedule(dynamic, 2)
        for (int i = 0; i < 40; i++) {
            loop += i;
#pragma omp task in_reduction(+ : loop, a[ : 4]) firstprivate(i)
            {
                loop += 1000;
                a[i % 4] += i;
            }
        }
#pragma omp sections reduction(task, + : sections)
        {
#pragma omp section
            {
#pragma omp task in_reduction(+ : sections)
                sections += 3;
            }
#pragma omp section
            sections += 40;
#pragma omp section
            {
                sections += 500;
#pragma omp task in_reduction(+ : sections)
                sections += 6000;
            }
        }
#pragma omp scope reduction(task, + : scope)
        {
#pragma omp masked
            for (int i = 0; i < 10; i++) {
#pragma omp task in_reduction(+ : scope) firstprivate(i)
                scope += i;
            }
        }
#pragma omp scope reduction(+ : scope)
        scope += 0;
    }
    printf("workshares: %ld %ld %ld %d %d %d %d\n", loop, sections, scope, a[0], a[1], a[2], a[3]);
}

static void in_taskloops(int n) {
    long sum = 0, outer = 0, none = 7;
#pragma omp parallel num_threads(n)
#pragma omp single
    {
#pragma omp taskloop reduction(+ : sum) grainsize(3)
        for (int i = 0; i < 100; i++) sum += i;
#pragma omp taskloop reduction(+ : none)
        for (int i = 0; i < 0; i++) none += i;
#pragma omp taskgroup task_reduction(+ : outer)
        {
#pragma omp taskloop in_reduction(+ : outer) nogroup num_tasks(5)
            for (int i = 0; i < 50; i++) outer += i;
#pragma omp taskgroup task_reduction(+ : sum)
            {
#pragma omp task in_reduction(+ : sum, outer)
                {
                    sum += 1;
                    outer += 1;
                }
            }
        }
    }
    printf("taskloops: %ld %ld %ld\n", sum, outer, none);
}

int main(void) {
    for (int n = 1; n <= 5; n += 2) {
        in_group(n, 0);
        in_region(n);
        in_workshares(n);
        in_taskloops(n);
    }
    long orphan = 0;
#pragma omp taskgroup task_reduction(+ : orphan)
    {
#pragma omp task in_reduction(+ : orphan)
        orphan += 4;
    }
    printf("orphan: %ld\n", orphan);
    return 0;
}
