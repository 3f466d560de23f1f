/* Dependences between tasks. */
#include <omp.h>
#include <stdio.h>
#include <unistd.h>

static void chain(int n) {
    int x = 0, y = 0, seen[8] = {0};
#pragma omp parallel num_threads(n)
#pragma omp single
    {
        for (int i = 0; i < 20; i++) {
#pragma omp task depend(inout : x) shared(x)
            x = x * 2 % 10007 + 1;
        }
        for (int i = 0; i < 8; i++) {
#pragma omp task depend(in : x) shared(x, seen) firstprivate(i)
            seen[i] = x;
        }
#pragma omp task depend(out : x) shared(x)
        x = -1;
#pragma omp task depend(in : x) depend(out : y) shared(x, y)
        y = x - 1;
#pragma omp taskwait depend(in : y)
        printf("y %d ", y);
#pragma omp task if (0) depend(in : x) depend(inout : y) shared(x, y)
        y = y * 10 + x;
    }
    printf("y %d x %d seen", y, x);
    for (int i = 0; i < 8; i++) printf(" %d", seen[i]);
    printf("\n");
}

static void blocks(int n) {
    enum { B = 6 };
    static int t[B][B];
    int wrong = 0;
#pragma omp parallel num_threads(n)
#pragma omp single
    for (int i = 0; i < B; i++)
        for (int j = 0; j < B; j++) {
#pragma omp task depend(in : t[i ? i - 1 : 0][j], t[i][j ? j - 1 : 0]) depend(out : t[i][j]) shared(t) firstprivate(i, j)
            t[i][j] = i && j ? t[i - 1][j] + t[i][j - 1] : 1;
        }
    for (int i = 1; i < B; i++)
        for (int j = 1; j < B; j++) wrong += t[i][j] != t[i - 1][j] + t[i][j - 1];
    printf("blocks: %d wrong, %d\n", wrong, t[B - 1][B - 1]);
}

static void objects(int n) {
    int x = 0, sum = 0;
    omp_depend_t out, in, mutual;
#pragma omp depobj(out) depend(inout : x)
#pragma omp depobj(in) depend(in : x)
#pragma omp depobj(mutual) depend(mutexinoutset : sum)
#pragma omp parallel num_threads(n)
#pragma omp single
    {
        for (int i = 0; i < 10; i++) {
#pragma omp task depend(depobj : out) shared(x)
            x++;
#pragma omp task depend(depobj : in, mutual) shared(x, sum)
            sum += x;
#pragma omp task depend(mutexinoutset : sum) shared(sum)
            sum += 100;
        }
    }
#pragma omp depobj(in) update(out)
#pragma omp depobj(out) destroy
#pragma omp depobj(in) destroy
#pragma omp depobj(mutual) destroy
    printf("objects: x %d sum %d\n", x, sum);
}

static void iterators(int n) {
    int a[10] = {0}, total = 0;
#pragma omp parallel num_threads(n)
#pragma omp single
    {
        for (int i = 0; i < 10; i++) {
#pragma omp task depend(out : a[i]) shared(a) firstprivate(i)
            a[i] = i + 1;
        }
#pragma omp task depend(iterator(k = 0 : 10), in : a[k]) shared(a, total)
        for (int i = 0; i < 10; i++) total += a[i];
    }
    printf("iterators: %d\n", total);
}

static void nested(int n) {
    int x = 0, order = 0;
#pragma omp parallel num_threads(n)
#pragma omp single
    {
#pragma omp task depend(out : x) shared(x)
        {
            for (int i = 0; i < 5; i++) {
#pragma omp task depend(inout : x) shared(x)
                x += i;
            }
#pragma omp taskwait
        }
#pragma omp task depend(in : x) shared(x, order)
        order = x;
    }
    printf("nested: %d\n", order);
}

int main(void) {
    for (int n = 1; n <= 6; n += n == 1 ? 1 : 2) {
        chain(n);
        blocks(n);
        objects(n);
        iterators(n);
        nested(n);
    }
    int z = 0;
#pragma omp task depend(out : z) shared(z)
    z = 5;
#pragma omp task depend(in : z) shared(z)
    z++;
#pragma omp taskwait
    printf("outside: %d\n", z);
    return 0;
}
