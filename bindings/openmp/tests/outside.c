/* Many threads from outside, each with regions of its own; threads that end, and fork. Arguments: threads, rounds. */
#include <omp.h>
#include <pthread.h>
#include <stdio.h>
#include <stdlib.h>
#include <sys/wait.h>
#include <unistd.h>

static int wrong;
static void region(int want) {
    long sum = 0;
    if (want) {
#pragma omp parallel for num_threads(want) reduction(+ : sum)
        for (int i = 0; i < 100; i++) sum += i;
    } else {
#pragma omp parallel for reduction(+ : sum) schedule(dynamic)
        for (int i = 0; i < 100; i++) sum += i;
    }
    if (sum != 4950) __atomic_fetch_add(&wrong, 1, __ATOMIC_RELAXED);
}
static void barriers(int n) {
    int here = 0, bad = 0;
#pragma omp parallel num_threads(n) reduction(+ : bad)
    for (int k = 1; k <= 3; k++) {
#pragma omp atomic
        here++;
#pragma omp barrier
        int seen;
#pragma omp atomic read
        seen = here;
        bad += seen != k * n;
#pragma omp barrier
    }
    if (bad) __atomic_fetch_add(&wrong, 1, __ATOMIC_RELAXED);
}
static void *run(void *arg) {
    for (long i = 0; i < (long)arg; i++) {
        region((int)(i % 4));
        barriers(2 + (int)(i % 3));
    }
    return NULL;
}
static void all(int threads, long rounds) {
    pthread_t t[64];
    for (int i = 0; i < threads; i++) pthread_create(&t[i], NULL, run, (void *)rounds);
    for (int i = 0; i < threads; i++) pthread_join(t[i], NULL);
}
#ifndef NO_FORK
static void in_child(const char *name, int threads) {
    int status = 1;
    pid_t p = fork();
    if (p == 0) {
        run((void *)2);
        if (threads) all(threads, 2);
        _exit(wrong != 0);
    }
    waitpid(p, &status, 0);
    if (status) {
        printf("%s: child's status %x\n", name, status);
        wrong++;
    }
}
#endif
int main(int count, char **words) {
    int threads = count > 1 ? atoi(words[1]) : 8;
    long rounds = count > 2 ? atol(words[2]) : 3;
#ifndef NO_FORK
    in_child("before", 2);
#endif
    all(threads, rounds);
    run((void *)rounds);
#ifndef NO_FORK
    in_child("after", 2);
#pragma omp parallel num_threads(2)
#pragma omp single
    {
        int status = 1;
        pid_t p = fork();
        if (p == 0) _exit(7);
        waitpid(p, &status, 0);
        if (WEXITSTATUS(status) != 7) wrong++;
    }
#endif
    run((void *)rounds);
    puts(wrong ? "FAILED" : "ok");
    return wrong != 0;
}
