// One set of programs for the runtime, TBB and OpenMP; compile with -DPEER_LITHE, -DPEER_TBB or -DPEER_OMP. peers.rs has them for
// rayon. Prints the best and the median of TRIES tries, and checks the results. `run` interleaves the peers.
#include "compose.h"
#include <algorithm>
#include <vector>
#if defined PEER_LITHE
#include "lithe.hpp"
static const char *peer = "lithe";
#elif defined PEER_TBB
#include <tbb/global_control.h>
#include <tbb/parallel_for.h>
#include <tbb/parallel_invoke.h>
static const char *peer = "tbb";
#else
#include <omp.h>
static const char *peer = "openmp";
#endif

template <class A, class B> static void both(A a, B b) {
#if defined PEER_LITHE
    lithe::join(a, b);
#elif defined PEER_TBB
    tbb::parallel_invoke(a, b);
#else
#pragma omp task shared(b)
    b();
    a();
#pragma omp taskwait
#endif
}

// OpenMP's tasks need a region around them; the others begin where they are.
template <class F> static void region(F f) {
#if defined PEER_OMP
#pragma omp parallel
#pragma omp single
#endif
    f();
}

// Runs f where joins and loops needn't enter the library's pool or region.
template <class F> static void inside(F f) {
#if defined PEER_OMP
    region(f);
#else
    both(f, [] {});
#endif
}

template <class F> static void turns(int n, F f) {
#if defined PEER_LITHE
    lithe::parallel_for(0, n, f, 1);
#elif defined PEER_TBB
    tbb::parallel_for(tbb::blocked_range<int>(0, n, 1), [&](const tbb::blocked_range<int> &r) {
        for (int i = r.begin(); i < r.end(); i++) f(i);
    }, tbb::simple_partitioner());
#else
#pragma omp parallel for schedule(dynamic, 1)
    for (int i = 0; i < n; i++) f(i);
#endif
}

static long fib_alone(int n) { return n < 2 ? n : fib_alone(n - 1) + fib_alone(n - 2); }
static long fib(int n) {
    if (n < 12) return fib_alone(n);
    long a = 0, b = 0;
    both([&] { a = fib(n - 1); }, [&] { b = fib(n - 2); });
    return a + b;
}

// An irregular tree: 0 to 3 children, by a generator; a node does 200 steps.
static long tree(uint64_t seed, int depth) {
    for (int i = 0; i < 200; i++) {
        seed = seed * 6364136223846793005u + 1442695040888963407u;
        asm("" : "+r"(seed)); // keeps the compiler from making several steps one
    }
    int children = depth == 0 ? 0 : 1 + static_cast<int>(seed >> 60) % 3;
    long size[3] = {0, 0, 0};
    auto child = [&](int k) { size[k] = tree(seed + static_cast<uint64_t>(k) * 977, depth - 1); };
    if (children == 1) child(0);
    if (children == 2) both([&] { child(0); }, [&] { child(1); });
    if (children == 3) both([&] { both([&] { child(0); }, [&] { child(1); }); }, [&] { child(2); });
    return 1 + size[0] + size[1] + size[2];
}

static leaves all;
static void tasks(int from) {
    both([=] { both([=] { leaf(&all, from); }, [=] { leaf(&all, from + 1); }); },
         [=] { both([=] { leaf(&all, from + 2); }, [=] { leaf(&all, from + 3); }); });
}
static void loops(int p) {
#if defined PEER_OMP
    for (int q = 0; q < MIDDLE; q++)
#pragma omp task
        tasks((p * MIDDLE + q) * INNER);
#pragma omp taskwait
#else
    turns(MIDDLE, [=](int q) { tasks((p * MIDDLE + q) * INNER); });
#endif
}

template <class F> static void measure(const char *name, int tries, long times, F f) {
    std::vector<double> each;
    for (int t = 0; t < tries; t++) {
        double start = now_ns();
        for (long k = 0; k < times; k++) f();
        each.push_back((now_ns() - start) / static_cast<double>(times));
    }
    std::sort(each.begin(), each.end());
    printf("%-34s %-7s %12.0f %12.0f ns\n", name, peer, each[0], each[each.size() / 2]);
}

static uint64_t sum() {
    uint64_t total = 0;
    for (auto &leaf : all.at) total += leaf.value;
    return total;
}

static int wrong(const char *name, long found) {
    printf("%s: wrong %s: %ld\n", peer, name, found);
    return 1;
}

int main(int count, char **words) {
    int tries = count > 1 ? atoi(words[1]) : 11;
#if defined PEER_TBB
    const char *limit = getenv("LITHE_HARTS");
    tbb::global_control control(tbb::global_control::max_allowed_parallelism, static_cast<size_t>(limit ? atoi(limit) : 4));
#endif
    all.grain = 64;
    region([&] { measure("join of two empty calls", tries, 10000, [] { both([] {}, [] {}); }); });
    auto compose = [] { both([] { loops(0); }, [] { loops(1); }); };
    measure("composition, leaves of 64 steps", tries, 1000, [&] { region(compose); });
    inside([&] { measure("composition, inside a region", tries, 1000, compose); });
    if (sum() != expected(2 * tries * 1000, all.grain)) return wrong("leaves", static_cast<long>(sum()));
    measure("1,000 small turns", tries, 200, [] { turns(1000, [](int i) { leaf(&all, i % LEAVES); }); });
    long f = 0, t = 0;
    measure("fib(32), cut-off 12", tries, 1, [&] { region([&] { f = fib(32); }); });
    measure("irregular tree", tries, 1, [&] { region([&] { t = tree(7, 14); }); });
    if (f != 2178309) return wrong("fib", f);
    return t == 31385 ? 0 : wrong("tree", t);
}
