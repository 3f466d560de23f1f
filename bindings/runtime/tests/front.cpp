// The C++ front: results, exceptions, task groups, borrowed lambdas. A test fails if bodies run in order.
#include "lithe.hpp"
#include "must.h"
#include <chrono>
#include <mutex>
#include <new>
#include <numeric>
#include <stdexcept>
#include <string>
#include <thread>
#include <vector>

static void loops() {
    std::vector<int> hits(10007);
    lithe::parallel_for(std::size_t{0}, hits.size(), [&](std::size_t i) { hits[i]++; });
    lithe::parallel_for(-5, 5, [&](int i) { hits[static_cast<std::size_t>(i + 5)]++; }, 1);
    lithe::parallel_for_each(hits, [](int &h) { h++; });
    lithe::parallel_for(3, 3, [&](int) { MUST(false); });
    lithe::parallel_for_ranges(0, 10007, 100, [&](int from, int to) {
        MUST(to - from <= 100);
        for (int i = from; i < to; i++) hits[static_cast<std::size_t>(i)]++;
    });
    for (std::size_t i = 0; i < hits.size(); i++) MUST(hits[i] == (i < 10 ? 4 : 3));
}

static long fib(int n) {
    if (n < 2) return n;
    long a = 0, b = 0;
    lithe::join([&] { a = fib(n - 1); }, [&] { b = fib(n - 2); });
    return a + b;
}

static void reductions() {
    long sum = lithe::parallel_reduce(0L, 100000L, 0L, [](long from, long to, long v) {
        for (long i = from; i < to; i++) v += i;
        return v;
    }, [](long a, long b) { return a + b; });
    MUST(sum == 99999L * 50000);
    // Not commutative: the order is kept.
    std::string text = lithe::parallel_reduce(0, 26, std::string(), [](int from, int to, std::string v) {
        for (int i = from; i < to; i++) v += static_cast<char>('a' + i);
        return v;
    }, [](std::string a, std::string b) { return a + b; }, 2);
    MUST(text == "abcdefghijklmnopqrstuvwxyz");
}

struct counted {
    static std::atomic<long> alive;
    counted() { alive++; }
    counted(const counted &) { alive++; }
    ~counted() { alive--; }
};
std::atomic<long> counted::alive{0};

template <class F> static std::string thrown(F f) {
    try {
        f();
    } catch (const std::exception &e) {
        return e.what();
    }
    return "nothing";
}

static void exceptions() {
    std::atomic<int> other{0};
    MUST(thrown([&] { lithe::join([] { throw std::runtime_error("a"); }, [&] { other++; }); }) == "a");
    MUST(thrown([&] { lithe::join([&] { other++; }, [] { throw std::runtime_error("b"); }); }) == "b");
    MUST(other == 2);
    MUST(thrown([] { lithe::parallel_for(0, 1000, [](int i) { if (i == 77) throw std::out_of_range("i"); }, 1); }) == "i");
    std::string which = thrown([] { lithe::parallel_invoke([] { throw std::runtime_error("x"); }, [] { throw std::runtime_error("y"); }, [] {}); });
    MUST(which == "x" || which == "y");
    // From a nested loop in a join, through all levels.
    MUST(thrown([] {
        lithe::join([] { fib(5); }, [] { lithe::parallel_for(0, 8, [](int i) { lithe::join([] {}, [&] { if (i == 3) throw std::logic_error("deep"); }); }, 1); });
    }) == "deep");
    MUST(thrown([] { (void)lithe::parallel_reduce(0, 100, 0, [](int from, int, int v) -> int { if (from > 50) throw std::runtime_error("r"); return v; }, [](int a, int b) { return a + b; }, 1); }) == "r");
    MUST(lithe_number() == -1);
}

static void groups() {
    std::atomic<long> sum{0};
    {
        lithe::task_group group;
        for (int i = 0; i < 1000; i++) group.run([&sum, i, c = counted()] { sum += i; });
        group.wait();
        MUST(sum == 999 * 500 && counted::alive == 0);
        for (int i = 0; i < 10; i++) group.run([&] {
            lithe::task_group inner;
            for (int k = 0; k < 10; k++) inner.run([&] { sum += fib(3); });
            inner.wait();
        });
        group.run([&] { group.run([&] { sum++; }); }); // a task that spawns
        group.wait();
        MUST(sum == 999 * 500 + 200 + 1);
        group.run([c = counted()] { throw std::runtime_error("task"); });
        MUST(thrown([&] { group.wait(); }) == "task" && counted::alive == 0);
        group.run([&] { sum = 5; }); // destroyed without wait()
    }
    MUST(sum == 5 && lithe_number() == -1);
}

static std::atomic<bool> no_memory{false};

static void no_memory_for_tasks() {
    std::atomic<long> sum{0};
    lithe::task_group group;
    no_memory = true;
    for (int i = 0; i < 10; i++) group.run([&sum, i] { sum += i; });
    group.run([] { throw std::runtime_error("in place"); });
    no_memory = false;
    MUST(sum == 45 && thrown([&] { group.wait(); }) == "in place");
}

static void meets() {
    if (lithe::harts() < 2) {
        std::puts("skipped: bodies that meet, on one hart");
        return;
    }
    std::atomic<int> here{0};
    auto meet = [&] {
        here++;
        for (int k = 0; here < 2; k++) {
            MUST(k < 100000);
            std::this_thread::sleep_for(std::chrono::microseconds(100));
        }
    };
    lithe::join(meet, meet);
    here = 0;
    lithe::parallel_for(0, 2, [&](int) { meet(); }, 1);
    here = 0;
    lithe::task_group group;
    group.run(meet);
    group.run_and_wait(meet);
}

void *operator new(std::size_t size, const std::nothrow_t &) noexcept {
    return no_memory ? nullptr : std::malloc(size);
}
void operator delete(void *block) noexcept { std::free(block); }
void operator delete(void *block, std::size_t) noexcept { std::free(block); }
void *operator new(std::size_t size) {
    if (void *block = std::malloc(size)) return block;
    throw std::bad_alloc();
}

int main() {
    lithe::mutex m;
    for (int round = 0; round < 20; round++) {
        loops();
        MUST(fib(15) == 610);
        reductions();
        exceptions();
        groups();
        no_memory_for_tasks();
        meets();
        long plain = 0;
        lithe::parallel_for(0, 1000, [&](int i) { std::lock_guard<lithe::mutex> hold(m); plain += i; }, 1);
        MUST(plain == 999 * 500);
    }
    MUST(lithe_count_of(LITHE_REFUSALS) == 0);
    std::printf("front: C++ on %d harts\n", lithe::harts());
}
