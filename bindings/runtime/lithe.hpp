/* The runtime for C++17: parallel_for, parallel_reduce, parallel_invoke, join, task_group. Header only, over lithe_rt.h.
 *
 * The names are those of TBB. All bodies run before a function returns. If bodies throw, the function throws one of the
 * exceptions after all bodies that had begun have ended; a loop begins no further chunk after an exception. */
#ifndef LITHE_HPP
#define LITHE_HPP
#include "lithe_rt.h"
#include <algorithm>
#include <atomic>
#include <cstddef>
#include <exception>
#include <iterator>
#include <memory>
#include <mutex>
#include <new>
#include <tuple>
#include <type_traits>
#include <utility>
#if defined __GLIBCXX__
#include <cxxabi.h>
#endif

namespace lithe {

/* The first exception of several bodies. */
class failure {
    std::atomic<int> stage{0};
    std::exception_ptr held;

public:
    bool seen() const noexcept { return stage.load(std::memory_order_relaxed) != 0; }

    /* Calls f, and keeps what it throws. The end of a thread passes through. */
    template <class F> void guard(F &&f) {
        try {
            std::forward<F>(f)();
        }
#if defined __GLIBCXX__
        catch (abi::__forced_unwind &) {
            throw;
        }
#endif
        catch (...) {
            int none = 0;
            if (stage.compare_exchange_strong(none, 1)) {
                held = std::current_exception();
                stage.store(2);
            }
        }
    }

    /* All bodies have ended. */
    void rethrow() {
        if (!seen()) return;
        stage.store(0);
        std::rethrow_exception(std::exchange(held, nullptr));
    }
};

/* The number of harts. */
inline int harts() noexcept { return lithe_count(); }

/* Calls a() and b(), maybe at the same time. */
template <class A, class B> void join(A &&a, B &&b) {
    failure failed;
    auto call_a = [&] { failed.guard(a); };
    auto call_b = [&] { failed.guard(b); };
    lithe_join([](void *f) { (*static_cast<decltype(call_a) *>(f))(); }, &call_a,
               [](void *f) { (*static_cast<decltype(call_b) *>(f))(); }, &call_b);
    failed.rethrow();
}

template <class F> void parallel_invoke(F &&f) { std::forward<F>(f)(); }
/* Calls all of them, maybe at the same time. */
template <class F, class G, class... More> void parallel_invoke(F &&f, G &&g, More &&...more) {
    if constexpr (sizeof...(More) == 0)
        join(f, g);
    else
        join(f, [&] { parallel_invoke(g, more...); });
}

/* Calls body(from, to) for ranges of at most `chunk` indices (0: the runtime chooses) that make up first..last. */
template <class Index, class Body>
std::enable_if_t<std::is_integral_v<Index>> parallel_for_ranges(Index first, Index last, Index chunk, Body &&body) {
    if (!(first < last)) return;
    failure failed;
    auto range = [&](long from, long to) {
        if (failed.seen()) return;
        failed.guard([&] { body(static_cast<Index>(first + static_cast<Index>(from)), static_cast<Index>(first + static_cast<Index>(to))); });
    };
    lithe_for_ranges(static_cast<long>(last - first), static_cast<long>(chunk),
                     [](void *f, long from, long to) { (*static_cast<decltype(range) *>(f))(from, to); }, &range);
    failed.rethrow();
}

/* Calls body(i) for each i in first..last. */
template <class Index, class Body>
std::enable_if_t<std::is_integral_v<Index>> parallel_for(Index first, Index last, Body &&body, Index chunk = 0) {
    parallel_for_ranges(first, last, chunk, [&](Index from, Index to) {
        for (Index i = from; i < to; ++i) body(i);
    });
}

/* Calls body(element) for each element. */
template <class Iterator, class Body> void parallel_for_each(Iterator first, Iterator last, Body &&body) {
    using distance = typename std::iterator_traits<Iterator>::difference_type;
    static_assert(std::is_base_of_v<std::random_access_iterator_tag, typename std::iterator_traits<Iterator>::iterator_category>,
                  "the iterator must allow any order");
    parallel_for<distance>(0, last - first, [&](distance i) { body(first[i]); });
}
template <class Range, class Body> void parallel_for_each(Range &&range, Body &&body) {
    parallel_for_each(std::begin(range), std::end(range), body);
}

/* body(from, to, value) returns the value with a range added on the right; combine(left, right) joins two values. The
 * range is halved down to `chunk` (0: 64 parts) without regard to the harts, so the result doesn't depend on them. */
template <class Index, class Value, class Body, class Combine>
Value parallel_reduce(Index first, Index last, const Value &identity, const Body &body, const Combine &combine, Index chunk = 0) {
    if (!(first < last)) return identity;
    if (chunk <= 0) chunk = static_cast<Index>((last - first) / 64 + 1);
    if (last - first <= chunk) return body(first, last, identity);
    Index middle = static_cast<Index>(first + (last - first) / 2);
    Value left = identity, right = identity;
    join([&] { left = parallel_reduce(first, middle, identity, body, combine, chunk); },
         [&] { right = parallel_reduce(middle, last, identity, body, combine, chunk); });
    return combine(std::move(left), std::move(right));
}

/* A group of tasks. run() may be called by the thread that made the group, and by the group's tasks. If there is no
 * memory for a task, run() calls it in place. */
class task_group {
    struct node {
        lithe_task task;
        node *next = nullptr;
        task_group *of;
        explicit node(task_group *group) : of(group) {}
        virtual void call() = 0;
        virtual ~node() = default;
    };
    template <class F> struct holds final : node {
        F f;
        template <class G> holds(task_group *group, G &&g) : node(group), f(std::forward<G>(g)) {}
        void call() override { f(); }
    };

    lithe_group group;
    failure failed;
    std::atomic<node *> nodes{nullptr};

    static void run_node(void *arg) {
        node *n = static_cast<node *>(arg);
        if (!n->of->failed.seen()) n->of->failed.guard([&] { n->call(); });
    }
    void free_nodes() noexcept {
        for (node *n = nodes.exchange(nullptr); n;) delete std::exchange(n, n->next);
    }

public:
    task_group() noexcept { lithe_group_init(&group); }
    task_group(const task_group &) = delete;
    task_group &operator=(const task_group &) = delete;
    /* Waits. An exception of a task that wait() hasn't thrown is lost. */
    ~task_group() {
        lithe_group_wait(&group);
        free_nodes();
    }

    template <class F> void run(F &&f) {
        node *n = new (std::nothrow) holds<std::decay_t<F>>(this, std::forward<F>(f));
        if (!n) {
            failed.guard(f);
            return;
        }
        n->next = nodes.load();
        while (!nodes.compare_exchange_weak(n->next, n)) {
        }
        lithe_spawn(&group, &n->task, run_node, n);
    }

    /* Waits until all tasks have ended. Throws the first exception of a task; tasks that hadn't begun then are dropped. */
    void wait() {
        lithe_group_wait(&group);
        free_nodes();
        failed.rethrow();
    }
    template <class F> void run_and_wait(F &&f) {
        failed.guard(f);
        wait();
    }
};

/* lithe_mutex for std::lock_guard and std::unique_lock. */
class mutex {
    lithe_mutex raw = LITHE_MUTEX_INIT;

public:
    mutex() = default;
    mutex(const mutex &) = delete;
    mutex &operator=(const mutex &) = delete;
    void lock() noexcept { lithe_mutex_lock(&raw); }
    bool try_lock() noexcept { return lithe_mutex_try_lock(&raw) != 0; }
    void unlock() noexcept { lithe_mutex_unlock(&raw); }
};

} // namespace lithe
#endif
