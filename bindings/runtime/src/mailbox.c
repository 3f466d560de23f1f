/* Messages to waiting threads: spin for a bounded time, then sleep. */
#include "rt.h"
#include <linux/futex.h>
#include <sys/syscall.h>
#include <time.h>
#include <unistd.h>

int64_t lithe_now_ns(void) {
    struct timespec t;
    clock_gettime(CLOCK_MONOTONIC, &t);
    return (int64_t)t.tv_sec * 1000000000 + t.tv_nsec;
}

void lithe_futex_wait(void *at, uint32_t value, int64_t ns) {
    struct timespec t = {ns / 1000000000, ns % 1000000000};
    syscall(SYS_futex, at, FUTEX_WAIT_PRIVATE, value, ns < 0 ? NULL : &t, NULL, 0);
}

void lithe_futex_wake(void *at, int count) { syscall(SYS_futex, at, FUTEX_WAKE_PRIVATE, count, NULL, NULL, 0); }

/* The receiver stores `asleep` before it reads `message`, and the sender stores `message` before it reads `asleep`, all
 * sequentially consistent. So one of them sees the other's store. */
void post(box *b, uint64_t message) {
    atomic_store(&b->message, message);
    if (atomic_load(&b->asleep) && atomic_exchange(&b->asleep, 0)) {
        count(LITHE_WAKES);
        lithe_futex_wake(&b->asleep, 1);
    }
}

static uint64_t take(box *b) {
    return atomic_load_explicit(&b->message, memory_order_relaxed) ? atomic_exchange(&b->message, 0) : 0;
}

uint64_t spin_for(box *b, int64_t ns) {
    int64_t end = 0;
    for (int i = 1;; i++) {
        uint64_t m = take(b);
        if (m) return m;
        lithe_pause();
        if (i % 16) continue;
        int64_t now = lithe_now_ns();
        if (end == 0) end = now + ns;
        if (now >= end) return 0;
    }
}

static uint64_t sleep_for(box *b) {
    uint64_t m = 0;
    count(LITHE_SLEEPS);
    TRACE('B', "sleep", b->hart, 0, 0);
    while (!m) {
        atomic_store(&b->asleep, 1);
        if (!atomic_load(&b->message)) lithe_futex_wait(&b->asleep, 1, -1);
        atomic_store(&b->asleep, 0);
        m = atomic_exchange(&b->message, 0);
    }
    TRACE('E', "sleep", b->hart, 0, 0);
    return m;
}

uint64_t receive(box *b) {
    uint64_t m = spin_for(b, lithe_spin_ns);
    return m ? m : sleep_for(b);
}
