/* A mutex: 0 free, 1 locked, 2 locked and somebody may sleep. */
#include "rt.h"

static _Atomic uint32_t *word_of(lithe_mutex *m) { return (_Atomic uint32_t *)&m->word; }

int lithe_mutex_try_lock(lithe_mutex *m) {
    uint32_t free = 0;
    return atomic_compare_exchange_strong(word_of(m), &free, 1);
}

void lithe_mutex_lock(lithe_mutex *m) {
    for (int i = 0; i < 100; i++) {
        if (atomic_load_explicit(word_of(m), memory_order_relaxed) == 0 && lithe_mutex_try_lock(m)) return;
        lithe_pause();
    }
    while (atomic_exchange(word_of(m), 2) != 0) lithe_futex_wait(&m->word, 2, -1);
}

void lithe_mutex_unlock(lithe_mutex *m) {
    if (atomic_exchange(word_of(m), 0) == 2) lithe_futex_wake(&m->word, 1);
}
