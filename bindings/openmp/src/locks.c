/* Locks, critical and atomic. */
#include "gomp.h"
#include <stdlib.h>
#include <string.h>

enum { SPINS = 200 };

static bool try_word(_Atomic uint32_t *word) {
    uint32_t old = 0;
    return atomic_compare_exchange_strong_explicit(word, &old, 1, memory_order_acquire, memory_order_relaxed);
}

static bool spin_for_word(_Atomic uint32_t *word) {
    if (try_word(word)) return true;
    for (int i = 0; i < SPINS; i++) {
        lithe_pause();
        if (atomic_load_explicit(word, memory_order_relaxed) == 0 && try_word(word)) return true;
    }
    return false;
}

static void sleep_for_word(_Atomic uint32_t *word) {
    while (atomic_exchange_explicit(word, 2, memory_order_acquire) != 0) lithe_futex_wait(word, 2, -1);
}

void lock_word(_Atomic uint32_t *word) {
    if (!spin_for_word(word)) sleep_for_word(word);
}

void unlock_word(_Atomic uint32_t *word) {
    if (atomic_exchange_explicit(word, 0, memory_order_release) == 2) lithe_futex_wake(word, 1);
}

/* A lock of the program: its holder may wait for a member that hasn't started. */
static void lock_counted(_Atomic uint32_t *word) {
    if (!spin_for_word(word)) {
        if (lithe_client) overflow_all(lithe_client);
        sleep_for_word(word);
    }
    here()->locks++;
}

static void unlock_counted(_Atomic uint32_t *word) {
    here()->locks--;
    unlock_word(word);
}

static _Atomic uint32_t critical_word, atomic_word;
API void GOMP_critical_start(void) { lock_counted(&critical_word); }
API void GOMP_critical_end(void) { unlock_counted(&critical_word); }
API void GOMP_critical_name_start(void **p) { lock_counted((_Atomic uint32_t *)p); }
API void GOMP_critical_name_end(void **p) { unlock_counted((_Atomic uint32_t *)p); }
API void GOMP_atomic_start(void) { lock_word(&atomic_word); }
API void GOMP_atomic_end(void) { unlock_word(&atomic_word); }

/* --- omp_lock_t ------------------------------------------------------------------------------------------------------- */

API void omp_init_lock(_Atomic uint32_t *l) { atomic_store(l, 0); }
API void omp_init_lock_with_hint(_Atomic uint32_t *l, int hint) {
    (void)hint;
    omp_init_lock(l);
}
API void omp_destroy_lock(_Atomic uint32_t *l) { (void)l; }
API void omp_set_lock(_Atomic uint32_t *l) { lock_counted(l); }
API void omp_unset_lock(_Atomic uint32_t *l) { unlock_counted(l); }
API int omp_test_lock(_Atomic uint32_t *l) {
    if (!try_word(l)) return 0;
    here()->locks++;
    return 1;
}

/* --- omp_nest_lock_t: owned by a task --------------------------------------------------------------------------------- */

typedef struct nest_lock {
    _Atomic uint32_t word;
    int count;
    void *_Atomic owner;
} nest_lock;
_Static_assert(sizeof(nest_lock) == 16, "omp.h has 16 bytes for it");

API void omp_init_nest_lock(nest_lock *l) { memset((void *)l, 0, sizeof *l); }
API void omp_init_nest_lock_with_hint(nest_lock *l, int hint) {
    (void)hint;
    omp_init_nest_lock(l);
}
API void omp_destroy_nest_lock(nest_lock *l) { (void)l; }
API void omp_set_nest_lock(nest_lock *l) {
    task *mine = here()->now;
    if (atomic_load(&l->owner) != mine) {
        lock_counted(&l->word);
        atomic_store(&l->owner, mine);
    }
    l->count++;
}
API void omp_unset_nest_lock(nest_lock *l) {
    if (--l->count > 0) return;
    atomic_store(&l->owner, NULL);
    unlock_counted(&l->word);
}
API int omp_test_nest_lock(nest_lock *l) {
    task *mine = here()->now;
    if (atomic_load(&l->owner) != mine) {
        if (!omp_test_lock(&l->word)) return 0;
        atomic_store(&l->owner, mine);
    }
    return ++l->count;
}

/* --- Fortran: a lock is in the variable, a nest lock is behind it ------------------------------------------------------ */

API void omp_init_lock_(_Atomic uint32_t *l) { omp_init_lock(l); }
API void omp_destroy_lock_(_Atomic uint32_t *l) { omp_destroy_lock(l); }
API void omp_set_lock_(_Atomic uint32_t *l) { omp_set_lock(l); }
API void omp_unset_lock_(_Atomic uint32_t *l) { omp_unset_lock(l); }
API int omp_test_lock_(_Atomic uint32_t *l) { return omp_test_lock(l); }
API void omp_init_nest_lock_(nest_lock **l) { *l = zeroed(sizeof **l); }
API void omp_destroy_nest_lock_(nest_lock **l) {
    free(*l);
    *l = NULL;
}
API void omp_set_nest_lock_(nest_lock **l) { omp_set_nest_lock(*l); }
API void omp_unset_nest_lock_(nest_lock **l) { omp_unset_nest_lock(*l); }
API int omp_test_nest_lock_(nest_lock **l) { return omp_test_nest_lock(*l); }
