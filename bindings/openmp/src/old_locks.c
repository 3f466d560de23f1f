/* The locks of OpenMP 2.5, for programs that were linked before 2008: a lock is the same, a nest lock has an int for the
 * owner and one for the count. */
#include "gomp.h"
#include <sys/syscall.h>
#include <unistd.h>

typedef struct old_nest_lock {
    _Atomic int owner; /* a thread */
    int count;
} old_nest_lock;

void omp_init_lock(_Atomic uint32_t *l);
void omp_destroy_lock(_Atomic uint32_t *l);
void omp_set_lock(_Atomic uint32_t *l);
void omp_unset_lock(_Atomic uint32_t *l);
int omp_test_lock(_Atomic uint32_t *l);

static int take(old_nest_lock *l) {
    int me = (int)syscall(SYS_gettid), none = 0;
    if (atomic_load(&l->owner) != me && !atomic_compare_exchange_strong(&l->owner, &none, me)) return 0;
    return ++l->count;
}

static void set_nest_lock(old_nest_lock *l) {
    for (int owner; !take(l);) {
        if (lithe_client) overflow_all(lithe_client);
        if ((owner = atomic_load(&l->owner)) != 0) lithe_futex_wait(&l->owner, (uint32_t)owner, -1);
    }
}

static void unset_nest_lock(old_nest_lock *l) {
    if (--l->count > 0) return;
    atomic_store(&l->owner, 0);
    lithe_futex_wake(&l->owner, 1);
}

#define OLD(result, name, type, ...)                                \
    API result old_##name(type *l);                                 \
    API result old_##name(type *l) { __VA_ARGS__; }                 \
    API result old_##name##_(type *l);                              \
    API result old_##name##_(type *l) { __VA_ARGS__; }              \
    __asm__(".symver old_" #name "," #name "@OMP_1.0");             \
    __asm__(".symver old_" #name "_," #name "_@OMP_1.0");
OLD(void, omp_init_lock, _Atomic uint32_t, omp_init_lock(l))
OLD(void, omp_destroy_lock, _Atomic uint32_t, omp_destroy_lock(l))
OLD(void, omp_set_lock, _Atomic uint32_t, omp_set_lock(l))
OLD(void, omp_unset_lock, _Atomic uint32_t, omp_unset_lock(l))
OLD(int, omp_test_lock, _Atomic uint32_t, return omp_test_lock(l))
OLD(void, omp_init_nest_lock, old_nest_lock, *l = (old_nest_lock){0})
OLD(void, omp_destroy_nest_lock, old_nest_lock, (void)l)
OLD(void, omp_set_nest_lock, old_nest_lock, set_nest_lock(l))
OLD(void, omp_unset_nest_lock, old_nest_lock, unset_nest_lock(l))
OLD(int, omp_test_nest_lock, old_nest_lock, return take(l))
