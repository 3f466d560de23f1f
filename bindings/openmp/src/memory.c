/* Allocators. All memory spaces are the process's memory. */
#include "gomp.h"
#include <stdio.h>
#include <stdlib.h>
#include <string.h>

enum { PREDEFINED = 8, KEY_ALIGNMENT = 2, KEY_POOL = 4, KEY_FALLBACK = 5, KEY_FALLBACK_DATA = 6, KEY_PINNED = 7 };
enum { FALLBACK_DEFAULT = 11, FALLBACK_NULL = 12, FALLBACK_ABORT = 13, FALLBACK_ALLOCATOR = 14 };

typedef struct trait {
    int key;
    uintptr_t value;
} trait;

typedef struct allocator {
    uintptr_t alignment, fallback, fallback_to;
    size_t pool; /* 0: no limit */
    _Atomic size_t used;
} allocator;

/* Before each block. */
typedef struct header {
    void *start;
    size_t size, asked;
    uintptr_t by;
} header;

static int is_power_of_2(uintptr_t v) { return v && (v & (v - 1)) == 0; }

static int set_trait(allocator *a, const trait *t) {
    switch (t->key) {
    case KEY_ALIGNMENT:
        if (t->value != (uintptr_t)-1) a->alignment = t->value;
        return is_power_of_2(a->alignment);
    case KEY_POOL:
        if (t->value != (uintptr_t)-1) a->pool = t->value;
        return 1;
    case KEY_FALLBACK: a->fallback = t->value == (uintptr_t)-1 ? FALLBACK_DEFAULT : t->value; return 1;
    case KEY_FALLBACK_DATA: a->fallback_to = t->value; return 1;
    case KEY_PINNED: return t->value != 1;
    default: return 1;
    }
}

API uintptr_t omp_init_allocator(uintptr_t space, int count, const trait *traits) {
    if (space > 4) return 0;
    allocator *a = calloc(1, sizeof *a);
    if (!a) return 0;
    a->alignment = 1;
    a->fallback = FALLBACK_DEFAULT;
    for (int i = 0; i < count; i++)
        if (!set_trait(a, &traits[i])) {
            free(a);
            return 0;
        }
    return (uintptr_t)a;
}
API void omp_destroy_allocator(uintptr_t a) {
    if (a > PREDEFINED) free((allocator *)a);
}
API void omp_set_default_allocator(uintptr_t a) { here()->allocator = a ? a : 1; }
API uintptr_t omp_get_default_allocator(void) { return here()->allocator; }

static int take_pool(allocator *a, size_t size) {
    size_t used = atomic_load(&a->used);
    if (a->pool == 0) return 1;
    do {
        if (size > a->pool || used > a->pool - size) return 0;
    } while (!atomic_compare_exchange_weak(&a->used, &used, used + size));
    return 1;
}

static void *allocate(size_t align, size_t size, uintptr_t by);

static void *fall_back(size_t align, size_t size, uintptr_t by) {
    allocator *a = by > PREDEFINED ? (allocator *)by : NULL;
    if (!a || a->fallback == FALLBACK_NULL) return NULL;
    if (a->fallback == FALLBACK_ABORT) fatal("Out of memory allocating %zu bytes", size);
    return allocate(align, size, a->fallback == FALLBACK_ALLOCATOR ? a->fallback_to : 1);
}

static void *allocate(size_t align, size_t size, uintptr_t by) {
    if (by == 0) by = here()->allocator;
    allocator *a = by > PREDEFINED ? (allocator *)by : NULL;
    if (align < _Alignof(header)) align = _Alignof(header);
    if (a && a->alignment > align) align = a->alignment;
    size_t whole = size + sizeof(header) + align;
    if (size == 0 || whole < size) return NULL;
    if (a && !take_pool(a, size)) return fall_back(align, size, by);
    char *start = malloc(whole);
    if (!start) {
        if (a && a->pool) atomic_fetch_sub(&a->used, size);
        return fall_back(align, size, by);
    }
    char *at = (char *)(((uintptr_t)start + sizeof(header) + align - 1) & ~(uintptr_t)(align - 1));
    ((header *)at)[-1] = (header){start, whole, size, by};
    return at;
}

API void *omp_aligned_alloc(size_t align, size_t size, uintptr_t by) { return allocate(align, size, by); }
API void *omp_alloc(size_t size, uintptr_t by) { return allocate(1, size, by); }
API void omp_free(void *p, uintptr_t by) {
    (void)by;
    if (!p) return;
    header h = ((header *)p)[-1];
    if (h.by > PREDEFINED && ((allocator *)h.by)->pool) atomic_fetch_sub(&((allocator *)h.by)->used, h.asked);
    free(h.start);
}
API void *omp_aligned_calloc(size_t align, size_t count, size_t size, uintptr_t by) {
    size_t whole;
    if (__builtin_mul_overflow(count, size, &whole)) return NULL;
    void *p = allocate(align, whole, by);
    return p ? memset(p, 0, whole) : NULL;
}
API void *omp_calloc(size_t count, size_t size, uintptr_t by) { return omp_aligned_calloc(1, count, size, by); }
API void *omp_realloc(void *p, size_t size, uintptr_t by, uintptr_t freed_by) {
    if (!p) return omp_alloc(size, by);
    if (size == 0) {
        omp_free(p, freed_by);
        return NULL;
    }
    size_t old = ((header *)p)[-1].asked;
    void *fresh = allocate(1, size, by ? by : ((header *)p)[-1].by);
    if (!fresh) return NULL;
    memcpy(fresh, p, old < size ? old : size);
    omp_free(p, freed_by);
    return fresh;
}

/* The clause `allocate`: the program can't check the result. */
API void *GOMP_alloc(size_t align, size_t size, uintptr_t by) {
    void *p = allocate(align, size ? size : 1, by);
    if (!p) fatal("Out of memory allocating %zu bytes", size);
    return p;
}
API void GOMP_free(void *p, uintptr_t by) { omp_free(p, by); }

/* --- the directive `error` --------------------------------------------------------------------------------------------- */

static void print_message(const char *kind, const char *text, size_t size) {
    int n = !text ? 0 : size == (size_t)-1 ? (int)strlen(text) : (int)size;
    fprintf(stderr, "\nlibgomp: %serror directive encountered%s%.*s\n", kind, text ? ": " : "", n, text ? text : "");
}
API void GOMP_warning(const char *text, size_t size) { print_message("", text, size); }
API void GOMP_error(const char *text, size_t size) {
    print_message("fatal error: ", text, size);
    exit(EXIT_FAILURE);
}
