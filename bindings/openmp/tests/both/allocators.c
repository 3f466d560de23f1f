/* Allocators and the allocate clause. */
#include <omp.h>
#include <stdint.h>
#include <stdio.h>
#include <string.h>

int main(void) {
    omp_alloctrait_t traits[] = {{omp_atk_alignment, 128}, {omp_atk_pool_size, 1000}, {omp_atk_fallback, omp_atv_null_fb}};
    omp_allocator_handle_t a = omp_init_allocator(omp_default_mem_space, 3, traits);
    void *p = omp_alloc(100, a), *q = omp_alloc(5000, a);
    printf("%d %d %d\n", p != NULL, (int)((uintptr_t)p % 128), q == NULL);
    omp_free(p, a);
    p = omp_aligned_alloc(256, 512, omp_default_mem_alloc);
    printf("%d\n", (int)((uintptr_t)p % 256));
    strcpy(p, "kept");
    p = omp_realloc(p, 4000, omp_default_mem_alloc, omp_null_allocator);
    printf("%s\n", (char *)p);
    omp_free(p, omp_null_allocator);
    int *zero = omp_calloc(10, sizeof(int), omp_null_allocator), sum = 0;
    for (int i = 0; i < 10; i++) sum += zero[i];
    printf("%d\n", sum);
    omp_free(zero, omp_null_allocator);
    printf("%p\n", omp_alloc(0, omp_default_mem_alloc));
    omp_set_default_allocator(omp_high_bw_mem_alloc);
    printf("%d\n", (int)omp_get_default_allocator());
    int x = 4, total = 0;
#pragma omp parallel num_threads(3) firstprivate(x) allocate(omp_default_mem_alloc : x) reduction(+ : total)
    total += x;
    printf("%d\n", total);
    omp_destroy_allocator(a);
    omp_alloctrait_t bad[] = {{omp_atk_alignment, 3}};
    printf("%d\n", omp_init_allocator(omp_default_mem_space, 1, bad) == omp_null_allocator);
    return 0;
}
