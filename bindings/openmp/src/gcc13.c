/* What gcc 13 added to the library of gcc 12. */
#include "gomp.h"
#include <stdlib.h>

API int omp_in_explicit_task(void) { return here()->now->is_explicit; }
API int omp_in_explicit_task_(void) { return omp_in_explicit_task(); }

/* An empty task with dependences. */
API void GOMP_taskwait_depend_nowait(void **depend) {
    context *c = here();
    if (set.cancellation && is_cancelled_for(c)) return;
    task *k = new_task(c, &(body){0}, false);
    atomic_store(&k->waits_for, 1);
    lock_word(&c->of->task_lock);
    add_needs(k, depend);
    unlock_word(&c->of->task_lock);
    submit(c, k);
}

/* --- memory of devices: the host is device 0 --------------------------------------------------------------------------- */

int omp_target_memcpy(void *to, const void *from, size_t size, size_t to_offset, size_t from_offset, int to_device,
                      int from_device);
int omp_target_memcpy_rect(void *to, const void *from, size_t element, int dimensions, const size_t *volume,
                           const size_t *to_offsets, const size_t *from_offsets, const size_t *to_sizes,
                           const size_t *from_sizes, int to_device, int from_device);
void GOMP_taskwait_depend(void **depend);

API void *omp_get_mapped_ptr(const void *p, int device) { return device == 0 || device == -1 ? (void *)p : NULL; }
API int omp_target_is_accessible(const void *p, size_t size, int device) {
    (void)p, (void)size;
    return device == 0 || device == -1;
}

enum { OBJECTS_FROM = 5, OBJECT_SIZE = 2 * sizeof(void *) };

/* The copies are made at once, after what they depend on. */
static void wait_for_objects(int count, char *objects) {
    if (count <= 0) return;
    void **depend = zeroed((size_t)(OBJECTS_FROM + count) * sizeof *depend);
    depend[1] = (void *)(uintptr_t)count;
    for (int i = 0; i < count; i++) depend[OBJECTS_FROM + i] = objects + (size_t)i * OBJECT_SIZE;
    GOMP_taskwait_depend(depend);
    free(depend);
}
API int omp_target_memcpy_async(void *to, const void *from, size_t size, size_t to_offset, size_t from_offset, int to_device,
                                int from_device, int count, void *objects) {
    wait_for_objects(count, objects);
    return omp_target_memcpy(to, from, size, to_offset, from_offset, to_device, from_device);
}
API int omp_target_memcpy_rect_async(void *to, const void *from, size_t element, int dimensions, const size_t *volume,
                                     const size_t *to_offsets, const size_t *from_offsets, const size_t *to_sizes,
                                     const size_t *from_sizes, int to_device, int from_device, int count, void *objects) {
    wait_for_objects(count, objects);
    return omp_target_memcpy_rect(to, from, element, dimensions, volume, to_offsets, from_offsets, to_sizes, from_sizes, to_device,
                                  from_device);
}
