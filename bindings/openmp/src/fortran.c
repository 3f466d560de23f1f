/* The Fortran names of the omp_ functions: arguments by address, an underscore behind, and `_8_` for 8-byte integers. */
#include "gomp.h"
#include <string.h>

#define READS(type, name)          \
    type name(void);               \
    API type name##_(void) { return name(); }
READS(int, omp_get_thread_num)
READS(int, omp_get_num_threads)
READS(int, omp_get_max_threads)
READS(int, omp_get_num_procs)
READS(int, omp_in_parallel)
READS(int, omp_get_dynamic)
READS(int, omp_get_nested)
READS(int, omp_get_level)
READS(int, omp_get_active_level)
READS(int, omp_get_max_active_levels)
READS(int, omp_get_supported_active_levels)
READS(int, omp_get_thread_limit)
READS(int, omp_in_final)
READS(int, omp_get_cancellation)
READS(int, omp_get_max_task_priority)
READS(double, omp_get_wtime)
READS(double, omp_get_wtick)
READS(int, omp_get_proc_bind)
READS(int, omp_get_num_places)
READS(int, omp_get_place_num)
READS(int, omp_get_partition_num_places)
READS(int, omp_get_num_teams)
READS(int, omp_get_team_num)
READS(int, omp_get_max_teams)
READS(int, omp_get_teams_thread_limit)
READS(int, omp_get_default_device)
READS(int, omp_get_num_devices)
READS(int, omp_get_initial_device)
READS(int, omp_get_device_num)
READS(int, omp_is_initial_device)
READS(uintptr_t, omp_get_default_allocator)

#define SETS(name)                                       \
    void name(int);                                      \
    API void name##_(const int32_t *v) { name(*v); }     \
    API void name##_8_(const int64_t *v) {               \
        name(*v > NO_LIMIT ? NO_LIMIT : *v < -NO_LIMIT ? -NO_LIMIT : (int)*v); \
    }
SETS(omp_set_num_threads)
SETS(omp_set_dynamic)
SETS(omp_set_nested)
SETS(omp_set_max_active_levels)
SETS(omp_set_default_device)
SETS(omp_set_num_teams)
SETS(omp_set_teams_thread_limit)
SETS(omp_display_env)

#define READS_AT(name)                                               \
    int name(int);                                                   \
    API int name##_(const int32_t *v) { return name(*v); }           \
    API int name##_8_(const int64_t *v) { return name((int)*v); }
READS_AT(omp_get_ancestor_thread_num)
READS_AT(omp_get_team_size)
READS_AT(omp_get_place_num_procs)

void omp_set_schedule(unsigned kind, int chunk);
void omp_get_schedule(unsigned *kind, int *chunk);
API void omp_set_schedule_(const int32_t *kind, const int32_t *chunk) { omp_set_schedule((unsigned)*kind, *chunk); }
API void omp_set_schedule_8_(const int32_t *kind, const int64_t *chunk) {
    omp_set_schedule((unsigned)*kind, *chunk > NO_LIMIT ? NO_LIMIT : (int)*chunk);
}
API void omp_get_schedule_(int32_t *kind, int32_t *chunk) { omp_get_schedule((unsigned *)kind, chunk); }
API void omp_get_schedule_8_(int32_t *kind, int64_t *chunk) {
    int small;
    omp_get_schedule((unsigned *)kind, &small);
    *chunk = small;
}

/* There are no places. */
API void omp_get_place_proc_ids_(const int32_t *place, int32_t *ids) { (void)place, (void)ids; }
API void omp_get_place_proc_ids_8_(const int64_t *place, int64_t *ids) { (void)place, (void)ids; }
API void omp_get_partition_place_nums_(int32_t *places) { (void)places; }
API void omp_get_partition_place_nums_8_(int64_t *places) { (void)places; }

int omp_pause_resource(int kind, int device);
int omp_pause_resource_all(int kind);
API int omp_pause_resource_(const int32_t *kind, const int32_t *device) { return omp_pause_resource(*kind, *device); }
API int omp_pause_resource_all_(const int32_t *kind) { return omp_pause_resource_all(*kind); }

void omp_fulfill_event(uintptr_t event);
API void omp_fulfill_event_(uintptr_t event) { omp_fulfill_event(event); }

uintptr_t omp_init_allocator(uintptr_t space, int count, const void *traits);
void omp_destroy_allocator(uintptr_t a);
void omp_set_default_allocator(uintptr_t a);
API uintptr_t omp_init_allocator_(const uintptr_t *space, const int32_t *count, const void *traits) {
    return omp_init_allocator(*space, *count, traits);
}
API uintptr_t omp_init_allocator_8_(const uintptr_t *space, const int64_t *count, const void *traits) {
    return omp_init_allocator(*space, (int)*count, traits);
}
API void omp_destroy_allocator_(const uintptr_t *a) { omp_destroy_allocator(*a); }
API void omp_set_default_allocator_(const uintptr_t *a) { omp_set_default_allocator(*a); }

/* --- text: with the length behind, filled up with blanks -------------------------------------------------------------- */

size_t omp_capture_affinity(char *buffer, size_t size, const char *format);
void omp_display_affinity(const char *format);
void omp_set_affinity_format(const char *format);
size_t omp_get_affinity_format(char *buffer, size_t size);

static const char *text_of(char room[256], const char *text, size_t size) {
    while (size && text[size - 1] == ' ') size--;
    if (size > 255) size = 255;
    memcpy(room, text, size);
    room[size] = 0;
    return room;
}

static void give_text(char *to, size_t room, const char *text) {
    size_t size = strlen(text);
    if (size > room) size = room;
    memcpy(to, text, size);
    memset(to + size, ' ', room - size);
}

API void omp_set_affinity_format_(const char *format, size_t size) {
    char room[256];
    omp_set_affinity_format(text_of(room, format, size));
}
API int omp_get_affinity_format_(char *buffer, size_t size) {
    char text[256];
    size_t needs = omp_get_affinity_format(text, sizeof text);
    give_text(buffer, size, text);
    return (int)needs;
}
API void omp_display_affinity_(const char *format, size_t size) {
    char room[256];
    omp_display_affinity(text_of(room, format, size));
}
API int omp_capture_affinity_(char *buffer, const char *format, size_t buffer_size, size_t size) {
    char room[256], text[1024];
    size_t needs = omp_capture_affinity(text, sizeof text, text_of(room, format, size));
    give_text(buffer, buffer_size, text);
    return (int)needs;
}
