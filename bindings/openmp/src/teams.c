/* teams and target, on the host: there are no devices. */
#include "gomp.h"
#include <limits.h>
#include <stdio.h>
#include <stdlib.h>
#include <string.h>

static void set_limit(context *c, unsigned most) {
    if (most == 0) return;
    if (!c->own_limit) c->own_limit = zeroed(sizeof *c->own_limit);
    c->own_limit->most = most > NO_LIMIT ? NO_LIMIT : (int)most;
    atomic_store(&c->own_limit->used, 1);
    c->limit = c->own_limit;
}

/* Runs fn(data) as an initial task. */
static void run_initial(void (*fn)(void *), void *data, int team_num, int teams, unsigned thread_limit) {
    context *c = here(), m;
    begin_alone(&m, c, 0, 0);
    m.is_external = c->is_external;
    m.team_num = team_num;
    m.teams = teams;
    set_limit(&m, thread_limit);
    lithe_client = &m;
    fn(data);
    run_tasks_until(&m, &m.own.children, OF_ANY);
    wait_for_visitors(&m.solo);
    free_works(&m.solo, m.at);
    end_member(&m);
    lithe_client = c;
}

enum { USUAL_TEAMS = 3 };

API void GOMP_teams_reg(void (*fn)(void *), void *data, unsigned n, unsigned limit, unsigned flags) {
    (void)flags;
    read_settings();
    if (n == 0) n = set.teams ? (unsigned)set.teams : USUAL_TEAMS;
    if (limit == 0) limit = (unsigned)set.teams_thread_limit;
    for (unsigned k = 0; k < n; k++) run_initial(fn, data, (int)k, (int)n, limit);
}

/* In a target region: called until it returns false, once for each team and once more. */
API bool GOMP_teams4(unsigned low, unsigned high, unsigned limit, bool is_first) {
    context *c = here();
    (void)high;
    if (is_first) {
        set_limit(c, limit);
        c->teams = low ? (int)low : 1;
        c->team_num = 0;
        return true;
    }
    return ++c->team_num < c->teams;
}
API void GOMP_teams(unsigned n, unsigned limit) {
    (void)n;
    set_limit(here(), limit);
}

API int omp_get_num_teams(void) { return here()->teams; }
API int omp_get_team_num(void) { return here()->team_num; }
API void omp_set_num_teams(int n) {
    read_settings();
    if (n >= 0) set.teams = n;
}
API int omp_get_max_teams(void) {
    read_settings();
    return set.teams;
}
API void omp_set_teams_thread_limit(int n) {
    read_settings();
    if (n >= 0) set.teams_thread_limit = n;
}
API int omp_get_teams_thread_limit(void) {
    read_settings();
    return set.teams_thread_limit;
}

/* --- target ------------------------------------------------------------------------------------------------------------- */

enum { MAP_FIRSTPRIVATE = 12, KIND_MASK = 0xff, ALIGN_SHIFT = 8 };
enum { ARG_DEVICES = 0x7f, ARG_HAS_VALUE = 0x80, ARG_ID = 0xff00, ARG_SHIFT = 16, ARG_THREAD_LIMIT = 2 << 8 };

static size_t align_of(unsigned short kind) { return (size_t)1 << (kind >> ALIGN_SHIFT); }

/* Firstprivate variables are handed over by address: the region gets copies. */
static void *copy_firstprivate(size_t count, void **hosts, const size_t *sizes, const unsigned short *kinds) {
    size_t size = 0;
    for (size_t i = 0; i < count; i++)
        if ((kinds[i] & KIND_MASK) == MAP_FIRSTPRIVATE) size += sizes[i] + align_of(kinds[i]);
    if (size == 0) return NULL;
    char *block = zeroed(size), *at = block;
    for (size_t i = 0; i < count; i++) {
        if ((kinds[i] & KIND_MASK) != MAP_FIRSTPRIVATE) continue;
        size_t align = align_of(kinds[i]);
        at = (char *)(((uintptr_t)at + align - 1) & ~(uintptr_t)(align - 1));
        memcpy(at, hosts[i], sizes[i]);
        hosts[i] = at;
        at += sizes[i];
    }
    return block;
}

static unsigned thread_limit_of(void **args) {
    while (args && *args) {
        intptr_t id = (intptr_t)*args++, value = id & ARG_HAS_VALUE ? (intptr_t)*args++ : id >> ARG_SHIFT;
        if ((id & ARG_DEVICES) == 0 && (id & ARG_ID) == ARG_THREAD_LIMIT && value > 0)
            return value > INT_MAX ? INT_MAX : (unsigned)value;
    }
    return 0;
}

void GOMP_taskwait_depend(void **depend);

static void check_device(void) {
    read_settings();
    if (set.needs_device) fatal("OMP_TARGET_OFFLOAD is set to MANDATORY, but there are no devices");
}

API void GOMP_target_ext(int device, void (*fn)(void *), size_t count, void **hosts, size_t *sizes, unsigned short *kinds,
                         unsigned flags, void **depend, void **args) {
    (void)device, (void)flags;
    check_device();
    if (depend) GOMP_taskwait_depend(depend);
    void *copies = copy_firstprivate(count, hosts, sizes, kinds);
    run_initial(fn, hosts, 0, 1, thread_limit_of(args));
    free(copies);
}
API void GOMP_target(int device, void (*fn)(void *), const void *unused, size_t count, void **hosts, size_t *sizes,
                     unsigned char *kinds) {
    (void)device, (void)unused, (void)count, (void)sizes, (void)kinds;
    check_device();
    run_initial(fn, hosts, 0, 1, 0);
}

/* Host and device memory are the same, so data regions do nothing. */
API void GOMP_target_data_ext(int device, size_t count, void **hosts, size_t *sizes, unsigned short *kinds) {
    (void)device, (void)count, (void)hosts, (void)sizes, (void)kinds;
    check_device();
}
API void GOMP_target_data(int device, const void *unused, size_t count, void **hosts, size_t *sizes, unsigned char *kinds) {
    (void)device, (void)unused, (void)count, (void)hosts, (void)sizes, (void)kinds;
}
API void GOMP_target_end_data(void) {}
API void GOMP_target_update_ext(int device, size_t count, void **hosts, size_t *sizes, unsigned short *kinds, unsigned flags,
                                void **depend) {
    (void)device, (void)count, (void)hosts, (void)sizes, (void)kinds, (void)flags;
    check_device();
    if (depend) GOMP_taskwait_depend(depend);
}
API void GOMP_target_update(int device, const void *unused, size_t count, void **hosts, size_t *sizes, unsigned char *kinds) {
    (void)device, (void)unused, (void)count, (void)hosts, (void)sizes, (void)kinds;
}
API void GOMP_target_enter_exit_data(int device, size_t count, void **hosts, size_t *sizes, unsigned short *kinds,
                                     unsigned flags, void **depend) {
    (void)device, (void)count, (void)hosts, (void)sizes, (void)kinds, (void)flags;
    check_device();
    if (depend) GOMP_taskwait_depend(depend);
}
/* Images for devices: without devices, no code runs them. */
API void GOMP_offload_register(const void *host, int type, const void *image) { (void)host, (void)type, (void)image; }
API void GOMP_offload_unregister(const void *host, int type, const void *image) { (void)host, (void)type, (void)image; }
API void GOMP_offload_register_ver(unsigned version, const void *host, int type, const void *image) {
    (void)version, (void)host, (void)type, (void)image;
}
API void GOMP_offload_unregister_ver(unsigned version, const void *host, int type, const void *image) {
    (void)version, (void)host, (void)type, (void)image;
}

/* --- device numbers and memory: the host is device 0 -------------------------------------------------------------------- */

API int omp_get_default_device(void) { return here()->default_device; }
API void omp_set_default_device(int v) {
    if (v >= 0) here()->default_device = v;
}
API int omp_get_num_devices(void) { return 0; }
API int omp_get_initial_device(void) { return 0; }
API int omp_get_device_num(void) { return 0; }
API int omp_is_initial_device(void) { return 1; }

static bool is_host(int device) { return device == 0 || device == -1; }

API void *omp_target_alloc(size_t size, int device) { return is_host(device) ? malloc(size) : NULL; }
API void omp_target_free(void *p, int device) {
    if (is_host(device)) free(p);
}
API int omp_target_is_present(const void *p, int device) { return is_host(device) || p == NULL; }
API int omp_target_memcpy(void *to, const void *from, size_t size, size_t to_offset, size_t from_offset, int to_device,
                          int from_device) {
    if (!is_host(to_device) || !is_host(from_device)) return 22;
    memcpy((char *)to + to_offset, (const char *)from + from_offset, size);
    return 0;
}

typedef struct box {
    size_t element;
    const size_t *volume, *to_offsets, *from_offsets, *to_sizes, *from_sizes;
} box;

static void copy_box(char *to, const char *from, int dimensions, const box *b, int k) {
    if (k + 1 == dimensions) {
        memcpy(to + b->to_offsets[k] * b->element, from + b->from_offsets[k] * b->element, b->volume[k] * b->element);
        return;
    }
    size_t to_row = b->element, from_row = b->element;
    for (int i = k + 1; i < dimensions; i++) {
        to_row *= b->to_sizes[i];
        from_row *= b->from_sizes[i];
    }
    for (size_t i = 0; i < b->volume[k]; i++)
        copy_box(to + (b->to_offsets[k] + i) * to_row, from + (b->from_offsets[k] + i) * from_row, dimensions, b, k + 1);
}

/* Without addresses it returns the largest number of dimensions. */
API int omp_target_memcpy_rect(void *to, const void *from, size_t element, int dimensions, const size_t *volume,
                               const size_t *to_offsets, const size_t *from_offsets, const size_t *to_sizes,
                               const size_t *from_sizes, int to_device, int from_device) {
    box b = {element, volume, to_offsets, from_offsets, to_sizes, from_sizes};
    if (!to && !from) return INT_MAX;
    if (!is_host(to_device) || !is_host(from_device) || dimensions < 1) return 22;
    copy_box(to, from, dimensions, &b, 0);
    return 0;
}
API int omp_target_associate_ptr(const void *host, const void *device_ptr, size_t size, size_t offset, int device) {
    (void)host, (void)device_ptr, (void)size, (void)offset, (void)device;
    return 22;
}
API int omp_target_disassociate_ptr(const void *host, int device) {
    (void)host, (void)device;
    return 22;
}
