/* The environment variables. */
#include "gomp.h"
#include <ctype.h>
#include <errno.h>
#include <pthread.h>
#include <stdio.h>
#include <stdlib.h>
#include <string.h>
#include <strings.h>

settings set;

static void invalid(const char *name) { fprintf(stderr, "\nlibgomp: Invalid value for environment variable %s\n", name); }

/* A whole number of at least `least`; returns 0 and keeps `*value` if the variable isn't set or isn't that. */
static int read_number(const char *name, long least, long *value) {
    const char *text = getenv(name);
    char *end;
    if (!text) return 0;
    errno = 0;
    long v = strtol(text, &end, 10);
    while (isspace((unsigned char)*end)) end++;
    if (end == text || *end || errno || v < least) {
        invalid(name);
        return 0;
    }
    *value = v;
    return 1;
}

static int read_int(const char *name, long least, int *value) {
    long v;
    if (!read_number(name, least, &v)) return 0;
    *value = v > NO_LIMIT ? NO_LIMIT : (int)v;
    return 1;
}

static int read_bool(const char *name, int *value) {
    const char *text = getenv(name);
    if (!text) return 0;
    while (isspace((unsigned char)*text)) text++;
    if (strncasecmp(text, "true", 4) == 0)
        *value = 1;
    else if (strncasecmp(text, "false", 5) == 0)
        *value = 0;
    else {
        invalid(name);
        return 0;
    }
    return 1;
}

static void read_threads(void) {
    const char *text = getenv("OMP_NUM_THREADS");
    int listed = 0;
    set.threads[0] = set.procs;
    set.threads_listed = 0;
    while (text && listed < LISTED_LEVELS) {
        char *end;
        long v = strtol(text, &end, 10);
        while (isspace((unsigned char)*end)) end++;
        if (end == text || v < 1 || (*end && *end != ',')) {
            invalid("OMP_NUM_THREADS");
            set.threads[0] = set.procs;
            return;
        }
        set.threads[listed++] = v > NO_LIMIT ? NO_LIMIT : (int)v;
        text = *end ? end + 1 : NULL;
    }
    set.is_given = listed > 0;
    set.threads_listed = listed > 1 ? listed : 0;
}

static void read_levels(void) {
    int nested = 0;
    set.max_active = set.threads_listed > 1 ? MOST_LEVELS : 1;
    if (read_bool("OMP_NESTED", &nested)) set.max_active = nested ? MOST_LEVELS : 1;
    read_int("OMP_MAX_ACTIVE_LEVELS", 0, &set.max_active);
    if (set.max_active > MOST_LEVELS) set.max_active = MOST_LEVELS;
}

static const char *after(const char *text, const char *word) {
    size_t n = strlen(word);
    return strncasecmp(text, word, n) == 0 ? text + n : NULL;
}

static void read_schedule(void) {
    static const char *const names[] = {NULL, "static", "dynamic", "guided", "auto"};
    const char *text = getenv("OMP_SCHEDULE"), *rest = NULL;
    int kind;
    set.kind = RUN_DYNAMIC;
    set.chunk = 1;
    if (!text) return;
    while (isspace((unsigned char)*text)) text++;
    if ((rest = after(text, "monotonic:"))) {
        set.is_monotonic = 1;
        text = rest;
    } else if ((rest = after(text, "nonmonotonic:")))
        text = rest;
    for (kind = RUN_STATIC; kind <= RUN_AUTO && !(rest = after(text, names[kind])); kind++) {
    }
    if (kind > RUN_AUTO || (*rest && *rest != ',' && !isspace((unsigned char)*rest))) {
        invalid("OMP_SCHEDULE");
        return;
    }
    set.kind = kind;
    set.chunk = kind == RUN_STATIC ? 0 : 1;
    const char *comma = strchr(rest, ',');
    long chunk = comma ? strtol(comma + 1, NULL, 10) : 0;
    if (chunk > 0) set.chunk = (unsigned long)chunk;
}

static void read_wait_policy(void) {
    const char *text = getenv("OMP_WAIT_POLICY");
    if (!text) return;
    if (after(text, "active"))
        set.wait_policy = 1;
    else if (after(text, "passive"))
        set.wait_policy = -1;
    else
        invalid("OMP_WAIT_POLICY");
    if (set.wait_policy == 1) lithe_spin_ns = 10000000;
    if (set.wait_policy == -1) lithe_spin_ns = 0;
}

/* The harts and the overflow threads take the process's usual stack size. */
static void read_stack_size(void) {
    const char *name = "OMP_STACKSIZE", *text = getenv(name);
    char *end;
    if (!text) text = getenv(name = "GOMP_STACKSIZE");
    if (!text) return;
    unsigned long v = strtoul(text, &end, 10);
    int unit = tolower((unsigned char)*end);
    int shift = unit == 'b' ? 0 : unit == 'm' ? 20 : unit == 'g' ? 30 : 10;
    pthread_attr_t attr;
    if (end == text || pthread_getattr_default_np(&attr) != 0) {
        invalid(name);
        return;
    }
    set.stack_size = v << shift;
    if (pthread_attr_setstacksize(&attr, set.stack_size) != 0 || pthread_setattr_default_np(&attr) != 0) invalid(name);
    pthread_attr_destroy(&attr);
}

static void report(void) {
    fprintf(stderr, "lithe openmp: %ld regions, %ld short of harts, %ld members on overflow threads\n",
            atomic_load(&regions), atomic_load(&shortfalls), atomic_load(&overflows));
}

static void read_rest(void) {
    const char *text = getenv("OMP_PLACES");
    if (text) snprintf(set.places, sizeof set.places, "%s", text);
    text = getenv("OMP_TARGET_OFFLOAD");
    set.needs_device = text && strcasecmp(text, "mandatory") == 0;
    text = getenv("OMP_AFFINITY_FORMAT");
    snprintf(set.format, sizeof set.format, "%s", text ? text : "level %L thread %i affinity %A");
    set.thread_limit = NO_LIMIT;
    read_int("OMP_THREAD_LIMIT", 1, &set.thread_limit);
    read_bool("OMP_DYNAMIC", &set.dynamic);
    read_bool("OMP_CANCELLATION", &set.cancellation);
    read_int("OMP_MAX_TASK_PRIORITY", 0, &set.max_priority);
    read_int("OMP_DEFAULT_DEVICE", 0, &set.default_device);
    read_int("OMP_NUM_TEAMS", 1, &set.teams);
    read_int("OMP_TEAMS_THREAD_LIMIT", 1, &set.teams_thread_limit);
}

static void read_all(void) {
    const char *text = getenv("OMP_DISPLAY_ENV"), *stats = getenv("LITHE_STATS");
    set.procs = lithe_count();
    read_threads();
    read_levels();
    read_schedule();
    read_rest();
    read_wait_policy();
    read_stack_size();
    read_bool("LITHE_OMP_FLAT", &set.flat);
    if (stats && atoi(stats)) atexit(report);
    if (!text) return;
    if (strcasecmp(text, "true") == 0 || strcmp(text, "1") == 0) display_settings(0);
    if (strcasecmp(text, "verbose") == 0) display_settings(1);
}

void read_settings(void) {
    static pthread_once_t once = PTHREAD_ONCE_INIT;
    pthread_once(&once, read_all);
}

/* libgomp prints its settings when it is loaded. Why not always: the harts are made with the first read. */
__attribute__((constructor)) static void at_load(void) {
    if (getenv("OMP_DISPLAY_ENV") || getenv("OMP_STACKSIZE") || getenv("GOMP_STACKSIZE")) read_settings();
}

/* --- OMP_DISPLAY_ENV ---------------------------------------------------------------------------------------------------- */

static const char *truth(int v) { return v ? "TRUE" : "FALSE"; }

static void display_threads(void) {
    fprintf(stderr, "  OMP_NUM_THREADS = '%d", set.threads[0]);
    for (int i = 1; i < set.threads_listed; i++) fprintf(stderr, ",%d", set.threads[i]);
    fputs("'\n", stderr);
}

static void display_schedule(void) {
    static const char *const names[] = {"", "STATIC", "DYNAMIC", "GUIDED", "AUTO"};
    unsigned long usual = set.kind == RUN_STATIC || set.kind == RUN_AUTO ? 0 : 1;
    fprintf(stderr, "  OMP_SCHEDULE = '%s%s", set.is_monotonic && set.kind != RUN_STATIC ? "MONOTONIC:" : "", names[set.kind]);
    if (set.chunk != usual && set.kind != RUN_AUTO) fprintf(stderr, ",%lu", set.chunk);
    fputs("'\n", stderr);
}

void display_settings(int verbose) {
    fputs("\nOPENMP DISPLAY ENVIRONMENT BEGIN\n  _OPENMP = '201511'\n", stderr);
    fprintf(stderr, "  OMP_DYNAMIC = '%s'\n  OMP_NESTED = '%s'\n", truth(set.dynamic), truth(set.max_active > 1));
    display_threads();
    display_schedule();
    fprintf(stderr, "  OMP_PROC_BIND = 'FALSE'\n  OMP_PLACES = ''\n  OMP_STACKSIZE = '%lu'\n", set.stack_size);
    fprintf(stderr, "  OMP_WAIT_POLICY = '%s'\n", set.wait_policy > 0 ? "ACTIVE" : "PASSIVE");
    fprintf(stderr, "  OMP_THREAD_LIMIT = '%u'\n", set.thread_limit == NO_LIMIT ? 4294967295u : (unsigned)set.thread_limit);
    fprintf(stderr, "  OMP_MAX_ACTIVE_LEVELS = '%d'\n", set.max_active);
    fprintf(stderr, "  OMP_NUM_TEAMS = '%d'\n  OMP_TEAMS_THREAD_LIMIT = '%d'\n", set.teams, set.teams_thread_limit);
    fprintf(stderr, "  OMP_CANCELLATION = '%s'\n", truth(set.cancellation));
    fprintf(stderr, "  OMP_DEFAULT_DEVICE = '%d'\n", set.default_device);
    fprintf(stderr, "  OMP_MAX_TASK_PRIORITY = '%d'\n", set.max_priority);
    fprintf(stderr, "  OMP_DISPLAY_AFFINITY = 'FALSE'\n  OMP_AFFINITY_FORMAT = '%s'\n", set.format);
    fprintf(stderr, "  OMP_ALLOCATOR = 'omp_default_mem_alloc'\n  OMP_TARGET_OFFLOAD = '%s'\n",
            set.needs_device ? "MANDATORY" : "DEFAULT");
    if (verbose) fprintf(stderr, "  LITHE_HARTS = '%d'\n", set.procs);
    fputs("OPENMP DISPLAY ENVIRONMENT END\n", stderr);
}
