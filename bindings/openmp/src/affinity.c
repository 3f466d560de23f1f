/* Places: there are none, since harts aren't bound to processors. And the format of omp_display_affinity. */
#include "gomp.h"
#include <ctype.h>
#include <sched.h>
#include <stdio.h>
#include <stdlib.h>
#include <string.h>
#include <sys/syscall.h>
#include <unistd.h>

int omp_get_ancestor_thread_num(int level);

API int omp_get_proc_bind(void) { return 0; }
API int omp_get_num_places(void) { return 0; }
API int omp_get_place_num_procs(int place) {
    (void)place;
    return 0;
}
API void omp_get_place_proc_ids(int place, int *ids) { (void)place, (void)ids; }
API int omp_get_place_num(void) { return -1; }
API int omp_get_partition_num_places(void) { return 0; }
API void omp_get_partition_place_nums(int *places) { (void)places; }

/* --- the format --------------------------------------------------------------------------------------------------------- */

typedef struct out {
    char *text;
    size_t room, size; /* size: what there would be with room */
} out;

static void put(out *o, const char *text) {
    for (; *text; text++, o->size++)
        if (o->size + 1 < o->room) o->text[o->size] = *text;
}

static void put_processors(char *text, size_t room) {
    cpu_set_t may;
    size_t at = 0;
    text[0] = 0;
    if (sched_getaffinity(0, sizeof may, &may) != 0) return;
    for (int i = 0; i < CPU_SETSIZE && at + 24 < room; i++) {
        if (!CPU_ISSET(i, &may)) continue;
        int last = i;
        while (last + 1 < CPU_SETSIZE && CPU_ISSET(last + 1, &may)) last++;
        int n = last == i ? snprintf(text + at, room - at, "%s%d", at ? "," : "", i)
                          : snprintf(text + at, room - at, "%s%d-%d", at ? "," : "", i, last);
        at += (size_t)n;
        i = last;
    }
}

static const char *const long_names[] = {"team_num",    "num_teams",     "nesting_level", "thread_num",       "num_threads",
                                         "ancestor_tnum", "host",          "process_id",    "native_thread_id", "thread_affinity"};
static const char short_names[] = "tTLnNaHPiA";

static void field(char name, char *text, size_t room) {
    context *c = here();
    switch (name) {
    case 't': snprintf(text, room, "%d", c->team_num); break;
    case 'T': snprintf(text, room, "%d", c->teams); break;
    case 'L': snprintf(text, room, "%d", c->of->level); break;
    case 'n': snprintf(text, room, "%d", c->num); break;
    case 'N': snprintf(text, room, "%d", c->of->n); break;
    case 'a': snprintf(text, room, "%d", omp_get_ancestor_thread_num(c->of->level - 1)); break;
    case 'H': gethostname(text, room); break;
    case 'P': snprintf(text, room, "%d", (int)getpid()); break;
    case 'i': snprintf(text, room, "%d", (int)syscall(SYS_gettid)); break;
    case 'A': put_processors(text, room); break;
    default: snprintf(text, room, "undefined"); break;
    }
}

/* %[0][.][width]name, where the name is a letter or a word in braces. Returns what follows. */
static const char *put_field(out *o, const char *f) {
    bool zeros = *f == '0', right = false;
    char text[512], name = 0;
    if (zeros) f++;
    if (*f == '.') {
        right = true;
        f++;
    }
    size_t width = strtoul(f, (char **)&f, 10);
    if (*f == '{') {
        const char *end = strchr(f, '}');
        if (!end) return f + strlen(f);
        for (size_t i = 0; i < sizeof long_names / sizeof long_names[0]; i++)
            if (strlen(long_names[i]) == (size_t)(end - f - 1) && !strncmp(long_names[i], f + 1, (size_t)(end - f - 1)))
                name = short_names[i];
        f = end;
    } else
        name = *f;
    field(name, text, sizeof text);
    size_t size = strlen(text);
    for (size_t i = size; right && i < width; i++) put(o, zeros ? "0" : " ");
    put(o, text);
    for (size_t i = size; !right && i < width; i++) put(o, " ");
    return *f ? f + 1 : f;
}

API size_t omp_capture_affinity(char *buffer, size_t size, const char *format) {
    out o = {buffer, size, 0};
    read_settings();
    if (!format || !*format) format = set.format;
    while (*format) {
        if (*format != '%') {
            put(&o, (char[]){*format++, 0});
        } else if (format[1] == '%') {
            put(&o, "%");
            format += 2;
        } else
            format = put_field(&o, format + 1);
    }
    if (size) buffer[o.size < size ? o.size : size - 1] = 0;
    return o.size;
}
API void omp_display_affinity(const char *format) {
    char line[1024];
    omp_capture_affinity(line, sizeof line, format);
    fprintf(stderr, "%s\n", line);
}
API void omp_set_affinity_format(const char *format) {
    read_settings();
    snprintf(set.format, sizeof set.format, "%s", format);
}
API size_t omp_get_affinity_format(char *buffer, size_t size) {
    read_settings();
    if (size) snprintf(buffer, size, "%s", set.format);
    return strlen(set.format);
}
