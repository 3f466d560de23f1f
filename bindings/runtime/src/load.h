/* From the kernel's counts of busy time: how many processors other processes use. */
#ifndef LOAD_H
#define LOAD_H
#ifndef _GNU_SOURCE
#define _GNU_SOURCE
#endif
#include <sched.h>
#include <stdint.h>
#include <stdio.h>

/* Nanoseconds: the time of the look, what all processes together used by then, and what this one used. */
typedef struct sample {
    int64_t at, busy, own;
} sample;

/* Adds up the busy time of the given processors, in ticks; `has_niced`: with that of processes of lower priority. Returns how many of
 * the processors the file has. The file is as /proc/stat. */
static inline int read_busy(FILE *file, const cpu_set_t *cores, int has_niced, int64_t *ticks) {
    char line[512];
    int found = 0, core;
    long long user, nice, system, idle, wait, irq, softirq, steal;
    *ticks = 0;
    while (fgets(line, sizeof line, file) && line[0] == 'c' && line[1] == 'p') {
        if (sscanf(line, "cpu%d %lld %lld %lld %lld %lld %lld %lld %lld", &core, &user, &nice, &system, &idle, &wait, &irq, &softirq,
                   &steal) != 9)
            continue;
        if (core < 0 || core >= CPU_SETSIZE || !CPU_ISSET(core, cores)) continue;
        *ticks += user + system + irq + softirq + steal + (has_niced ? nice : 0);
        found++;
    }
    return found;
}

/* How many of n processors others used between two samples. Why 0.4: less than a half is what a quiet machine has beside. */
static inline int used_by_others(const sample *from, const sample *to, int n) {
    double time = (double)(to->at - from->at), others = (double)(to->busy - from->busy - (to->own - from->own));
    if (time <= 0 || others <= 0) return 0;
    int used = (int)(others / time + 0.4);
    return used < n ? used : n;
}
#endif
