/* Events for Chrome's trace viewer (chrome://tracing, ui.perfetto.dev). Each hart is a line. */
#include "rt.h"
#include <pthread.h>
#include <stdio.h>
#include <stdlib.h>

_Atomic int tracing;
static FILE *to;
static int64_t start;
static int first = 1;
static pthread_mutex_t writing = PTHREAD_MUTEX_INITIALIZER;

static void stop_trace(void) {
    pthread_mutex_lock(&writing);
    if (to) {
        fprintf(to, "\n]\n");
        fclose(to);
    }
    to = NULL;
    tracing = 0;
    pthread_mutex_unlock(&writing);
}

void start_trace(void) {
    const char *name = getenv("LITHE_TRACE");
    if (!name || !*name) return;
    to = fopen(name, "w");
    if (!to) {
        perror("lithe: LITHE_TRACE");
        return;
    }
    fprintf(to, "[");
    start = lithe_now_ns();
    tracing = 1;
    atexit(stop_trace);
}

/* The file is the parent's. Why no fclose: that would write the parent's buffer a second time. */
void stop_trace_in_child(void) {
    to = NULL;
    tracing = 0;
    writing = (pthread_mutex_t)PTHREAD_MUTEX_INITIALIZER;
}

void trace_event(char phase, const char *name, int h, int site, int other) {
    double at = (double)(lithe_now_ns() - start) / 1000;
    pthread_mutex_lock(&writing);
    if (to)
        fprintf(to, "%s\n{\"name\":\"%s\",\"ph\":\"%c\",\"ts\":%.3f,\"pid\":1,\"tid\":%d,\"s\":\"t\",\"args\":{\"site\":%d,\"other\":%d}}",
                first ? "" : ",", name, phase, at, h, site, other);
    first = 0;
    pthread_mutex_unlock(&writing);
}
