/* A scheduler of one's own: jobs run highest priority first, on the process's harts. */
#ifndef PRIORITY_H
#define PRIORITY_H
#include "lithe_rt.h"
#include <stdatomic.h>

enum { QUEUE_ROOM = 1024 };

typedef struct queue queue;

typedef struct job {
    int priority;
    void (*run)(queue *q, void *arg);
    void *arg;
} job;

struct queue {
    lithe_sched as; /* first, so that a lithe_sched * is a queue * */
    int is_open;    /* 0: no hart or level was free, and one thread runs all jobs */
    lithe_mutex lock;
    int count;            /* of the heap; under the lock */
    job heap[QUEUE_ROOM]; /* under the lock */
    _Atomic int ready;    /* jobs in the heap */
    _Atomic int left;     /* jobs in the heap, and jobs that run */
};

/* Runs the job, and all jobs that jobs put, and returns when none is left. `q` needs no preparation. */
void queue_run(queue *q, job first);
/* A job puts another one. Without room, the calling hart runs it at once. */
void queue_put(queue *q, job j);
#endif
