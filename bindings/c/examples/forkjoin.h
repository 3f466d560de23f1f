/* A fork-join library. It knows of its caller only the callbacks of a scheduler. */
#ifndef FORKJOIN_H
#define FORKJOIN_H
#include "lend.h"

/* Runs run(hart, arg, i) for each i below n, in parallel, and returns when all have returned. Called from a task of the
 * same pool it pushes to that pool; called from elsewhere it opens a pool of its own. */
void forkjoin(hart *me, int n, void (*run)(hart *, void *, int), void *arg);
#endif
