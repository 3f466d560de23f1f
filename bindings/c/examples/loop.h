/* A loop library. It knows of its caller only the callbacks of a scheduler. */
#ifndef LOOP_H
#define LOOP_H
#include "lend.h"

/* Runs body(hart, arg, i) for each i below n, in chunks of `chunk`, with all harts that come, and returns when all have
 * returned. */
void loop(hart *me, long n, long chunk, void (*body)(hart *, void *, long), void *arg);
/* Adds body(hart, arg, i) for each i below n. */
double loop_sum(hart *me, long n, long chunk, double (*body)(hart *, void *, long), void *arg);
#endif
