/* Reductions: the range is halved without regard to the harts, so that a result doesn't depend on them. */
#include "rt.h"
#include <stdlib.h>
#include <string.h>

enum { SMALL_PART = 1024 };

typedef struct sum {
    long chunk;
    size_t size;
    const void *identity;
    void (*body)(void *, long, long, void *);
    void (*combine)(void *, void *, const void *);
    void *arg;
} sum;

typedef struct part {
    const sum *of;
    long from, to;
    void *into;
} part;

static void reduce(void *arg);

static void halves(part *p, void *room) {
    const sum *s = p->of;
    long middle = p->from + (p->to - p->from) / 2;
    part left = {s, p->from, middle, p->into}, right = {s, middle, p->to, room ? room : p->into};
    if (!room) {
        reduce(&left);
        reduce(&right);
        return;
    }
    memcpy(room, s->identity, s->size);
    lithe_join(reduce, &left, reduce, &right);
    s->combine(s->arg, p->into, room);
}

static void free_room(void **room) { free(*room); }

static void halves_in_heap(part *p) {
    ENDS_BY(free_room) void *room = malloc(p->of->size);
    if (!room) count(LITHE_NO_MEMORYS);
    halves(p, room);
}

static void reduce(void *arg) {
    part *p = arg;
    _Alignas(64) char room[SMALL_PART];
    if (p->to - p->from <= p->of->chunk)
        p->of->body(p->of->arg, p->from, p->to, p->into);
    else if (p->of->size <= SMALL_PART)
        halves(p, room);
    else
        halves_in_heap(p);
}

void lithe_reduce(long n, long chunk, size_t size, void *result, void (*body)(void *, long, long, void *),
                  void (*combine)(void *, void *, const void *), void *arg) {
    if (n <= 0) return;
    ENDS_BY(free_room) void *identity = malloc(size ? size : 1);
    if (!identity) {
        count(LITHE_NO_MEMORYS);
        count(LITHE_IN_PLACE);
        body(arg, 0, n, result);
        return;
    }
    memcpy(identity, result, size);
    sum s = {chunk > 0 ? chunk : n / 64 + 1, size, identity, body, combine, arg};
    reduce(&(part){&s, 0, n, result});
}
