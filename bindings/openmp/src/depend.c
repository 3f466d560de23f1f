/* Dependences between the children of a task. All of it is under the team's lock. */
#include "gomp.h"
#include <stdlib.h>

/* One item of a depend clause of a task that isn't complete. */
typedef struct need {
    void *at;
    bool reads;
    task *of;
    struct need *newer, *older; /* of the same address */
    struct need *next;          /* of the same task */
    struct cell *in;
} need;

typedef struct cell {
    void *at;
    need *newest;
    struct cell *next;
} cell;

typedef struct edge {
    task *to;
    struct edge *next;
} edge;

enum { CELLS = 64 };
typedef struct table {
    cell all; /* omp_all_memory: depends on everything */
    cell *cells[CELLS];
} table;

static cell *find(table *x, void *at) {
    if (!at) return &x->all;
    cell **first = &x->cells[((uintptr_t)at >> 3 ^ (uintptr_t)at >> 9) % CELLS];
    for (cell *i = *first; i; i = i->next)
        if (i->at == at) return i;
    cell *fresh = zeroed(sizeof *fresh);
    fresh->at = at;
    fresh->next = *first;
    return *first = fresh;
}

void free_table(task *k) {
    table *x = k->table;
    k->table = NULL;
    if (!x) return;
    for (int i = 0; i < CELLS; i++)
        for (cell *next, *at = x->cells[i]; at; at = next) {
            next = at->next;
            free(at);
        }
    free(x);
}

static void follow(task *before, task *k) {
    if (before == k) return;
    edge *e = zeroed(sizeof *e);
    e->to = k;
    e->next = before->followers;
    before->followers = e;
    atomic_fetch_add(&k->waits_for, 1);
}

/* A reader waits for the last writer; a writer for the readers after it, or for the writer itself. */
static void follow_chain(const cell *in, const need *fresh) {
    bool has_readers = false;
    for (need *n = in->newest; n; n = n->older) {
        if (n == fresh || n->of == fresh->of) continue;
        if (n->reads) {
            has_readers = true;
            if (!fresh->reads) follow(n->of, fresh->of);
            continue;
        }
        if (fresh->reads || !has_readers) follow(n->of, fresh->of);
        return;
    }
}

static void follow_everything(table *x, const need *fresh) {
    for (int i = 0; i < CELLS; i++)
        for (cell *at = x->cells[i]; at; at = at->next)
            for (need *n = at->newest; n; n = n->older) follow(n->of, fresh->of);
}

static void add_need(table *x, task *k, void *at, bool reads) {
    need *n = zeroed(sizeof *n);
    cell *in = find(x, at);
    *n = (need){.at = at, .reads = reads, .of = k, .in = in, .next = k->needs};
    k->needs = n;
    follow_chain(in, n);
    if (in != &x->all)
        follow_chain(&x->all, n);
    else
        follow_everything(x, n);
    n->older = in->newest;
    if (in->newest) in->newest->newer = n;
    in->newest = n;
}

enum { KIND_IN = 1 };

/* The objects of omp_depend_t: an address and a kind. */
static void add_objects(table *x, task *k, void **objects, size_t count, bool reads) {
    for (size_t i = 0; i < count; i++) {
        void **object = objects[i];
        if (((uintptr_t)object[1] == KIND_IN) == reads) add_need(x, k, object[0], reads);
    }
}

/* Two forms: {count, writers, addresses...}, and {0, count, writers, mutual exclusions, readers, addresses...}. The
 * addresses after those that are counted by kind are objects. */
void add_needs(task *k, void **depend) {
    if (!k->parent->table) k->parent->table = zeroed(sizeof(table));
    table *x = k->parent->table;
    size_t count = (uintptr_t)depend[0], writers = (uintptr_t)depend[1], plain = count, readers_from;
    void **at = depend + 2;
    readers_from = writers;
    if (count == 0) {
        count = (uintptr_t)depend[1];
        readers_from = (uintptr_t)depend[2] + (uintptr_t)depend[3];
        plain = readers_from + (uintptr_t)depend[4];
        at = depend + 5;
    }
    add_objects(x, k, at + plain, count - plain, false);
    for (size_t i = 0; i < plain; i++) add_need(x, k, at[i], i >= readers_from);
    add_objects(x, k, at + plain, count - plain, true);
}

static void remove_needs(task *k) {
    for (need *next, *n = k->needs; n; n = next) {
        next = n->next;
        if (n->older) n->older->newer = n->newer;
        *(n->newer ? &n->newer->older : &n->in->newest) = n->older;
        free(n);
    }
    k->needs = NULL;
}

void release_followers(task *k) {
    remove_needs(k);
    for (edge *next, *e = k->followers; e; e = next) {
        next = e->next;
        if (atomic_fetch_sub(&e->to->waits_for, 1) == 1 && !e->to->is_awaited) push_ready(e->to);
        free(e);
    }
    k->followers = NULL;
}
