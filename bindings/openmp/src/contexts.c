/* Contexts: a member of a team, or a thread outside of regions. */
#include "gomp.h"
#include <pthread.h>
#include <stdlib.h>
#include <string.h>

unsigned forks;
static pthread_key_t leaver;
static pthread_once_t once = PTHREAD_ONCE_INIT;

/* A forked child has none of the other threads, and its harts are new. */
static void in_child(void) {
    context *c = lithe_client;
    forks++;
    forget_threads();
    for (; c; c = c->outer) {
        c->dock = NULL;
        drop_promise(c);
    }
    forget_promises();
}

static void first_time(void) {
    read_settings();
    lithe_count(); /* Why before: the runtime's handler for forks runs first. */
    lithe_client_end = end_context;
    pthread_atfork(NULL, NULL, in_child);
    pthread_key_create(&leaver, end_context);
}

static void make_solo(context *c, int level, int active_level) {
    memset(&c->solo, 0, sizeof c->solo);
    c->solo.n = 1;
    c->solo.level = level;
    c->solo.active_level = active_level;
    c->solo.outer = c->outer;
    c->solo.late_next = 1;
    c->solo.process = forks;
    c->of = c->own.of = &c->solo;
    c->at = &c->solo.first;
}

context *new_context(void) {
    pthread_once(&once, first_time);
    context *c = on_lines(sizeof *c);
    make_solo(c, 0, 0);
    c->now = &c->own;
    c->nthreads = set.threads[0];
    c->dynamic = set.dynamic;
    c->max_active = set.max_active;
    c->default_device = set.default_device;
    c->run_kind = set.kind;
    c->run_is_monotonic = set.is_monotonic;
    c->run_chunk = set.chunk;
    c->allocator = 1;
    c->teams = 1;
    if (set.thread_limit != NO_LIMIT) {
        c->limit = c->own_limit = zeroed(sizeof *c->limit);
        c->limit->most = set.thread_limit;
        c->limit->used = 1;
    }
    c->is_external = lithe_number() < 0;
    if (c->is_external) pthread_setspecific(leaver, c);
    lithe_client = c;
    return c;
}

static void inherit(context *m, const context *o) {
    m->nthreads = o->nthreads;
    m->is_chosen = o->is_chosen;
    m->dynamic = o->dynamic;
    m->max_active = o->max_active;
    m->default_device = o->default_device;
    m->run_kind = o->run_kind;
    m->run_is_monotonic = o->run_is_monotonic;
    m->run_chunk = o->run_chunk;
    m->allocator = o->allocator;
    m->team_num = o->team_num;
    m->teams = o->teams;
    m->limit = o->limit;
}

void begin_member(context *m, team *t, int num) {
    memset(m, 0, offsetof(context, solo));
    inherit(m, t->outer);
    m->of = m->own.of = t;
    m->num = num;
    m->at = &t->first;
    m->now = &m->own;
    m->own.group = t->group;
    m->outer = t->outer;
    if (t->level < set.threads_listed) m->nthreads = set.threads[t->level];
}

void begin_alone(context *m, context *outer, int level, int active_level) {
    memset(m, 0, offsetof(context, solo));
    inherit(m, outer);
    m->now = &m->own;
    m->outer = outer;
    make_solo(m, level, active_level);
    if (level && level < set.threads_listed) m->nthreads = set.threads[level];
}

void end_member(context *m) {
    settle_dock(m);
    drop_promise(m);
    let_go(m->pledge);
    free_table(&m->own);
    free(m->spare);
    free(m->own_limit);
}

void end_context(void *client) {
    context *c = client;
    if (!c) return;
    end_member(c);
    if (lithe_client == c) lithe_client = NULL;
    free_works(&c->solo, c->at);
    /* Why: a task with `detach` may still be without its event. */
    if (atomic_load(&c->own.children) == 0) free(c);
}
