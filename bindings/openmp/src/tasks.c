/* Explicit tasks. A task that waits to be run is in three lists: of its team, of its parent, and of its group. */
#include "gomp.h"
#include <stdlib.h>
#include <string.h>

/* --- lists, all under the team's lock ------------------------------------------------------------------------------- */

static void add(list *l, int which, task *k) {
    task *after = l->newest;
    /* Among equal priorities in order of age. Most lists have one priority, so a look at the end is enough. */
    while (after && after->priority < k->priority) after = after->in[which].older;
    task *before = after ? after->in[which].newer : atomic_load(&l->oldest);
    k->in[which] = (neighbours){after, before};
    if (after)
        after->in[which].newer = k;
    else
        atomic_store(&l->oldest, k);
    *(before ? &before->in[which].older : &l->newest) = k;
}

static void cut(list *l, int which, task *k) {
    neighbours at = k->in[which];
    if (at.older)
        at.older->in[which].newer = at.newer;
    else
        atomic_store(&l->oldest, at.newer);
    *(at.newer ? &at.newer->in[which].older : &l->newest) = at.older;
}

void push_ready(task *k) {
    add(&k->of->ready, OF_TEAM, k);
    add(&k->parent->ready, OF_PARENT, k);
    if (k->joined) add(&k->joined->ready, OF_GROUP, k);
    atomic_fetch_add(&k->of->queued, 1);
}

static task *pop_ready(context *c, int which) {
    team *t = c->of;
    list *l = which == OF_ANY ? &t->ready : which == OF_CHILDREN ? &c->now->ready : &c->now->group->ready;
    task *k = atomic_load(&l->oldest);
    if (!k) return NULL;
    /* Of children the newest: a recursive program then needs the least memory. */
    if (which != OF_ANY && k->priority == 0) k = l->newest;
    cut(&t->ready, OF_TEAM, k);
    cut(&k->parent->ready, OF_PARENT, k);
    if (k->joined) cut(&k->joined->ready, OF_GROUP, k);
    atomic_fetch_sub(&t->queued, 1);
    return k;
}

/* --- life ----------------------------------------------------------------------------------------------------------- */

static char *align_up(char *at, long align) {
    uintptr_t mask = align > 1 ? (uintptr_t)align - 1 : 0;
    return (char *)(((uintptr_t)at + mask) & ~mask);
}

/* A task of the task at hand. `copies`: with its argument's memory. */
task *new_task(context *c, const body *b, bool copies) {
    task *k = malloc(sizeof *k + (copies ? (size_t)(b->size + b->align) : 0));
    if (!k) fatal("Out of memory allocating a task");
    *k = (task){.fn = b->fn, .arg = b->data, .parent = c->now, .of = c->of, .is_explicit = true, .is_final = c->now->is_final};
    k->joined = k->group = c->now->group;
    atomic_init(&k->refs, 1);
    atomic_init(&k->parts, 1);
    if (copies) {
        k->arg = align_up((char *)(k + 1), b->align);
        if (b->copy)
            b->copy(k->arg, b->data);
        else
            memcpy(k->arg, b->data, (size_t)b->size);
    }
    k->is_copied = copies && b->copy;
    atomic_fetch_add(&c->now->children, 1);
    if (c->now->is_explicit) atomic_fetch_add(&c->now->refs, 1);
    if (k->joined) atomic_fetch_add(&k->joined->pending, 1);
    atomic_fetch_add(&c->of->pending, 1);
    return k;
}

void release(task *k) {
    if (!k->is_explicit || atomic_fetch_sub(&k->refs, 1) != 1) return;
    free_table(k);
    free(k);
}

/* Counts a task as complete. Afterwards the team may be gone. */
void drop_pending(team *t) {
    visit(t);
    atomic_fetch_sub(&t->pending, 1);
    tell(t);
    end_visit(t);
}

/* Those who wait look again only if one of them may go on. */
void complete(task *k) {
    team *t = k->of;
    task *parent = k->parent;
    bool has_explicit_parent = parent->is_explicit, is_news = false;
    if (k->needs) {
        lock_word(&t->task_lock);
        is_news = k->followers != NULL;
        release_followers(k);
        unlock_word(&t->task_lock);
    }
    visit(t);
    if (k->joined && atomic_fetch_sub(&k->joined->pending, 1) == 1) is_news = true;
    if (atomic_fetch_sub(&parent->children, 1) == 1) is_news = true; /* an implicit parent may be gone after this */
    if (has_explicit_parent) release(parent);
    release(k);
    if (atomic_fetch_sub(&t->pending, 1) == 1 || is_news) tell(t);
    end_visit(t);
}

/* The task's body, or its event, is over. */
static void end_part(task *k) {
    if (atomic_fetch_sub(&k->parts, 1) == 1) complete(k);
}

/* A cancelled task isn't begun, unless its copy has to be destroyed. */
static bool is_discarded(task *k) {
    if (k->is_copied) return false;
    return atomic_load(&k->of->cancelled) || (k->joined && atomic_load(&k->joined->cancelled));
}

static void run_body(context *c, task *k) {
    task *old = c->now;
    c->now = k;
    if (!is_discarded(k)) {
        if (k->fn) k->fn(k->arg);
    } else if (atomic_load(&k->parts) == 2) {
        /* Why one more reference: another thread may fulfil the event, or none. */
        atomic_fetch_add(&k->refs, 1);
        atomic_store(&k->is_dropped, true);
        atomic_store(&k->parts, 1);
    }
    c->now = old;
    settle_dock(c);
}

void run_now(context *c, task *k) {
    run_body(c, k);
    end_part(k);
}

int run_some_task(context *c, int which) {
    team *t = c->of;
    if (atomic_load(&t->queued) == 0) return 0;
    lock_word(&t->task_lock);
    task *k = pop_ready(c, which);
    unlock_word(&t->task_lock);
    if (!k) return 0;
    run_now(c, k);
    return 1;
}

/* --- waiting --------------------------------------------------------------------------------------------------------- */

typedef struct task_wait {
    _Atomic int *count; /* until this is 0 */
    list *mine;         /* or this list isn't empty */
} task_wait;

static int is_over_or_has_task(void *arg) {
    task_wait *w = arg;
    if (atomic_load(w->count) == 0) return 1;
    return atomic_load(&w->mine->oldest) != NULL;
}

/* Why a member that holds a lock keeps its hart: a region below could want that lock, on the same stack. */
void run_tasks_until(context *c, _Atomic int *count, int which) {
    team *t = c->of;
    list *mine = which == OF_ANY ? &t->ready : which == OF_CHILDREN ? &c->now->ready : &c->now->group->ready;
    task_wait w = {count, mine};
    while (atomic_load(count) > 0) {
        if (run_some_task(c, which)) continue;
        overflow(t);
        if (which != OF_ANY) atomic_fetch_add(&t->picky, 1);
        wait_in_team(c, is_over_or_has_task, &w, c->locks > 0 ? KEEPS : LENDS);
        if (which != OF_ANY) atomic_fetch_sub(&t->picky, 1);
    }
}

API void GOMP_taskwait(void) {
    context *c = here();
    run_tasks_until(c, &c->now->children, OF_CHILDREN);
}

API void GOMP_taskyield(void) { run_some_task(here(), OF_CHILDREN); }

/* --- making ---------------------------------------------------------------------------------------------------------- */

enum {
    FLAG_FINAL = 1 << 1,
    FLAG_DEPEND = 1 << 3,
    FLAG_PRIORITY = 1 << 4,
    FLAG_DETACH = 1 << 13,
    TASKS_FOR_EACH_MEMBER = 64 /* more aren't kept waiting */
};

bool is_cancelled_for(context *c) {
    group *g = c->now->group;
    if (atomic_load(&c->of->cancelled)) return true;
    if (!g) return false;
    if (atomic_load(&g->cancelled)) return true;
    return g->is_of_workshare && g->outer && atomic_load(&g->outer->cancelled);
}

/* Runs the task as soon as all that it depends on is complete. */
void submit(context *c, task *k) {
    team *t = c->of;
    if (atomic_fetch_sub(&k->waits_for, 1) != 1) return; /* the last of those makes it ready */
    if (t->n == 1) {
        run_now(c, k);
        return;
    }
    lock_word(&t->task_lock);
    push_ready(k);
    unlock_word(&t->task_lock);
    tell_one(t);
}

static void add_depends(task *k, void **depend) {
    lock_word(&k->of->task_lock);
    add_needs(k, depend);
    unlock_word(&k->of->task_lock);
}

/* The encountering task goes on only after the new one is complete. */
static void run_undeferred(context *c, task *k, void **depend) {
    k->is_awaited = true;
    atomic_fetch_add(&k->refs, 1);
    if (depend) {
        add_depends(k, depend);
        if (atomic_load(&k->waits_for) > 0) run_tasks_until(c, &k->waits_for, OF_CHILDREN);
    }
    run_body(c, k);
    atomic_fetch_sub(&k->parts, 1);
    if (atomic_load(&k->parts) > 0) run_tasks_until(c, &k->parts, OF_CHILDREN);
    complete(k);
    release(k);
}

/* The event is the task's address: for the caller, and first in the argument. */
static void give_event(task *k, const body *b, void **event) {
    atomic_init(&k->parts, 2);
    *event = k;
    if (b->data) *(void **)b->data = k;
    if (k->arg) *(void **)k->arg = k;
}

API void GOMP_task(void (*fn)(void *), void *data, void (*copy)(void *, void *), long size, long align, bool if_clause,
                   unsigned flags, void **depend, int priority, void *detach) {
    context *c = here();
    body b = {fn, data, copy, size, align};
    if (set.cancellation && is_cancelled_for(c)) return;
    bool has_event = (flags & FLAG_DETACH) && detach, has_needs = flags & FLAG_DEPEND;
    bool is_deferred = if_clause && !c->now->is_final && (c->of->n > 1 || has_event || has_needs);
    if (is_deferred && !has_event && atomic_load(&c->of->queued) > TASKS_FOR_EACH_MEMBER * c->of->n) is_deferred = false;
    task *k = new_task(c, &b, is_deferred || copy);
    if (flags & FLAG_FINAL) k->is_final = true;
    if (flags & FLAG_PRIORITY) k->priority = priority < set.max_priority ? priority : set.max_priority;
    if (has_event) give_event(k, &b, detach);
    if (!is_deferred) {
        run_undeferred(c, k, has_needs ? depend : NULL);
        return;
    }
    atomic_store(&k->waits_for, 1);
    if (has_needs) add_depends(k, depend);
    submit(c, k);
}

API void GOMP_taskwait_depend(void **depend) {
    context *c = here();
    if (set.cancellation && is_cancelled_for(c)) return;
    run_undeferred(c, new_task(c, &(body){0}, false), depend);
}

API void omp_fulfill_event(uintptr_t event) {
    task *k = (task *)event;
    if (atomic_load(&k->is_dropped)) return;
    /* A task that the encountering one waits for is completed by that one. */
    if (!k->is_awaited) {
        end_part(k);
        return;
    }
    team *t = k->of;
    visit(t);
    atomic_fetch_sub(&k->parts, 1);
    tell(t);
    end_visit(t);
}
