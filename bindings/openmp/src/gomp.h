/* What the library's files share.
 *
 * A parallel region has a team of members. What a member, or a thread outside of regions, is to OpenMP is its context. A
 * region runs in a dock: a site below the scheduler in which the region was met. The dock's home is the hart that met the
 * region; the other members are guests. The dock stays open for a short while after the region, with its guests, so that
 * the next region starts fast.
 *
 * A member is started by the first of: its guest; a member that has finished; an overflow thread, as soon as a member waits
 * for others, or OVERFLOW_NS after the region began. So each member starts at some time, whatever the members wait for. */
#ifndef GOMP_H
#define GOMP_H
#ifndef _GNU_SOURCE
#define _GNU_SOURCE
#endif
#include "lithe_rt.h"
#include <stdatomic.h>
#include <stdbool.h>
#include <stddef.h>
#include <stdint.h>

#define API __attribute__((visibility("default")))
#define LINE _Alignas(64)

enum { MOST_LEVELS = 255, NO_LIMIT = 0x7fffffff };

/* --- settings.c --------------------------------------------------------------------------------------------------- */

enum { RUN_STATIC = 1, RUN_DYNAMIC = 2, RUN_GUIDED = 3, RUN_AUTO = 4 };
enum { LISTED_LEVELS = 16 };

typedef struct settings {
    int procs;
    int threads[LISTED_LEVELS], threads_listed, is_given; /* OMP_NUM_THREADS, a number for each level */
    int dynamic, max_active, thread_limit, cancellation, max_priority, default_device;
    int kind, is_monotonic;
    unsigned long chunk;
    int teams, teams_thread_limit;
    int needs_device; /* OMP_TARGET_OFFLOAD=mandatory */
    int wait_policy; /* 0: not set, 1: active, -1: passive */
    unsigned long stack_size;
    int flat; /* LITHE_OMP_FLAT */
    char places[256], format[256];
} settings;
extern settings set;
void read_settings(void); /* once; later calls do nothing */
void display_settings(int verbose);

/* --- errors.c ----------------------------------------------------------------------------------------------------- */

_Noreturn void fatal(const char *format, ...);
_Noreturn void child_returned(void);
/* Memory of `size` bytes, zeroed. It ends the program with a message if there is none, as libgomp does. */
void *zeroed(size_t size);
void *on_lines(size_t size); /* the same, aligned to 64 bytes */

/* --- types -------------------------------------------------------------------------------------------------------- */

/* What a loop's members share and none changes. */
typedef struct plan {
    int kind;
    unsigned long count, chunk; /* of iterations */
    unsigned long start, step;
} plan;

/* The memory of task reductions for each member: one block for each array that the compiler registers. */
typedef struct blocks {
    size_t count;
    uintptr_t from[];
} blocks;

/* Posted iterations of a doacross loop. */
typedef struct across {
    unsigned dimensions;
    unsigned long counts[32];
    size_t entries;
    _Atomic unsigned long *posted; /* for each part of the outermost dimension: its last posted iteration + 1 */
} across;

/* One workshare of a team: a loop, sections, single or scope. The members go through a list of them. */
typedef struct work {
    LINE _Atomic unsigned long next_index; /* of a dynamic or guided loop; the next section */
    LINE struct work *_Atomic next;
    _Atomic int left;  /* the members that have gone on to the next */
    _Atomic int taken; /* of a single */
    _Atomic int cancelled;
    plan plan;
    _Atomic unsigned long turn; /* the next iteration for `ordered` */
    void *copy;
    void *_Atomic shared;
    blocks *_Atomic reductions;
    across *_Atomic across;
} work;

/* The lists that a task which waits to be run is in. */
enum { OF_TEAM, OF_PARENT, OF_GROUP, LISTS };
typedef struct neighbours {
    struct task *older, *newer;
} neighbours;
typedef struct list {
    struct task *_Atomic oldest; /* who waits looks at it without the lock */
    struct task *newest;
} list;

/* A task group. */
typedef struct group {
    struct group *outer;
    _Atomic int pending; /* tasks that aren't complete */
    _Atomic int cancelled;
    int is_of_workshare;
    uintptr_t *reductions; /* the newest registered array; each has the next older one */
    list ready;
} group;

/* A task, explicit or implicit (a member's own). It lives until it and its children are complete. */
typedef struct task {
    void (*fn)(void *);
    void *arg;
    struct task *parent;
    struct team *of;
    group *joined; /* the group that it counts in */
    group *group;  /* the group of its children */
    neighbours in[LISTS];
    list ready; /* children */
    int priority;
    bool is_explicit, is_final, is_copied, is_awaited;
    _Atomic bool is_dropped; /* cancelled before it began, though its event may still come */
    _Atomic int children, refs;
    _Atomic int parts;      /* its body, and the event of `detach` */
    _Atomic int waits_for;  /* tasks that it depends on and that aren't complete, and 1 while these are counted */
    struct need *needs;     /* of its depend clauses */
    struct edge *followers; /* who depends on it */
    struct table *table;    /* what its children depend on */
} task;

typedef struct team {
    void (*fn)(void *);
    void *data;
    int n, level, active_level, is_outermost;
    unsigned process; /* counts forks */
    struct dock *dock;
    struct context *outer;
    struct group *group; /* of the implicit tasks: reductions with `task` of the region */
    work first;
    LINE _Atomic int done;
    LINE _Atomic int late_next; /* members late_next to n - 1 have no guest and haven't started */
    LINE _Atomic int arrived;
    LINE _Atomic uint32_t phase; /* of the barrier */
    _Atomic int cancelled;
    _Atomic uint32_t news;
    _Atomic int sleepers; /* who sleeps on `news` */
    _Atomic int picky;    /* who waits for some tasks only */
    _Atomic uint32_t visitors;
    _Atomic int is_watched, is_crowded; /* crowded: a member is on an overflow thread */
    _Atomic int reserved;               /* overflow threads */
    struct team *next_watched;
    int64_t deadline;
    LINE _Atomic uint32_t task_lock;
    _Atomic int queued, pending; /* tasks that wait to be run; those that aren't complete */
    list ready;
} team;

/* Threads of a contention group that has a limit. */
typedef struct limit {
    int most;
    _Atomic int used;
} limit;

/* Whether a context holds a promise of more than one. The context and its dock refer to it, since another thread may end
 * the dock. */
typedef struct pledge {
    _Atomic int holds, refs;
} pledge;

typedef struct context {
    team *of;
    int num;
    work *at, *spare;
    unsigned long static_trip; /* of the loop at hand */
    unsigned long chunk_from, chunk_to;
    int nthreads, is_chosen; /* omp_set_num_threads, and whether the program called it */
    int dynamic, max_active, default_device;
    int run_kind, run_is_monotonic;
    unsigned long run_chunk;
    uintptr_t allocator;
    int team_num, teams;
    limit *limit, *own_limit;
    int promise; /* what omp_get_max_threads returned last, or 0 */
    pledge *pledge;
    bool is_external;
    int locks; /* OpenMP locks that the member holds */
    uint64_t stay; /* in which an external thread opened the dock */
    struct dock *dock;
    task own, *now; /* the implicit task; the task at hand */
    team *old_team; /* for GOMP_parallel_start */
    struct context *outer;
    team solo; /* the last member: a member of a larger team doesn't set it */
} context;

enum { SEAT_EMPTY, SEAT_TAKEN, SEAT_READY };
typedef struct seat {
    LINE _Atomic int state; /* taken: the guest stays; ready: its member may start */
    int member;
} seat;

typedef struct dock {
    lithe_sched as;
    context *owner;
    pledge *pledge;
    team region;
    LINE _Atomic int over;
    _Atomic int is_busy;        /* a region runs: guests without a member stay, for the regions below it */
    _Atomic int parked;         /* guests that sleep because it is busy */
    LINE _Atomic uint64_t here; /* the harts that were called and haven't left */
    _Atomic unsigned turn;      /* counts the regions */
    seat seats[LITHE_MAX_HARTS];
} dock;

/* --- contexts.c --------------------------------------------------------------------------------------------------- */

context *new_context(void);
static inline context *here(void) { return lithe_client ? (context *)lithe_client : new_context(); }
void begin_member(context *m, team *t, int num);
/* A member of a team of its own. */
void begin_alone(context *m, context *outer, int level, int active_level);
void end_member(context *m);
void end_context(void *client);
extern unsigned forks;

/* --- promises.c --------------------------------------------------------------------------------------------------- */

int hold_promise(context *c, int most);
void drop_promise(context *c);
void drop_hold(pledge *p);
void let_go(pledge *p);
void forget_promises(void);

/* --- overflow.c --------------------------------------------------------------------------------------------------- */

enum { OVERFLOW_NS = 5000000 };
/* Has up to k overflow threads ready for the team. Returns how many. */
int reserve_threads(team *t, int k);
void return_threads(team *t);
int take_late(team *t);
/* Starts all members that haven't started, since one waits that may wait for them. */
void overflow(team *t);
void overflow_all(context *c); /* the same for the teams around it, too */
void watch(team *t);
void unwatch(team *t);
void forget_threads(void);

/* --- waits.c ------------------------------------------------------------------------------------------------------ */

int spin_until(int (*is_ready)(void *), void *arg, int64_t ns);
enum { LENDS, KEEPS };
/* Waits until is_ready(arg). `LENDS`: the hart may run members of regions below the team's dock meanwhile. */
void wait_in_team(context *c, int (*is_ready)(void *), void *arg, int how);
/* Makes those who wait in the team look again. */
void tell(team *t);
void tell_one(team *t);
/* A thread that isn't a guest of the team's dock touches the team between these. */
void visit(team *t);
void end_visit(team *t);
void wait_for_visitors(team *t);
bool team_barrier(context *c, bool is_cancellable);

/* --- docks.c ------------------------------------------------------------------------------------------------------ */

dock *use_dock(context *c);
void leave_dock(context *c);
void settle_dock(context *c);
int gather(context *c, int n, bool waits);
int take_seats(dock *d, int most, uint64_t *harts);
void start_guests(dock *d, uint64_t harts);
int cancel_start(seat *s); /* 1: the guest hadn't started its member, and won't */
void run_member(team *t, int num);
void run_one(team *t, int num);

/* --- regions.c ---------------------------------------------------------------------------------------------------- */

/* Runs fn(data) by a team; returns its size. */
unsigned run_region(void (*fn)(void *), void *data, unsigned wanted, const plan *first, group *of_reductions);
int team_size(context *c, unsigned wanted, bool *is_exact);
/* The size for a team of at most n, so that the harts in use don't exceed lithe_processors. */
int size_under_load(int n);
/* Not in a region, nor in a body of lithe_rt. Why teams have the same size here each time: programs keep threadprivate variables from
 * region to region, and arrays with a part for each thread. */
static inline bool is_outside(const context *c) { return c->is_external && c->of->level == 0; }
bool is_asked_for(const context *c); /* c->nthreads, as a number that a team has in any case */
extern _Atomic long regions, shortfalls, overflows;

/* --- workshares.c ------------------------------------------------------------------------------------------------- */

work *advance(context *c, const plan *model);
void clear_work(work *w);
void free_works(team *t, work *w);
plan loop_plan(long start, long end, long step, int kind, unsigned long chunk);
plan loop_plan_ull(bool is_up, unsigned long start, unsigned long end, unsigned long step, int kind, unsigned long chunk);
bool claim(context *c, unsigned long *from, unsigned long *to);
int runtime_kind(context *c, unsigned long *chunk);
int adjust_kind(context *c, long schedule, unsigned long *chunk);
void share_memory(context *c, void **memory);

/* --- ordered.c ---------------------------------------------------------------------------------------------------- */

void end_turn(context *c);

/* --- tasks.c ------------------------------------------------------------------------------------------------------ */

/* How the compiler describes a task's body and argument. */
typedef struct body {
    void (*fn)(void *);
    void *data;
    void (*copy)(void *, void *);
    long size, align;
} body;
enum { OF_ANY, OF_CHILDREN, OF_NEWEST_GROUP };
/* Runs one task that waits in the team. Returns 0 if there was none of that kind. */
int run_some_task(context *c, int which);
/* Waits until the count is 0, and runs tasks meanwhile. */
void run_tasks_until(context *c, _Atomic int *count, int which);
task *new_task(context *c, const body *b, bool copies);
void submit(context *c, task *k);
void push_ready(task *k); /* under the team's lock */
void run_now(context *c, task *k);
void complete(task *k);
void release(task *k);
void drop_pending(team *t);
bool is_cancelled_for(context *c);

/* --- depend.c ----------------------------------------------------------------------------------------------------- */

void add_needs(task *k, void **depend);
/* Under the team's lock. */
void release_followers(task *k);
void free_table(task *k);

/* --- groups.c, reductions.c, locks.c ------------------------------------------------------------------------------- */

void GOMP_taskgroup_start(void);
void GOMP_taskgroup_end(void);
void GOMP_taskgroup_reduction_register(uintptr_t *data);
void register_reductions(uintptr_t *data, uintptr_t *older, unsigned members, const blocks *from);
void start_workshare_reductions(context *c, uintptr_t *data);
void lock_word(_Atomic uint32_t *word);
void unlock_word(_Atomic uint32_t *word);
#endif
