/* lithe_rt: one set of harts for a whole process, shared by its parallel libraries, with schedulers ready to use.
 *
 * A hart is the right to keep one processor busy. The runtime has LITHE_HARTS of them (without that variable, as many as
 * the processors that the process may run on, at most 64). A thread that calls in from outside is a hart while it is
 * inside. The other harts are worker threads, which the runtime makes when they are first called. If no hart is free, a
 * call does its work on the calling thread. Each transfer of a hart is a checked step of the board in liblithe.
 *
 * The first part is for programs: joins, groups, loops, reductions, a mutex. The second part is for authors of
 * schedulers (SCHEDULER.md has one example from nothing to a test). README.md says what happens on errors, forks,
 * signals and threads that end.
 *
 * Each function that takes bodies runs all of them before it returns, in parallel where harts are free; a spawned task has run
 * when its group's wait returns. None of them fails: without memory, threads, harts or levels it runs the bodies in place, and counts that (lithe_count_of).
 */
#ifndef LITHE_RT_H
#define LITHE_RT_H
#include <stddef.h>
#include <stdint.h>

#ifdef __cplusplus
extern "C" {
#endif

enum { LITHE_MAX_HARTS = 64, LITHE_LEVELS = 16 };

/* --- for programs ------------------------------------------------------------------------------------------------ */

/* Runs a(arg_a) and b(arg_b), maybe at the same time. The calling thread runs a. */
void lithe_join(void (*a)(void *), void *arg_a, void (*b)(void *), void *arg_b);
/* Runs run(args[i]) for each i < n, in any order. */
void lithe_all(int n, void (*run)(void *), void *const *args);

/* Runs body(arg, i) for each i < n. Harts claim `chunk` indices at a time, in ascending order; chunk 0: the runtime
 * chooses. */
void lithe_for(long n, long chunk, void (*body)(void *arg, long i), void *arg);
/* The same, with one call body(arg, from, to) for each chunk. */
void lithe_for_ranges(long n, long chunk, void (*body)(void *arg, long from, long to), void *arg);
/* Reduces 0..n. `*result` is the identity at the call, and the result afterwards. body(arg, from, to, part) adds a range of
 * at most `chunk` indices to `part`; combine(arg, into, part) adds the part to the right of `into` to it. The range is
 * halved without regard to the harts, so a result depends on n and chunk alone, also in floating point. The exception: if
 * memory for a part above 1,024 bytes is refused, two ranges are added to one part, in order.
 * size: of a part, in bytes; parts are copied bytewise. */
void lithe_reduce(long n, long chunk, size_t size, void *result, void (*body)(void *arg, long from, long to, void *part),
                  void (*combine)(void *arg, void *into, const void *part), void *arg);

/* A task of a group. The caller provides the memory, and keeps it until lithe_group_wait has returned. */
typedef struct lithe_task {
    void (*run)(void *);
    void *arg;
    struct lithe_group *group;
    uint32_t done;
    int32_t owner;
} lithe_task;

/* A group of tasks. The thread that makes it also waits for it, exactly once for each time that it has spawned. The members
 * are private. */
typedef struct lithe_group {
    uint64_t state;
    void *pool, *maker;
    int32_t owns;
} lithe_group;

void lithe_group_init(lithe_group *group);
/* Becomes a hart in a pool now, and not with the first spawn. 0: tasks will run in place. Only for the group's maker. */
int lithe_group_open(lithe_group *group);
/* Runs task->run(task->arg) before the group's wait returns. The maker may spawn, and what runs in the group's pool, as a
 * task or a body of a loop; elsewhere the task runs in place. */
void lithe_spawn(lithe_group *group, lithe_task *task, void (*run)(void *), void *arg);
/* Runs and waits for the group's tasks. Afterwards the group is as lithe_group_init made it. */
void lithe_group_wait(lithe_group *group);

/* A mutex. A thread that waits spins a short while, then sleeps. It keeps its hart: the context that holds the mutex may
 * be below it on the same stack, so lending the hart would not be sound. Don't hold a mutex over a join, a wait or a
 * loop: the same hart may run another task there that locks it. */
typedef struct lithe_mutex {
    uint32_t word;
} lithe_mutex;
#define LITHE_MUTEX_INIT {0}
void lithe_mutex_lock(lithe_mutex *mutex);
int lithe_mutex_try_lock(lithe_mutex *mutex); /* 1: locked */
void lithe_mutex_unlock(lithe_mutex *mutex);

/* The number of harts, at least 1. */
int lithe_count(void);
/* How many harts other processes leave a processor to, from 1 to lithe_count(): an estimate, of the last 100 to 200 ms. It falls when
 * two looks in a row see busy processes, and rises with the first look that doesn't; a look is a call at least 100 ms after the one
 * before. With LITHE_WATCH=0 it is lithe_count(). The runtime calls as many harts as otherwise, whatever this returns. */
int lithe_processors(void);
/* The calling hart's number, from 0; -1 if the thread isn't a hart. */
int lithe_number(void);

/* Writes one line for each hart and each live site to the file descriptor: who is in which site, who sleeps; the last line has
 * the counts. It may be called at any time, also from a signal's handler or a debugger: it takes no lock and allocates
 * nothing. While harts move, lines need not fit together. With LITHE_WHERE=N the signal N calls it for standard error. HANGS.md
 * walks through an output. */
void lithe_where(int file);

/* What the runtime counts; LITHE_STATS=1 prints them at exit. */
typedef enum lithe_counter {
    LITHE_SITES,      /* sites opened */
    LITHE_LENDS,      /* harts that entered a site as guests */
    LITHE_CALLS,      /* idle harts called to a site */
    LITHE_LEAVES,     /* guests that left a site because another one wanted harts */
    LITHE_WAKES,      /* sleeping threads woken */
    LITHE_SLEEPS,     /* times that a thread slept */
    LITHE_STEALS,     /* tasks taken from another hart's deque */
    LITHE_IN_PLACE,   /* bodies or calls run in place, for lack of a hart, memory, or room */
    LITHE_TOO_DEEPS,  /* sites refused because the hart was the home of LITHE_LEVELS sites */
    LITHE_NO_MEMORYS, /* refused allocations */
    LITHE_NO_THREADS, /* threads that could not be started */
    LITHE_THREADS,    /* threads started */
    LITHE_REFUSALS,   /* calls of the board that were refused, other than TOO_DEEP and MOVED: always 0 unless a scheduler
                       * breaks its rules */
    LITHE_COUNTERS
} lithe_counter;
long lithe_count_of(lithe_counter counter);
const char *lithe_counter_name(lithe_counter counter);

/* --- for authors of schedulers ----------------------------------------------------------------------------------- */

/* The rule that everything rests on: a hart that has nothing to do is in exactly one idle set, that of the site it is in.
 * Who removes it from the set, itself or another, decides its next move, and owes it exactly one message. So a called
 * hart always comes. */

typedef struct lithe_sched lithe_sched;

/* What a scheduler does with the harts lent to it, and with its children. All but `enter` may be null. */
typedef struct lithe_ops {
    /* The current hart was lent; it returns when the scheduler has nothing more for it. */
    void (*enter)(lithe_sched *self);
    /* The current hart opened, or is about to end, a child of `self`. */
    void (*child_registers)(lithe_sched *self, lithe_sched *child);
    void (*child_unregisters)(lithe_sched *self, lithe_sched *child);
    /* A child wants harts until it ends. Null: lithe_note, so that idle harts of `self` and above go there. */
    void (*child_requests)(lithe_sched *self, lithe_sched *child);
    /* The scheduler was left open by lithe_linger, and shall end now. If `robbed`, another thread acts for its home. */
    void (*settle)(lithe_sched *self, int robbed);
    /* For traces and lithe_where. A string that is never freed. */
    const char *name;
} lithe_ops;

/* A live site and its scheduler. A library puts this first in a struct of its own. */
struct lithe_sched {
    const lithe_ops *ops;
    lithe_sched *parent;
    uint16_t site, home;
};

int lithe_idle_at_base(void);
/* The scheduler that the current hart is in; null if the thread isn't a hart. */
lithe_sched *lithe_current(void);

/* Makes the calling thread a hart, if it isn't. Returns 0 if no hart is free, or without memory: go on alone. */
int lithe_begin(void);
/* The number of the calling thread's stay as a hart. If it is another than before, what the thread left open is gone. */
uint64_t lithe_stay(void);
/* Ends the matching lithe_begin. */
void lithe_end_call(void);

/* With LITHE_STICKY=1 a thread from outside stays a hart after its call, since it goes on running. This takes back the
 * harts of such threads that sleep. Returns how many. */
int lithe_reclaim(void);

/* Opens a site below the current scheduler. Returns 0 if the board has no more levels for this hart. */
int lithe_open(lithe_sched *s, const lithe_ops *ops);
/* Wants harts until the site ends: calls all that are idle, and those that become idle later come by themselves. */
void lithe_want(lithe_sched *s);
/* Calls up to k idle harts from above `s`; each comes for certain. `chosen` (or null) sees each hart before it gets the
 * message. Returns how many. */
int lithe_call(lithe_sched *s, int k, void (*chosen)(lithe_sched *s, int hart));
/* How many more harts the site may take. The home, while it is in the site, gets back those that have left. */
int lithe_room(lithe_sched *s);
/* How many harts were sent to the site, or through it, and haven't arrived. */
int lithe_coming(lithe_sched *s);
/* How many harts lithe_call would find: an estimate. `s` need not be open yet: then its parent is given, and 1. */
int lithe_callable(lithe_sched *s, int is_parent);
/* 1 if a site above, or beside the way to it, wants a hart: an idle guest should return from `enter`. */
int lithe_wanted_above(lithe_sched *s);
/* The home ends the site. All work in it must be done, and `enter` must be about to return on each guest. Calls that no
 * hart has read yet are taken back. The home sleeps until the last guest has left. */
void lithe_shut(lithe_sched *s);
/* Leaves the current site open while its home goes on elsewhere; null: the site is in use again. */
void lithe_linger(lithe_sched *s);
/* Ends what was left open. Each scheduler calls this before it looks at the current scheduler. */
void lithe_settle(void);

/* Waits in `s`, where the hart is, until ready(arg), and lends the hart to children meanwhile. `timed`: for a short while
 * only, without sleep; returns 0 if the time is over and the hart has left the idle set. */
int lithe_wait(lithe_sched *s, int (*ready)(void *), void *arg, int timed);
/* The same without `timed`, for a guest that may leave: a site elsewhere that wants harts makes it look again. `ready`
 * should include lithe_wanted_above. */
void lithe_wait_as_guest(lithe_sched *s, int (*ready)(void *), void *arg);
/* Makes a hart that waits in `s` look again. Call it after what makes `ready` true (sequentially consistent). */
void lithe_poke(lithe_sched *s, int hart);
void lithe_poke_one(lithe_sched *s);
/* The same; `chosen` sees the hart before it gets the message. Returns 0 if none waits. */
int lithe_poke_with(lithe_sched *s, void (*chosen)(lithe_sched *s, int hart));
void lithe_poke_all(lithe_sched *s);
/* The harts that wait in `s`, as a mask. */
uint64_t lithe_idle(lithe_sched *s);
/* Lends the current hart, which is in `s`, to a child that wants one. Returns 0 if none does. */
int lithe_serve(lithe_sched *s);
/* The default of child_requests. */
void lithe_note(lithe_sched *s, lithe_sched *child);

/* A task's own state in another library (the OpenMP front). A scheduler brackets each user function with these. */
extern __thread void *lithe_client __attribute__((tls_model("initial-exec")));
extern void (*lithe_client_end)(void *client);
static inline void *lithe_task_begin(void) {
    void *old = lithe_client;
    lithe_client = 0;
    return old;
}
void lithe_task_end(void *old);

/* Waiting. */
int64_t lithe_now_ns(void);
/* `at` points to an atomic word of 32 bits. ns < 0: no limit. */
void lithe_futex_wait(void *at, uint32_t value, int64_t ns);
void lithe_futex_wake(void *at, int count);
extern int64_t lithe_spin_ns; /* how long an idle hart spins before it sleeps: LITHE_SPIN_US */
static inline void lithe_pause(void) {
#if defined __x86_64__ || defined __i386__
    __builtin_ia32_pause();
#elif defined __aarch64__
    __asm__ volatile("yield");
#endif
}

#ifdef __cplusplus
}
#endif
#endif
