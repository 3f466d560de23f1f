/* What the runtime's files share. lithe_rt.h says what the terms mean. */
#ifndef RT_H
#define RT_H
#ifndef _GNU_SOURCE
#define _GNU_SOURCE
#endif
#include "../lithe_rt.h"
#include "lithe.h"
#include <stdatomic.h>

#define UNLIKELY(condition) __builtin_expect(!!(condition), 0)
/* Calls the function with the variable's address at the end of the scope, also if the thread ends or an exception passes
 * through (the library is compiled with -fexceptions). */
#define ENDS_BY(function) __attribute__((cleanup(function)))

/* ThreadSanitizer doesn't see the steps of liblithe. Why: a guest's yield comes before the end of the site. */
#ifdef __SANITIZE_THREAD__
void __tsan_acquire(void *);
void __tsan_release(void *);
#define SEES(a) __tsan_acquire(a)
#define SHOWS(a) __tsan_release(a)
#else
#define SEES(a) ((void)(a))
#define SHOWS(a) ((void)(a))
#endif

/* A thread's mailbox has room for one message: a scheduler's address times 2, or POKE (look again). */
enum { POKE = 1 };
typedef struct box {
    _Alignas(64) _Atomic uint64_t message;
    _Atomic uint32_t asleep;
    int hart;
} box;

/* Of a hart that a thread from outside holds. */
enum { AT_BASE, INSIDE, OUTSIDE };

typedef struct hart {
    _Alignas(64) lithe_hart at;
    lithe_sched *in; /* the scheduler of the site that the hart is in */
    lithe_sched *left_open;
    void *spare_pool; /* memory for the next pool that the hart opens */
    int number, external, depth;
    _Atomic int made; /* a worker thread waits at `at_base` */
    _Atomic int tid, state; /* the thread that is the hart, or was last */
    _Atomic uint16_t in_site; /* for lithe_where */
    _Atomic uint16_t loaf_site;
    lithe_sched *_Atomic called_from; /* who called it took it out of this scheduler's idle set */
    box inside, at_base;              /* `at_base` is the worker's, which another thread may stand in for */
    _Alignas(64) _Atomic long counts[LITHE_COUNTERS];
} hart;

/* What is known of a site by its number. This memory is never freed while the harts exist, so a stale number does no harm.
 * Invariant, while the site is open: tokens + harts on their way + arrived = harts - 1. A token is a wish that no hart has
 * been sent for; who takes a token sends a hart, or gives the token back. `arrived` are the guests, and those that left
 * since the home last got wishes back; `left` are the latter. */
typedef struct place {
    _Alignas(64) lithe_sched *sched;
    _Atomic int tokens, arrived, left;
    _Atomic uint32_t home_waits; /* the home sleeps here in lithe_shut */
    _Atomic uint64_t called;    /* the harts whose message names this site */
    _Atomic uint16_t live, home, parent; /* for lithe_where */
    const char *_Atomic name;
    _Alignas(64) _Atomic uint64_t idle; /* the harts in this site that wait for a message */
    _Atomic uint64_t wishers; /* the homes whose child here has a standing wish, or a descendant with one */
    _Atomic uint16_t wish[LITHE_MAX_HARTS]; /* the number of that child's site */
} place;

typedef struct process {
    int harts, sticky;
    hart *hart;   /* null: no memory for harts, or none made yet */
    place *place; /* harts * LITHE_LEVELS + 1, by site */
    lithe_sched base;
    _Atomic uint64_t loafers; /* idle guests that may leave their site */
    _Atomic int64_t threads_refused_until; /* no thread could be started; don't try before this time */
} process;
extern process all;
extern __thread hart *me __attribute__((tls_model("initial-exec")));

static inline uint64_t bit(int h) { return (uint64_t)1 << h; }
static inline place *place_of(lithe_sched *s) { return &all.place[s->site]; }
static inline int take_bit(_Atomic uint64_t *set, int h) { return (atomic_fetch_and(set, ~bit(h)) & bit(h)) != 0; }

/* harts.c */
int make_all(void); /* 0: no memory */
/* Starts the worker of a hart that was taken out of the base's idle set. 0: no thread could be started. */
int start_worker(hart *h);
void become(hart *h);
int own_tid(void);
/* The hart, whose thread is done with it, goes into the base's idle set. */
void rest_at_base(hart *h);
/* Has leave_for_good called when the calling thread ends. */
void watch_exit(hart *h);
/* After a body has returned. Why: it may have forked, and be the child, which has none of the harts. */
void check_hart(hart *h);

/* outside.c */
void leave_for_good(void *arg);
void release_seat(void);
extern __thread hart *mine __attribute__((tls_model("initial-exec")));
void forget_stays(void);

/* mailbox.c */
void post(box *b, uint64_t message);
uint64_t spin_for(box *b, int64_t ns); /* 0: no message in time */
uint64_t receive(box *b);

/* calls.c */
int take_tokens(place *p, int k);
void give_tokens(place *p, int k);
/* The current hart is in `x`, and has a token for each site on the way down to `target`. */
void lend(lithe_sched *x, lithe_sched *target);
int may_serve(lithe_sched *x);
void take_back(lithe_sched *s);
void wake_home(place *p);

/* stats.c */
void count(lithe_counter counter);
void start_stats(void);

/* load.c */
void start_load(void);
void forget_load(void);

/* errors.c */
void refused(const char *call, uint16_t site, uint32_t status);
_Noreturn void child_returned(void);
void start_where(void);

/* trace.c */
extern _Atomic int tracing;
void start_trace(void);
void stop_trace_in_child(void);
void trace_event(char phase, const char *name, int hart, int site, int other);
#define TRACE(phase, name, hart, site, other)                                                           \
    do {                                                                                                \
        if (UNLIKELY(atomic_load_explicit(&tracing, memory_order_relaxed))) trace_event(phase, name, hart, site, other); \
    } while (0)
#endif
