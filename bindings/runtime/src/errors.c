/* What goes wrong, and a look at who is where. */
#include "rt.h"
#include <errno.h>
#include <signal.h>
#include <stdio.h>
#include <stdlib.h>
#include <unistd.h>

/* The end of the levels, or a refusal by the board that the rules of this library exclude. */
void refused(const char *call, uint16_t site, uint32_t status) {
    count(status == LITHE_TOO_DEEP ? LITHE_TOO_DEEPS : LITHE_REFUSALS);
#ifdef LITHE_DEBUG
    char text[80];
    lithe_status_text(status, text, sizeof text);
    fprintf(stderr, "lithe: hart %d: %s refused at site %u: %s\n", lithe_number(), call, site, text);
#else
    (void)call, (void)site, (void)status;
#endif
}

/* Why the child ends: its parent's region waits for harts that the child doesn't have. */
void child_returned(void) {
    static const char text[] = "lithe: a child forked inside a region returned into it; it must call exec or _exit\n";
    if (write(2, text, sizeof text - 1) < 0) _exit(70);
    _exit(70);
}

/* A line of output. Why not printf: it may not be called in a signal's handler. */
typedef struct line {
    char text[400];
    size_t size;
} line;

static void put(line *l, const char *words) {
    for (; *words && l->size < sizeof l->text - 1; words++) l->text[l->size++] = *words;
}

static void put_number(line *l, uint64_t n, unsigned base) {
    char digits[24];
    char *at = digits + sizeof digits - 1;
    *at = 0;
    do *--at = "0123456789abcdef"[n % base];
    while (n /= base);
    put(l, at);
}

static void put_count(line *l, const char *name, long n) {
    put(l, name);
    if (n < 0) put(l, "-");
    put_number(l, (uint64_t)(n < 0 ? -n : n), 10);
}

static void print(int file, line *l) {
    l->text[l->size++] = '\n';
    for (size_t done = 0; done < l->size;) {
        ssize_t some = write(file, l->text + done, l->size - done);
        if (some <= 0) return;
        done += (size_t)some;
    }
}

static void print_hart(int file, hart *h) {
    line l = {.size = 0};
    uint16_t site = atomic_load(&h->in_site);
    int tid = atomic_load(&h->tid), outside = site == 0 && atomic_load(&h->state) == OUTSIDE;
    int idle = (atomic_load(&all.place[site].idle) & bit(h->number)) != 0;
    put_count(&l, "hart ", h->number);
    put(&l, outside ? " is held by a thread outside" : idle ? " is idle" : " works");
    put_count(&l, " in site ", site);
    if (tid) put_count(&l, ", thread ", tid);
    if (atomic_load(&h->inside.asleep) || (site == 0 && atomic_load(&h->at_base.asleep))) put(&l, ", asleep");
    if (!atomic_load(&h->made)) put(&l, ", without a worker");
    print(file, &l);
}

static void print_site(int file, int site, place *p) {
    line l = {.size = 0};
    put_count(&l, "site ", site);
    put(&l, " ");
    put(&l, atomic_load(&p->name));
    put_count(&l, ": parent ", atomic_load(&p->parent));
    put_count(&l, ", home ", atomic_load(&p->home));
    put_count(&l, ", wishes ", atomic_load(&p->tokens));
    put_count(&l, ", arrived ", atomic_load(&p->arrived));
    put_count(&l, ", left ", atomic_load(&p->left));
    put(&l, ", idle ");
    put_number(&l, atomic_load(&p->idle), 16);
    if (atomic_load(&p->home_waits)) put(&l, ", the home waits for it to be empty");
    print(file, &l);
}

static void print_counts(int file) {
    line l = {.size = 0};
    put_count(&l, "harts ", all.harts);
    for (int k = 0; k < LITHE_COUNTERS; k++) {
        put(&l, ", ");
        put(&l, lithe_counter_name(k));
        put_count(&l, " ", lithe_count_of(k));
    }
    print(file, &l);
}

void lithe_where(int file) {
    line none = {.size = 0};
    if (!all.hart) {
        put(&none, "no harts");
        print(file, &none);
        return;
    }
    for (int h = 0; h < all.harts; h++) print_hart(file, &all.hart[h]);
    for (int s = 1; s <= all.harts * LITHE_LEVELS; s++)
        if (atomic_load(&all.place[s].live)) print_site(file, s, &all.place[s]);
    print_counts(file);
}

static void on_signal(int signal) {
    (void)signal;
    int kept = errno;
    lithe_where(2);
    errno = kept;
}

/* Why only the default: the program's own handler stays. */
void start_where(void) {
    const char *text = getenv("LITHE_WHERE");
    int number = text ? atoi(text) : 0;
    struct sigaction old, new = {.sa_handler = on_signal, .sa_flags = SA_RESTART};
    if (number <= 0 || sigaction(number, NULL, &old) != 0 || old.sa_handler != SIG_DFL) return;
    sigaction(number, &new, NULL);
}
