/* More levels than the board has, lithe_where, counters, trace. */
#define _GNU_SOURCE
#include "lithe_rt.h"
#include "must.h"
#include <stdatomic.h>
#include <string.h>
#include <unistd.h>

static void nothing(lithe_sched *self) { (void)self; }
static const lithe_ops plain = {.enter = nothing, .name = "plain"};

static _Atomic long sum;
static void add(void *arg, long i) {
    (void)arg;
    atomic_fetch_add(&sum, i);
}

static void look(const char *wanted) {
    char text[20000];
    int ends[2];
    MUST(pipe(ends) == 0);
    lithe_where(ends[1]);
    close(ends[1]);
    size_t size = 0;
    for (ssize_t n; (n = read(ends[0], text + size, sizeof text - 1 - size)) > 0;) size += (size_t)n;
    close(ends[0]);
    text[size] = 0;
    MUST(strstr(text, wanted) && strstr(text, "hart 0 "));
}

static void deeper(int level) {
    lithe_sched s;
    if (!lithe_open(&s, &plain)) {
        MUST(level == LITHE_LEVELS);
        look("plain: parent");
        /* No level is left, so this runs in place. */
        lithe_for(100, 1, add, NULL);
        return;
    }
    MUST(lithe_current() == &s && s.home == lithe_number());
    deeper(level + 1);
    lithe_shut(&s);
}

int main(void) {
    MUST(lithe_begin());
    deeper(0);
    lithe_end_call();
    MUST(sum == 4950 && lithe_count_of(LITHE_TOO_DEEPS) == 2 && lithe_count_of(LITHE_REFUSALS) == 0);
    MUST(lithe_count_of(LITHE_SITES) == LITHE_LEVELS && lithe_count_of(LITHE_IN_PLACE) == 1);
    for (int k = 0; k < LITHE_COUNTERS; k++) MUST(lithe_counter_name((lithe_counter)k)[0]);
    sum = 0;
    lithe_for(1000, 1, add, NULL);
    usleep(1000);
    lithe_for(1000, 1, add, NULL);
    MUST(sum == 999000);
    printf("levels: %d sites of one hart, then in place\n", LITHE_LEVELS);
    return 0;
}
