/* A fork-join library calls a loop library, which calls the fork-join library again, all on the same threads. */
#include "compose.h"
#include "forkjoin.h"
#include "loop.h"

typedef struct setting {
    leaves all;
    long rounds;
    int tries, outcome;
    hart *me;
} setting;

typedef struct place {
    leaves *all;
    int outer, middle;
} place;

static void inner(hart *me, void *arg, int index) {
    (void)me;
    place *at = arg;
    leaf(at->all, (at->outer * MIDDLE + at->middle) * INNER + index);
}

static void middle(hart *me, void *arg, long index) {
    place at = *(place *)arg;
    at.middle = (int)index;
    forkjoin(me, INNER, inner, &at);
}

static void outer(hart *me, void *arg, int index) {
    place at = {.all = arg, .outer = index};
    loop(me, MIDDLE, 1, middle, &at);
}

static void one_round(void *arg) {
    setting *s = arg;
    forkjoin(s->me, OUTER, outer, &s->all);
}

static void alone(void *arg) {
    setting *s = arg;
    for (int i = 0; i < LEAVES; i++) leaf(&s->all, i);
}

static void program(hart *me, void *arg) {
    setting *s = arg;
    s->me = me;
    s->outcome = report("Lithe, fork-join and loops", one_round, s, &s->all, s->tries, s->rounds);
}

int main(int count, char **words) {
    static setting s;
    int harts = count > 1 ? atoi(words[1]) : 4;
    s.all.grain = count > 2 ? atol(words[2]) : 64;
    s.rounds = count > 3 ? atol(words[3]) : 200;
    s.tries = count > 4 ? atoi(words[4]) : 20;
    if (report("plain calls", alone, &s, &s.all, s.tries, s.rounds) != 0) return 1;
    lithe_status status = lend_run(harts, 3, program, &s);
    if (status != LITHE_DONE) {
        char text[80];
        lithe_status_text(status, text, sizeof text);
        printf("%s\n", text);
        return 1;
    }
    return s.outcome;
}
