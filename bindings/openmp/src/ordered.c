/* `ordered`: chunks of a loop have their turns in the order of iterations. */
#include "gomp.h"

static int is_my_turn(void *arg) {
    context *c = arg;
    return atomic_load(&c->at->turn) >= c->chunk_from;
}

static void wait_for_turn(context *c) {
    if (c->of->n == 1 || is_my_turn(c)) return;
    overflow(c->of);
    wait_in_team(c, is_my_turn, c, KEEPS);
}

/* The member's chunk is over: the next chunk has its turn. */
void end_turn(context *c) {
    if (c->chunk_to == 0) return;
    wait_for_turn(c);
    atomic_store(&c->at->turn, c->chunk_to);
    tell(c->of);
    c->chunk_from = c->chunk_to = 0;
}

API void GOMP_ordered_start(void) {
    context *c = here();
    if (c->chunk_to) wait_for_turn(c);
}
API void GOMP_ordered_end(void) {}
