/* Each call's refusals in their order, and that nothing changes by a refused call. */
#include "lithe.h"
#include "must.h"
#include <string.h>

enum { HARTS = 3, LEVELS = 2, BLOCK = 128 };

static lithe_hart harts[HARTS];
static int refusals;

/* The blocks of all harts, as bytes. A hart's owner and its number of homes lie there. */
static void copy_blocks(unsigned char blocks[HARTS][BLOCK]) {
    for (int h = 0; h < HARTS; h++) memcpy(blocks[h], harts[h].at, BLOCK);
}

/* The call is refused with the status, and leaves each hart's block as it was. */
#define REFUSED(call, status)                                     \
    do {                                                          \
        unsigned char before[HARTS][BLOCK], after[HARTS][BLOCK];  \
        copy_blocks(before);                                      \
        MUST((call) == (status));                                 \
        copy_blocks(after);                                       \
        MUST(memcmp(before, after, sizeof before) == 0);          \
        refusals++;                                               \
    } while (0)
#define DONE(call) MUST((call) == LITHE_DONE)

static void sizes(void) {
    lithe_hart many[65], one = {NULL};
    memset(many, 0, sizeof many);
    MUST(lithe_make(&one, 0, 1) == LITHE_BAD_SIZE);
    MUST(lithe_make(&one, 1, 0) == LITHE_BAD_SIZE && one.at == NULL);
    MUST(lithe_make(&one, 1, 65) == LITHE_BAD_SIZE && one.at == NULL);
    MUST(lithe_make(many, 65, 1) == LITHE_BAD_SIZE && many[0].at == NULL && many[64].at == NULL);
    DONE(lithe_make(many, 64, 64));
    DONE(lithe_end(many, 64));
    DONE(lithe_make(&one, 1, 1));
    DONE(lithe_end(&one, 1));
}

static void at_base(lithe_hart *hart) {
    uint8_t last = 99, wishes = 99, guests = 99;
    REFUSED(lithe_request(hart, 0), LITHE_NOT_HOME);
    REFUSED(lithe_yield(hart), LITHE_NOT_GUEST);
    REFUSED(lithe_close(hart), LITHE_NOT_HOME);
    REFUSED(lithe_see_empty(hart), LITHE_NOT_HOME);
    REFUSED(lithe_unregister(hart), LITHE_NOT_HOME);
    REFUSED(lithe_end_if_empty(hart), LITHE_NOT_HOME);
    REFUSED(lithe_withdraw(hart, 0), LITHE_NOT_HOME);
    REFUSED(lithe_yield_last(hart, &last), LITHE_NOT_GUEST);
    REFUSED(lithe_read_home(hart, &wishes, &guests), LITHE_NOT_HOME);
    REFUSED(lithe_read_site(hart, 0, &wishes, &guests), LITHE_NO_SUCH_SITE);
    REFUSED(lithe_read_site(hart, HARTS * LEVELS + 1, &wishes, &guests), LITHE_NO_SUCH_SITE);
    MUST(last == 99 && wishes == 99 && guests == 99);
    REFUSED(lithe_enter(hart, 0), LITHE_NO_SUCH_SITE);
    REFUSED(lithe_enter(hart, HARTS * LEVELS + 1), LITHE_NO_SUCH_SITE);
    REFUSED(lithe_enter(hart, 65535), LITHE_NO_SUCH_SITE);
    for (uint16_t site = 1; site <= HARTS * LEVELS; site++) REFUSED(lithe_enter(hart, site), LITHE_NOT_WANTED);
    MUST(lithe_owner(hart) == 0);
}

/* Hart 0 is the home of site 1, hart 1 its guest. */
static void with_a_guest(void) {
    uint16_t site = 99, below = 99;
    DONE(lithe_register(&harts[0], &site));
    MUST(site == 1 && lithe_owner(&harts[0]) == 1);
    REFUSED(lithe_enter(&harts[1], 1), LITHE_NOT_WANTED);
    REFUSED(lithe_yield(&harts[0]), LITHE_NOT_GUEST);
    REFUSED(lithe_see_empty(&harts[0]), LITHE_NOT_CLOSED);
    REFUSED(lithe_unregister(&harts[0]), LITHE_NOT_CLOSED);
    REFUSED(lithe_request(&harts[0], HARTS), LITHE_TOO_MANY_WISHED);
    REFUSED(lithe_request(&harts[0], 255), LITHE_TOO_MANY_WISHED);
    DONE(lithe_request(&harts[0], 0));
    REFUSED(lithe_enter(&harts[1], 1), LITHE_NOT_WANTED);
    DONE(lithe_request(&harts[0], 1));
    REFUSED(lithe_request(&harts[0], 2), LITHE_TOO_MANY_WISHED);
    REFUSED(lithe_enter(&harts[0], 1), LITHE_NOT_WANTED);
    DONE(lithe_enter(&harts[1], 1));
    MUST(lithe_owner(&harts[1]) == 1);
    REFUSED(lithe_enter(&harts[2], 1), LITHE_NOT_WANTED);
    REFUSED(lithe_request(&harts[1], 0), LITHE_NOT_HOME);
    REFUSED(lithe_close(&harts[1]), LITHE_NOT_HOME);
    REFUSED(lithe_see_empty(&harts[1]), LITHE_NOT_HOME);
    REFUSED(lithe_unregister(&harts[1]), LITHE_NOT_HOME);
    REFUSED(lithe_end(harts, HARTS), LITHE_IN_SITE);
    DONE(lithe_register(&harts[0], &site));
    MUST(site == 2);
    REFUSED(lithe_register(&harts[0], &below), LITHE_TOO_DEEP);
    MUST(below == 99);
    DONE(lithe_request(&harts[0], 1));
    REFUSED(lithe_enter(&harts[2], 2), LITHE_NOT_WANTED);
    DONE(lithe_close(&harts[0]));
    REFUSED(lithe_enter(&harts[1], 2), LITHE_NOT_WANTED);
    DONE(lithe_see_empty(&harts[0]));
    DONE(lithe_unregister(&harts[0]));
    MUST(lithe_owner(&harts[0]) == 1);
}

static void closed(void) {
    uint16_t site = 99;
    DONE(lithe_request(&harts[0], 1));
    DONE(lithe_close(&harts[0]));
    REFUSED(lithe_close(&harts[0]), LITHE_IS_CLOSED);
    REFUSED(lithe_request(&harts[0], 0), LITHE_IS_CLOSED);
    REFUSED(lithe_enter(&harts[2], 1), LITHE_NOT_WANTED);
    REFUSED(lithe_see_empty(&harts[0]), LITHE_NOT_EMPTY);
    REFUSED(lithe_unregister(&harts[0]), LITHE_NOT_EMPTY);
    /* A guest that registers a site below is still a guest. */
    DONE(lithe_register(&harts[1], &site));
    MUST(site == 1 + LEVELS);
    REFUSED(lithe_yield(&harts[1]), LITHE_NOT_GUEST);
    REFUSED(lithe_unregister(&harts[0]), LITHE_NOT_EMPTY);
    DONE(lithe_close(&harts[1]));
    DONE(lithe_unregister(&harts[1]));
    MUST(lithe_owner(&harts[1]) == 1);
    DONE(lithe_yield(&harts[1]));
    DONE(lithe_see_empty(&harts[0]));
    DONE(lithe_unregister(&harts[0]));
}

/* The site has so many wishes and guests, as hart 0, its home, and hart 2 read. */
static void has(uint16_t site, uint8_t wished, uint8_t inside) {
    uint8_t wishes = 99, guests = 99;
    DONE(lithe_read_site(&harts[2], site, &wishes, &guests));
    MUST(wishes == wished && guests == inside);
    if (lithe_owner(&harts[0]) != site) return;
    wishes = guests = 99;
    DONE(lithe_read_home(&harts[0], &wishes, &guests));
    MUST(wishes == wished && guests == inside);
}

/* A site begins with wishes, takes some back, and ends in one step once its guest has left. */
static void in_one_step(void) {
    uint16_t site = 99, below = 99;
    uint8_t last = 99;
    REFUSED(lithe_register_wishing(&harts[0], HARTS, &site), LITHE_TOO_MANY_WISHED);
    MUST(site == 99);
    DONE(lithe_register_wishing(&harts[0], 2, &site));
    MUST(site == 1 && lithe_owner(&harts[0]) == 1);
    has(1, 2, 0);
    REFUSED(lithe_withdraw(&harts[0], 3), LITHE_TOO_FEW_WISHES);
    REFUSED(lithe_request(&harts[0], 1), LITHE_TOO_MANY_WISHED);
    DONE(lithe_request(&harts[0], 0));
    DONE(lithe_enter(&harts[1], 1));
    has(1, 1, 1);
    DONE(lithe_withdraw(&harts[0], 1));
    has(1, 0, 1);
    REFUSED(lithe_enter(&harts[2], 1), LITHE_NOT_WANTED);
    DONE(lithe_request(&harts[0], 1));
    DONE(lithe_withdraw(&harts[0], 0));
    REFUSED(lithe_end_if_empty(&harts[0]), LITHE_NOT_EMPTY);
    REFUSED(lithe_end_if_empty(&harts[1]), LITHE_NOT_HOME);
    REFUSED(lithe_withdraw(&harts[1], 1), LITHE_NOT_HOME);
    DONE(lithe_register_wishing(&harts[0], 0, &below));
    MUST(below == 2);
    REFUSED(lithe_register_wishing(&harts[0], HARTS, &below), LITHE_TOO_DEEP);
    REFUSED(lithe_yield_last(&harts[0], &last), LITHE_NOT_GUEST);
    MUST(below == 2 && last == 99);
    DONE(lithe_end_if_empty(&harts[0]));
    MUST(lithe_owner(&harts[0]) == 1);
    has(2, 0, 0);
    /* In an open site no guest is the last: the home may still let harts in. */
    DONE(lithe_yield_last(&harts[1], &last));
    MUST(last == 0 && lithe_owner(&harts[1]) == 0);
    /* A wish that no hart met ends with the site. */
    has(1, 1, 0);
    DONE(lithe_end_if_empty(&harts[0]));
    MUST(lithe_owner(&harts[0]) == 0);
    has(1, 0, 0);
}

/* Of two guests of a closed site, the second to leave is the last. */
static void last_of_two(void) {
    uint16_t site = 99;
    uint8_t last = 99;
    DONE(lithe_register_wishing(&harts[0], 2, &site));
    DONE(lithe_enter(&harts[1], site));
    DONE(lithe_enter(&harts[2], site));
    DONE(lithe_close(&harts[0]));
    REFUSED(lithe_end_if_empty(&harts[0]), LITHE_IS_CLOSED);
    REFUSED(lithe_see_empty(&harts[0]), LITHE_NOT_EMPTY);
    DONE(lithe_yield_last(&harts[2], &last));
    MUST(last == 0);
    REFUSED(lithe_see_empty(&harts[0]), LITHE_NOT_EMPTY);
    DONE(lithe_yield_last(&harts[1], &last));
    MUST(last == 1);
    DONE(lithe_see_empty(&harts[0]));
    DONE(lithe_unregister(&harts[0]));
}

/* One site on 4 harts lends the others for 1,000 rounds and isn't closed between them. */
static void many_rounds(void) {
    enum { FOUR = 4, ROUNDS = 1000 };
    lithe_hart four[FOUR];
    uint16_t site = 99, below = 99;
    memset(four, 0, sizeof four);
    DONE(lithe_make(four, FOUR, 1));
    DONE(lithe_register(&four[0], &site));
    for (int round = 0; round < ROUNDS; round++) {
        MUST(lithe_request(&four[0], FOUR) == LITHE_TOO_MANY_WISHED);
        DONE(lithe_request(&four[0], FOUR - 1));
        for (int h = 1; h < FOUR; h++) {
            MUST(lithe_request(&four[0], 1) == LITHE_TOO_MANY_WISHED);
            DONE(lithe_enter(&four[h], site));
        }
        /* A guest that is in a site below is still a guest. */
        DONE(lithe_register(&four[1], &below));
        MUST(lithe_request(&four[0], 1) == LITHE_TOO_MANY_WISHED);
        DONE(lithe_close(&four[1]));
        DONE(lithe_unregister(&four[1]));
        for (int h = 1; h < FOUR; h++) DONE(lithe_yield(&four[h]));
    }
    DONE(lithe_close(&four[0]));
    DONE(lithe_unregister(&four[0]));
    DONE(lithe_end(four, FOUR));
}

static void ended(void) {
    uint16_t site = 99;
    uint8_t byte = 99;
    DONE(lithe_end(harts, HARTS));
    MUST(harts[0].at == NULL && harts[HARTS - 1].at == NULL);
    MUST(lithe_register(&harts[0], &site) == LITHE_NO_HART && site == 99);
    MUST(lithe_request(&harts[0], 0) == LITHE_NO_HART && lithe_enter(&harts[0], 1) == LITHE_NO_HART);
    MUST(lithe_yield(&harts[0]) == LITHE_NO_HART && lithe_close(&harts[0]) == LITHE_NO_HART);
    MUST(lithe_see_empty(&harts[0]) == LITHE_NO_HART && lithe_unregister(&harts[0]) == LITHE_NO_HART);
    MUST(lithe_register_wishing(&harts[0], 0, &site) == LITHE_NO_HART && site == 99);
    MUST(lithe_end_if_empty(&harts[0]) == LITHE_NO_HART && lithe_withdraw(&harts[0], 0) == LITHE_NO_HART);
    MUST(lithe_yield_last(&harts[0], &byte) == LITHE_NO_HART && lithe_read_home(&harts[0], &byte, &byte) == LITHE_NO_HART);
    MUST(lithe_read_site(&harts[0], 1, &byte, &byte) == LITHE_NO_HART && byte == 99);
    MUST(lithe_end(harts, HARTS) == LITHE_NO_HART && lithe_owner(&harts[0]) == 0);
}

static void texts(void) {
    char text[80], other[80];
    for (uint32_t status = 0; status <= LITHE_TOO_FEW_WISHES; status++) {
        size_t count = lithe_status_text(status, text, sizeof text);
        MUST(count > 3 && count == strlen(text) && count < 79);
        for (uint32_t before = 0; before < status; before++) {
            lithe_status_text(before, other, sizeof other);
            MUST(strcmp(text, other) != 0);
        }
    }
    MUST(lithe_status_text(LITHE_DONE, text, 3) == 2 && strcmp(text, "do") == 0);
    MUST(lithe_status_text(LITHE_DONE, text, 1) == 0 && strcmp(text, "") == 0);
    text[0] = 'x';
    MUST(lithe_status_text(LITHE_DONE, text, 0) == 0 && text[0] == 'x');
    MUST(lithe_status_text(16, text, sizeof text) > 3 && lithe_status_text(4294967295u, other, sizeof other) > 3);
    MUST(strcmp(text, other) == 0);
}

int main(void) {
    texts();
    sizes();
    DONE(lithe_make(harts, HARTS, LEVELS));
    for (int round = 0; round < 2; round++) {
        for (int h = 0; h < HARTS; h++) at_base(&harts[h]);
        with_a_guest();
        closed();
        in_one_step();
        last_of_two();
    }
    for (int h = 0; h < HARTS; h++) at_base(&harts[h]);
    ended();
    many_rounds();
    printf("refusals: %d met, nothing changed by them\n", refusals);
    return 0;
}
