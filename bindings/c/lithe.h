/* Lithe for C and C++: harts lent among parallel libraries that call each other.
 *
 * A hart is a hardware thread; a program usually has one thread of its own for each. A site is a place at which harts are
 * lent. One hart, its home, registers the site below the site that it is in, its owner, and requests more harts. Harts
 * that are in the parent may then enter the site as guests, and yield when they are done. The home closes the site,
 * waits until it is empty and unregisters it. A hart's owner is 0, the base, when the board is made.
 *
 * Each call but lithe_owner, lithe_forget and lithe_status_text tests its own condition, and returns a status. A call that
 * returns another status than LITHE_DONE has made no entry of the table: owner, homes and wishes are as they were. No call
 * waits or tries again. Only lithe_make allocates, only lithe_end frees, and no other call locks.
 *
 * A board has sites 1 to harts * levels. Hart h (from 0), as the home of k sites, registers number 1 + h * levels + k.
 * So the numbers of the sites that a hart may register are known beforehand. A number is free again after unregister.
 *
 * The exported functions are proved (crates/lithe_c). The inline functions, which test for null and end harts, are not.
 *
 * What no call tests, and is left to the program:
 *   - The `at` of a lithe_hart was written by lithe_make, or is null, and the program doesn't change it. A lithe_hart may
 *     be moved by a copy; then the copy alone is used.
 *   - Each hart is given to one call at a time. Harts of one board may be in calls at the same time.
 *   - A hart goes from one thread to another by a lock, by the start or the join of a thread, or by a sequentially
 *     consistent atomic.
 *   - A parameter of pointer type isn't null, and points to what it says.
 *   - No call is made in a signal handler.
 *   - In a forked child of a process that had threads, no call is made with a hart of the parent but lithe_forget. Then
 *     the child may make a board of its own, if its C library allows malloc there, as glibc does.
 *   - malloc, realloc and free are of one allocator, and align as C11 says.
 *
 * Link liblithe.a, which `make` builds; `make flags` prints the flags.
 */
#ifndef LITHE_H
#define LITHE_H

#include <stddef.h>
#include <stdint.h>

/* The version of the library, of this header and of the Rust crate. The Makefile reads it here, and `check` compares. */
#define LITHE_VERSION "0.2.0"

#ifdef __cplusplus
extern "C" {
#endif

/* What a call returns: LITHE_DONE, or why it did nothing. */
typedef enum lithe_status {
    LITHE_DONE = 0,            /* the call did what it says */
    LITHE_NOT_HOME = 1,        /* the hart isn't the home of the site that it is in */
    LITHE_NOT_GUEST = 2,       /* the hart isn't a guest of the site that it is in */
    LITHE_TOO_MANY_WISHED = 3, /* the site's wishes and guests would be more than the other harts of the board */
    LITHE_IS_CLOSED = 4,       /* the site is closed */
    LITHE_NOT_CLOSED = 5,      /* the site isn't closed */
    LITHE_NOT_EMPTY = 6,       /* the site has a guest */
    LITHE_NO_SUCH_SITE = 7,    /* the number isn't 1 to harts * levels */
    LITHE_TOO_DEEP = 8,        /* the hart is the home of as many sites as the board has levels */
    LITHE_NOT_WANTED = 9,      /* the site isn't live, is closed, wants no hart, or isn't a child of the hart's owner */
    LITHE_MOVED = 10,          /* another hart changed the site's word during the call */
    LITHE_NO_MEMORY = 11,      /* malloc or realloc returned null */
    LITHE_BAD_SIZE = 12,       /* a board has 1 to 64 harts and 1 to 64 levels */
    LITHE_IN_SITE = 13,        /* a hart is in a site: it isn't at the base */
    LITHE_NO_HART = 14,        /* the hart has ended, or was never made */
    LITHE_TOO_FEW_WISHES = 15  /* the site has fewer wishes that no hart has met */
} lithe_status;

/* One hart of a board. A program sets `at` to null before lithe_make, if at all, and never afterwards. Each call writes
 * `at`, to what it was; so a hart takes 64 bytes, and neighbours in an array share no such line. */
typedef struct lithe_hart {
    void *at;
    char apart[64 - sizeof(void *)];
} lithe_hart;

/* What the library exports. Programs use the calls below these, which also test that the hart hasn't ended. */
uint32_t lithe_hart_make(uint8_t levels, void **harts, size_t count);
uint32_t lithe_hart_register(void **hart, uint16_t *site);
uint32_t lithe_hart_register_wishing(void **hart, uint8_t count, uint16_t *site);
uint32_t lithe_hart_request(void **hart, uint8_t count);
uint32_t lithe_hart_withdraw(void **hart, uint8_t count);
uint32_t lithe_hart_read_home(void **hart, uint8_t *wishes, uint8_t *guests);
uint32_t lithe_hart_read_site(void **hart, uint16_t site, uint8_t *wishes, uint8_t *guests);
uint32_t lithe_hart_enter(void **hart, uint16_t site);
uint32_t lithe_hart_yield(void **hart);
uint32_t lithe_hart_yield_last(void **hart, uint8_t *last);
uint32_t lithe_hart_close(void **hart);
uint32_t lithe_hart_see_empty(void **hart);
uint32_t lithe_hart_unregister(void **hart);
uint32_t lithe_hart_end_if_empty(void **hart);
uint16_t lithe_hart_owner(void **hart);
void lithe_hart_drop(void *hart);

/* Makes a board, and writes the `at` of harts[0] to harts[count - 1]. Each hart is at the base. After another status than
 * LITHE_DONE what stood there is as it was, and nothing stays allocated.
 * LITHE_BAD_SIZE exactly unless count and levels are 1 to 64; LITHE_NO_MEMORY if there is no memory.
 * levels: the number of sites that one hart may be the home of at the same time. */
static inline lithe_status lithe_make(lithe_hart *harts, size_t count, uint8_t levels) {
    void *made[64];
    size_t i;
    lithe_status status = count > 64 ? LITHE_BAD_SIZE : (lithe_status)lithe_hart_make(levels, made, count);
    if (status != LITHE_DONE) return status;
    for (i = 0; i < count; i++) harts[i].at = made[i];
    return status;
}

/* Writes one line for the status to text, with a final 0, and returns the number of bytes before the 0. A line that has
 * no room is cut off; where room is 0 nothing is written. 80 bytes are room for each line. */
size_t lithe_status_text(uint32_t status, char *text, size_t room);

/* Entry Register. The hart's next site is live, a child of the hart's owner; the hart is its home, and the site is the
 * hart's owner. Writes the site's number to *site.
 * LITHE_TOO_DEEP exactly if the hart is the home of as many sites as the board has levels; *site is then as it was.
 * One store. */
static inline lithe_status lithe_register(lithe_hart *hart, uint16_t *site) {
    return hart->at ? (lithe_status)lithe_hart_register(&hart->at, site) : LITHE_NO_HART;
}

/* Entries Register and Request, in one step: lithe_register, and `count` wishes that the site begins with.
 * LITHE_TOO_DEEP as lithe_register, else LITHE_TOO_MANY_WISHED exactly if count is more than the other harts of the board;
 * *site is then as it was. One store. */
static inline lithe_status lithe_register_wishing(lithe_hart *hart, uint8_t count, uint16_t *site) {
    return hart->at ? (lithe_status)lithe_hart_register_wishing(&hart->at, count, site) : LITHE_NO_HART;
}

/* Entry Request. The owner asks for `count` more harts; 0 is allowed, and never too many. At any one time the site's wishes
 * (harts asked for that have not entered), its guests and the count are at most the other harts of the board. A guest counts until it yields from the site, also while it is in a site below. So a site may ask again once its
 * guests have left, as often as it likes.
 * Tested in this order: LITHE_NOT_HOME, LITHE_IS_CLOSED, LITHE_TOO_MANY_WISHED. A load and an addition. */
static inline lithe_status lithe_request(lithe_hart *hart, uint8_t count) {
    return hart->at ? (lithe_status)lithe_hart_request(&hart->at, count) : LITHE_NO_HART;
}

/* Entry Withdraw. The owner takes back `count` wishes that no hart has met.
 * Tested in this order: LITHE_NOT_HOME; LITHE_TOO_FEW_WISHES if the word that the call loaded has fewer wishes; LITHE_MOVED
 * if another hart changed the word before the exchange. A load, and one compare-and-exchange if there are so many wishes. */
static inline lithe_status lithe_withdraw(lithe_hart *hart, uint8_t count) {
    return hart->at ? (lithe_status)lithe_hart_withdraw(&hart->at, count) : LITHE_NO_HART;
}

/* Writes the owner's wishes and guests. Until this hart's next entry, other harts can only turn a wish into a guest, or
 * leave: so lithe_request may ask for what is left of the other harts.
 * LITHE_NOT_HOME; nothing is written then. One load. */
static inline lithe_status lithe_read_home(lithe_hart *hart, uint8_t *wishes, uint8_t *guests) {
    return hart->at ? (lithe_status)lithe_hart_read_home(&hart->at, wishes, guests) : LITHE_NO_HART;
}

/* Writes the wishes and guests of any site, as they were at the load; both are 0 if the site isn't live.
 * LITHE_NO_SUCH_SITE; nothing is written then. One load. */
static inline lithe_status lithe_read_site(lithe_hart *hart, uint16_t site, uint8_t *wishes, uint8_t *guests) {
    return hart->at ? (lithe_status)lithe_hart_read_site(&hart->at, site, wishes, guests) : LITHE_NO_HART;
}

/* Entry Enter. The hart is a guest of the site, which is a live child of the hart's owner, isn't closed and has asked
 * for more harts than have entered; the site is then the hart's owner.
 * LITHE_NO_SUCH_SITE if the number isn't 1 to harts * levels; LITHE_NOT_WANTED if the word that the call loaded
 * doesn't let the hart in; LITHE_MOVED if it does and another hart changed the word before the exchange.
 * A load, and one compare-and-exchange if the loaded word lets the hart in. */
static inline lithe_status lithe_enter(lithe_hart *hart, uint16_t site) {
    return hart->at ? (lithe_status)lithe_hart_enter(&hart->at, site) : LITHE_NO_HART;
}

/* Entry Yield. The hart leaves its owner, in which it is a guest, for the owner's parent.
 * LITHE_NOT_GUEST if it isn't a guest of its owner. One subtraction. */
static inline lithe_status lithe_yield(lithe_hart *hart) {
    return hart->at ? (lithe_status)lithe_hart_yield(&hart->at) : LITHE_NO_HART;
}

/* Entry Yield, as lithe_yield. Writes 1 to *last if the owner was closed and the hart was its only guest, else 0. With 1
 * the site is empty. The call touches nothing of the site after its one subtraction.
 * So a home that waits for its site to be empty can sleep. It closes the site and calls lithe_see_empty. If that returns
 * LITHE_NOT_EMPTY, exactly one lithe_yield_last from the site writes 1, later; that thread wakes the home. Site x is of
 * hart (x - 1) / levels. Two points:
 *   - The home may see its site empty before the wake, and end it. So the wake uses memory that outlives the site: a
 *     semaphore or a futex word for each hart, not one for each site.
 *   - A wake may come although the home doesn't sleep. So the home asks lithe_see_empty again after each wake.
 * All guests of the site must leave by this call, not by lithe_yield.
 * LITHE_NOT_GUEST; *last is then as it was. One subtraction. */
static inline lithe_status lithe_yield_last(lithe_hart *hart, uint8_t *last) {
    return hart->at ? (lithe_status)lithe_hart_yield_last(&hart->at, last) : LITHE_NO_HART;
}

/* Entry Close. No further hart enters the owner.
 * LITHE_NOT_HOME, else LITHE_IS_CLOSED. A load and an addition. */
static inline lithe_status lithe_close(lithe_hart *hart) {
    return hart->at ? (lithe_status)lithe_hart_close(&hart->at) : LITHE_NO_HART;
}

/* Entry SeeEmpty. LITHE_DONE if the closed owner has no guest, LITHE_NOT_EMPTY if it has one. A guest that is in a site
 * below the owner is one of the owner too. So LITHE_DONE means that no other hart is in the owner or below it, and that
 * none will come.
 * LITHE_NOT_HOME, else LITHE_NOT_CLOSED. Two loads. */
static inline lithe_status lithe_see_empty(lithe_hart *hart) {
    return hart->at ? (lithe_status)lithe_hart_see_empty(&hart->at) : LITHE_NO_HART;
}

/* Entries SeeEmpty and Unregister. The closed owner, which has no guest, ends; its parent is then the hart's owner.
 * Tested in this order: LITHE_NOT_HOME, LITHE_NOT_CLOSED, LITHE_NOT_EMPTY. Two loads and a swap. */
static inline lithe_status lithe_unregister(lithe_hart *hart) {
    return hart->at ? (lithe_status)lithe_hart_unregister(&hart->at) : LITHE_NO_HART;
}

/* Entries Close, SeeEmpty and Unregister, in one step. The owner, which the hart has not closed and which has no guest,
 * ends; its parent is then the hart's owner. Wishes that no hart met end with it. If the call returns another status, the
 * site stays open.
 * Tested in this order: LITHE_NOT_HOME, LITHE_IS_CLOSED, LITHE_NOT_EMPTY; LITHE_MOVED if a hart entered before the
 * exchange. A load, and one compare-and-exchange if there is no guest. */
static inline lithe_status lithe_end_if_empty(lithe_hart *hart) {
    return hart->at ? (lithe_status)lithe_hart_end_if_empty(&hart->at) : LITHE_NO_HART;
}

/* The site that the hart is in; 0 for the base, and for a hart that has ended. No step: the hart's own seat has it. */
static inline uint16_t lithe_owner(lithe_hart *hart) {
    return hart->at ? lithe_hart_owner(&hart->at) : (uint16_t)0;
}

/* Ends the harts, and sets each `at` to null. The last hart of a board takes the board with it, so after all harts of a
 * board have ended nothing of it is allocated.
 * LITHE_NO_HART if one has ended already, LITHE_IN_SITE if one isn't at the base; no hart has ended then.
 * No other thread is in a call with one of these harts. */
static inline lithe_status lithe_end(lithe_hart *harts, size_t count) {
    size_t i;
    for (i = 0; i < count; i++) {
        if (!harts[i].at) return LITHE_NO_HART;
        if (lithe_hart_owner(&harts[i].at) != 0) return LITHE_IN_SITE;
    }
    for (i = 0; i < count; i++) {
        lithe_hart_drop(harts[i].at);
        harts[i].at = NULL;
    }
    return LITHE_DONE;
}

/* For the child after fork(2): gives up the harts, and sets each `at` to null. It makes no step, and touches neither the
 * board nor another hart, in which a thread of the parent may have been at the fork. The child's copy of the board's memory
 * stays allocated: 64 bytes for each site and 128 for each hart. The parent's board isn't affected. */
static inline void lithe_forget(lithe_hart *harts, size_t count) {
    size_t i;
    for (i = 0; i < count; i++) harts[i].at = NULL;
}

#ifdef __cplusplus
}
#endif

#endif
