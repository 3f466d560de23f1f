/* Memory: a million sites take none; each refused allocation leaves nothing behind; an ended board is freed.
 * Linked with --wrap for malloc, realloc and free. */
#include "lithe.h"
#include "must.h"

void *__real_malloc(size_t size);
void *__real_realloc(void *block, size_t size);
void __real_free(void *block);

/* Allocations that succeeded, blocks that are not free, and how many more allocations succeed (-1: all). */
static long allocations, blocks, left = -1;

static int refuses(void) {
    if (left == 0) return 1;
    if (left > 0) left--;
    return 0;
}

void *__wrap_malloc(size_t size) {
    if (refuses()) return NULL;
    void *block = __real_malloc(size);
    if (block) allocations++, blocks++;
    return block;
}

void *__wrap_realloc(void *block, size_t size) {
    if (refuses()) return NULL;
    void *moved = __real_realloc(block, size);
    if (moved) allocations++;
    if (moved && !block) blocks++;
    return moved;
}

void __wrap_free(void *block) {
    if (block) blocks--;
    __real_free(block);
}

static void refused(void) {
    lithe_hart harts[8];
    for (long fails = 0;; fails++) {
        for (int h = 0; h < 8; h++) harts[h].at = &harts[h];
        left = fails;
        long before = blocks;
        lithe_status status = lithe_make(harts, 8, 3);
        left = -1;
        if (status == LITHE_DONE) {
            MUST(lithe_end(harts, 8) == LITHE_DONE && blocks == before);
            printf("memory: each of %ld allocations of lithe_make refused in turn\n", fails);
            return;
        }
        MUST(status == LITHE_NO_MEMORY && blocks == before);
        for (int h = 0; h < 8; h++) MUST(harts[h].at == &harts[h]);
    }
}

static void million(void) {
    lithe_hart harts[2];
    uint16_t site = 0;
    long empty = blocks;
    MUST(lithe_make(harts, 2, 4) == LITHE_DONE);
    long before = allocations, kept = blocks;
    for (long k = 0; k < 250000; k++) {
        for (int level = 0; level < 4; level++) {
            MUST(lithe_register(&harts[0], &site) == LITHE_DONE && lithe_request(&harts[0], 1) == LITHE_DONE);
            MUST(lithe_enter(&harts[1], site) == LITHE_DONE);
        }
        for (int level = 0; level < 4; level++) {
            MUST(lithe_yield(&harts[1]) == LITHE_DONE && lithe_close(&harts[0]) == LITHE_DONE);
            MUST(lithe_unregister(&harts[0]) == LITHE_DONE);
        }
    }
    MUST(allocations == before && blocks == kept);
    MUST(lithe_end(harts, 2) == LITHE_DONE && blocks == empty);
    printf("memory: a million sites on one board, no allocation\n");
}

int main(void) {
    refused();
    million();
    return 0;
}
