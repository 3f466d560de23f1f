// The composition by nested OpenMP regions.
#include "compose.h"
#include <omp.h>

static int harts;

static void one_round(void *arg) {
    leaves *all = static_cast<leaves *>(arg);
#pragma omp parallel for schedule(dynamic, 1) num_threads(harts)
    for (int p = 0; p < OUTER; p++) {
#pragma omp parallel for schedule(dynamic, 1) num_threads(harts)
        for (int q = 0; q < MIDDLE; q++) {
#pragma omp parallel for schedule(dynamic, 1) num_threads(harts)
            for (int r = 0; r < INNER; r++) leaf(all, (p * MIDDLE + q) * INNER + r);
        }
    }
}

// The same with no region inside the outer one: its tasks run on the threads of the outer region alone.
static void flat_round(void *arg) {
    leaves *all = static_cast<leaves *>(arg);
#pragma omp parallel num_threads(harts)
#pragma omp single
#pragma omp taskloop grainsize(1)
    for (int p = 0; p < OUTER; p++) {
#pragma omp taskloop grainsize(1)
        for (int q = 0; q < MIDDLE; q++) {
#pragma omp taskloop grainsize(1)
            for (int r = 0; r < INNER; r++) leaf(all, (p * MIDDLE + q) * INNER + r);
        }
    }
}

int main(int count, char **words) {
    static leaves all;
    harts = count > 1 ? atoi(words[1]) : 4;
    all.grain = count > 2 ? atol(words[2]) : 64;
    long rounds = count > 3 ? atol(words[3]) : 200;
    int tries = count > 4 ? atoi(words[4]) : 20;
    omp_set_dynamic(0);
    omp_set_max_active_levels(3);
    int bad = report("OpenMP, nested regions", one_round, &all, &all, tries, rounds);
    return bad | report("OpenMP, tasks in one region", flat_round, &all, &all, tries, rounds);
}
