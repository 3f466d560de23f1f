// The composition by TBB.
#include "compose.h"
#include <tbb/global_control.h>
#include <tbb/parallel_for.h>
#include <tbb/parallel_invoke.h>

static void tasks(leaves *all, int from) {
    tbb::parallel_invoke([=] { leaf(all, from); }, [=] { leaf(all, from + 1); }, [=] { leaf(all, from + 2); },
                         [=] { leaf(all, from + 3); });
}

static void loops(leaves *all, int p) {
    tbb::parallel_for(
        tbb::blocked_range<int>(0, MIDDLE, 1),
        [=](const tbb::blocked_range<int> &range) {
            for (int q = range.begin(); q < range.end(); q++) tasks(all, (p * MIDDLE + q) * INNER);
        },
        tbb::simple_partitioner());
}

static void one_round(void *arg) {
    leaves *all = static_cast<leaves *>(arg);
    tbb::parallel_invoke([=] { loops(all, 0); }, [=] { loops(all, 1); });
}

int main(int count, char **words) {
    static leaves all;
    int harts = count > 1 ? atoi(words[1]) : 4;
    all.grain = count > 2 ? atol(words[2]) : 64;
    long rounds = count > 3 ? atol(words[3]) : 200;
    int tries = count > 4 ? atoi(words[4]) : 20;
    tbb::global_control limit(tbb::global_control::max_allowed_parallelism, static_cast<size_t>(harts));
    return report("TBB", one_round, &all, &all, tries, rounds);
}
