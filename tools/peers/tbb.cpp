// TBB on the shapes of docs/PERFORMANCE.md: a call of parallel_invoke or parallel_for is a site. The argument is the number of threads.
#include "shapes.h"
#include <tbb/blocked_range.h>
#include <tbb/global_control.h>
#include <tbb/parallel_for.h>
#include <tbb/parallel_invoke.h>

int main(int count, char** words) {
    int threads = count > 1 ? std::atoi(words[1]) : 1;
    tbb::global_control limit(tbb::global_control::max_allowed_parallelism, threads);
    double site = best([] {
        for (int at = 0; at < SITES; at++) tbb::parallel_invoke([] { cells[0] = 1; }, [] { cells[1] = 2; });
    });
    double piece = best([] {
        for (int at = 0; at < REGIONS; at++)
            tbb::parallel_for(
                tbb::blocked_range<int>(0, PIECES, 1),
                [](const tbb::blocked_range<int>& numbers) {
                    for (int number = numbers.begin(); number < numbers.end(); number++) cells[number * 64] = number;
                },
                tbb::simple_partitioner());
    });
    double wide = best([] { tbb::parallel_for(0, PIECES, [](int number) { heavy(number); }); });
    double nested = best([] {
        for (int time = 0; time < 6; time++)
            tbb::parallel_for(0, 2, [](int half) {
                tbb::parallel_for(0, 4, [=](int member) {
                    tbb::parallel_for(0, 4, [=](int branch) { light((half * 4 + member) * 4 + branch); });
                });
            });
    });
    print("TBB", site, piece, wide, nested);
}
