// OpenMP on the shapes of docs/PERFORMANCE.md: a parallel region is a site. The argument is the number of threads.
#include "shapes.h"
#include <omp.h>

int main(int count, char** words) {
    int threads = count > 1 ? std::atoi(words[1]) : 1;
    omp_set_num_threads(threads);
    omp_set_max_active_levels(3);
    double site = best([&] {
        for (int at = 0; at < SITES; at++) {
#pragma omp parallel sections num_threads(threads < 2 ? 1 : 2)
            {
#pragma omp section
                cells[0] = 1;
#pragma omp section
                cells[1] = 2;
            }
        }
    });
    double piece = best([] {
        for (int at = 0; at < REGIONS; at++) {
#pragma omp parallel for schedule(dynamic, 1)
            for (int number = 0; number < PIECES; number++) cells[number * 64] = number;
        }
    });
    double wide = best([] {
#pragma omp parallel for schedule(dynamic, 1)
        for (int number = 0; number < PIECES; number++) heavy(number);
    });
    double nested = best([] {
        for (int time = 0; time < 6; time++) {
#pragma omp parallel for schedule(dynamic, 1)
            for (int half = 0; half < 2; half++) {
#pragma omp parallel for schedule(dynamic, 1)
                for (int member = 0; member < 4; member++) {
#pragma omp parallel for schedule(dynamic, 1)
                    for (int branch = 0; branch < 4; branch++) light((half * 4 + member) * 4 + branch);
                }
            }
        }
    });
    print("OpenMP", site, piece, wide, nested);
}
