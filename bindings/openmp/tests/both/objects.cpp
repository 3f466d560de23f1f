// C++: objects that tasks and regions copy, exceptions inside of regions, iterators in loops.
#include <atomic>
#include <cstdio>
#include <memory>
#include <numeric>
#include <omp.h>
#include <stdexcept>
#include <string>
#include <vector>

static std::atomic<int> live{0};
struct Counted {
    int v;
    explicit Counted(int v = 0) : v(v) { live++; }
    Counted(const Counted &o) : v(o.v) { live++; }
    ~Counted() { live--; }
};

struct Sum {
    long v = 0;
    Sum &operator+=(const Sum &o) { v += o.v; return *this; }
};
#pragma omp declare reduction(+ : Sum : omp_out += omp_in)

static std::unique_ptr<std::string> shared_text(new std::string("text"));

int main() {
    long total = 0;
    {
        Counted c(7);
#pragma omp parallel num_threads(4) firstprivate(c) reduction(+ : total)
        {
            total += c.v;
#pragma omp single
            for (int i = 0; i < 10; i++) {
#pragma omp task firstprivate(c) shared(total)
                {
#pragma omp atomic
                    total += 0;
                    if (c.v != 7) std::printf("wrong copy\n");
                }
            }
        }
    }
    std::printf("total %ld live %d\n", total, live.load());
    int caught = 0;
#pragma omp parallel num_threads(4)
    {
        try {
            if (omp_get_thread_num() % 2 == 0) throw std::runtime_error("in a region");
        } catch (const std::exception &) {
#pragma omp atomic
            caught++;
        }
#pragma omp barrier
#pragma omp for
        for (int i = 0; i < 10; i++) {
            try {
                throw i;
            } catch (int k) {
#pragma omp atomic
                caught += k;
            }
        }
    }
    std::printf("caught %d\n", caught);
    std::vector<int> v(1000);
    std::iota(v.begin(), v.end(), 0);
    Sum s;
#pragma omp parallel for reduction(+ : s) num_threads(4) schedule(dynamic, 7)
    for (auto i = v.begin(); i < v.end(); ++i) s.v += *i;
    std::printf("sum %ld\n", s.v);
    std::vector<std::string> words(20, "x");
#pragma omp parallel num_threads(4)
#pragma omp single
#pragma omp taskloop num_tasks(6)
    for (auto i = words.begin(); i < words.end(); ++i) *i += *shared_text;
    int right = 0;
    for (auto &w : words) right += w == "xtext";
    std::printf("words %d\n", right);
    Counted last(0);
#pragma omp parallel for lastprivate(last) num_threads(4)
    for (int i = 0; i < 33; i++) last.v = i;
    std::printf("last %d live %d\n", last.v, live.load());
    int from_single = 0;
#pragma omp parallel num_threads(4)
    {
        std::string mine;
#pragma omp single copyprivate(mine)
        mine = "given";
        if (mine == "given")
#pragma omp atomic
            from_single++;
    }
    std::printf("copyprivate %d\n", from_single);
    return 0;
}
