// The figure's program: an outer parallel library over OpenBLAS or FFTW.
//
//   compose OUTER WORK K ROUNDS
//     OUTER  seq, tbb, omp, lithe
//     WORK   list (K matrices of uneven sizes: dgemm, dpotrf, dgesv), gemm (K equal dgemm), qr (K dgeqrf of uneven sizes),
//            tree (a multifrontal factorization of K levels), fft (K two-dimensional transforms)
//
// Prints the milliseconds of each round, the CPU milliseconds per round, the threads, and the largest relative difference from
// the results of one thread.
#include "lithe_rt.h"
#include <algorithm>
#include <cblas.h>
#include <cmath>
#include <cstdint>
#include <cstdio>
#include <cstdlib>
#include <cstring>
#include <fftw3.h>
#include <functional>
#include <string>
#include <sys/resource.h>
#include <tbb/parallel_for.h>
#include <tbb/parallel_invoke.h>
#include <time.h>
#include <vector>
extern "C" {
void dpotrf_(const char *, const int *, double *, const int *, int *);
void dgesv_(const int *, const int *, double *, const int *, int *, double *, const int *, int *);
void dgeqrf_(const int *, const int *, double *, const int *, double *, double *, const int *, int *);
}

static double now() {
    timespec t;
    clock_gettime(CLOCK_MONOTONIC, &t);
    return (double)t.tv_sec * 1e3 + (double)t.tv_nsec * 1e-6;
}
static double cpu() {
    rusage r;
    getrusage(RUSAGE_SELF, &r);
    return (double)(r.ru_utime.tv_sec + r.ru_stime.tv_sec) * 1e3 + (double)(r.ru_utime.tv_usec + r.ru_stime.tv_usec) * 1e-3;
}
static int threads() {
    char line[128];
    int n = 0;
    FILE *f = fopen("/proc/self/status", "r");
    while (f && fgets(line, sizeof line, f))
        if (!strncmp(line, "Threads:", 8)) n = atoi(line + 8);
    if (f) fclose(f);
    return n;
}
static uint64_t seed = 88172645463325252ull;
static double random_number() {
    seed ^= seed << 13, seed ^= seed >> 7, seed ^= seed << 17;
    return (double)(seed >> 11) / 9007199254740992.0;
}

// --- the outer library ------------------------------------------------------------------------------------------------

enum Outer { SEQ, TBB, OMP, LITHE };
static Outer outer;

static void each(long k, const std::function<void(long)> &f) {
    if (outer == SEQ) {
        for (long i = 0; i < k; i++) f(i);
    } else if (outer == TBB) {
        tbb::parallel_for(tbb::blocked_range<long>(0, k, 1), [&](const tbb::blocked_range<long> &r) {
            for (long i = r.begin(); i < r.end(); i++) f(i);
        }, tbb::simple_partitioner());
    } else if (outer == OMP) {
#pragma omp parallel for schedule(dynamic, 1)
        for (long i = 0; i < k; i++) f(i);
    } else {
        lithe_for(k, 1, [](void *g, long i) { (*(const std::function<void(long)> *)g)(i); }, (void *)&f);
    }
}

static void both(const std::function<void()> &a, const std::function<void()> &b) {
    if (outer == SEQ) {
        a(), b();
    } else if (outer == TBB) {
        tbb::parallel_invoke(a, b);
    } else if (outer == OMP) {
#pragma omp task shared(a)
        a();
        b();
#pragma omp taskwait
    } else {
        auto call = [](void *g) { (*(const std::function<void()> *)g)(); };
        lithe_join(call, (void *)&a, call, (void *)&b);
    }
}

// --- lists of matrices ------------------------------------------------------------------------------------------------

enum Kind { GEMM, CHOLESKY, SOLVE, QR, FFT };
struct Item {
    Kind kind;
    int n;
    std::vector<double> a, b, c, d;
    std::vector<int> pivots;
    fftw_plan plan;

    void prepare() {
        size_t size = (size_t)n * (size_t)n * (kind == FFT ? 2 : 1);
        a.resize(size), c.resize(size), b.resize(size), pivots.resize((size_t)n);
        d.resize(std::max(size, (size_t)n * 66));
        for (auto &x : a) x = random_number() - 0.5;
        for (auto &x : b) x = random_number() - 0.5;
        for (int i = 0; kind == CHOLESKY && i < n; i++)
            for (int j = 0; j < i; j++) at(i, j) = at(j, i);
        for (int i = 0; (kind == CHOLESKY || kind == SOLVE) && i < n; i++) at(i, i) += kind == CHOLESKY ? n : 8;
        if (kind == FFT)
            plan = fftw_plan_dft_2d(n, n, (fftw_complex *)a.data(), (fftw_complex *)c.data(), FFTW_FORWARD, FFTW_ESTIMATE);
    }
    double &at(int i, int j) { return a[(size_t)i * (size_t)n + (size_t)j]; }

    void run() {
        int info = 0, one = 1, room = 64 * n;
        if (kind == GEMM)
            cblas_dgemm(CblasColMajor, CblasNoTrans, CblasNoTrans, n, n, n, 1, a.data(), n, b.data(), n, 0, c.data(), n);
        if (kind == FFT) fftw_execute(plan);
        if (kind == CHOLESKY || kind == QR) c = a;
        if (kind == CHOLESKY) dpotrf_("L", &n, c.data(), &n, &info);
        if (kind == QR) dgeqrf_(&n, &n, c.data(), &n, d.data(), d.data() + n, &room, &info);
        if (kind == SOLVE) {
            memcpy(d.data(), a.data(), a.size() * sizeof(double));
            memcpy(c.data(), b.data(), (size_t)n * sizeof(double));
            dgesv_(&n, &one, d.data(), &n, pivots.data(), c.data(), &n, &info);
        }
        if (info) fprintf(stderr, "info %d\n", info);
    }
};

// --- a multifrontal tree: small fronts at the leaves, a large one at the root -------------------------------------------

struct Front {
    int n, eliminated;
    std::vector<double> start, f;
    Front *child[2] = {nullptr, nullptr};
    double *at(int i, int j) { return f.data() + (size_t)j * (size_t)n + i; }

    void assemble() {
        f = start;
        for (Front *c : child) {
            int m = c ? std::min(c->n - c->eliminated, n) : 0;
            for (int j = 0; j < m; j++)
                for (int i = j; i < m; i++) *at(i, j) += 1e-3 * *c->at(c->eliminated + i, c->eliminated + j);
        }
    }
    void factor() {
        int info = 0, p = eliminated, r = n - p;
        dpotrf_("L", &p, f.data(), &n, &info);
        if (r > 0) {
            cblas_dtrsm(CblasColMajor, CblasRight, CblasLower, CblasTrans, CblasNonUnit, r, p, 1, f.data(), n, at(p, 0), n);
            cblas_dsyrk(CblasColMajor, CblasLower, CblasNoTrans, r, p, -1, at(p, 0), n, 1, at(p, p), n);
        }
        if (info) fprintf(stderr, "info %d\n", info);
    }
    void run() {
        if (child[0]) both([&] { child[0]->run(); }, [&] { child[1]->run(); });
        assemble();
        factor();
    }
};
static std::vector<Front *> fronts;
static Front *make_front(int level, int levels) {
    Front *f = new Front;
    fronts.push_back(f);
    double size = 1000 / pow(1.75, level);
    f->n = std::max(32, (int)(size * (level ? 0.75 + 0.5 * random_number() : 1.1)));
    f->eliminated = level ? f->n * 5 / 8 : f->n;
    f->start.resize((size_t)f->n * (size_t)f->n);
    f->f.resize(f->start.size());
    for (int j = 0; j < f->n; j++)
        for (int i = j; i < f->n; i++) f->start[(size_t)j * (size_t)f->n + (size_t)i] = random_number() - 0.5 + (i == j ? f->n : 0);
    for (int k = 0; level + 1 < levels && k < 2; k++) f->child[k] = make_front(level + 1, levels);
    return f;
}

// --- rounds -------------------------------------------------------------------------------------------------------------

static std::vector<Item> items;
static Front *root;

static void prepare(const std::string &work, int k) {
    // 64 to 1024, uneven, in no order.
    static const int sizes[16] = {512, 1024, 96, 256, 768, 128, 384, 640, 64, 192, 896, 320, 448, 160, 576, 704};
    if (work == "tree") {
        root = make_front(0, k);
        return;
    }
    const char *inside = getenv("FFT_THREADS");
    if (work == "fft") fftw_init_threads(), fftw_plan_with_nthreads(inside ? atoi(inside) : lithe_count());
    items.resize((size_t)k);
    for (int i = 0; i < k; i++) {
        Item &t = items[(size_t)i];
        t.n = k == 1 || work == "gemm" ? 1024 : sizes[i % 16];
        t.kind = work == "gemm" ? GEMM : work == "qr" ? QR : work == "fft" ? FFT : (Kind)(i % 3);
        if (work == "qr" && t.n < 128) t.n = 128;
        t.prepare();
    }
}

static void run() {
    if (!root) {
        each((long)items.size(), [&](long i) { items[(size_t)i].run(); });
    } else if (outer == OMP) {
#pragma omp parallel
#pragma omp single
        root->run();
    } else
        root->run();
}

static std::vector<double> &result(size_t i) { return root ? fronts[i]->f : items[i].c; }

static double difference(const std::vector<std::vector<double>> &want) {
    double worst = 0;
    for (size_t i = 0; i < want.size(); i++) {
        double scale = 0, diff = 0;
        for (size_t j = 0; j < want[i].size(); j++) {
            scale = std::max(scale, fabs(want[i][j]));
            diff = std::max(diff, fabs(want[i][j] - result(i)[j]));
        }
        if (!(diff <= 1e-7 * scale)) printf("WRONG item %zu: %g of %g\n", i, diff, scale);
        worst = std::max(worst, diff / scale);
    }
    return worst;
}

int main(int count, char **words) {
    std::string o = count > 1 ? words[1] : "seq", work = count > 2 ? words[2] : "list";
    int k = count > 3 ? atoi(words[3]) : 8, rounds = count > 4 ? atoi(words[4]) : 5, most = 0;
    std::vector<std::vector<double>> want;
    double worst = 0, used = 0;
    prepare(work, k);
    outer = SEQ;
    run();
    for (size_t i = 0; i < (root ? fronts.size() : items.size()); i++) want.push_back(result(i));
    outer = o == "tbb" ? TBB : o == "omp" ? OMP : o == "lithe" ? LITHE : SEQ;
    run();
    printf("ms");
    for (int r = 0; r < rounds; r++) {
        double c0 = cpu(), t0 = now();
        run();
        printf(" %.3f", now() - t0);
        used += cpu() - c0;
        most = std::max(most, threads());
        worst = std::max(worst, difference(want));
    }
    printf("\ncpu %.3f threads %d diff %.1e\n", used / rounds, most, worst);
    return 0;
}
