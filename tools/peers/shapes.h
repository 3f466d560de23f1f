// What the C++ peers share: the clock, the best of so many rounds, and the work of a piece.
#pragma once
#include <algorithm>
#include <chrono>
#include <cstdio>
#include <cstdlib>

constexpr int ROUNDS = 20;
constexpr int SITES = 4095;
constexpr int REGIONS = 256;
constexpr int PIECES = 64;

static volatile long long cells[4096];

inline double nanoseconds() {
    return std::chrono::duration<double, std::nano>(std::chrono::steady_clock::now().time_since_epoch()).count();
}

// The shortest time of ROUNDS calls, in nanoseconds.
template <class F> double best(F call) {
    double least = 1e30;
    for (int round = 0; round < ROUNDS; round++) {
        double began = nanoseconds();
        call();
        least = std::min(least, nanoseconds() - began);
    }
    return least;
}

// 1,800 assignments, as a member of a wide team makes.
inline void heavy(long long piece) {
    for (long long turn = 0; turn < 1800; turn++) cells[piece * 64] = cells[piece * 64] * 3 + turn;
}

// 64 assignments, as a branch of the innermost pool makes.
inline void light(int piece) {
    for (int turn = 0; turn < 64; turn++) cells[(piece * 64 + turn) & 4095] = cells[(piece * 64 + turn) & 4095] * 3 + turn;
}

inline double serial_wide() {
    return best([] { for (int piece = 0; piece < PIECES; piece++) heavy(piece); });
}

inline double serial_nested() {
    return best([] {
        for (int time = 0; time < 6; time++)
            for (int half = 0; half < 2; half++)
                for (int member = 0; member < 4; member++)
                    for (int branch = 0; branch < 4; branch++) light((half * 4 + member) * 4 + branch);
    });
}

// The lines that tools/peers/compare reads.
inline void print(const char* library, double site, double piece, double wide, double nested) {
    std::printf("%s, a site of two pieces: %.0f\n", library, site / SITES);
    std::printf("%s, a piece of 64: %.0f\n", library, piece / (REGIONS * PIECES));
    std::printf("%s, a wide site: %.2f\n", library, wide / serial_wide());
    std::printf("%s, a nested site: %.0f\n", library, (nested - serial_nested()) / 66);
}
