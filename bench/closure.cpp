// Times the program `bitmatrix`, which is given as the first argument, as it closes the chain of 1024 places, beside the same
// loop over rows of uint64_t, and prints a table in Markdown: runs of the program, less runs for a chain of one place.
#include "said.hpp"
#include "timing.hpp"
#include <algorithm>
#include <chrono>
#include <cstdint>
#include <cstdio>
#include <cstdlib>
#include <limits>
#include <string>
#include <vector>

using Clock = std::chrono::steady_clock;

static const size_t places = 1024;

// Of a number of places that is known when it runs, as that of the program is; it is a multiple of 64.
[[gnu::noinline]] static void closure(std::vector<uint64_t> &rows, size_t places) {
    const size_t words = places / 64;
    for (size_t k = 0; k < places; ++k)
        for (size_t i = 0; i < places; ++i)
            if (rows[i * words + k / 64] >> k % 64 & 1)
                for (size_t w = 0; w < words; ++w)
                    rows[i * words + w] |= rows[k * words + w];
}

static std::string by_loop() {
    const size_t words = places / 64;
    std::vector<uint64_t> rows(places * words);
    for (size_t j = 1; j < places; ++j)
        rows[(j - 1) * words + j / 64] |= uint64_t(1) << j % 64;
    closure(rows, places);
    size_t ones = 0;
    for (const uint64_t word : rows)
        ones += __builtin_popcountll(word);
    return std::to_string(ones) + "\n";
}

static std::string by_program(const char *program, size_t count) {
    return said_by("exec " + std::string(program) + " chain " + std::to_string(count));
}

// Makes `least` the time of a call in seconds, if that is less; the call has to give this many ones.
template <class Call>
static void time(double &least, const char *ones, Call call) {
    const auto begin = Clock::now();
    const std::string said = call();
    least = std::min(least, std::chrono::duration<double>(Clock::now() - begin).count());
    if (said != ones) {
        std::fprintf(stderr, "closure: %s", said.c_str());
        std::exit(1);
    }
}

int main(int, char **arguments) {
    double program = std::numeric_limits<double>::infinity(), start = program, loop = program;
    for (int round = 0; round < 11; ++round) {
        turns.next();
        time(program, "523776\n", [&] { return by_program(arguments[1], places); });
        time(start, "0\n", [&] { return by_program(arguments[1], 1); });
        time(loop, "523776\n", by_loop);
    }
    program -= start;
    std::printf("\n### The closure of %zu by %zu bits, in ms\n\n| `bitmatrix chain` | rows of `uint64_t` | rows / bitmatrix, speed |\n"
                "|---|---|---|\n| %.3g | %.3g | %.3g |\n",
                places, places, 1e3 * program, 1e3 * loop, loop / program);
}
