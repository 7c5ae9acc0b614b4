// How long a call takes.
#pragma once
#include <algorithm>
#include <chrono>
#include <cstddef>
#include <cstdio>
#include <cstdlib>
#include <limits>
#include <unistd.h>

// Has the compiler keep a value, and believe that memory was read and written.
template <class Value>
inline void keep(const Value &value) {
    asm volatile("" : : "g"(value) : "memory");
}

// The processes of all layouts work by turns, so that each round of one lies beside those of the others: a byte goes round, and
// who has read it works. TURNS names where it is read and where it goes; without TURNS a process is alone.
class Turns {
    int from = -1, to = -1;

    void take() {
        char byte;
        if (from >= 0 && read(from, &byte, 1) != 1)
            std::abort();
    }
    void pass() {
        if (to >= 0 && write(to, ".", 1) != 1)
            std::abort();
    }

  public:
    Turns() {
        if (const char *ends = std::getenv("TURNS"))
            std::sscanf(ends, "%d %d", &from, &to);
        take();
    }
    ~Turns() { pass(); }
    void next() {
        pass();
        take();
    }
};
inline Turns turns;

// How many rounds a call is timed in, each a turn, and of how many nanoseconds at least.
struct Rounds {
    int count;
    double nanoseconds;
};
inline Rounds rounds{21, 50'000};

// The time of so many calls, in nanoseconds.
template <class Call>
double time_calls(Call &call, size_t calls) {
    auto begin = std::chrono::steady_clock::now();
    for (size_t i = 0; i < calls; ++i) {
        call();
        asm volatile("" : : : "memory");
    }
    return std::chrono::duration<double, std::nano>(std::chrono::steady_clock::now() - begin).count();
}

// How many calls take as long as a round.
template <class Call>
size_t calls_of_a_round(Call &call) {
    size_t calls = 1;
    while (time_calls(call, calls) < rounds.nanoseconds)
        calls *= 2;
    return calls;
}

// The time of one call, in nanoseconds: the best of so many rounds, each of as many calls as take so long. A call before a round
// brings the memory back that other layouts have driven out, and `read` then reads it. For what libc copies and fills by a `rep`
// instruction doesn't come into the cache by that, and takes twice as long as long as it isn't there.
template <class Call, class Read>
double time_call(Call call, Read read) {
    const size_t calls = calls_of_a_round(call);
    double best = std::numeric_limits<double>::infinity();
    for (int round = 0; round < rounds.count; ++round) {
        turns.next();
        if (calls > 1)
            call();
        read();
        best = std::min(best, time_calls(call, calls) / double(calls));
    }
    return best;
}

template <class Call>
double time_call(Call call) {
    return time_call(call, [] {});
}
