// The sequences of bits of C++ beside one another: OwnBits of fehimbary.hpp, boost::dynamic_bitset and std::vector<bool>, in
// nanoseconds a bit, or a call where it says so. Rounds of all take turns, and the best of each counts: containers [ROUNDS].
// Compiled with -DBEFORE='"OLD/fehimbary.hpp"' it also has the OwnBits of that header.
#define FB_NODISCARD
#include "../bindings/fehimbary.hpp"

#include "timing.hpp"
#include <algorithm>
#include <boost/dynamic_bitset.hpp>
#include <cstdio>
#include <cstdlib>
#include <functional>
#include <string>
#include <vector>

#ifdef BEFORE
#undef FEHIMBARY_HPP
#define fehimbary fehimbary_before
#define FEHIMBARY_NOT_IN_STD
#include BEFORE
#undef fehimbary
using Before = fehimbary_before::OwnBits<uint64_t>;
#endif

using Now = fehimbary::OwnBits<uint64_t>;
using Blocks = boost::dynamic_bitset<>;
using Vector = std::vector<bool>;

constexpr size_t len = 1 << 16;

// Half of the bits are ones, with no pattern.
template <class Set>
Set some(size_t size) {
    Set bits(size);
    uint64_t state = 7;
    for (size_t i = 0; i < size; ++i) {
        state = state * 6364136223846793005 + 1442695040888963407;
        bits[i] = state >> 63;
    }
    return bits;
}

struct Row {
    std::string name;
    size_t count; // of bits, or of calls
    std::vector<std::function<void()>> kinds;
};

// A row of calls on a set of each kind; a kind that hasn't the call has no function.
template <class Call>
Row row(const std::string &name, size_t count, size_t size, Call call) {
    Row made{name, count, {}};
    const auto add = [&](auto bits) {
        if constexpr (std::is_invocable_v<Call, decltype(bits) &>)
            made.kinds.emplace_back([=]() mutable { keep(call(bits)); });
        else
            made.kinds.emplace_back();
    };
    add(some<Now>(size));
#ifdef BEFORE
    add(some<Before>(size));
#endif
    add(some<Blocks>(size));
    add(some<Vector>(size));
    return made;
}

template <class Set>
constexpr bool is_blocks = std::is_same_v<Set, Blocks>;

std::vector<Row> rows() {
    const auto has_places = [](auto call) {
        return [=](auto &bits) -> std::enable_if_t<!is_blocks<std::decay_t<decltype(bits)>>, size_t> { return call(bits); };
    };
    const auto has_bitwise = [](auto call) {
        return [=](auto &bits) -> std::enable_if_t<!std::is_same_v<std::decay_t<decltype(bits)>, Vector>, size_t> { return call(bits); };
    };
    std::vector<Row> made;
    made.push_back(row("b[i] read", len, len, [](auto &bits) {
        size_t sum = 0;
        for (size_t i = 0; i < len; ++i)
            sum += bits[i] ? i : 0;
        return sum;
    }));
    made.push_back(row("b[i] read, far apart", len, len, [](auto &bits) {
        size_t sum = 0;
        for (size_t i = 0, at = 0; i < len; ++i, at = (at * 5 + 12345) % len)
            sum += bits[at];
        return sum;
    }));
    made.push_back(row("b[i] write", len, len, [](auto &bits) {
        for (size_t i = 0; i < len; ++i)
            bits[i] = i % 4 == 0;
        return size_t(bits[7]);
    }));
    made.push_back(row("push_back", len, 0, [](auto &bits) {
        bits.clear();
        for (size_t i = 0; i < len; ++i)
            bits.push_back(i % 4 == 0);
        return bits.size();
    }));
    made.push_back(row("pop_back", len, 0, [](auto &bits) {
        bits.resize(len);
        while (!bits.empty()) {
            bits.pop_back();
            keep(&bits);
        }
        return bits.size();
    }));
    made.push_back(row("each bit", len, len, [](auto &bits) {
        size_t sum = 0;
        if constexpr (is_blocks<std::decay_t<decltype(bits)>>)
            for (size_t i = 0; i < bits.size(); ++i)
                sum += bits[i];
        else
            for (const bool bit : bits)
                sum += bit;
        return sum;
    }));
    made.push_back(row("each one", len, len, [](auto &bits) {
        size_t sum = 0;
        using Set = std::decay_t<decltype(bits)>;
        if constexpr (is_blocks<Set>)
            for (size_t i = bits.find_first(); i != Set::npos; i = bits.find_next(i))
                sum += i;
        else if constexpr (std::is_same_v<Set, Vector>)
            for (size_t i = 0; i < bits.size(); ++i)
                sum += bits[i] ? i : 0;
        else
            for (const size_t i : bits.view().ones())
                sum += i;
        return sum;
    }));
    made.push_back(row("std::count, count()", len, len, [](auto &bits) {
        if constexpr (is_blocks<std::decay_t<decltype(bits)>>)
            return bits.count();
        else
            return size_t(std::count(bits.begin(), bits.end(), true));
    }));
    made.push_back(row("std::find", len, len, has_places([](auto &bits) {
        std::fill(bits.begin(), bits.end(), false);
        return size_t(std::find(bits.begin(), bits.end(), true) - bits.begin());
    })));
    made.push_back(row("std::copy, =", len, len, [](auto &bits) {
        static std::decay_t<decltype(bits)> to(len);
        if constexpr (is_blocks<std::decay_t<decltype(bits)>>)
            to = bits;
        else
            std::copy(bits.begin(), bits.end(), to.begin());
        return to.size();
    }));
    made.push_back(row("std::sort", len, len, has_places([](auto &bits) {
        std::sort(bits.begin(), bits.end());
        bits[7].flip();
        return bits.size();
    })));
    for (const size_t size : {64, 1024}) {
        static size_t round = 0;
        const std::string named = " of " + std::to_string(size) + ", a call";
        made.push_back(row("|=" + named, 1, size, has_bitwise([](auto &bits) {
            static const auto right = some<std::decay_t<decltype(bits)>>(64), more = some<std::decay_t<decltype(bits)>>(1024);
            bits |= bits.size() == 64 ? right : more;
            return size_t(bits[round++ % 64]);
        })));
        made.push_back(row("a & b" + named, 1, size, has_bitwise([](auto &bits) {
            static const auto right = some<std::decay_t<decltype(bits)>>(64), more = some<std::decay_t<decltype(bits)>>(1024);
            return size_t((bits & (bits.size() == 64 ? right : more))[round++ % 64]);
        })));
        made.push_back(row("==" + named, 1, size, [](auto &bits) {
            static auto right = bits;
            if (right.size() != bits.size())
                right = bits;
            return size_t(bits == right);
        }));
        made.push_back(row("count" + named, 1, size, has_bitwise([](auto &bits) {
            if constexpr (is_blocks<std::decay_t<decltype(bits)>>)
                return bits.count();
            else
                return bits.count_ones();
        })));
    }
    made.push_back(row("to text", len, len, [](auto &bits) {
        if constexpr (is_blocks<std::decay_t<decltype(bits)>>) {
            std::string text;
            to_string(bits, text);
            return text.size();
        } else if constexpr (std::is_same_v<std::decay_t<decltype(bits)>, Vector>) {
            std::string text;
            for (const bool bit : bits)
                text.push_back(bit ? '1' : '0');
            return text.size();
        } else
            return bits.to_string().size();
    }));
    return made;
}

int main(int words, char **word) {
    const int rounds = words > 1 ? std::atoi(word[1]) : 21;
#ifdef BEFORE
    const char *const heads[] = {"now", "before", "dynamic_bitset", "vector<bool>"};
#else
    const char *const heads[] = {"now", "dynamic_bitset", "vector<bool>"};
#endif
    std::printf("| |");
    for (const char *head : heads)
        std::printf(" %s |", head);
    for (Row &it : rows()) {
        std::vector<double> least(it.kinds.size(), 1e30);
        for (int round = 0; round < rounds; ++round)
            for (size_t kind = 0; kind < least.size(); ++kind)
                if (auto &call = it.kinds[kind]) {
                    const size_t calls = std::max<size_t>(1, it.count == 1 ? 20000 : 1);
                    least[kind] = std::min(least[kind], time_calls(call, calls) / double(calls * it.count));
                }
        std::printf("\n| %s |", it.name.c_str());
        for (const double time : least)
            time == 1e30 ? std::printf(" |") : std::printf(" %.3g |", time);
    }
    std::puts("");
}
