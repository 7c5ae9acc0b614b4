// Times runs of `bitvec_times`, which is given as the first argument, and prints tables in Markdown: records beside a
// struct of bit fields, elements of 128 bits beside those of 64, views of two types, walks over ones, single bits and few
// bits beside loops by hand, and windows of 1024 bits and sequences that grow beside peers.
#include "bits.hpp"
#include "growing.hpp"
#include "header.hpp"
#include "peers.hpp"
#include <algorithm>
#include <chrono>
#include <cstdio>
#include <cstdlib>
#include <limits>
#include <spawn.h>
#include <string>
#include <sys/resource.h>
#include <sys/wait.h>
#include <unistd.h>
#include <vector>

extern char **environ;

using Clock = std::chrono::steady_clock;

static double seconds_since(Clock::time_point begin) {
    return std::chrono::duration<double>(Clock::now() - begin).count();
}

// What the program is asked for: an operation, numbers, and other words.
struct Task {
    std::string operation;
    std::vector<size_t> numbers;
    std::vector<std::string> others = {};
};

static double seconds_of(const timeval &time) { return double(time.tv_sec) + 1e-6 * double(time.tv_usec); }

// Runs the program so many times through, and gives the seconds of the processor that it took and what it printed.
static std::pair<double, std::string> run(const char *program, const Task &task, size_t times) {
    std::vector<std::string> words = {program, task.operation};
    for (const size_t number : task.numbers)
        words.push_back(std::to_string(number));
    words.insert(words.end(), task.others.begin(), task.others.end());
    words.push_back(std::to_string(times));
    std::vector<char *> arguments;
    for (std::string &word : words)
        arguments.push_back(word.data());
    arguments.push_back(nullptr);
    int ends[2];
    if (pipe(ends))
        std::abort();
    posix_spawn_file_actions_t actions;
    posix_spawn_file_actions_init(&actions);
    posix_spawn_file_actions_adddup2(&actions, ends[1], 1);
    pid_t child;
    if (posix_spawn(&child, program, &actions, nullptr, arguments.data(), environ))
        std::abort();
    close(ends[1]);
    std::string said;
    char part[64];
    for (ssize_t n; (n = read(ends[0], part, sizeof part)) > 0;)
        said.append(part, n);
    int status;
    rusage used;
    wait4(child, &status, 0, &used);
    close(ends[0]);
    posix_spawn_file_actions_destroy(&actions);
    if (status)
        std::abort();
    return {seconds_of(used.ru_utime) + seconds_of(used.ru_stime), said};
}

// How many turns each takes.
constexpr int turn_count = 3;

// The times of one call of each task in nanoseconds: of runs of `times` calls and of none, the best of all turns. In a turn the
// tasks follow one another, and then the peers.
static std::vector<double> time_by_turns(const char *program, const std::vector<Task> &tasks, size_t times,
                                         std::vector<Rival> *peers = nullptr) {
    std::vector<double> none(tasks.size(), std::numeric_limits<double>::infinity()), all = none;
    for (int turn = 0; turn < turn_count; ++turn) {
        turns.next();
        for (size_t i = 0; i < tasks.size(); ++i) {
            none[i] = std::min(none[i], run(program, tasks[i], 0).first);
            all[i] = std::min(all[i], run(program, tasks[i], times).first);
        }
        if (peers)
            for (Rival &peer : *peers)
                peer.take_turn();
    }
    for (size_t i = 0; i < tasks.size(); ++i)
        all[i] = 1e9 * (all[i] - none[i]) / double(times);
    return all;
}

static double time_runs(const char *program, const Task &task, size_t times) {
    return time_by_turns(program, {task}, times)[0];
}

// The best turn of as many calls, a call in nanoseconds.
template <class Call>
static double time_loop(size_t times, Call call) {
    double best = std::numeric_limits<double>::infinity();
    for (int turn = 0; turn < turn_count; ++turn) {
        turns.next();
        const auto begin = Clock::now();
        for (size_t i = 0; i < times; ++i)
            call(i);
        best = std::min(best, seconds_since(begin));
    }
    return 1e9 * best / double(times);
}

// That the program prints the sum of a loop by hand.
static void check(const char *program, const Task &task, size_t times, size_t sum) {
    const std::string said = run(program, task, times).second;
    if (said != std::to_string(sum) + "\n") {
        std::fprintf(stderr, "%s: %s of the program, %zu by hand\n", task.operation.c_str(), said.c_str(), sum);
        std::exit(1);
    }
}

template <class Call>
static void compare(const char *program, const char *operation, Call call) {
    const Task task{operation, {8, 0}};
    constexpr size_t times = 500'000;
    size_t sum = 0;
    for (size_t i = 0; i < 1000; ++i)
        sum += call(i);
    check(program, task, 1000, sum);
    const double by_struct = time_loop(10 * times, [&](size_t i) { sum += call(i); });
    asm volatile("" : : "g"(sum) : "memory");
    const double by_layout = time_runs(program, task, times);
    std::printf("| %s | %.1f | %.1f | %.3g |\n", operation, by_layout, by_struct, by_struct / by_layout);
}

static void records(const char *program) {
    std::printf("\n### A header of 13 fields in 20 bytes, in ns\n\n"
                "| operation | by a layout | by a struct | layout / struct, speed |\n|---|---|---|---|\n");
    Numbers numbers = header_numbers;
    Bytes bytes{};
    compare(program, "encode", [&](size_t i) -> uint64_t {
        numbers[5] = i % 65536;
        encode(numbers, bytes);
        return bytes[5];
    });
    encode(header_numbers, bytes);
    compare(program, "decode", [&](size_t i) -> uint64_t {
        bytes[5] = i % 256;
        decode(bytes, numbers);
        return numbers[5] + numbers[12];
    });
}

static void widths(const char *program) {
    std::printf("\n### 1048576 bits in elements of 64 and of 128 bits, in bits per ns\n\n"
                "| operation | phase | u8 | u64 | u128 | u128 / u64 |\n|---|---|---|---|---|---|\n");
    for (const char *operation :
         {"copy", "or", "equality", "starts_with", "ends_with", "count_ones", "first_one", "reverse"})
        for (size_t phase : {0, 29}) {
            if (phase && std::string("count_ones first_one reverse").find(operation) != std::string::npos)
                continue;
            double speeds[3];
            const size_t widths[] = {8, 64, 128};
            for (int i = 0; i < 3; ++i)
                speeds[i] = 1048576 / time_runs(program, {operation, {widths[i], phase}}, 1000);
            std::printf("| %s | %zu | %.3g | %.3g | %.3g | %.3g |\n", operation, phase, speeds[0], speeds[1], speeds[2],
                        speeds[2] / speeds[1]);
        }
}

// The sum of the indices of the ones, which are one bit in `every`.
static void walks(const char *program) {
    std::printf("\n### A walk over the ones of 1048576 bits, in bits per ns\n\n"
                "| ones | u8 | u64 | u128 |\n|---|---|---|---|\n");
    for (size_t every : {61, 2}) {
        double speeds[3];
        const size_t widths[] = {8, 64, 128};
        for (int i = 0; i < 3; ++i)
            speeds[i] = 1048576 / time_runs(program, {"walk", {widths[i], every}}, 100);
        std::printf("| 1 in %zu | %.3g | %.3g | %.3g |\n", every, speeds[0], speeds[1], speeds[2]);
    }
}

// Of two views, the right one of elements of 16 bits.
static void mixed(const char *program) {
    std::printf("\n### 1048576 bits of views of two types, the right one of u16, in bits per ns\n\n"
                "| operation | u8 | u64 |\n|---|---|---|\n");
    for (const char *operation : {"eq_bits", "cmp_bits", "or_bits", "clone_from_bitslice"})
        std::printf("| %s | %.3g | %.3g |\n", operation, 1048576 / time_runs(program, {operation, {8, 0}}, 100),
                    1048576 / time_runs(program, {operation, {64, 0}}, 100));
}

// The time of a round of what a loop by hand does; its first rounds have the sum of the program.
template <class Hand, class Round>
static double time_by_hand(const char *program, const Task &task, size_t rounds, size_t times, Round round) {
    Hand checked, timed;
    size_t sum = 0;
    for (size_t i = 0; i < rounds; ++i)
        sum += round(checked, i);
    check(program, task, rounds, sum + checked.ones_left());
    const double taken = time_loop(times, [&](size_t i) { sum += round(timed, i); });
    sum += timed.ones_left();
    asm volatile("" : : "g"(sum) : "memory");
    return taken;
}

// A pass over single bits of views, of a `std::vector<bool>` and by hand, in nanoseconds a bit.
template <class Element, class Order, class Pass>
static void single(const char *program, const char *operation, const char *said) {
    constexpr size_t width = 8 * sizeof(Element), times = 10;
    const Task task{operation, {width, Order::number}};
    auto round = [](auto &bits, size_t i) { return bits.round(i); };
    const double by_vector = time_by_hand<Single<Vector, Pass>>(program, task, 3, times, round);
    const double by_hand = time_by_hand<Single<Elements<Element, Order>, Pass>>(program, task, 3, times, round);
    const double by_views = time_runs(program, task, times);
    std::printf("| %s | u%zu %s | %.3g | %.3g | %.3g | %.3g | %.3g |\n", said, width, Order::name,
                by_views / single_bits, by_vector / single_bits, by_hand / single_bits, by_vector / by_views,
                by_hand / by_views);
}

template <class Element, class Order>
static void singles(const char *program) {
    single<Element, Order, InARow<Read>>(program, "index", "`bits[i]`, in a row");
    single<Element, Order, InARow<Read>>(program, "get", "`get(i)`, in a row");
    single<Element, Order, AtRandom<Read>>(program, "index_at_random", "`bits[i]`, at random");
    single<Element, Order, InARow<Write>>(program, "set", "`set`, in a row");
    single<Element, Order, AtRandom<Write>>(program, "set_at_random", "`set`, at random");
    single<Element, Order, Walk>(program, "by_vals", "`iter().by_vals()`");
}

// An operation on few bits of views and by hand, in nanoseconds.
template <class Element, unsigned len, class Round>
static void few(const char *program, const char *operation, Round round) {
    constexpr size_t width = 8 * sizeof(Element), times = 1'000'000;
    const Task task{std::string(operation) + "_few", {width, len}};
    const double by_hand = time_by_hand<FewBits<Element, len>>(program, task, 1000, times, round);
    const double by_views = time_runs(program, task, times);
    std::printf("| %s | %u | u%zu | %.3g | %.3g | %.3g |\n", operation, len, width, by_views, by_hand,
                by_hand / by_views);
}

template <class Element, unsigned len>
static void fews(const char *program) {
    few<Element, len>(program, "copy", [](auto &bits, size_t i) { return bits.copy(i); });
    few<Element, len>(program, "fill", [](auto &bits, size_t i) { return bits.fill(i); });
    few<Element, len>(program, "count_ones", [](auto &bits, size_t i) { return bits.count_ones(i); });
    few<Element, len>(program, "equality", [](auto &bits, size_t i) { return bits.equality(i); });
}

static void bits(const char *program) {
    std::printf("\n### Single bits of a view in a loop, in ns a bit\n\n"
                "| operation | elements | views | `vector<bool>` | by hand | views / vector, speed | views / by hand, "
                "speed |\n|---|---|---|---|---|---|---|\n");
    singles<uint64_t, Lsb0>(program);
    singles<uint64_t, Msb0>(program);
    singles<uint8_t, Lsb0>(program);
    singles<uint8_t, Msb0>(program);
    std::printf("\n### Few bits of a view in a loop, in ns\n\n"
                "| operation | bits | elements | views | by hand | views / by hand, speed |\n|---|---|---|---|---|---|\n");
    fews<uint64_t, 8>(program);
    fews<uint64_t, 64>(program);
    fews<uint8_t, 8>(program);
    fews<uint8_t, 64>(program);
}

// Numbers of 12 bits in chunks of views and by hand, in nanoseconds a number.
template <class Element, bool whole>
static void numbers(const char *program, const char *said) {
    constexpr size_t width = 8 * sizeof(Element), times = 100, count = single_bits / 12;
    const Task task{"numbers", {width, whole ? 0 : 1}};
    auto round = [](auto &bits, size_t i) { return bits.round(i); };
    const double by_hand = time_by_hand<NumbersInARow<Element, whole>>(program, task, 3, times, round);
    const double by_views = time_runs(program, task, times);
    std::printf("| %s | u%zu | %.3g | %.3g | %.3g |\n", said, width, by_views / count, by_hand / count, by_hand / by_views);
}

template <class Element>
static void numbers_of(const char *program) {
    numbers<Element, true>(program, "`chunks_exact`");
    numbers<Element, false>(program, "`chunks`");
}

static void walked_numbers(const char *program) {
    std::printf("\n### Numbers of 12 bits, added up in a walk, in ns a number\n\n"
                "| walk | elements | views | by hand | views / by hand, speed |\n|---|---|---|---|---|\n");
    numbers_of<uint8_t>(program);
    numbers_of<uint32_t>(program);
    numbers_of<uint64_t>(program);
}

constexpr size_t window_bits = 1024;

// Operations on windows that begin at these places of an element, and the fastest of the peers. The time of a peer is of
// rounds as long as a run of the program.
static void window(const char *program, const char *operation, size_t left, size_t right, const std::string &phase,
                   const Best &best) {
    std::printf("| %s | %s |", operation, phase.c_str());
    double least = std::numeric_limits<double>::infinity();
    for (size_t order : {0, 1})
        for (size_t width : {8, 16, 64}) {
            const char *name = order ? "msb0" : "lsb0";
            const double taken =
                time_runs(program, {operation, {width}, {name, std::to_string(right), std::to_string(left), "1024"}}, 1'000'000);
            std::printf(" %.3g |", window_bits / taken);
            least = std::min(least, best.nanoseconds / taken);
        }
    std::printf(" %.3g | %s | %.3g |\n", window_bits / best.nanoseconds, best.name.c_str(), least);
}

static void windows(const char *program) {
    rounds = {turn_count, 5e6};
    std::printf("\n### Windows of 1024 bits of views, in bits per ns\n\n"
                "| operation | phase | u8 Lsb0 | u16 Lsb0 | u64 Lsb0 | u8 Msb0 | u16 Msb0 | u64 Msb0 | peer | which | "
                "slowest / peer |\n|---|---|---|---|---|---|---|---|---|---|---|\n");
    for (auto [left, right] : {std::pair<size_t, size_t>{0, 0}, {0, 29}, {29, 29}}) {
        Peers peers(window_bits, right, left > 0);
        const std::string phase = std::to_string(left) + ", " + std::to_string(right);
        window(program, "copy", left, right, phase, peers.copy());
        window(program, "or", left, right, phase, peers.combine());
        window(program, "swap", left, right, phase, peers.swap());
        window(program, "equality", left, right, phase, peers.equal());
        if (left == 0)
            window(program, "compare", left, right, phase, peers.compare());
    }
    for (size_t start : {0, 29}) {
        Peers peers(window_bits, start, false);
        const std::string phase = std::to_string(start);
        window(program, "fill", start, start, phase, peers.fill());
        window(program, "invert", start, start, phase, peers.invert());
        window(program, "count_ones", start, start, phase, peers.count_ones());
        window(program, "first_one", start, start, phase, peers.first_one());
        window(program, "reverse", start, start, phase, peers.reverse());
    }
    Peers peers(window_bits, 0, false);
    window(program, "copy_within", 0, 0, "by 1", peers.copy_within(1));
    window(program, "shift_start", 0, 0, "by 29", peers.shift_start(29));
    window(program, "rotate_left", 0, 0, "by 525", peers.rotate_left(525));
}

// A row of a matrix or-ed into another one of it, beside `|=` with a row of another matrix. Which rows they are changes from
// call to call. Rows that overlap lie so many bits apart as the places in an element, or 64.
static void within(const char *program) {
    std::printf("\n### A row of bits or-ed into another one, in bits per ns\n\n"
                "| bits | elements | phase | `\\|=` with another matrix | apart | overlapping | apart / `\\|=` | overlapping / `\\|=` |\n"
                "|---|---|---|---|---|---|---|---|\n");
    for (size_t bits : {1024, 4096, 262144})
        for (bool high : {false, true})
            for (size_t width : {8, 16, 64})
                for (size_t phase : {0, 29}) {
                    std::vector<Task> tasks;
                    for (const char *operation : {"or_rows", "or_rows_within", "or_rows_overlapping"})
                        tasks.push_back({operation, {width}, {high ? "msb0" : "lsb0", std::to_string(phase), "0", std::to_string(bits)}});
                    const std::vector<double> taken = time_by_turns(program, tasks, 1'000'000'000 / (bits + 512));
                    std::printf("| %zu | u%zu %s | %zu | %.3g | %.3g | %.3g | %.3g | %.3g |\n", bits, width, high ? "Msb0" : "Lsb0", phase,
                                bits / taken[0], bits / taken[1], bits / taken[2], taken[0] / taken[1], taken[0] / taken[2]);
                }
}

// A call that adds bits to a sequence or takes some: the round of each peer that has it and of the program, of so many bits
// behind others, by turns. A time is given by so many parts of a round. The first rounds have the sum of those on a
// `std::vector<bool>`.
template <class Round>
static void grow(const char *program, const char *operation, const Growth &growth, size_t parts, size_t times,
                 std::vector<Rival> peers, Round round) {
    const std::string front = std::to_string(growth.front), len = std::to_string(growth.len);
    std::vector<Task> tasks;
    for (const char *order : {"lsb0", "msb0"})
        for (size_t width : {8, 64}) {
            tasks.push_back({operation, {width}, {order, "0", front, len}});
            VectorRounds checked(growth);
            size_t sum = 0;
            for (size_t i = 0; i < 5; ++i)
                sum += round(checked, i);
            check(program, tasks.back(), 5, sum + checked.ones_left());
        }
    const std::vector<double> taken = time_by_turns(program, tasks, times, &peers);
    std::printf("| %s | %s | %s |", operation, len.c_str(), front.c_str());
    for (const double time : taken)
        std::printf(" %.3g |", time / double(parts));
    double best = std::numeric_limits<double>::infinity();
    for (const char *name : {"vector<bool>", "dynamic_bitset", "bit-vec"}) {
        const auto peer = std::find_if(peers.begin(), peers.end(), [&](const Rival &it) { return it.name == name; });
        if (peer == peers.end()) {
            std::printf(" |");
            continue;
        }
        std::printf(" %.3g |", peer->least / double(parts));
        best = std::min(best, peer->least);
    }
    std::printf(" %.3g |\n", best / *std::max_element(taken.begin(), taken.end()));
}

static void growing(const char *program) {
    rounds = {turn_count, 5e6};
    std::printf("\n### Sequences that get more bits or fewer, in ns: of `push`, `pop` and `extend` a bit, of the others a call\n\n"
                "| operation | bits | behind | u8 Lsb0 | u64 Lsb0 | u8 Msb0 | u64 Msb0 | `vector<bool>` | `dynamic_bitset` | `bit-vec` | "
                "slowest / best peer |\n|---|---|---|---|---|---|---|---|---|---|---|\n");
    for (size_t len : {1000, 1'000'000}) {
        const size_t loops = 10'000'000 / len, calls = 2'500'000 / (len / 500 + 10);
        const Growth whole(len, 0), behind(len, 3);
        const GrowingPeers peers(whole), peers_behind(behind);
        grow(program, "push", whole, len, loops, peers.push(), [](auto &set, size_t i) { return set.push(i); });
        grow(program, "pop", whole, len, loops, peers.pop(), [](auto &set, size_t i) { return set.pop(i); });
        grow(program, "extend", whole, len, loops, peers.extend(), [](auto &set, size_t i) { return set.extend(i); });
        auto join = [](auto &set, size_t i) { return set.extend_from_bitslice(i); };
        grow(program, "extend_from_bitslice", whole, 1, calls, peers.extend_from_bitslice(), join);
        grow(program, "extend_from_bitslice", behind, 1, calls, peers_behind.extend_from_bitslice(), join);
        grow(program, "insert_first", whole, 1, calls, peers.insert_first(), [](auto &set, size_t i) { return set.insert_first(i); });
        grow(program, "insert_middle", whole, 1, calls, peers.insert_middle(), [](auto &set, size_t i) { return set.insert_middle(i); });
        grow(program, "remove_first", whole, 1, calls, peers.remove_first(), [](auto &set, size_t i) { return set.remove_first(i); });
        grow(program, "remove_middle", whole, 1, calls, peers.remove_middle(), [](auto &set, size_t i) { return set.remove_middle(i); });
        grow(program, "resize", behind, 1, calls, peers_behind.resize(), [](auto &set, size_t i) { return set.resize(i); });
    }
}

int main(int, char **words) {
    records(words[1]);
    widths(words[1]);
    mixed(words[1]);
    walks(words[1]);
    bits(words[1]);
    walked_numbers(words[1]);
    windows(words[1]);
    within(words[1]);
    growing(words[1]);
}
