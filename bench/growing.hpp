// Sequences that get more bits or fewer: the rounds of `bitvec_times` on each kind of set that has the calls.
//
// boost::dynamic_bitset and bit-vec have no call that inserts or removes a bit. `append` of dynamic_bitset adds whole blocks,
// and that of bit-vec empties the other set, so a copy of it is added.
#pragma once
#include "peers.hpp"
#include <cstddef>
#include <cstdint>
#include <functional>
#include <limits>
#include <memory>
#include <string>
#include <vector>

extern "C" {
BitVec *bit_vec_of(size_t front, size_t len);
void bit_vec_push(BitVec *, size_t len, size_t round);
size_t bit_vec_pop(BitVec *, size_t len, size_t round);
void bit_vec_extend(BitVec *, const bool *, size_t count, size_t front);
void bit_vec_append(BitVec *, const BitVec *, size_t front);
void bit_vec_resize(BitVec *, size_t len, size_t front, size_t round);
}

// What a round works with: truth values that are added, one in three of which is true, behind so many bits, and how many
// bits there are in all.
struct Growth {
    size_t len, front;
    std::unique_ptr<bool[]> bools;

    Growth(size_t len, size_t front) : len(len), front(front), bools(new bool[len - front]) {
        for (size_t i = 0; i < count(); ++i)
            bools[i] = i % 3 == 0;
    }
    size_t count() const { return len - front; }
};

inline bool bit_of(size_t index, size_t round) { return (index ^ round) % 4 == 0; }

class VectorRounds {
    const Growth &growth;
    std::vector<bool> more, bits;

    size_t insert_at(size_t index, size_t round) {
        bits.insert(bits.begin() + ptrdiff_t(index), bit_of(0, round));
        const bool last = bits.back();
        bits.pop_back();
        return last;
    }

    size_t remove_at(size_t index, size_t round) {
        const bool bit = bits[index];
        bits.erase(bits.begin() + ptrdiff_t(index));
        bits.push_back(bit_of(0, round));
        return bit;
    }

  public:
    explicit VectorRounds(const Growth &growth)
        : growth(growth), more(growth.bools.get(), growth.bools.get() + growth.count()), bits(growth.front, true) {
        bits.insert(bits.end(), more.begin(), more.end());
    }

    size_t push(size_t round) {
        std::vector<bool> made;
        for (size_t i = 0; i < growth.len; ++i)
            made.push_back(bit_of(i, round));
        bits = std::move(made);
        return 0;
    }

    size_t pop(size_t round) {
        size_t ones = 0;
        for (size_t i = 0; i < growth.len; ++i) {
            ones += bits.back();
            bits.pop_back();
        }
        bits.resize(growth.len, round % 2 == 0);
        return ones;
    }

    size_t extend(size_t) {
        bits.resize(growth.front);
        bits.insert(bits.end(), growth.bools.get(), growth.bools.get() + growth.count());
        return 0;
    }

    size_t extend_from_bitslice(size_t) {
        bits.resize(growth.front);
        bits.insert(bits.end(), more.begin(), more.end());
        return 0;
    }

    size_t insert_first(size_t round) { return insert_at(0, round); }
    size_t insert_middle(size_t round) { return insert_at(growth.len / 2, round); }
    size_t remove_first(size_t round) { return remove_at(0, round); }
    size_t remove_middle(size_t round) { return remove_at(growth.len / 2, round); }

    size_t resize(size_t round) {
        bits.resize(growth.front);
        bits.resize(growth.len, round % 2 == 0);
        return 0;
    }

    size_t ones_left() const { return size_t(std::count(bits.begin(), bits.end(), true)); }
};

class BitsetRounds {
    using Bits = boost::dynamic_bitset<>;
    const Growth &growth;
    std::vector<Bits::block_type> blocks;
    Bits bits;

  public:
    explicit BitsetRounds(const Growth &growth) : growth(growth), bits(growth.front, 0) {
        Bits more;
        for (size_t i = 0; i < growth.count(); ++i)
            more.push_back(growth.bools[i]);
        boost::to_block_range(more, std::back_inserter(blocks));
        bits.resize(growth.len, true);
    }

    void push(size_t round) {
        Bits made;
        for (size_t i = 0; i < growth.len; ++i)
            made.push_back(bit_of(i, round));
        bits = std::move(made);
    }

    size_t pop(size_t round) {
        size_t ones = 0;
        for (size_t i = growth.len; i > 0; --i) {
            ones += bits[i - 1];
            bits.pop_back();
        }
        bits.resize(growth.len, round % 2 == 0);
        return ones;
    }

    void append(size_t) {
        bits.resize(growth.front);
        bits.append(blocks.begin(), blocks.end());
        bits.resize(growth.len);
    }

    void resize(size_t round) {
        bits.resize(growth.front);
        bits.resize(growth.len, round % 2 == 0);
    }
};

class BitVecRounds {
    const Growth &growth;
    BitVec *more, *bits;

  public:
    explicit BitVecRounds(const Growth &growth)
        : growth(growth), more(bit_vec_of(0, growth.count())), bits(bit_vec_of(growth.front, growth.len)) {}
    BitVecRounds(const BitVecRounds &) = delete;
    BitVecRounds &operator=(const BitVecRounds &) = delete;
    ~BitVecRounds() {
        bit_vec_free(more);
        bit_vec_free(bits);
    }

    void push(size_t round) { bit_vec_push(bits, growth.len, round); }
    size_t pop(size_t round) { return bit_vec_pop(bits, growth.len, round); }
    void extend(size_t) { bit_vec_extend(bits, growth.bools.get(), growth.count(), growth.front); }
    void append(size_t) { bit_vec_append(bits, more, growth.front); }
    void resize(size_t round) { bit_vec_resize(bits, growth.len, growth.front, round); }
};

// A peer that takes its turns, and the least time of a call in any of them, in nanoseconds.
struct Rival {
    std::string name;
    std::function<double()> turn;
    double least = std::numeric_limits<double>::infinity();

    void take_turn() { least = std::min(least, turn()); }
};

// The sets that have a call, each with its rounds of it.
class GrowingPeers {
    const Growth &growth;

    template <class Rounds, class Round>
    Rival rival(const char *name, Round round) const {
        auto rounds = std::make_shared<Rounds>(growth);
        auto call = [=, number = size_t(0)]() mutable { keep(round(*rounds, number++)); };
        const size_t calls = calls_of_a_round(call);
        return {name, [=]() mutable { return time_calls(call, calls) / double(calls); }};
    }

    template <class Round>
    Rival vector(Round round) const {
        return rival<VectorRounds>("vector<bool>", round);
    }

    template <class Round>
    std::vector<Rival> every(Round round) const {
        return {vector(round), rival<BitsetRounds>("dynamic_bitset", round), rival<BitVecRounds>("bit-vec", round)};
    }

  public:
    explicit GrowingPeers(const Growth &growth) : growth(growth) {}

    std::vector<Rival> push() const {
        return every([](auto &set, size_t i) { return set.push(i), 0; });
    }

    std::vector<Rival> pop() const {
        return every([](auto &set, size_t i) { return set.pop(i); });
    }

    std::vector<Rival> extend() const {
        auto round = [](auto &set, size_t i) { return set.extend(i), 0; };
        return {vector(round), rival<BitVecRounds>("bit-vec", round)};
    }

    std::vector<Rival> extend_from_bitslice() const {
        auto append = [](auto &set, size_t i) { return set.append(i), 0; };
        return {vector([](auto &set, size_t i) { return set.extend_from_bitslice(i); }),
                rival<BitsetRounds>("dynamic_bitset", append), rival<BitVecRounds>("bit-vec", append)};
    }

    std::vector<Rival> insert_first() const {
        return {vector([](auto &set, size_t i) { return set.insert_first(i); })};
    }
    std::vector<Rival> insert_middle() const {
        return {vector([](auto &set, size_t i) { return set.insert_middle(i); })};
    }
    std::vector<Rival> remove_first() const {
        return {vector([](auto &set, size_t i) { return set.remove_first(i); })};
    }
    std::vector<Rival> remove_middle() const {
        return {vector([](auto &set, size_t i) { return set.remove_middle(i); })};
    }

    std::vector<Rival> resize() const {
        return every([](auto &set, size_t i) { return set.resize(i), 0; });
    }
};
