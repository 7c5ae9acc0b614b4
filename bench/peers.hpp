// The bit sets that the library is compared with, timed as they are called by those who use them.
//
// Each chooses its own elements. A set that has no call for an operation isn't in that operation's
// list: boost::dynamic_bitset, fixedbitset and bit-vec have no part of a set, so a shifted copy is
// `>>` of the whole in the first, and none in the others.
#pragma once
#include "timing.hpp"
#include <algorithm>
#include <boost/dynamic_bitset.hpp>
#include <cstddef>
#include <cstdint>
#include <functional>
#include <map>
#include <random>
#include <string>
#include <vector>

struct FixedBitSet;
struct BitVec;

extern "C" {
FixedBitSet *fixedbitset_new(const uint32_t *, size_t);
void fixedbitset_free(FixedBitSet *);
void fixedbitset_copy(FixedBitSet *, const FixedBitSet *);
void fixedbitset_or(FixedBitSet *, const FixedBitSet *);
bool fixedbitset_equal(const FixedBitSet *, const FixedBitSet *);
void fixedbitset_fill(FixedBitSet *, size_t, size_t, bool);
void fixedbitset_invert(FixedBitSet *, size_t, size_t);
size_t fixedbitset_count_ones(const FixedBitSet *, size_t, size_t);
size_t fixedbitset_first_one(const FixedBitSet *);
size_t fixedbitset_iter_ones(const FixedBitSet *);
BitVec *bit_vec_new(const uint32_t *, size_t);
void bit_vec_free(BitVec *);
void bit_vec_copy(BitVec *, const BitVec *);
void bit_vec_or(BitVec *, const BitVec *);
bool bit_vec_equal(const BitVec *, const BitVec *);
int bit_vec_compare(const BitVec *, const BitVec *);
void bit_vec_fill(BitVec *, bool);
void bit_vec_invert(BitVec *);
size_t bit_vec_count_ones(const BitVec *);
size_t bit_vec_first_one(const BitVec *);
size_t bit_vec_iter_ones(const BitVec *);
}

// The fastest peer of an operation, and how long one call of each takes.
struct Best {
    std::string name = "none";
    double nanoseconds = 0;
    std::map<std::string, double> all;

    template <class Call>
    void try_peer(const char *peer, Call call) {
        try_peer(peer, call, [] {});
    }
    template <class Call, class Read>
    void try_peer(const char *peer, Call call, Read read) {
        double taken = time_call(call, read);
        all[peer] = taken;
        if (nanoseconds == 0 || taken < nanoseconds) {
            name = peer;
            nanoseconds = taken;
        }
    }
};

// The same bits in each kind of set.
struct Sets {
    std::vector<bool> vector;
    boost::dynamic_bitset<> bitset;
    FixedBitSet *fixed;
    BitVec *bit_vec;

    explicit Sets(const std::vector<uint32_t> &words)
        : fixed(fixedbitset_new(words.data(), words.size())), bit_vec(bit_vec_new(words.data(), words.size())) {
        for (uint32_t word : words)
            for (unsigned i = 0; i < 32; ++i) {
                vector.push_back(word >> i & 1);
                bitset.push_back(word >> i & 1);
            }
    }
    Sets(const Sets &) = delete;
    Sets &operator=(const Sets &) = delete;
    ~Sets() {
        fixedbitset_free(fixed);
        bit_vec_free(bit_vec);
    }

    // Each reads all of one set.
    void read_vector() const { keep(std::count(vector.begin(), vector.end(), true)); }
    void read_bitset() const { keep(bitset.count()); }
    void read_fixed() const { keep(fixedbitset_count_ones(fixed, 0, vector.size())); }
    void read_bit_vec() const { keep(bit_vec_count_ones(bit_vec)); }
};

// The best peer at each operation on `len` bits, from bit `start` of the second set, or of the only one.
// Those of the first set begin at its first bit, or at `start` too (`inner`): then vector<bool> alone
// has a call on so many bits of two sets.
class Peers {
  public:
    Peers(size_t len, size_t start, bool inner)
        : len(len), start(start), inner(inner), left(words(len + (inner ? 64 : 0), 7)),
          right(words(len + (start == 0 ? 0 : 64), 11)) {}

    Best copy() {
        Best best;
        best.try_peer("vector<bool>", [&] { std::copy(second(), second() + len, first()); }, read(&Sets::read_vector));
        if (inner)
            return best;
        if (start == 0) {
            best.try_peer("dynamic_bitset", [&] { left.bitset = right.bitset; }, read(&Sets::read_bitset));
            best.try_peer("fixedbitset", [&] { fixedbitset_copy(left.fixed, right.fixed); }, read(&Sets::read_fixed));
            best.try_peer("bit-vec", [&] { bit_vec_copy(left.bit_vec, right.bit_vec); }, read(&Sets::read_bit_vec));
        } else {
            best.try_peer("dynamic_bitset", [&] { left.bitset = shifted(); }, read(&Sets::read_bitset));
        }
        return best;
    }

    Best combine() {
        Best best;
        best.try_peer("vector<bool>",
                      [&] { std::transform(second(), second() + len, first(), first(), std::logical_or<>()); });
        if (inner)
            return best;
        if (start == 0) {
            best.try_peer("dynamic_bitset", [&] { left.bitset |= right.bitset; });
            best.try_peer("fixedbitset", [&] { fixedbitset_or(left.fixed, right.fixed); });
            best.try_peer("bit-vec", [&] { bit_vec_or(left.bit_vec, right.bit_vec); });
        } else {
            best.try_peer("dynamic_bitset", [&] { left.bitset |= shifted(); });
        }
        return best;
    }

    Best swap() {
        Best best;
        best.try_peer("vector<bool>", [&] { std::swap_ranges(second(), second() + len, first()); });
        if (start == 0)
            best.try_peer("dynamic_bitset", [&] {
                left.bitset ^= right.bitset;
                right.bitset ^= left.bitset;
                left.bitset ^= right.bitset;
            });
        return best;
    }

    // Of equal bits.
    Best equal() {
        std::copy(second(), second() + len, first());
        left.bitset = shifted();
        Best best;
        best.try_peer("vector<bool>", [&] { keep(std::equal(first(), first() + ptrdiff_t(len), second())); });
        if (inner)
            return best;
        if (start == 0) {
            fixedbitset_copy(left.fixed, right.fixed);
            bit_vec_copy(left.bit_vec, right.bit_vec);
            best.try_peer("dynamic_bitset", [&] { keep(left.bitset == right.bitset); });
            best.try_peer("fixedbitset", [&] { keep(fixedbitset_equal(left.fixed, right.fixed)); });
            best.try_peer("bit-vec", [&] { keep(bit_vec_equal(left.bit_vec, right.bit_vec)); });
        } else {
            best.try_peer("dynamic_bitset", [&] { keep(left.bitset == shifted()); });
        }
        return best;
    }

    // The order of equal bits; dynamic_bitset compares from the last bit on.
    Best compare() {
        std::copy(second(), second() + len, first());
        Best best;
        best.try_peer("vector<bool>", [&] {
            auto end = first() + ptrdiff_t(len);
            keep(std::lexicographical_compare(first(), end, second(), second() + ptrdiff_t(len)));
        });
        if (start != 0)
            return best;
        left.bitset = right.bitset;
        bit_vec_copy(left.bit_vec, right.bit_vec);
        best.try_peer("dynamic_bitset", [&] { keep(left.bitset < right.bitset); });
        best.try_peer("bit-vec", [&] { keep(bit_vec_compare(left.bit_vec, right.bit_vec)); });
        return best;
    }

    // Whether the bits begin with half as many that are equal.
    Best starts_with() {
        std::copy(second(), second() + len, first());
        Best best;
        best.try_peer("vector<bool>", [&] { keep(std::equal(second(), second() + ptrdiff_t(len / 2), first())); });
        return best;
    }

    // Whether 32 ones stand together somewhere among others, where they don't.
    Best contains() {
        const std::vector<bool> needle(32, true);
        Best best;
        best.try_peer("vector<bool>", [&] {
            auto end = second() + ptrdiff_t(len);
            keep(std::search(second(), end, needle.begin(), needle.end()) == end);
        });
        return best;
    }

    Best copy_within(size_t by) {
        Best best;
        auto bits = left.vector.begin();
        best.try_peer("vector<bool>",
                      [&] { std::copy_backward(bits, bits + ptrdiff_t(len - by), bits + ptrdiff_t(len)); });
        best.try_peer("dynamic_bitset", [&] { left.bitset <<= by; });
        return best;
    }

    Best shift_start(size_t by) {
        Best best;
        auto bits = left.vector.begin();
        best.try_peer("vector<bool>", [&] {
            auto end = std::copy(bits + ptrdiff_t(by), bits + ptrdiff_t(len), bits);
            std::fill(end, bits + ptrdiff_t(len), false);
        });
        best.try_peer("dynamic_bitset", [&] { left.bitset >>= by; });
        return best;
    }

    Best reverse() {
        Best best;
        best.try_peer("vector<bool>", [&] { std::reverse(second(), second() + len); });
        return best;
    }

    Best rotate_left(size_t by) {
        Best best;
        auto bits = left.vector.begin();
        best.try_peer("vector<bool>", [&] { std::rotate(bits, bits + ptrdiff_t(by), bits + ptrdiff_t(len)); });
        best.try_peer("dynamic_bitset", [&] { left.bitset = (left.bitset >> by) | (left.bitset << (len - by)); });
        return best;
    }

    Best fill() {
        Best best;
        best.try_peer("vector<bool>", [&] { std::fill(second(), second() + len, true); }, read(&Sets::read_vector));
        best.try_peer("dynamic_bitset", [&] { right.bitset.set(start, len, true); }, read(&Sets::read_bitset));
        best.try_peer("fixedbitset", [&] { fixedbitset_fill(right.fixed, start, len, true); }, read(&Sets::read_fixed));
        if (start == 0)
            best.try_peer("bit-vec", [&] { bit_vec_fill(right.bit_vec, true); }, read(&Sets::read_bit_vec));
        return best;
    }

    Best invert() {
        Best best;
        best.try_peer("dynamic_bitset", [&] { right.bitset.flip(start, len); });
        best.try_peer("fixedbitset", [&] { fixedbitset_invert(right.fixed, start, len); });
        if (start == 0) {
            best.try_peer("vector<bool>", [&] { right.vector.flip(); });
            best.try_peer("bit-vec", [&] { bit_vec_invert(right.bit_vec); });
        }
        return best;
    }

    Best count_ones() {
        Best best;
        best.try_peer("vector<bool>", [&] { keep(std::count(second(), second() + len, true)); });
        best.try_peer("fixedbitset", [&] { keep(fixedbitset_count_ones(right.fixed, start, len)); });
        if (start == 0) {
            best.try_peer("dynamic_bitset", [&] { keep(right.bitset.count()); });
            best.try_peer("bit-vec", [&] { keep(bit_vec_count_ones(right.bit_vec)); });
        }
        return best;
    }

    // Of zeros; fixedbitset and bit-vec search whole sets alone.
    Best first_one() {
        Sets zeros(std::vector<uint32_t>((start + len + 63) / 64 * 2, 0));
        Best best;
        auto bits = zeros.vector.begin() + ptrdiff_t(start);
        best.try_peer("vector<bool>", [&] { keep(std::find(bits, bits + ptrdiff_t(len), true) - bits); });
        best.try_peer("dynamic_bitset",
                      [&] { keep(start == 0 ? zeros.bitset.find_first() : zeros.bitset.find_next(start - 1)); });
        if (start == 0) {
            best.try_peer("fixedbitset", [&] { keep(fixedbitset_first_one(zeros.fixed)); });
            best.try_peer("bit-vec", [&] { keep(bit_vec_first_one(zeros.bit_vec)); });
        }
        return best;
    }

    // The sum of the indices of all ones, which are one bit in `every`; fixedbitset and bit-vec walk over
    // whole sets alone.
    Best iter_ones(unsigned every) {
        Sets sparse(sparse_words(start + len + 63, every));
        Best best;
        best.try_peer("vector<bool>", [&] {
            size_t sum = 0;
            for (size_t i = start; i < start + len; ++i)
                if (sparse.vector[i])
                    sum += i - start;
            keep(sum);
        });
        best.try_peer("dynamic_bitset", [&] {
            size_t sum = 0;
            size_t i = start == 0 ? sparse.bitset.find_first() : sparse.bitset.find_next(start - 1);
            for (; i < start + len; i = sparse.bitset.find_next(i))
                sum += i - start;
            keep(sum);
        });
        if (start == 0) {
            best.try_peer("fixedbitset", [&] { keep(fixedbitset_iter_ones(sparse.fixed)); });
            best.try_peer("bit-vec", [&] { keep(bit_vec_iter_ones(sparse.bit_vec)); });
        }
        return best;
    }

  private:
    size_t len, start;
    bool inner;
    Sets left, right;

    static std::vector<uint32_t> words(size_t len, uint32_t seed) {
        std::vector<uint32_t> result((len + 31) / 32);
        for (uint32_t &word : result)
            word = seed = seed * 1664525 + 1013904223;
        return result;
    }

    // Words of which one bit in `every` is 1.
    static std::vector<uint32_t> sparse_words(size_t len, unsigned every) {
        std::vector<uint32_t> result = words(len, 0);
        std::mt19937_64 random(5);
        for (uint32_t &word : result) {
            word = 0;
            for (unsigned i = 0; i < 32; ++i)
                word |= uint32_t(random() % every == 0) << i;
        }
        return result;
    }

    // Reads both sets of a kind before a round.
    std::function<void()> read(void (Sets::*read_one)() const) const {
        return [this, read_one] {
            (left.*read_one)();
            (right.*read_one)();
        };
    }

    std::vector<bool>::iterator first() { return left.vector.begin() + ptrdiff_t(inner ? start : 0); }

    std::vector<bool>::iterator second() { return right.vector.begin() + ptrdiff_t(start); }

    boost::dynamic_bitset<> shifted() {
        if (start == 0)
            return right.bitset;
        boost::dynamic_bitset<> bits = right.bitset >> start;
        bits.resize(len);
        return bits;
    }
};
