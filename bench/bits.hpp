// Single bits and few bits as one writes them by hand, each inlined in its loop: the element or the two that they
// touch, a shift and a mask. The loops are those of `bitvec_times`, with its sums.
#pragma once
#include <cstddef>
#include <cstdint>
#include <cstring>
#include <type_traits>
#include <vector>

struct Lsb0 {
    static constexpr const char *name = "Lsb0";
    static constexpr unsigned number = 0;
};

struct Msb0 {
    static constexpr const char *name = "Msb0";
    static constexpr unsigned number = 1;
};

inline constexpr size_t single_bits = size_t(1) << 20;

// ---- single bits

// Bits in elements, by hand.
template <class Element, class Order>
class Elements {
    static constexpr unsigned width = 8 * sizeof(Element);
    static constexpr size_t count = single_bits / width;
    Element *const p;

    static unsigned shift(size_t i) { return std::is_same_v<Order, Lsb0> ? i % width : width - 1 - i % width; }

  public:
    using Memory = std::vector<Element>;
    static Memory memory() { return Memory(count); }
    explicit Elements(Memory &memory) : p(memory.data()) {}

    bool get(size_t i) const { return p[i / width] >> shift(i) & 1; }

    void set(size_t i, bool bit) const {
        Element &element = p[i / width];
        element = Element((element & ~(Element(1) << shift(i))) | Element(bit) << shift(i));
    }

    // How many ones a walk over the bits counts.
    size_t walk() const {
        size_t sum = 0;
        for (size_t i = 0; i < count; ++i)
            for (unsigned j = 0; j < width; ++j)
                sum += p[i] >> shift(j) & 1;
        return sum;
    }
};

// Bits in a `std::vector<bool>`.
class Vector {
    std::vector<bool> &bits;

  public:
    using Memory = std::vector<bool>;
    static Memory memory() { return Memory(single_bits); }
    explicit Vector(Memory &memory) : bits(memory) {}

    bool get(size_t i) const { return bits[i]; }
    void set(size_t i, bool bit) const { bits[i] = bit; }
    size_t walk() const {
        size_t sum = 0;
        for (const bool bit : bits)
            sum += bit;
        return sum;
    }
};

// What is done with a bit: 1 for a 1 that was read.
struct Read {
    template <class Bits>
    static size_t act(Bits bits, size_t i, bool) {
        return bits.get(i);
    }
};

struct Write {
    template <class Bits>
    static size_t act(Bits bits, size_t i, bool bit) {
        bits.set(i, bit);
        return 0;
    }
};

// Passes over all bits.
template <class Act>
struct InARow {
    template <class Bits>
    static size_t pass(Bits bits, size_t round) {
        size_t sum = 0;
        for (size_t i = 0; i < single_bits; ++i)
            sum += Act::act(bits, i, (i + round) % 3 == 0);
        return sum;
    }
};

template <class Act>
struct AtRandom {
    template <class Bits>
    static size_t pass(Bits bits, size_t round) {
        size_t sum = 0, place = 0;
        for (size_t i = 0; i < single_bits; ++i) {
            sum += Act::act(bits, place, (i + round) % 3 == 0);
            place = (place * 5 + 12345) % single_bits;
        }
        return sum;
    }
};

struct Walk {
    template <class Bits>
    static size_t pass(Bits bits, size_t) {
        return bits.walk();
    }
};

// Bits on which passes are made, one in three of which is 1.
template <class Bits, class Pass>
class Single {
    typename Bits::Memory memory = Bits::memory();
    Bits bits{memory};

  public:
    Single() { InARow<Write>::pass(bits, 0); }

    size_t round(size_t number) {
        bits.set(number % 64, false);
        return Pass::pass(bits, number);
    }

    size_t ones_left() const { return bits.walk(); }
};

// ---- few bits

// `len` bits at a place that changes, under `Lsb0`.
template <class Element, unsigned len>
class FewBits {
    static constexpr unsigned width = 8 * sizeof(Element);

    // What holds the bits but for those that overhang, which one more element has.
    using Word = std::conditional_t<len == 64, uint64_t, Element>;
    static constexpr unsigned bits = 8 * sizeof(Word);
    static constexpr Word ones = Word(~Word(0)) >> (bits - len);
    static constexpr size_t next = bits / width;

    static Word load(const Element *p, size_t place) {
        p += place / width;
        const unsigned from = place % width;
        Word word;
        std::memcpy(&word, p, sizeof word);
        word = Word(word >> from);
        if (from + len > bits)
            word = Word(word | Word(p[next]) << (bits - from));
        return word & ones;
    }

    static void store(Element *p, size_t place, Word value) {
        p += place / width;
        const unsigned from = place % width;
        Word word;
        std::memcpy(&word, p, sizeof word);
        word = Word((word & Word(~(ones << from))) | Word(value << from));
        std::memcpy(p, &word, sizeof word);
        if (from + len > bits) {
            const unsigned over = bits - from;
            p[next] = Element((p[next] & Element(~(ones >> over))) | Element(value >> over));
        }
    }

    static constexpr size_t memory = 192, places = 97;
    Element left[memory / width] = {}, right[memory / width] = {};

  public:
    FewBits() {
        for (size_t i = 0; i < memory; i += 3) {
            left[i / width] = Element(left[i / width] | Element(1) << i % width);
            right[i / width] = left[i / width];
        }
    }

    static size_t to(size_t round) { return round % places; }
    static size_t from(size_t round) { return places - 1 - round % places; }

    size_t copy(size_t round) { return store(left, to(round), load(right, from(round))), 0; }
    size_t fill(size_t round) { return store(left, to(round), round % 2 == 0 ? ones : Word(0)), 0; }
    size_t count_ones(size_t round) { return size_t(__builtin_popcountll(load(left, to(round)))); }
    size_t equality(size_t round) { return load(left, to(round)) == load(right, from(round)); }

    size_t ones_left() const {
        size_t sum = 0;
        for (const Element element : left)
            sum += size_t(__builtin_popcountll(element));
        return sum;
    }
};

// ---- numbers in a row

// The numbers of 12 bits in 2^20 bits, of which one in three is 1, under `Lsb0`: an element or two are joined, shifted
// and masked.
template <class Element, bool whole>
class NumbersInARow {
    static constexpr unsigned width = 8 * sizeof(Element), field = 12;
    std::vector<Element> memory = std::vector<Element>(single_bits / width);

    static uint64_t number(const Element *p, size_t place) {
        const unsigned from = place % width;
        p += place / width;
        uint64_t word = uint64_t(p[0]) >> from;
        if (from + field > width)
            word |= uint64_t(p[1]) << (width - from);
        return word & 0xFFF;
    }

    [[gnu::noinline]] static size_t numbers(const Element *p) {
        size_t sum = 0, place = 0;
        for (; place + field <= single_bits; place += field)
            sum += number(p, place);
        if (!whole && place < single_bits)
            sum += p[place / width] >> place % width;
        return sum;
    }

  public:
    NumbersInARow() {
        for (size_t i = 0; i < single_bits; i += 3)
            memory[i / width] = Element(memory[i / width] | Element(1) << i % width);
    }

    size_t round(size_t number) {
        const size_t place = number % 64;
        memory[place / width] = Element(memory[place / width] & ~(Element(1) << place % width));
        return numbers(memory.data());
    }

    size_t ones_left() const {
        size_t sum = 0;
        for (const Element element : memory)
            sum += size_t(__builtin_popcountll(element));
        return sum;
    }
};
