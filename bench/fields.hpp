// Fields of 12 bits that follow one another, as one writes them by hand for `u8` and `u32`: the elements
// that a field touches, one or two words or two or three bytes, joined to one number, a shift and a mask.
#pragma once
#include "library.hpp"
#include <type_traits>

template <class Element, class Order>
struct FieldLoops {
    static constexpr unsigned width = 8 * sizeof(Element);
    static constexpr unsigned field = 12;
    static constexpr unsigned ones = 0xFFF;
    static constexpr bool lowest_first = std::is_same_v<Order, Lsb0>;

    // A field that begins early enough touches so many elements, and any other one more.
    static constexpr unsigned few = width == 8 ? 2 : 1;
    static bool is_early(unsigned from) { return from + field <= few * width; }

    // A number that holds as many elements.
    using Wide = std::conditional_t<width == 8, uint32_t, uint64_t>;

    // By how much the element `i` of `count` is shifted in the number of all, and how many bits of it are
    // below a field that begins at index `from` of the first.
    static constexpr unsigned shift(unsigned i, unsigned count) {
        return (lowest_first ? i : count - 1 - i) * width;
    }
    static unsigned below(unsigned from, unsigned count) {
        return lowest_first ? from : count * width - field - from;
    }

    template <unsigned count>
    static Wide joined(const Element *p) {
        Wide word = 0;
        for (unsigned i = 0; i < count; ++i)
            word |= Wide(p[i]) << shift(i, count);
        return word;
    }

    template <unsigned count>
    static unsigned load_one(const Element *p, unsigned from) {
        return unsigned(joined<count>(p) >> below(from, count)) & ones;
    }

    template <unsigned count>
    static void store_one(Element *p, unsigned from, unsigned number) {
        const unsigned up = below(from, count);
        const Wide word = (joined<count>(p) & ~(Wide(ones) << up)) | Wide(number) << up;
        for (unsigned i = 0; i < count; ++i)
            p[i] = Element(word >> shift(i, count));
    }

    // The sum of the numbers of `count` fields from the bit `start` on.
    [[gnu::noinline]] static size_t load(const Element *p, size_t start, size_t count) {
        size_t sum = 0;
        for (size_t i = 0; i < count; ++i) {
            const size_t place = start + field * i;
            const unsigned from = place % width;
            const Element *first = p + place / width;
            sum += is_early(from) ? load_one<few>(first, from) : load_one<few + 1>(first, from);
        }
        return sum;
    }

    // Stores its index in each of `count` fields from the bit `start` on.
    [[gnu::noinline]] static void store(Element *p, size_t start, size_t count) {
        for (size_t i = 0; i < count; ++i) {
            const size_t place = start + field * i;
            const unsigned from = place % width;
            Element *first = p + place / width;
            if (is_early(from))
                store_one<few>(first, from, unsigned(i) & ones);
            else
                store_one<few + 1>(first, from, unsigned(i) & ones);
        }
    }
};
