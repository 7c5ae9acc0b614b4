// The two orders, the C functions by the size of an element, and what is so short that a call would take longer.
#ifndef FEHIMBARY_ELEMENTS_HPP
#define FEHIMBARY_ELEMENTS_HPP

#include "../fehimbary.h"

#include <cstddef>
#include <cstdint>
#include <type_traits>

#if __cplusplus >= 202002L
#include <compare>
#include <ranges>
#include <span>
#endif

namespace fehimbary {

// The least significant bit of an element comes first.
struct Lsb0 {
    static constexpr fb_order order = FB_LSB0;

    // How many bits of an element of `width` bits are less significant than all of the `len` bits from `from` on.
    static constexpr std::size_t below(std::size_t, std::size_t from, std::size_t) noexcept { return from; }
};

// The most significant bit of an element comes first.
struct Msb0 {
    static constexpr fb_order order = FB_MSB0;

    static constexpr std::size_t below(std::size_t width, std::size_t from, std::size_t len) noexcept {
        return width - from - len;
    }
};

// The C functions of elements of so many bytes, which they take as the type `Word`.
template <std::size_t bytes>
struct Functions;

#define FB_IS(type, stem) static constexpr auto stem = fb_##type##_##stem;
#define FEHIMBARY_FUNCTIONS(Number, type)                                                                             \
    template <>                                                                                                       \
    struct Functions<sizeof(Number)> {                                                                                \
        using Word = Number;                                                                                          \
        static constexpr auto and_with = fb_##type##_and, or_with = fb_##type##_or, xor_with = fb_##type##_xor;       \
        FB_IS(type, fill) FB_IS(type, fill_step) FB_IS(type, invert) FB_IS(type, reverse) FB_IS(type, shift_start)    \
        FB_IS(type, shift_end) FB_IS(type, rotate_left) FB_IS(type, rotate_right) FB_IS(type, copy_within)            \
        FB_IS(type, copy) FB_IS(type, copy_step) FB_IS(type, swap) FB_IS(type, and_not) FB_IS(type, any)              \
        FB_IS(type, all) FB_IS(type, count_ones) FB_IS(type, count_zeros) FB_IS(type, count_step)                     \
        FB_IS(type, first_one) FB_IS(type, first_zero) FB_IS(type, last_one) FB_IS(type, last_zero)                   \
        FB_IS(type, ones) FB_IS(type, equal) FB_IS(type, compare) FB_IS(type, starts_with) FB_IS(type, ends_with)     \
        FB_IS(type, contains) FB_IS(type, count_and) FB_IS(type, count_xor) FB_IS(type, disjoint)                     \
        FB_IS(type, subset) FB_IS(type, load_le) FB_IS(type, load_be) FB_IS(type, store_le) FB_IS(type, store_be)     \
        FB_IS(type, run) FB_IS(type, get) FB_IS(type, set)                                                            \
    };

FEHIMBARY_FUNCTIONS(std::uint8_t, u8)
FEHIMBARY_FUNCTIONS(std::uint16_t, u16)
FEHIMBARY_FUNCTIONS(std::uint32_t, u32)
FEHIMBARY_FUNCTIONS(std::uint64_t, u64)
#undef FEHIMBARY_FUNCTIONS
#undef FB_IS

// Elements are integers of any type but bool, or std::byte.
template <class Element>
using CallsOf = Functions<sizeof(std::enable_if_t<
    (std::is_integral_v<Element> && !std::is_same_v<Element, bool>) || std::is_same_v<Element, std::byte>, Element>)>;

// The elements as the C functions take them.
template <class Element>
auto words_of(Element *elements) {
    using Word = typename CallsOf<std::remove_const_t<Element>>::Word;
    return reinterpret_cast<std::conditional_t<std::is_const_v<Element>, const Word, Word> *>(elements);
}

// The bits of one element by shift and mask, as the C functions read and write them.
template <class Element, class Order>
struct Single {
    using Word = typename CallsOf<Element>::Word;
    static constexpr std::size_t width = 8 * sizeof(Element);

    // The `len` bits from `from` on are ones, of which there is at least one.
    static constexpr Word mask(std::size_t from, std::size_t len) noexcept {
        const Word lowest = static_cast<Word>(static_cast<Word>(~Word{0}) >> (width - len));
        return static_cast<Word>(lowest << Order::below(width, from, len));
    }

    static constexpr bool get(const Element *elements, std::size_t place) noexcept {
        const Word word = static_cast<Word>(elements[place / width]);
        return (word >> Order::below(width, place % width, 1)) & 1;
    }

    static constexpr void set(Element *elements, std::size_t place, bool bit) noexcept {
        set_only(elements[place / width], mask(place % width, 1), bit);
    }

    // Gives the bits of a mask one value.
    static constexpr void set_only(Element &element, Word only, bool bit) noexcept {
        const Word word = static_cast<Word>(element);
        if (bit)
            element = static_cast<Element>(static_cast<Word>(word | only));
        else
            element = static_cast<Element>(static_cast<Word>(word & ~only));
    }
};

} // namespace fehimbary

#endif
