// Algorithms of <algorithm> on places of one memory, by calls on all bits between them in place of one step a bit, and
// what the library has for a type: its hash, and what it is among ranges.
#ifndef FEHIMBARY_ALGORITHMS_HPP
#define FEHIMBARY_ALGORITHMS_HPP

#include "own_bits.hpp"

#include <array>

namespace fehimbary {

// What a bit is compared with, as by `==` of bool.
template <class Value>
using Number = std::enable_if_t<std::is_arithmetic_v<Value>>;

template <class Element, class Order, class Value, class = Number<Value>>
std::ptrdiff_t count(BitIterator<Element, Order> first, BitIterator<Element, Order> last, const Value &value) {
    const Bits<Element, Order> bits(first, last);
    const std::size_t found = value == Value(true) ? bits.count_ones() : value == Value(false) ? bits.count_zeros() : 0;
    return static_cast<std::ptrdiff_t>(found);
}

template <class Element, class Order, class Value, class = Number<Value>>
BitIterator<Element, Order> find(BitIterator<Element, Order> first, BitIterator<Element, Order> last, const Value &value) {
    const Bits<Element, Order> bits(first, last);
    std::optional<std::size_t> index;
    if (value == Value(true))
        index = bits.first_one();
    else if (value == Value(false))
        index = bits.first_zero();
    return first + static_cast<std::ptrdiff_t>(index.value_or(bits.size()));
}

template <class Element, class Order, class Value, class = Number<Value>>
void fill(BitIterator<Element, Order> first, BitIterator<Element, Order> last, const Value &value) {
    Bits<Element, Order>(first, last).fill(static_cast<bool>(value));
}

template <class Element, class Order>
void sort(BitIterator<Element, Order> first, BitIterator<Element, Order> last) {
    const Bits<Element, Order> bits(first, last);
    const std::size_t zeros = bits.count_zeros();
    bits.part(0, zeros).fill(false);
    bits.part(zeros, bits.size()).fill(true);
}

template <class From, class To, class Order>
using Alike = std::enable_if_t<std::is_same_v<std::remove_const_t<From>, std::remove_const_t<To>>, BitIterator<To, Order>>;

// Copies also where the two overlap.
template <class From, class To, class Order>
Alike<From, To, Order> copy(BitIterator<From, Order> first, BitIterator<From, Order> last, BitIterator<To, Order> dest) {
    const Bits<From, Order> bits(first, last);
    const BitIterator<To, Order> end = dest + (last - first);
    Bits<To, Order>(dest, end).copy_from(bits);
    return end;
}

template <class Left, class Right, class Order, class = Alike<Left, Right, Order>>
bool equal(BitIterator<Left, Order> first, BitIterator<Left, Order> last, BitIterator<Right, Order> right) {
    return Bits<Left, Order>(first, last) == Bits<Right, Order>(right, right + (last - first));
}

// Equal bits of the same elements and order have the same.
template <class Element, class Order>
std::size_t hash_of(Bits<const Element, Order> bits) {
    std::array<Element, 64> block{};
    constexpr std::size_t width = 8 * sizeof(Element), most = 64 * width;
    std::size_t hash = bits.size();
    for (std::size_t from = 0; from < bits.size(); from += most) {
        const std::size_t to = from + std::min<std::size_t>(most, bits.size() - from);
        Bits<Element, Order>(block).part(0, to - from).copy_from(bits.part(from, to));
        const std::size_t bytes = (to - from + width - 1) / width * sizeof(Element);
        hash = 31 * hash + std::hash<std::string_view>()({reinterpret_cast<const char *>(block.data()), bytes});
    }
    return hash;
}

} // namespace fehimbary

// std has these for std::vector<bool>, and finds them here for other bits. By the letter of the standard a program may not
// add a function to std; with FEHIMBARY_NOT_IN_STD none is added, and they are found where they are called without `std::`.
#ifndef FEHIMBARY_NOT_IN_STD
namespace std {
using fehimbary::copy;
using fehimbary::count;
using fehimbary::equal;
using fehimbary::fill;
using fehimbary::find;
using fehimbary::sort;
using fehimbary::swap;
} // namespace std
#endif

template <class Element, class Order>
struct std::hash<fehimbary::Bits<Element, Order>> {
    std::size_t operator()(fehimbary::Bits<const Element, Order> bits) const { return fehimbary::hash_of(bits); }
};
template <class Element, class Order>
struct std::hash<fehimbary::OwnBits<Element, Order>> {
    std::size_t operator()(const fehimbary::OwnBits<Element, Order> &bits) const { return fehimbary::hash_of(bits.view()); }
};

// A view and its ones are views as those of <ranges>, whose iterators outlive them.
#ifdef __cpp_lib_ranges
template <class Element, class Order>
inline constexpr bool std::ranges::enable_view<fehimbary::Bits<Element, Order>> = true;
template <class Element, class Order>
inline constexpr bool std::ranges::enable_borrowed_range<fehimbary::Bits<Element, Order>> = true;
template <class Element, class Order>
inline constexpr bool std::ranges::enable_view<fehimbary::Ones<Element, Order>> = true;
template <class Element, class Order>
inline constexpr bool std::ranges::enable_borrowed_range<fehimbary::Ones<Element, Order>> = true;
#endif

#endif
