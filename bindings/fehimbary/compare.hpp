// Comparisons of views and of bits with a memory of their own, also of other elements and of the other order: as words in
// a dictionary, 0 before 1, and bits before those that they begin.
#ifndef FEHIMBARY_COMPARE_HPP
#define FEHIMBARY_COMPARE_HPP

#include "bits.hpp"

namespace fehimbary {

template <class Element, class Order>
Bits<const Element, Order> seen(const Bits<Element, Order> &bits) noexcept { return bits; }
template <class Element, class Order>
Bits<const Element, Order> seen(const OwnBits<Element, Order> &bits) noexcept { return bits.view(); }

// Views and bits with a memory of their own, and not what converts to them.
template <class Either>
using SeenOf = decltype(seen(std::declval<const Either &>()));

// The first bits, at most 64 of them and at least one, as a number of which the first bit is the highest.
template <class Element, class Order>
std::uint64_t first_highest(Bits<const Element, Order> bits) {
    if constexpr (Order::order == FB_MSB0)
        return bits.load_be();
    std::uint64_t number = bits.load_le();
    Bits<std::uint64_t>(&number, 1).part(0, bits.size()).reverse();
    return number;
}

// Gives the bits such a number, as first_highest reads it.
template <class Element, class Order>
void store_first_highest(Bits<Element, Order> bits, std::uint64_t number) {
    if constexpr (Order::order == FB_MSB0)
        return bits.store_be(number);
    Bits<std::uint64_t>(&number, 1).part(0, bits.size()).reverse();
    bits.store_le(number);
}

// -1 where the left bits come before the right ones, 0 where they are the same, 1 where they come behind.
template <class Left, class LeftOrder, class Right, class RightOrder>
int compare(Bits<const Left, LeftOrder> left, Bits<const Right, RightOrder> right) noexcept {
    if constexpr (std::is_same_v<Left, Right> && std::is_same_v<LeftOrder, RightOrder>)
        return left.compare(right);
    const std::size_t common = std::min(left.size(), right.size());
    for (std::size_t from = 0; from < common; from += 64) {
        const std::size_t to = from + std::min<std::size_t>(64, common - from);
        const std::uint64_t a = first_highest(left.part(from, to)), b = first_highest(right.part(from, to));
        if (a != b)
            return a < b ? -1 : 1;
    }
    return left.size() < right.size() ? -1 : left.size() > right.size();
}

template <class Left, class Right, class = SeenOf<Left>, class = SeenOf<Right>>
bool operator==(const Left &left, const Right &right) noexcept {
    if constexpr (std::is_same_v<SeenOf<Left>, SeenOf<Right>>)
        return seen(left).equal(seen(right));
    return left.size() == right.size() && compare(seen(left), seen(right)) == 0;
}

#ifdef __cpp_lib_three_way_comparison
template <class Left, class Right, class = SeenOf<Left>, class = SeenOf<Right>>
std::strong_ordering operator<=>(const Left &left, const Right &right) noexcept {
    return compare(seen(left), seen(right)) <=> 0;
}
#else
template <class Left, class Right, class = SeenOf<Left>, class = SeenOf<Right>>
bool operator!=(const Left &left, const Right &right) noexcept { return !(left == right); }
template <class Left, class Right, class = SeenOf<Left>, class = SeenOf<Right>>
bool operator<(const Left &left, const Right &right) noexcept { return compare(seen(left), seen(right)) < 0; }
template <class Left, class Right, class = SeenOf<Left>, class = SeenOf<Right>>
bool operator>(const Left &left, const Right &right) noexcept { return right < left; }
template <class Left, class Right, class = SeenOf<Left>, class = SeenOf<Right>>
bool operator<=(const Left &left, const Right &right) noexcept { return !(right < left); }
template <class Left, class Right, class = SeenOf<Left>, class = SeenOf<Right>>
bool operator>=(const Left &left, const Right &right) noexcept { return !(left < right); }
#endif

} // namespace fehimbary

#endif
