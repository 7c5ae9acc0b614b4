// Views of bits that stand together in a memory, and the operators on them.
#ifndef FEHIMBARY_BITS_HPP
#define FEHIMBARY_BITS_HPP

#include "iterator.hpp"
#include "refused.hpp"

#include <algorithm>
#include <functional>
#include <optional>
#include <ostream>

namespace fehimbary {

// The right bits of a call, which may also be bits that end with it.
template <class Element, class Order>
class Operand : public Bits<const Element, Order> {
    using Seen = Bits<const Element, Order>;

  public:
    Operand(Seen bits) noexcept : Seen(bits) {}
    Operand(Bits<Element, Order> bits) noexcept : Seen(bits) {}
    Operand(const OwnBits<Element, Order> &bits) noexcept : Seen(bits.view()) {}
};

// The operators on two operands, of which at least one is a view or has a memory of its own: a base of both.
template <class Element, class Order>
class Operators {
    using Right = Operand<Element, Order>;
    using Own = OwnBits<Element, Order>;

  public:
    // Bits with a memory of their own, as long as the left ones; `-` clears those where the right one is 1.
    friend Own operator&(Right a, Right b) { return made(a, [&](auto bits) { bits &= b; }); }
    friend Own operator|(Right a, Right b) { return made(a, [&](auto bits) { bits |= b; }); }
    friend Own operator^(Right a, Right b) { return made(a, [&](auto bits) { bits ^= b; }); }
    friend Own operator-(Right a, Right b) { return made(a, [&](auto bits) { bits -= b; }); }
    friend Own operator<<(Right a, std::size_t by) { return made(a, [&](auto bits) { bits <<= by; }); }
    friend Own operator>>(Right a, std::size_t by) { return made(a, [&](auto bits) { bits >>= by; }); }
    friend Own operator~(Right a) { return made(a, [](auto bits) { bits.invert(); }); }

    friend std::ostream &operator<<(std::ostream &out, Right a) { return out << a.to_string(); }

  private:
    template <class Edit>
    static Own made(Right a, Edit edit) {
        Own copy(a);
        edit(copy.view());
        return copy;
    }
};

// Bits that stand together in a memory, a range of them. Who has the view may write, as with a pointer, also where the
// view itself is const; `Bits<const Element>` is only read.
template <class Element, class Order = Lsb0>
class Bits : public Operators<std::remove_const_t<Element>, Order> {
    using Value = std::remove_const_t<Element>;
    using Call = CallsOf<Value>;
    using Word = typename Call::Word;
    using Seen = Bits<const Value, Order>;
    using Right = Operand<Value, Order>;
    using Own = OwnBits<Value, Order>;
    static constexpr std::size_t width = 8 * sizeof(Value);

    // What has its elements, of this type, behind one another: a vector, an array.
    template <class Container>
    using Held = std::remove_pointer_t<decltype(std::data(std::declval<Container &>()))>;

  public:
    using value_type = bool;
    using iterator = BitIterator<Element, Order>;
    using const_iterator = BitIterator<const Value, Order>;
    using reverse_iterator = std::reverse_iterator<iterator>;
    using const_reverse_iterator = std::reverse_iterator<const_iterator>;
    using reference = typename iterator::reference;
    using const_reference = bool;
    using size_type = std::size_t;
    using difference_type = std::ptrdiff_t;

    Bits() = default;

    // All bits of so many elements.
    Bits(Element *of, std::size_t number) : elements(of), len(number * width) {
        if (number > FB_MAX_BITS / width)
            throw Refused(FB_SIZE, std::to_string(number) + " elements");
    }

    // All bits of a vector, a std::array or an array.
    template <class Container, class = std::enable_if_t<std::is_convertible_v<Held<Container> (*)[], Element (*)[]>>>
    Bits(Container &container) : Bits(std::data(container), std::size(container)) {}

#ifdef __cpp_lib_span
    Bits(std::span<Element> of) : Bits(of.data(), of.size()) {}
#endif

    // The bits from one place of a memory up to, without, another one of it.
    Bits(iterator first, iterator last)
        : elements(first.elements + first.place / width), start(first.place % width), len(last.place - first.place) {
        if (last < first)
            throw Refused(FB_RANGE, "the last place is before the first");
    }

    // What may be written may be read.
    template <class Other, class = std::enable_if_t<std::is_same_v<Element, const Other>>>
    Bits(Bits<Other, Order> other) noexcept : elements(other.elements), start(other.start), len(other.len) {}

    // The bits that others have, while these are there.
    Bits(std::conditional_t<std::is_const_v<Element>, const Own, Own> &own) noexcept : Bits(own.view()) {}
    Bits(Own &&) = delete;

    std::size_t size() const noexcept { return len; }
    [[nodiscard]] bool empty() const noexcept { return len == 0; }

    iterator begin() const noexcept { return iterator(elements, start); }
    iterator end() const noexcept { return iterator(elements, start + len); }
    const_iterator cbegin() const noexcept { return begin(); }
    const_iterator cend() const noexcept { return end(); }
    reverse_iterator rbegin() const noexcept { return reverse_iterator(end()); }
    reverse_iterator rend() const noexcept { return reverse_iterator(begin()); }
    const_reverse_iterator crbegin() const noexcept { return const_reverse_iterator(cend()); }
    const_reverse_iterator crend() const noexcept { return const_reverse_iterator(cbegin()); }

    // The bits from `from` up to, without, `to`, as a view of their own.
    Bits part(std::size_t from, std::size_t to) const {
        if (from > to || to > len)
            refuse(FB_RANGE, from, to, len);
        const std::size_t first = start + from;
        return Bits(elements + first / width, first % width, to - from);
    }

    reference operator[](std::size_t index) const {
        if (index >= len)
            refuse(FB_INDEX, index, len);
        return *iterator(elements, start + index);
    }
    reference at(std::size_t index) const { return (*this)[index]; }
    reference front() const { return (*this)[0]; }
    reference back() const { return (*this)[len - (len != 0)]; }
    bool test(std::size_t index) const { return (*this)[index]; }
    void set(std::size_t index, bool bit = true) const { writable((*this)[index]) = bit; }
    void reset(std::size_t index) const { set(index, false); }
    void flip(std::size_t index) const { writable((*this)[index]).flip(); }
    bool replace(std::size_t index, bool bit) const {
        const bool old = test(index);
        set(index, bit);
        return old;
    }
    void swap_bits(std::size_t first, std::size_t second) const {
        const bool bit = test(second);
        set(second, replace(first, bit));
    }

    void set() const noexcept { fill(true); }
    void reset() const noexcept { fill(false); }
    void flip() const noexcept { invert(); }
    void fill(bool bit) const noexcept { edit(Call::fill, bit); }
    void invert() const noexcept { edit(Call::invert); }
    void reverse() const noexcept { edit(Call::reverse); }
    void shift_start(std::size_t by) const { edit_of(by, Call::shift_start, by); }
    void shift_end(std::size_t by) const { edit_of(by, Call::shift_end, by); }
    void rotate_left(std::size_t by) const { edit_of(by, Call::rotate_left, by); }
    void rotate_right(std::size_t by) const { edit_of(by, Call::rotate_right, by); }
    void copy_within(std::size_t from, std::size_t to, std::size_t dest) const {
        edit_of(from <= to && to <= len ? dest : to, Call::copy_within, from, to, dest);
    }

    // Every so many bits from the first one on: written, and copied from every so many right ones, which are as many.
    void fill_step(std::size_t step, bool bit) const { edit_of(step, Call::fill_step, step, bit); }
    void copy_step(std::size_t step, Right right, std::size_t right_step = 1) const {
        edit_by(Call::copy_step, right, step, right_step);
    }

    void copy_from(Right right) const { edit_by(Call::copy, right); }
    const Bits &operator&=(Right right) const {
        return combine(Call::and_with, right, [](Word a, Word b) { return a & b; });
    }
    const Bits &operator|=(Right right) const {
        return combine(Call::or_with, right, [](Word a, Word b) { return a | b; });
    }
    const Bits &operator^=(Right right) const {
        return combine(Call::xor_with, right, [](Word a, Word b) { return a ^ b; });
    }

    // Clears each bit where the right one at its index is 1.
    const Bits &and_not(Right right) const {
        return combine(Call::and_not, right, [](Word a, Word b) { return a & ~b; });
    }
    const Bits &operator-=(Right right) const { return and_not(right); }

    const Bits &operator<<=(std::size_t by) const noexcept { return edit(Call::shift_start, std::min(by, len)); }
    const Bits &operator>>=(std::size_t by) const noexcept { return edit(Call::shift_end, std::min(by, len)); }

    // Exchanges the bits. Refused as FB_RIGHT where some are of both.
    void swap(Bits right) const {
        if (meets(right))
            refuse(FB_RIGHT, right.len, len);
        if (!shares(right)) {
            edit_of(right.len, Call::swap, words_of(right.elements), right.element_count(), right.start, right.len);
        } else {
            const Own copy(*this);
            copy_from(right);
            right.copy_from(copy);
        }
    }

    std::size_t count() const noexcept { return count_ones(); }
    std::size_t count_ones() const noexcept { return ask<std::size_t>(Call::count_ones); }
    std::size_t count_zeros() const noexcept { return ask<std::size_t>(Call::count_zeros); }
    std::optional<std::size_t> first_one() const noexcept { return find(Call::first_one); }
    std::optional<std::size_t> first_zero() const noexcept { return find(Call::first_zero); }
    std::optional<std::size_t> last_one() const noexcept { return find(Call::last_one); }
    std::optional<std::size_t> last_zero() const noexcept { return find(Call::last_zero); }
    bool any() const noexcept { return ask<bool>(Call::any); }
    bool all() const noexcept { return ask<bool>(Call::all); }
    bool none() const noexcept { return !any(); }
    std::size_t count_step(std::size_t step) const { return ask<std::size_t>(Call::count_step, step); }

    // The indices of the ones: a range of them, or as the C function writes them.
    Ones<Value, Order> ones() const noexcept { return Ones<Value, Order>(*this); }
    std::size_t ones(std::size_t from, std::size_t *indices, std::size_t room) const {
        if (from > len)
            refuse(FB_INDEX, from, len);
        return ask<std::size_t>(Call::ones, from, indices, room);
    }

    bool equal(Right right) const noexcept { return ask_with<bool>(Call::equal, right); }
    int compare(Right right) const noexcept { return ask_with<std::int32_t>(Call::compare, right); }
    bool starts_with(Right right) const noexcept { return ask_with<bool>(Call::starts_with, right); }
    bool ends_with(Right right) const noexcept { return ask_with<bool>(Call::ends_with, right); }
    bool contains(Right right) const noexcept { return ask_with<bool>(Call::contains, right); }
    std::size_t count_and(Right right) const noexcept { return ask_with<std::size_t>(Call::count_and, right); }
    std::size_t count_xor(Right right) const noexcept { return ask_with<std::size_t>(Call::count_xor, right); }
    bool intersects(Right right) const noexcept { return !ask_with<bool>(Call::disjoint, right); }
    bool is_subset_of(Right right) const noexcept { return ask_with<bool>(Call::subset, right); }

    // The bits as digits.
    std::string to_string() const {
        std::string digits(len, '0');
        for (std::size_t index = 0; index < len; ++index)
            digits[index] = static_cast<char>('0' + Single<Value, Order>::get(elements, start + index));
        return digits;
    }

    std::uint64_t load_le() const { return ask<std::uint64_t>(Call::load_le); }
    std::uint64_t load_be() const { return ask<std::uint64_t>(Call::load_be); }
    void store_le(std::uint64_t number) const { edit(Call::store_le, number); }
    void store_be(std::uint64_t number) const { edit(Call::store_be, number); }

    // Refused as FB_RIGHT where the right elements are some of these.
    void run(const Value *right, std::size_t right_count, const fb_step *steps, std::size_t step_count,
             fb_reply *replies, std::size_t reply_count) const {
        if (apart(right, right_count))
            edit(Call::run, words_of(right), right_count, steps, step_count, replies, reply_count);
        else
            refuse(FB_RIGHT, len);
    }

  private:
    template <class, class>
    friend class Bits;
    template <class, class>
    friend class OwnBits;

    // The first bit is bit `start` of the first element, and is one of it.
    Element *elements = nullptr;
    std::size_t start = 0, len = 0;

    Bits(Element *of, std::size_t from, std::size_t size) noexcept : elements(of), start(from), len(size) {}

    // How many elements there are up to the one with the last bit.
    std::size_t element_count() const noexcept { return (start + len + width - 1) / width; }

    // Whether other elements are none of these; whether right bits have elements in common with these, or bits.
    bool apart(const Value *other, std::size_t number) const noexcept {
        const std::less<const Value *> before{};
        return number == 0 || len == 0 || !before(elements, other + number) || !before(other, elements + element_count());
    }
    bool shares(Seen right) const noexcept { return !apart(right.elements, right.element_count()); }
    bool meets(Seen right) const noexcept {
        if (!shares(right))
            return false;
        const auto from = (right.elements - elements) * static_cast<difference_type>(width) +
                          static_cast<difference_type>(right.start) - static_cast<difference_type>(start);
        return from < static_cast<difference_type>(len) && -from < static_cast<difference_type>(right.len);
    }

    template <class Bit>
    static Bit writable(Bit bit) noexcept {
        static_assert(!std::is_const_v<Element>, "a view of const elements is only read");
        return bit;
    }

    template <class Function, class... Arguments>
    fb_status status(Function function, Arguments... arguments) const noexcept {
        return function(Order::order, words_of(elements), element_count(), start, len, arguments...);
    }

    template <class Function, class... Arguments>
    fb_status try_edit(Function function, Arguments... arguments) const noexcept {
        static_assert(!std::is_const_v<Element>, "a view of const elements is only read");
        if constexpr (!std::is_const_v<Element>)
            return status(function, arguments...);
        return FB_DONE;
    }

    void check(fb_status said) const {
        if (said != FB_DONE)
            refuse(said, len);
    }

    template <class Function, class... Arguments>
    const Bits &edit(Function function, Arguments... arguments) const {
        return check(try_edit(function, arguments...)), *this;
    }

    // An edit that is refused for a number.
    template <class Function, class... Arguments>
    const Bits &edit_of(std::size_t number, Function function, Arguments... arguments) const {
        if (const fb_status said = try_edit(function, arguments...); said != FB_DONE)
            refuse(said, number, len);
        return *this;
    }

    // An edit by right bits, which are copied where they share elements with these.
    template <class Function, class... Arguments>
    const Bits &edit_by(Function function, Seen right, Arguments... arguments) const {
        if (!shares(right))
            return edit_of(right.len, function, words_of(right.elements), right.element_count(), right.start, right.len, arguments...);
        const Own copy(right);
        return edit_by(function, copy.view(), arguments...);
    }

    // An edit of each bit by the right one. Where both sides lie at the same bits of an element, their words do it.
    template <class Function, class Words>
    const Bits &combine(Function function, Seen right, Words words) const {
        if constexpr (!std::is_const_v<Element>)
            if (len - 1 < width - start && right.start == start && right.len >= len) {
                const Word word = static_cast<Word>(*elements), other = static_cast<Word>(*right.elements);
                const Word only = Single<Value, Order>::mask(start, len);
                *elements = static_cast<Element>(static_cast<Word>((word & ~only) | (words(word, other) & only)));
                return *this;
            }
        return edit_by(function, right);
    }

    template <class Answer, class Function, class... Arguments>
    Answer ask(Function function, Arguments... arguments) const {
        Answer answer{};
        check(status(function, arguments..., &answer));
        return answer;
    }

    template <class Answer, class Function>
    Answer ask_with(Function function, const Seen &right) const noexcept {
        return ask<Answer>(function, words_of(right.elements), right.element_count(), right.start, right.len);
    }

    template <class Function>
    std::optional<std::size_t> find(Function function) const noexcept {
        std::size_t index = 0;
        return status(function, &index) == FB_DONE ? std::optional(index) : std::nullopt;
    }
};

template <class Element>
Bits(Element *, std::size_t) -> Bits<Element>;

template <class Container>
Bits(Container &) -> Bits<std::remove_pointer_t<decltype(std::data(std::declval<Container &>()))>>;

#ifdef __cpp_lib_span
template <class Element, std::size_t count>
Bits(std::span<Element, count>) -> Bits<Element>;
#endif

} // namespace fehimbary

#endif
