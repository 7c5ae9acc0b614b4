// Bits with a memory of their own.
#ifndef FEHIMBARY_OWN_BITS_HPP
#define FEHIMBARY_OWN_BITS_HPP

#include "compare.hpp"

#include <initializer_list>
#include <istream>
#include <stdexcept>
#include <string_view>
#include <vector>

namespace fehimbary {

// Bits with a memory of their own, a sequence that grows; what else views do, `view()` does.
template <class Element, class Order = Lsb0>
class OwnBits : public Operators<Element, Order> {
    using View = Bits<Element, Order>;
    using Seen = Bits<const Element, Order>;
    using Right = Operand<Element, Order>;
    static constexpr std::size_t width = 8 * sizeof(Element);

    template <class Iterator>
    using OfRange = typename std::iterator_traits<Iterator>::iterator_category;
    template <class Other>
    using OfOthers = std::enable_if_t<!std::is_same_v<SeenOf<Other>, Seen>>;

  public:
    using value_type = bool;
    using iterator = typename View::iterator;
    using const_iterator = typename Seen::iterator;
    using reverse_iterator = std::reverse_iterator<iterator>;
    using const_reverse_iterator = std::reverse_iterator<const_iterator>;
    using reference = typename View::reference;
    using const_reference = bool;
    using size_type = std::size_t;
    using difference_type = std::ptrdiff_t;

    OwnBits() = default;

    // So many bits of one value.
    template <class Size, class = std::enable_if_t<std::is_integral_v<Size> && !std::is_same_v<Size, bool>>>
    explicit OwnBits(Size size, bool bit = false) {
        resize(static_cast<std::size_t>(size), bit);
    }

    // A copy of bits.
    explicit OwnBits(Right bits) { append(bits); }

    // A copy of bits of other elements, or of the other order.
    template <class Other, class = OfOthers<Other>>
    explicit OwnBits(const Other &other) : OwnBits(other.size()) {
        for (std::size_t from = 0; from < len; from += 64) {
            const std::size_t to = from + std::min<std::size_t>(64, len - from);
            store_first_highest(view().part(from, to), first_highest(seen(other).part(from, to)));
        }
    }

    // The bits of a text of 0 and 1. std::invalid_argument: another character.
    explicit OwnBits(std::string_view digits) : OwnBits(digits.size()) {
        for (std::size_t index = 0; index < digits.size(); ++index)
            if (digits[index] == '1')
                set(index);
            else if (digits[index] != '0')
                throw std::invalid_argument("a digit that is neither 0 nor 1");
    }
    explicit OwnBits(const char *digits) : OwnBits(std::string_view(digits)) {}

    // The bits of a range of truth values.
    template <class Iterator, class = OfRange<Iterator>>
    OwnBits(Iterator first, Iterator last) {
        if constexpr (std::is_same_v<Iterator, iterator> || std::is_same_v<Iterator, const_iterator>)
            append(Seen(first, last));
        else
            for (; first != last; ++first)
                push_back(static_cast<bool>(*first));
    }
    OwnBits(std::initializer_list<bool> bits) : OwnBits(bits.begin(), bits.end()) {}

    OwnBits(const OwnBits &) = default;
    OwnBits &operator=(const OwnBits &) = default;
    OwnBits(OwnBits &&other) noexcept : elements(std::move(other.elements)), len(std::exchange(other.len, 0)) {
        other.elements.clear();
    }
    OwnBits &operator=(OwnBits &&other) noexcept {
        OwnBits(std::move(other)).swap(*this);
        return *this;
    }
    void swap(OwnBits &other) noexcept {
        elements.swap(other.elements);
        std::swap(len, other.len);
    }
    friend void swap(OwnBits &a, OwnBits &b) noexcept { a.swap(b); }

    void assign(std::size_t size, bool bit) { OwnBits(size, bit).swap(*this); }
    void assign(std::initializer_list<bool> bits) { OwnBits(bits).swap(*this); }
    template <class Iterator, class = OfRange<Iterator>>
    void assign(Iterator first, Iterator last) {
        OwnBits(first, last).swap(*this);
    }

    // All bits, as a view that is good until they change their number.
    View view() & noexcept { return View(elements.data(), 0, len); }
    Seen view() const & noexcept { return Seen(elements.data(), 0, len); }
    void view() && = delete;
    void view() const && = delete;

    // The elements: the bits are the first ones of theirs, and what the others are is left open.
    Element *data() & noexcept { return elements.data(); }
    const Element *data() const & noexcept { return elements.data(); }
    void data() && = delete;
    void data() const && = delete;

    std::size_t size() const noexcept { return len; }
    [[nodiscard]] bool empty() const noexcept { return len == 0; }
    std::size_t max_size() const noexcept { return std::min<std::size_t>(elements.max_size(), FB_MAX_BITS / width) * width; }
    std::size_t capacity() const noexcept { return elements.capacity() * width; }
    void reserve(std::size_t size) { elements.reserve(elements_of(size)); }
    void shrink_to_fit() {
        elements.resize(elements_of(len));
        elements.shrink_to_fit();
    }

    iterator begin() & noexcept { return view().begin(); }
    iterator end() & noexcept { return view().end(); }
    const_iterator begin() const & noexcept { return view().begin(); }
    const_iterator end() const & noexcept { return view().end(); }
    const_iterator cbegin() const & noexcept { return begin(); }
    const_iterator cend() const & noexcept { return end(); }
    reverse_iterator rbegin() & noexcept { return view().rbegin(); }
    reverse_iterator rend() & noexcept { return view().rend(); }
    const_reverse_iterator rbegin() const & noexcept { return view().rbegin(); }
    const_reverse_iterator rend() const & noexcept { return view().rend(); }
    const_reverse_iterator crbegin() const & noexcept { return rbegin(); }
    const_reverse_iterator crend() const & noexcept { return rend(); }
    void begin() && = delete;
    void end() && = delete;
    void rbegin() && = delete;
    void rend() && = delete;

    reference operator[](std::size_t index) { return view()[index]; }
    bool operator[](std::size_t index) const { return view()[index]; }
    reference at(std::size_t index) { return view()[index]; }
    bool at(std::size_t index) const { return view()[index]; }
    reference front() { return view().front(); }
    bool front() const { return view().front(); }
    reference back() { return view().back(); }
    bool back() const { return view().back(); }
    bool test(std::size_t index) const { return view()[index]; }

    OwnBits &set() noexcept { return view().set(), *this; }
    OwnBits &reset() noexcept { return view().reset(), *this; }
    OwnBits &flip() noexcept { return view().flip(), *this; }
    OwnBits &set(std::size_t index, bool bit = true) { return view().set(index, bit), *this; }
    OwnBits &reset(std::size_t index) { return view().reset(index), *this; }
    OwnBits &flip(std::size_t index) { return view().flip(index), *this; }

    std::size_t count() const noexcept { return view().count(); }
    std::size_t count_ones() const noexcept { return view().count_ones(); }
    std::size_t count_zeros() const noexcept { return view().count_zeros(); }
    bool any() const noexcept { return view().any(); }
    bool all() const noexcept { return view().all(); }
    bool none() const noexcept { return view().none(); }
    std::optional<std::size_t> first_one() const noexcept { return view().first_one(); }
    std::optional<std::size_t> first_zero() const noexcept { return view().first_zero(); }
    std::optional<std::size_t> last_one() const noexcept { return view().last_one(); }
    std::optional<std::size_t> last_zero() const noexcept { return view().last_zero(); }
    Ones<Element, Order> ones() const & noexcept { return view().ones(); }
    void ones() const && = delete;
    bool intersects(Right right) const noexcept { return view().intersects(right); }
    bool is_subset_of(Right right) const noexcept { return view().is_subset_of(right); }
    std::string to_string() const { return view().to_string(); }

    OwnBits &operator&=(Right right) { return view() &= right, *this; }
    OwnBits &operator|=(Right right) { return view() |= right, *this; }
    OwnBits &operator^=(Right right) { return view() ^= right, *this; }
    OwnBits &operator-=(Right right) { return view() -= right, *this; }
    OwnBits &operator<<=(std::size_t by) noexcept { return view() <<= by, *this; }
    OwnBits &operator>>=(std::size_t by) noexcept { return view() >>= by, *this; }

    // Reads digits up to another character, as a text is read: blanks before them are skipped, and `width()` is the most.
    friend std::istream &operator>>(std::istream &in, OwnBits &bits) {
        const std::istream::sentry ready(in);
        if (!ready)
            return in;
        OwnBits read;
        const std::size_t most = in.width() > 0 ? static_cast<std::size_t>(in.width()) : FB_MAX_BITS;
        for (int digit = 0; read.len < most && ((digit = in.peek()) == '0' || digit == '1'); in.get())
            read.push_back(digit == '1');
        in.width(0);
        if (read.empty())
            in.setstate(std::ios::failbit);
        bits.swap(read);
        return in;
    }

    void clear() noexcept { len = 0; }
    void resize(std::size_t size, bool bit = false) {
        const std::size_t old = std::exchange(len, hold(size));
        if (size > old)
            view().part(old, size).fill(bit);
    }
    void push_back(bool bit) {
        if (len == elements.size() * width)
            hold(len + 1);
        Single<Element, Order>::set(elements.data(), len, bit);
        ++len;
    }
    void pop_back() {
        if (len == 0)
            refuse(FB_INDEX, 0, 0);
        --len;
    }

    // The bits behind the last, or before the one at an index; they may be some of these.
    void append(Right bits) { insert(len, bits); }
    void insert(std::size_t index, bool bit) {
        make_room(index, 1);
        set(index, bit);
    }
    void insert(std::size_t index, Right bits) {
        if (Seen(*this).shares(bits)) {
            const OwnBits copy(bits);
            return insert(index, copy);
        }
        make_room(index, bits.size());
        view().part(index, index + bits.size()).copy_from(bits);
    }

    // The same before a place, and the place of the first of them.
    iterator insert(const_iterator place, bool bit) { return insert(place, 1, bit); }
    iterator insert(const_iterator place, std::size_t size, bool bit) { return insert_bits(place, OwnBits(size, bit)); }
    iterator insert(const_iterator place, std::initializer_list<bool> bits) { return insert_bits(place, OwnBits(bits)); }
    template <class Iterator, class = OfRange<Iterator>>
    iterator insert(const_iterator place, Iterator first, Iterator last) {
        return insert_bits(place, OwnBits(first, last));
    }

    // Takes away the bit at an index, or those from `from` up to, without, `to`.
    void erase(std::size_t index) {
        if (index >= len)
            refuse(FB_INDEX, index, len);
        erase(index, index + 1);
    }
    void erase(std::size_t from, std::size_t to) {
        if (from > to || to > len)
            refuse(FB_RANGE, from, to, len);
        view().copy_within(to, len, from);
        len -= to - from;
    }

    // The same by places, and the place of the bit behind them.
    iterator erase(const_iterator place) {
        return erase(index_of(place)), begin() + (place - begin());
    }
    iterator erase(const_iterator first, const_iterator last) {
        return erase(index_of(first), index_of(last)), begin() + (first - begin());
    }

  private:
    // At least as many elements as the bits take.
    std::vector<Element> elements;
    std::size_t len = 0;

    static std::size_t elements_of(std::size_t size) {
        if (size > FB_MAX_BITS)
            throw Refused(FB_SIZE, std::to_string(size) + " bits");
        return (size + width - 1) / width;
    }

    // Has elements for so many bits, and gives their number.
    std::size_t hold(std::size_t size) {
        if (const std::size_t wanted = elements_of(size); wanted > elements.size())
            elements.resize(wanted);
        return size;
    }

    std::size_t index_of(const_iterator place) const noexcept { return static_cast<std::size_t>(place - begin()); }

    iterator insert_bits(const_iterator place, const OwnBits &bits) {
        const difference_type index = place - begin();
        return insert(static_cast<std::size_t>(index), bits), begin() + index;
    }

    void make_room(std::size_t index, std::size_t size) {
        if (index > len)
            refuse(FB_INDEX, index, len);
        const std::size_t old = std::exchange(len, hold(size > FB_MAX_BITS - len ? FB_MAX_BITS + 1 : len + size));
        if (index < old)
            view().copy_within(index, old, index + size);
    }
};

} // namespace fehimbary

#endif
