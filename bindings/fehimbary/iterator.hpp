// References to single bits, and iterators over bits and over the indices of ones.
#ifndef FEHIMBARY_ITERATOR_HPP
#define FEHIMBARY_ITERATOR_HPP

#include "elements.hpp"

#include <iterator>
#include <utility>

namespace fehimbary {

template <class Element, class Order>
class Bits;
template <class Element, class Order>
class OwnBits;

// One bit of a memory, as std::vector<bool>'s reference: it is read as a bool, and written by assignment.
template <class Element, class Order>
class Reference {
  public:
    Reference(const Reference &) = default;

    operator bool() const noexcept { return static_cast<Word>(*element) & only; }

    const Reference &operator=(bool bit) const noexcept {
        Single<Element, Order>::set_only(*element, only, bit);
        return *this;
    }
    Reference &operator=(const Reference &other) noexcept {
        static_cast<const Reference &>(*this) = static_cast<bool>(other);
        return *this;
    }
    const Reference &flip() const noexcept { return *this = !*this; }
    const Reference &operator&=(bool bit) const noexcept { return *this = *this & bit; }
    const Reference &operator|=(bool bit) const noexcept { return *this = *this | bit; }
    const Reference &operator^=(bool bit) const noexcept { return *this = *this ^ bit; }

  private:
    template <class, class>
    friend class BitIterator;
    using Word = typename CallsOf<Element>::Word;

    Element *element;
    Word only;

    Reference(Element *elements, std::size_t place) noexcept
        : element(elements + place / Single<Element, Order>::width),
          only(Single<Element, Order>::mask(place % Single<Element, Order>::width, 1)) {}
};

template <class Element, class Order>
void swap(Reference<Element, Order> a, bool &b) noexcept {
    a = std::exchange(b, static_cast<bool>(a));
}
template <class Element, class Order>
void swap(Reference<Element, Order> a, Reference<Element, Order> b) noexcept {
    bool bit = a;
    swap(b, bit);
    a = bit;
}
template <class Element, class Order>
void swap(bool &a, Reference<Element, Order> b) noexcept { swap(b, a); }

// A place among the bits of a memory.
template <class Element, class Order>
class BitIterator {
    using Value = std::remove_const_t<Element>;

  public:
    using iterator_category = std::random_access_iterator_tag;
    using value_type = bool;
    using difference_type = std::ptrdiff_t;
    using pointer = void;
    // Of const elements a bit is only read.
    using reference = std::conditional_t<std::is_const_v<Element>, bool, Reference<Value, Order>>;

    BitIterator() = default;

    // What may be written may be read.
    template <class Other, class = std::enable_if_t<std::is_same_v<Element, const Other>>>
    BitIterator(BitIterator<Other, Order> other) noexcept : elements(other.elements), place(other.place) {}

    reference operator*() const noexcept {
        if constexpr (std::is_const_v<Element>)
            return Single<Value, Order>::get(elements, place);
        else
            return reference(elements, place);
    }
    reference operator[](difference_type by) const noexcept { return *(*this + by); }

    BitIterator &operator+=(difference_type by) noexcept { return place += static_cast<std::size_t>(by), *this; }
    BitIterator &operator-=(difference_type by) noexcept { return place -= static_cast<std::size_t>(by), *this; }
    BitIterator &operator++() noexcept { return *this += 1; }
    BitIterator &operator--() noexcept { return *this -= 1; }
    BitIterator operator++(int) noexcept { return std::exchange(*this, *this + 1); }
    BitIterator operator--(int) noexcept { return std::exchange(*this, *this - 1); }

    friend BitIterator operator+(BitIterator it, difference_type by) noexcept { return it += by; }
    friend BitIterator operator+(difference_type by, BitIterator it) noexcept { return it += by; }
    friend BitIterator operator-(BitIterator it, difference_type by) noexcept { return it -= by; }
    friend difference_type operator-(BitIterator a, BitIterator b) noexcept {
        return static_cast<difference_type>(a.place) - static_cast<difference_type>(b.place);
    }

    friend bool operator==(BitIterator a, BitIterator b) noexcept { return a.place == b.place; }
    friend bool operator!=(BitIterator a, BitIterator b) noexcept { return a.place != b.place; }
    friend bool operator<(BitIterator a, BitIterator b) noexcept { return a.place < b.place; }
    friend bool operator>(BitIterator a, BitIterator b) noexcept { return a.place > b.place; }
    friend bool operator<=(BitIterator a, BitIterator b) noexcept { return a.place <= b.place; }
    friend bool operator>=(BitIterator a, BitIterator b) noexcept { return a.place >= b.place; }

  private:
    template <class, class>
    friend class BitIterator;
    template <class, class>
    friend class Bits;
    template <class, class>
    friend class OwnBits;

    Element *elements = nullptr;
    std::size_t place = 0;

    BitIterator(Element *of, std::size_t at) noexcept : elements(of), place(at) {}
};

// The indices of the ones of a view, ascending; each is looked for when the walk comes to it.
template <class Element, class Order>
class Ones {
    using Seen = Bits<const Element, Order>;

  public:
    class iterator {
      public:
        using iterator_concept = std::forward_iterator_tag;
        using iterator_category = std::input_iterator_tag;
        using value_type = std::size_t;
        using difference_type = std::ptrdiff_t;
        using pointer = void;
        using reference = std::size_t;

        iterator() = default;

        std::size_t operator*() const { return index; }
        iterator &operator++() {
            seek(index + 1);
            return *this;
        }
        iterator operator++(int) {
            const iterator old = *this;
            return ++*this, old;
        }
        friend bool operator==(const iterator &a, const iterator &b) { return a.index == b.index; }
        friend bool operator!=(const iterator &a, const iterator &b) { return a.index != b.index; }

      private:
        friend class Ones;

        Seen bits;
        std::size_t index = 0;

        iterator(Seen of, std::size_t from) : bits(of) { seek(from); }

        void seek(std::size_t from) { index = from + bits.part(from, bits.size()).first_one().value_or(bits.size() - from); }
    };

    Ones() = default;

    iterator begin() const { return iterator(bits, 0); }
    iterator end() const { return iterator(bits, bits.size()); }

  private:
    template <class, class>
    friend class Bits;

    Seen bits;

    explicit Ones(Seen of) : bits(of) {}
};

} // namespace fehimbary

#endif
