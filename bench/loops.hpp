// The operations as plain loops over elements, as one writes them by hand where the phases are known
// to be these: what is written by a copy begins at the edge of an element, and `start`, below the
// width, is where the other side begins; or both sides begin at `start` inside an element (`inner_`).
// `count` is in elements, `by` in bits. Each is a call of its own, as the library's are.
#pragma once
#include "library.hpp"
#include <cstring>
#include <type_traits>
#include <utility>

template <class Element, class Order>
struct Loops {
    static constexpr unsigned width = 8 * sizeof(Element);
    static constexpr Element ones = Element(~Element(0));

    // The element without its first `by` bits, the others in front, and the element behind `by` zeros.
    static Element to_front(Element x, unsigned by) {
        return std::is_same_v<Order, Lsb0> ? Element(x >> by) : Element(x << by);
    }
    static Element to_back(Element x, unsigned by) {
        return std::is_same_v<Order, Lsb0> ? Element(x << by) : Element(x >> by);
    }

    // The first `n` bits of an element, fewer than all.
    static Element first(unsigned n) { return Element(~to_back(ones, n)); }

    // `new_bits` where the mask is 1, and else `old`.
    static Element blend(Element old, Element new_bits, Element mask) {
        return Element((old & Element(~mask)) | (new_bits & mask));
    }

    // The bits from index `start` of p[0] on, as many as an element has.
    static Element gather(const Element *p, unsigned start) {
        return Element(to_front(p[0], start) | to_back(p[1], width - start));
    }

    // The element's bits in the opposite order.
    static Element reversed(Element x) {
        if constexpr (width == 64) {
            uint64_t v = __builtin_bswap64(x);
            v = (v >> 4 & 0x0F0F0F0F0F0F0F0F) | (v & 0x0F0F0F0F0F0F0F0F) << 4;
            v = (v >> 2 & 0x3333333333333333) | (v & 0x3333333333333333) << 2;
            return (v >> 1 & 0x5555555555555555) | (v & 0x5555555555555555) << 1;
        } else {
            unsigned v = width == 16 ? __builtin_bswap16(uint16_t(x)) : x;
            v = (v >> 4 & 0x0F0F) | (v & 0x0F0F) << 4;
            v = (v >> 2 & 0x3333) | (v & 0x3333) << 2;
            return Element((v >> 1 & 0x5555) | (v & 0x5555) << 1);
        }
    }

    // Whether the bit at an index of an element is a 1.
    static bool has(Element x, unsigned index) {
        return std::is_same_v<Order, Lsb0> ? x >> index & 1 : x >> (width - 1 - index) & 1;
    }

    // Where the first 1 of an element that has one stands.
    static unsigned first_place(Element x) {
        if (std::is_same_v<Order, Lsb0>)
            return unsigned(__builtin_ctzll(x));
        return unsigned(__builtin_clzll(x)) - (64 - width);
    }

    [[gnu::noinline]] static void copy(Element *to, const Element *from, unsigned start, size_t count) {
        if (start == 0)
            for (size_t i = 0; i < count; ++i)
                to[i] = from[i];
        else
            for (size_t i = 0; i < count; ++i)
                to[i] = gather(from + i, start);
    }

    [[gnu::noinline]] static void combine(Element *to, const Element *from, unsigned start, size_t count) {
        if (start == 0)
            for (size_t i = 0; i < count; ++i)
                to[i] |= from[i];
        else
            for (size_t i = 0; i < count; ++i)
                to[i] |= gather(from + i, start);
    }

    [[gnu::noinline]] static void swap(Element *left, Element *right, unsigned start, size_t count) {
        if (start == 0) {
            for (size_t i = 0; i < count; ++i)
                std::swap(left[i], right[i]);
            return;
        }
        for (size_t i = 0; i < count; ++i) {
            Element old = left[i];
            left[i] = gather(right + i, start);
            right[i] = blend(right[i], to_back(old, start), Element(~first(start)));
            right[i + 1] = blend(right[i + 1], to_front(old, width - start), first(start));
        }
    }

    [[gnu::noinline]] static bool equal(const Element *left, const Element *right, unsigned start, size_t count) {
        Element differing = 0;
        if (start == 0)
            for (size_t i = 0; i < count; ++i)
                differing |= Element(left[i] ^ right[i]);
        else
            for (size_t i = 0; i < count; ++i)
                differing |= Element(left[i] ^ gather(right + i, start));
        return differing == 0;
    }

    [[gnu::noinline]] static void inner_copy(Element *to, const Element *from, unsigned start, size_t count) {
        to[0] = blend(from[0], to[0], first(start));
        for (size_t i = 1; i < count; ++i)
            to[i] = from[i];
        to[count] = blend(to[count], from[count], first(start));
    }

    [[gnu::noinline]] static void inner_combine(Element *to, const Element *from, unsigned start, size_t count) {
        to[0] |= Element(from[0] & Element(~first(start)));
        for (size_t i = 1; i < count; ++i)
            to[i] |= from[i];
        to[count] |= Element(from[count] & first(start));
    }

    [[gnu::noinline]] static void inner_swap(Element *left, Element *right, unsigned start, size_t count) {
        auto exchange = [&](size_t i, Element mask) {
            Element old = left[i];
            left[i] = blend(old, right[i], mask);
            right[i] = blend(right[i], old, mask);
        };
        exchange(0, Element(~first(start)));
        for (size_t i = 1; i < count; ++i)
            std::swap(left[i], right[i]);
        exchange(count, first(start));
    }

    [[gnu::noinline]] static bool inner_equal(const Element *left, const Element *right, unsigned start, size_t count) {
        Element differing = Element((left[0] ^ right[0]) & Element(~first(start)));
        for (size_t i = 1; i < count; ++i)
            differing |= Element(left[i] ^ right[i]);
        return Element(differing | ((left[count] ^ right[count]) & first(start))) == 0;
    }

    [[gnu::noinline]] static void copy_within(Element *p, size_t count, size_t by) {
        size_t whole = by / width;
        unsigned start = by % width;
        if (start == 0) {
            for (size_t i = count; i > whole; --i)
                p[i - 1] = p[i - 1 - whole];
            return;
        }
        for (size_t i = count - 1; i > whole; --i)
            p[i] = gather(p + (i - whole - 1), width - start);
        p[whole] = blend(p[whole], to_back(p[0], start), Element(~first(start)));
    }

    [[gnu::noinline]] static void shift_start(Element *p, size_t count, size_t by) {
        size_t whole = by / width;
        unsigned start = by % width;
        size_t i = 0;
        if (start == 0)
            for (; i + whole < count; ++i)
                p[i] = p[i + whole];
        else {
            for (; i + whole + 1 < count; ++i)
                p[i] = gather(p + (i + whole), start);
            p[i] = to_front(p[i + whole], start);
            ++i;
        }
        for (; i < count; ++i)
            p[i] = 0;
    }

    // `room` has as many elements.
    [[gnu::noinline]] static void reverse(Element *p, unsigned start, size_t count, Element *room) {
        if (start == 0) {
            for (size_t i = 0, j = count - 1; i < j; ++i, --j) {
                Element left = reversed(p[i]);
                p[i] = reversed(p[j]);
                p[j] = left;
            }
            if (count % 2 == 1)
                p[count / 2] = reversed(p[count / 2]);
            return;
        }
        for (size_t i = 0; i < count; ++i)
            room[i] = reversed(gather(p + (count - 1 - i), start));
        p[0] = blend(p[0], to_back(room[0], start), Element(~first(start)));
        for (size_t i = 1; i < count; ++i)
            p[i] = gather(room + (i - 1), width - start);
        p[count] = blend(p[count], to_front(room[count - 1], width - start), first(start));
    }

    // `room` has twice as many elements.
    [[gnu::noinline]] static void rotate_left(Element *p, size_t count, size_t by, Element *room) {
        std::memcpy(room, p, count * sizeof(Element));
        std::memcpy(room + count, p, count * sizeof(Element));
        copy(p, room + by / width, by % width, count);
    }

    [[gnu::noinline]] static void fill(Element *p, unsigned start, size_t count, bool bit) {
        Element value = bit ? ones : Element(0);
        if (start != 0)
            p[0] = blend(p[0], value, Element(~first(start)));
        for (size_t i = start != 0; i < count; ++i)
            p[i] = value;
        if (start != 0)
            p[count] = blend(p[count], value, first(start));
    }

    [[gnu::noinline]] static void invert(Element *p, unsigned start, size_t count) {
        if (start != 0)
            p[0] ^= Element(~first(start));
        for (size_t i = start != 0; i < count; ++i)
            p[i] = Element(~p[i]);
        if (start != 0)
            p[count] ^= first(start);
    }

    [[gnu::noinline]] static size_t count_ones(const Element *p, unsigned start, size_t count) {
        size_t sum = 0;
        if (start != 0)
            sum += size_t(__builtin_popcountll(Element(p[0] & Element(~first(start))))) +
                   size_t(__builtin_popcountll(Element(p[count] & first(start))));
        for (size_t i = start != 0; i < count; ++i)
            sum += size_t(__builtin_popcountll(p[i]));
        return sum;
    }

    [[gnu::noinline]] static size_t first_one(const Element *p, unsigned start, size_t count) {
        Element here = Element(p[0] & Element(~first(start)));
        for (size_t i = 0;;) {
            if (here != 0)
                return i * width + first_place(here) - start;
            if (++i == count)
                break;
            here = p[i];
        }
        Element last = start == 0 ? Element(0) : Element(p[count] & first(start));
        return last == 0 ? count * width : count * width + first_place(last) - start;
    }

    // -1, 0 or 1: by the first bits that differ.
    [[gnu::noinline]] static int compare(const Element *left, const Element *right, unsigned start, size_t count) {
        for (size_t i = 0; i < count; ++i) {
            const Element other = start == 0 ? right[i] : gather(right + i, start);
            const Element differing = Element(left[i] ^ other);
            if (differing != 0)
                return has(left[i], first_place(differing)) ? 1 : -1;
        }
        return 0;
    }

    // Whether 32 bits, the first of which is the lowest of a number, stand together somewhere.
    [[gnu::noinline]] static bool contains(const Element *p, unsigned start, size_t count, uint32_t needle) {
        uint32_t seen = 0;
        for (size_t i = start; i < start + count * width; ++i) {
            seen = seen >> 1 | uint32_t(has(p[i / width], i % width)) << 31;
            if (seen == needle && i >= start + 31)
                return true;
        }
        return false;
    }

    // The sum of the indices of the ones.
    [[gnu::noinline]] static size_t iter_ones(const Element *p, unsigned start, size_t count) {
        size_t sum = 0;
        for (size_t i = 0; i <= count; ++i) {
            Element here = i < count ? p[i] : start == 0 ? Element(0) : Element(p[count] & first(start));
            if (i == 0)
                here = Element(here & Element(~first(start)));
            while (here != 0) {
                unsigned place = first_place(here);
                sum += i * width + place - start;
                here = Element(here & Element(~to_back(to_front(ones, width - 1), place)));
            }
        }
        return sum;
    }

    // ---- `len` bits, at most an element's, by shifts and masks, at any place

    [[gnu::noinline]] static void copy_few(Element *to, size_t to_place, const Element *from, size_t from_place,
                                           unsigned len) {
        write_few(to + to_place / width, to_place % width, read_few(from, from_place, len), len);
    }

    [[gnu::noinline]] static void fill_few(Element *p, size_t place, unsigned len, bool bit) {
        write_few(p + place / width, place % width, bit ? ones : Element(0), len);
    }

    [[gnu::noinline]] static size_t count_few(const Element *p, size_t place, unsigned len) {
        return size_t(__builtin_popcountll(Element(read_few(p, place, len) & mask_of(len))));
    }

    [[gnu::noinline]] static bool equal_few(const Element *left, size_t left_place, const Element *right,
                                            size_t right_place, unsigned len) {
        return Element((read_few(left, left_place, len) ^ read_few(right, right_place, len)) & mask_of(len)) == 0;
    }

    // ---- one bit

    [[gnu::noinline]] static bool get(const Element *p, size_t place) { return has(p[place / width], place % width); }

    [[gnu::noinline]] static void set(Element *p, size_t place, bool bit) {
        write_few(p + place / width, place % width, bit ? ones : Element(0), 1);
    }

  private:
    static Element mask_of(unsigned len) { return len == width ? ones : first(len); }

    // The bits in front, and any others behind them.
    static Element read_few(const Element *p, size_t place, unsigned len) {
        const unsigned index = place % width;
        p += place / width;
        const Element bits = to_front(p[0], index);
        return index + len <= width ? bits : Element(bits | to_back(p[1], width - index));
    }

    static void write_few(Element *p, unsigned index, Element bits, unsigned len) {
        const Element mask = mask_of(len);
        p[0] = blend(p[0], to_back(bits, index), to_back(mask, index));
        if (index + len > width)
            p[1] = blend(p[1], to_front(bits, width - index), to_front(mask, width - index));
    }
};
