// The library by element type and order: the functions of bindings/fehimbary.h, called so that none refuses.
#pragma once
#define FB_NODISCARD
#include "../bindings/fehimbary.hpp"
#include <cstddef>
#include <cstdint>
#include <type_traits>

// Bit 0 is the least significant bit of its element.
struct Lsb0 {
    static constexpr const char *name = "Lsb0";
    static constexpr fb_order order = FB_LSB0;
};

// Bit 0 is the most significant bit of its element.
struct Msb0 {
    static constexpr const char *name = "Msb0";
    static constexpr fb_order order = FB_MSB0;
};

// Each on the `len` bits from bit `start` on of `size` elements, of two memories on as many bits of each.
template <class Element, class Order>
struct Library {
    using Call = fehimbary::Functions<sizeof(Element)>;
    static constexpr fb_order order = Order::order;

    static void copy(Element *to, size_t to_size, size_t to_start, const Element *from, size_t from_size,
                     size_t from_start, size_t len) {
        Call::copy(order, to, to_size, to_start, len, from, from_size, from_start, len);
    }

    static void combine(Element *to, size_t to_size, size_t to_start, const Element *from, size_t from_size,
                        size_t from_start, size_t len) {
        Call::or_with(order, to, to_size, to_start, len, from, from_size, from_start, len);
    }

    static void swap(Element *left, size_t left_size, size_t left_start, Element *right, size_t right_size,
                     size_t right_start, size_t len) {
        Call::swap(order, left, left_size, left_start, len, right, right_size, right_start, len);
    }

    static bool equal(const Element *left, size_t left_size, size_t left_start, const Element *right, size_t right_size,
                      size_t right_start, size_t len) {
        bool answer;
        Call::equal(order, left, left_size, left_start, len, right, right_size, right_start, len, &answer);
        return answer;
    }

    static int compare(const Element *left, size_t left_size, size_t left_start, const Element *right,
                       size_t right_size, size_t right_start, size_t len) {
        int32_t answer;
        Call::compare(order, left, left_size, left_start, len, right, right_size, right_start, len, &answer);
        return answer;
    }

    // The right bits are the first half of as many.
    static bool starts_with(const Element *left, size_t left_size, size_t left_start, const Element *right,
                            size_t right_size, size_t right_start, size_t len) {
        bool answer;
        Call::starts_with(order, left, left_size, left_start, len, right, right_size, right_start, len / 2, &answer);
        return answer;
    }

    // The needle is the first 32 bits of its memory.
    static bool contains(const Element *p, size_t size, size_t start, size_t len, const Element *needle,
                         size_t needle_size) {
        bool answer;
        Call::contains(order, p, size, start, len, needle, needle_size, 0, 32, &answer);
        return answer;
    }

    // All but the last `by` bits to those from bit `by` on.
    static void copy_within(Element *p, size_t size, size_t start, size_t len, size_t by) {
        Call::copy_within(order, p, size, start, len, 0, len - by, by);
    }

    static void shift_start(Element *p, size_t size, size_t start, size_t len, size_t by) {
        Call::shift_start(order, p, size, start, len, by);
    }

    static void reverse(Element *p, size_t size, size_t start, size_t len) {
        Call::reverse(order, p, size, start, len);
    }

    static void rotate_left(Element *p, size_t size, size_t start, size_t len, size_t by) {
        Call::rotate_left(order, p, size, start, len, by);
    }

    static void fill(Element *p, size_t size, size_t start, size_t len, bool bit) {
        Call::fill(order, p, size, start, len, bit);
    }

    static void invert(Element *p, size_t size, size_t start, size_t len) { Call::invert(order, p, size, start, len); }

    static size_t count_ones(const Element *p, size_t size, size_t start, size_t len) {
        size_t ones;
        Call::count_ones(order, p, size, start, len, &ones);
        return ones;
    }

    // The length where there is none.
    static size_t first_one(const Element *p, size_t size, size_t start, size_t len) {
        size_t index = len;
        Call::first_one(order, p, size, start, len, &index);
        return index;
    }

    // The sum of the indices of the ones, 512 in a call.
    static size_t iter_ones(const Element *p, size_t size, size_t start, size_t len) {
        constexpr size_t room = 512;
        size_t indices[room], found, sum = 0, from = 0;
        do {
            Call::ones(order, p, size, start, len, from, indices, room, &found);
            for (size_t i = 0; i < found; ++i)
                sum += indices[i];
            from = found == 0 ? len : indices[found - 1] + 1;
        } while (found == room);
        return sum;
    }

    static bool get(const Element *p, size_t size, size_t place) {
        bool bit;
        Call::get(order, p, size, 0, 8 * sizeof(Element) * size, place, &bit);
        return bit;
    }

    static void set(Element *p, size_t size, size_t place, bool bit) {
        Call::set(order, p, size, 0, 8 * sizeof(Element) * size, place, bit);
    }
};

// Fields of 12 bits that follow one another, so many from a bit on; each by a call.
template <class Element, class Order>
struct Fields {
    using Call = fehimbary::Functions<sizeof(Element)>;
    static constexpr auto load_one = std::is_same_v<Order, Lsb0> ? Call::load_le : Call::load_be;
    static constexpr auto store_one = std::is_same_v<Order, Lsb0> ? Call::store_le : Call::store_be;
    static constexpr size_t field = 12;

    // The sum of their numbers.
    static size_t load(const Element *p, size_t size, size_t start, size_t count) {
        size_t sum = 0;
        for (size_t i = 0; i < count; ++i) {
            uint64_t number;
            load_one(Order::order, p, size, start + field * i, field, &number);
            sum += number;
        }
        return sum;
    }

    // Its index in each.
    static void store(Element *p, size_t size, size_t start, size_t count) {
        for (size_t i = 0; i < count; ++i)
            store_one(Order::order, p, size, start + field * i, field, i);
    }
};
