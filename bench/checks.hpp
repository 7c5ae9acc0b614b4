// The library and the plain loops against loops over single bits.
#pragma once
#include "fields.hpp"
#include "library.hpp"
#include "loops.hpp"
#include <algorithm>
#include <cstdio>
#include <cstdlib>
#include <random>
#include <vector>

// The bits of a memory, one by one.
template <class Element, class Order>
struct Single {
    static constexpr unsigned width = 8 * sizeof(Element);
    using List = std::vector<char>;

    static unsigned shift(size_t place) {
        unsigned index = place % width;
        return std::is_same_v<Order, Lsb0> ? index : width - 1 - index;
    }
    static List read(const std::vector<Element> &memory, size_t start, size_t len) {
        List list(len);
        for (size_t i = 0; i < len; ++i)
            list[i] = memory[(start + i) / width] >> shift(start + i) & 1;
        return list;
    }
    static void write(std::vector<Element> &memory, size_t start, const List &list) {
        for (size_t i = 0; i < list.size(); ++i) {
            Element bit = Element(Element(1) << shift(start + i));
            Element &element = memory[(start + i) / width];
            element = list[i] ? Element(element | bit) : Element(element & Element(~bit));
        }
    }
};

// Where an operation works: on `len` bits from a start on, of one memory or of two.
struct Place {
    size_t left, right, len, by;
};

template <class Element, class Order>
class Checks {
    using Call = Library<Element, Order>;
    using Loop = Loops<Element, Order>;
    using Bits = Single<Element, Order>;
    using List = typename Bits::List;
    using Memory = std::vector<Element>;
    static constexpr unsigned width = Bits::width;

  public:
    explicit Checks(unsigned seed) : random(seed) {}

    // Every operation at a place: the answers and all of both memories.
    void all(Place at) {
        size_t left_size = (at.left + at.len) / width + 2, right_size = (at.right + at.len) / width + 2;
        transfers(at, memory(left_size), memory(right_size));
        edits(at, memory(left_size));
        questions(at, memory(left_size), memory(right_size));
    }

  private:
    std::mt19937_64 random;

    Memory memory(size_t size) {
        Memory result(size);
        for (Element &element : result)
            element = Element(random());
        return result;
    }

    static size_t sum_of_ones(const List &list) {
        size_t sum = 0;
        for (size_t i = 0; i < list.size(); ++i)
            sum += list[i] ? i : 0;
        return sum;
    }

    static void expect(bool same, const char *what, Place at) {
        if (same)
            return;
        std::fprintf(stderr, "%s differs: u%u %s left %zu right %zu len %zu by %zu\n", what, width, Order::name,
                     at.left, at.right, at.len, at.by);
        std::exit(1);
    }

    // Whether a place is one that the plain loops are for.
    static bool has_loop(Place at) { return at.len != 0 && at.len % width == 0 && at.left == 0 && at.right < width; }

    // Whether it is one for those whose two sides begin inside an element.
    static bool has_inner_loop(Place at) {
        return at.len != 0 && at.len % width == 0 && at.left == at.right && at.left > 0 && at.left < width;
    }

    void transfers(Place at, const Memory &left, const Memory &right) {
        const List old = Bits::read(left, at.left, at.len), other = Bits::read(right, at.right, at.len);
        List either = old;
        for (size_t i = 0; i < at.len; ++i)
            either[i] |= other[i];
        Memory copied = left, combined = left, swapped = left, swapped_right = right;
        Bits::write(copied, at.left, other);
        Bits::write(combined, at.left, either);
        Bits::write(swapped, at.left, other);
        Bits::write(swapped_right, at.right, old);

        Memory to = left, from = right;
        Call::copy(to.data(), to.size(), at.left, from.data(), from.size(), at.right, at.len);
        expect(to == copied && from == right, "copy", at);
        to = left;
        Call::combine(to.data(), to.size(), at.left, from.data(), from.size(), at.right, at.len);
        expect(to == combined && from == right, "or", at);
        to = left;
        Call::swap(to.data(), to.size(), at.left, from.data(), from.size(), at.right, at.len);
        expect(to == swapped && from == swapped_right, "swap", at);

        if (at.len > 0 && at.len <= width)
            few(at, left, right, copied);
        if (!has_loop(at) && !has_inner_loop(at))
            return;
        const bool inner = has_inner_loop(at);
        to = left;
        (inner ? Loop::inner_copy : Loop::copy)(to.data(), right.data(), unsigned(at.right), at.len / width);
        expect(to == copied, "copy by a plain loop", at);
        to = left;
        (inner ? Loop::inner_combine : Loop::combine)(to.data(), right.data(), unsigned(at.right), at.len / width);
        expect(to == combined, "or by a plain loop", at);
        to = left;
        from = right;
        (inner ? Loop::inner_swap : Loop::swap)(to.data(), from.data(), unsigned(at.right), at.len / width);
        expect(to == swapped && from == swapped_right, "swap by a plain loop", at);
    }

    // Few bits by hand.
    static void few(Place at, const Memory &left, const Memory &right, const Memory &copied) {
        const unsigned len = unsigned(at.len);
        const List list = Bits::read(left, at.left, at.len), other = Bits::read(right, at.right, at.len);
        Memory to = left;
        Loop::copy_few(to.data(), at.left, right.data(), at.right, len);
        expect(to == copied, "copy of few by hand", at);
        expect(Loop::equal_few(to.data(), at.left, right.data(), at.right, len), "equality of few by hand", at);
        expect(Loop::equal_few(left.data(), at.left, right.data(), at.right, len) == (list == other),
               "equality of few by hand", at);
        expect(Loop::count_few(left.data(), at.left, len) == size_t(std::count(list.begin(), list.end(), 1)),
               "count of few by hand", at);
        Loop::fill_few(to.data(), at.left, len, true);
        expect(Bits::read(to, at.left, at.len) == List(at.len, 1), "fill of few by hand", at);
        Bits::write(to, at.left, list);
        expect(to == left, "the bits beside few", at);
        single(at, left, list);
    }

    // Single bits, by the library and by hand.
    static void single(Place at, const Memory &left, const List &list) {
        Memory by_call(left.size()), by_hand(left.size()), wanted(left.size());
        Bits::write(wanted, at.left, list);
        for (size_t i = 0; i < list.size(); ++i) {
            const size_t place = at.left + i;
            expect(Call::get(left.data(), left.size(), place) == bool(list[i]), "get", at);
            expect(Loop::get(left.data(), place) == bool(list[i]), "get by hand", at);
            Call::set(by_call.data(), by_call.size(), place, list[i]);
            Loop::set(by_hand.data(), place, list[i]);
        }
        expect(by_call == wanted && by_hand == wanted, "set", at);
    }

    // One edit of the bits at the left start, by the library and, where there is one, by a plain loop
    // over the bits at the right start.
    template <class ByList, class ByLibrary, class ByLoop>
    void edit(const char *what, Place at, const Memory &before, size_t loop_start, ByList by_list, ByLibrary by_library,
              ByLoop by_loop) {
        auto wanted = [&](size_t start) {
            Memory after = before;
            List list = Bits::read(before, start, at.len);
            by_list(list);
            Bits::write(after, start, list);
            return after;
        };
        Memory by_call = before;
        by_library(by_call);
        expect(by_call == wanted(at.left), what, at);
        if (has_loop(at) && loop_start + at.len <= before.size() * width) {
            Memory by_hand = before;
            by_loop(by_hand, unsigned(loop_start));
            expect(by_hand == wanted(loop_start), what, at);
        }
    }

    void edits(Place at, const Memory &before) {
        const size_t count = at.len / width;
        const ptrdiff_t by = ptrdiff_t(at.by);
        edit(
            "copy_within", at, before, 0, [&](List &l) { std::copy_backward(l.begin(), l.end() - by, l.end()); },
            [&](Memory &m) { Call::copy_within(m.data(), m.size(), at.left, at.len, at.by); },
            [&](Memory &m, unsigned) {
                if (at.by < at.len)
                    Loop::copy_within(m.data(), count, at.by);
            });
        auto shifted = [&](List &l) {
            std::copy(l.begin() + by, l.end(), l.begin());
            std::fill(l.end() - by, l.end(), 0);
        };
        edit(
            "shift_start", at, before, 0, shifted,
            [&](Memory &m) { Call::shift_start(m.data(), m.size(), at.left, at.len, at.by); },
            [&](Memory &m, unsigned) { Loop::shift_start(m.data(), count, at.by); });
        edit(
            "reverse", at, before, at.right, [](List &l) { std::reverse(l.begin(), l.end()); },
            [&](Memory &m) { Call::reverse(m.data(), m.size(), at.left, at.len); },
            [&](Memory &m, unsigned start) { Loop::reverse(m.data(), start, count, Memory(count).data()); });
        edit(
            "rotate_left", at, before, 0, [&](List &l) { std::rotate(l.begin(), l.begin() + by, l.end()); },
            [&](Memory &m) { Call::rotate_left(m.data(), m.size(), at.left, at.len, at.by); },
            [&](Memory &m, unsigned) {
                if (at.by < at.len)
                    Loop::rotate_left(m.data(), count, at.by, Memory(2 * count).data());
                else
                    Loop::rotate_left(m.data(), count, 0, Memory(2 * count).data());
            });
        for (bool bit : {false, true})
            edit(
                "fill", at, before, at.right, [&](List &l) { std::fill(l.begin(), l.end(), bit); },
                [&](Memory &m) { Call::fill(m.data(), m.size(), at.left, at.len, bit); },
                [&](Memory &m, unsigned start) { Loop::fill(m.data(), start, count, bit); });
        auto flipped = [](List &l) {
            for (char &bit : l)
                bit ^= 1;
        };
        edit(
            "invert", at, before, at.right, flipped,
            [&](Memory &m) { Call::invert(m.data(), m.size(), at.left, at.len); },
            [&](Memory &m, unsigned start) { Loop::invert(m.data(), start, count); });
    }

    void questions(Place at, const Memory &left, const Memory &right) {
        const List list = Bits::read(left, at.left, at.len);
        const Memory before = left;
        const size_t ones = size_t(std::count(list.begin(), list.end(), 1));
        const size_t place = size_t(std::find(list.begin(), list.end(), 1) - list.begin());
        expect(Call::count_ones(left.data(), left.size(), at.left, at.len) == ones, "count_ones", at);
        expect(Call::first_one(left.data(), left.size(), at.left, at.len) == place, "first_one", at);
        expect(Call::iter_ones(left.data(), left.size(), at.left, at.len) == sum_of_ones(list), "iter_ones", at);
        one_needle(at, left, list);
        Memory same = right;
        Bits::write(same, at.right, list);
        one_equality(at, left, same, true);
        Memory sparse(left.size());
        if (at.len != 0) {
            for (size_t i : {size_t(0), at.len / 2, at.len - 1}) {
                Memory other = same;
                List changed = list;
                changed[i] ^= 1;
                Bits::write(other, at.right, changed);
                one_equality(at, left, other, false);
            }
            List last(at.len, 0);
            last.back() = 1;
            Bits::write(sparse, at.left, last);
            expect(Call::first_one(sparse.data(), sparse.size(), at.left, at.len) == at.len - 1, "first_one", at);
        }
        expect(left == before, "a question's memory", at);
        if (has_loop(at)) {
            const List there = Bits::read(right, at.right, at.len);
            const size_t count = at.len / width;
            expect(Loop::count_ones(right.data(), unsigned(at.right), count) ==
                       size_t(std::count(there.begin(), there.end(), 1)),
                   "count_ones by a plain loop", at);
            expect(Loop::iter_ones(right.data(), unsigned(at.right), count) == sum_of_ones(there),
                   "iter_ones by a plain loop", at);
            Memory one(right.size());
            List last(at.len, 0);
            last.back() = 1;
            Bits::write(one, at.right, last);
            expect(Loop::first_one(one.data(), unsigned(at.right), count) == at.len - 1, "first_one by a plain loop",
                   at);
        }
    }

    // The 32 bits of a list from an index on, or others, as a needle.
    void one_needle(Place at, const Memory &left, const List &list) {
        List bits(32);
        for (char &bit : bits)
            bit = random() & 1;
        if (list.size() >= bits.size() && random() % 2 == 0) {
            auto from = list.begin() + ptrdiff_t(random() % (list.size() - bits.size() + 1));
            std::copy(from, from + ptrdiff_t(bits.size()), bits.begin());
        }
        const bool wanted = std::search(list.begin(), list.end(), bits.begin(), bits.end()) != list.end();
        Memory needle((bits.size() + width - 1) / width);
        Bits::write(needle, 0, bits);
        bool answer = Call::contains(left.data(), left.size(), at.left, at.len, needle.data(), needle.size());
        expect(answer == wanted, "contains", at);
        uint32_t number = 0;
        for (size_t i = 0; i < bits.size(); ++i)
            number |= uint32_t(bits[i]) << i;
        if (at.len % width == 0 && at.left < width)
            expect(Loop::contains(left.data(), unsigned(at.left), at.len / width, number) == wanted,
                   "contains by a plain loop", at);
    }

    void one_order(Place at, const Memory &left, const Memory &right) {
        const List list = Bits::read(left, at.left, at.len), other = Bits::read(right, at.right, at.len);
        const int order = list < other ? -1 : list == other ? 0 : 1;
        int answer = Call::compare(left.data(), left.size(), at.left, right.data(), right.size(), at.right, at.len);
        expect(answer == order, "compare", at);
        bool starts =
            Call::starts_with(left.data(), left.size(), at.left, right.data(), right.size(), at.right, at.len);
        expect(starts == std::equal(other.begin(), other.begin() + ptrdiff_t(at.len / 2), list.begin()), "starts_with",
               at);
        if (has_loop(at))
            expect(Loop::compare(left.data(), right.data(), unsigned(at.right), at.len / width) == order,
                   "compare by a plain loop", at);
    }

    void one_equality(Place at, const Memory &left, const Memory &right, bool wanted) {
        one_order(at, left, right);
        bool answer = Call::equal(left.data(), left.size(), at.left, right.data(), right.size(), at.right, at.len);
        expect(answer == wanted, "equal", at);
        auto equal = has_inner_loop(at) ? Loop::inner_equal : Loop::equal;
        if (has_loop(at) || has_inner_loop(at))
            expect(equal(left.data(), right.data(), unsigned(at.right), at.len / width) == wanted,
                   "equal by a plain loop", at);
    }
};

// Fields of 12 bits by the library and by hand, against their single bits.
template <class Element, class Order>
class FieldChecks {
    using Call = Fields<Element, Order>;
    using Loop = FieldLoops<Element, Order>;
    using Bits = Single<Element, Order>;
    using List = typename Bits::List;
    using Memory = std::vector<Element>;
    static constexpr unsigned field = Loop::field;

  public:
    explicit FieldChecks(unsigned seed) : random(seed) {}

    // `count` fields from the bit `start` on.
    void all(size_t start, size_t count) {
        Memory memory((start + field * count) / Bits::width + 2);
        for (Element &element : memory)
            element = Element(random());
        size_t sum = 0;
        Memory stored = memory;
        for (size_t i = 0; i < count; ++i) {
            const List bits = Bits::read(memory, start + field * i, field);
            List index(field);
            for (unsigned k = 0; k < field; ++k) {
                sum += size_t(bits[k]) << weight(k);
                index[k] = i >> weight(k) & 1;
            }
            Bits::write(stored, start + field * i, index);
        }
        const Memory before = memory;
        expect(Call::load(memory.data(), memory.size(), start, count) == sum, "load", start, count);
        expect(Loop::load(memory.data(), start, count) == sum, "load by hand", start, count);
        expect(memory == before, "a load's memory", start, count);
        Memory by_call = before, by_hand = before;
        Call::store(by_call.data(), by_call.size(), start, count);
        expect(by_call == stored, "store", start, count);
        Loop::store(by_hand.data(), start, count);
        expect(by_hand == stored, "store by hand", start, count);
    }

  private:
    std::mt19937_64 random;

    // Which bit of a field's number stands at an index of the field.
    static unsigned weight(unsigned k) { return std::is_same_v<Order, Lsb0> ? k : field - 1 - k; }

    static void expect(bool same, const char *what, size_t start, size_t count) {
        if (same)
            return;
        std::fprintf(stderr, "%s of fields differs: u%u %s start %zu count %zu\n", what, Bits::width, Order::name,
                     start, count);
        std::exit(1);
    }
};
