// Compares OwnBits with std::vector<bool> by programs at random, and what fehimbary.hpp does without a call with the C
// functions: sequences [STEPS].
#include "fehimbary.hpp"

#include <algorithm>
#include <cstdio>
#include <cstdlib>
#include <random>
#include <string>
#include <vector>

namespace {

using fehimbary::Bits;
using fehimbary::Lsb0;
using fehimbary::Msb0;
using fehimbary::OwnBits;
using List = std::vector<bool>;

std::mt19937_64 random_number(11);

size_t below(size_t limit) { return random_number() % limit; }

void expect(bool holds, const std::string &what) {
    if (holds)
        return;
    std::fprintf(stderr, "%s differs\n", what.c_str());
    std::exit(1);
}

// The C functions for a type of elements, by the names that the header doesn't use.
#define SINGLE_BITS(Element, type)                                                                                   \
    bool get(fb_order order, const Element *elements, size_t count, size_t index) {                                   \
        bool bit = false;                                                                                             \
        expect(fb_##type##_get(order, elements, count, 0, 8 * sizeof(Element) * count, index, &bit) == FB_DONE, "get"); \
        return bit;                                                                                                   \
    }                                                                                                                 \
    void set(fb_order order, Element *elements, size_t count, size_t index, bool bit) {                               \
        expect(fb_##type##_set(order, elements, count, 0, 8 * sizeof(Element) * count, index, bit) == FB_DONE, "set"); \
    }                                                                                                                 \
    void combine(int edit, fb_order order, Element *left, size_t start, size_t len, const Element *right, size_t from, size_t size) { \
        const auto call = edit == 0 ? fb_##type##_and : edit == 1 ? fb_##type##_or : edit == 2 ? fb_##type##_xor : fb_##type##_and_not; \
        expect(call(order, left, 2, start, len, right, 2, from, size) == FB_DONE, "an operator");                      \
    }

SINGLE_BITS(uint8_t, u8)
SINGLE_BITS(uint16_t, u16)
SINGLE_BITS(uint32_t, u32)
SINGLE_BITS(uint64_t, u64)

// Each way to a single bit reads and writes as the C function does, at every index and over any bits beside it.
template <class Element, class Order>
void single_bits() {
    using View = Bits<Element, Order>;
    constexpr size_t count = 3, size = 8 * sizeof(Element) * count;
    const std::vector<void (*)(View, size_t, bool)> writes = {
        [](View bits, size_t index, bool bit) { bits[index] = bit; },
        [](View bits, size_t index, bool bit) { bits.set(index, bit); },
        [](View bits, size_t index, bool bit) { bits.replace(index, bit); },
        [](View bits, size_t index, bool bit) { bits.begin()[ptrdiff_t(index)] = bit; },
        [](View bits, size_t index, bool bit) { bits[index] ^= bits[index] != bit; },
        [](View bits, size_t index, bool bit) { if (bits.test(index) != bit) bits.flip(index); },
        [](View bits, size_t index, bool bit) { if (bits[index] != bit) bits[index].flip(); },
        [](View bits, size_t index, bool bit) { swap(bits[index], bit); },
        [](View bits, size_t index, bool bit) { bits.part(index, size).front() = bit; },
    };
    for (size_t index = 0; index < size; ++index)
        for (const auto write : writes)
            for (const bool bit : {false, true}) {
                std::vector<Element> memory(count), wanted;
                for (Element &element : memory)
                    element = below(3) == 0 ? Element(below(2) ? ~uint64_t(0) : 0) : Element(random_number());
                wanted = memory;
                const View view(memory);
                const Bits<const Element, Order> seen(memory);
                const bool old = get(Order::order, memory.data(), count, index);
                expect(view[index] == old && seen[index] == old && view.test(index) == old && *(seen.begin() + ptrdiff_t(index)) == old,
                       "a bit that is read");
                write(view, index, bit);
                set(Order::order, wanted.data(), count, index, bit);
                expect(memory == wanted, "a bit that is written");
            }
}

// The operators do what the C functions do, on windows of at most two elements.
template <class Element, class Order>
void operators(size_t rounds) {
    constexpr size_t width = 8 * sizeof(Element);
    for (size_t round = 0; round < rounds; ++round) {
        Element left[2], right[2], wanted[2];
        for (int i = 0; i < 2; ++i)
            wanted[i] = left[i] = Element(random_number()), right[i] = Element(random_number());
        const size_t start = below(width), len = below(below(4) ? width - start + 1 : 2 * width - start + 1);
        const size_t from = below(4) ? start : below(width), size = below(3) ? len : below(2 * width - from + 1);
        if (from + size > 2 * width)
            continue;
        const int edit = int(below(4));
        const auto view = Bits<Element, Order>(left).part(start, start + len);
        const auto other = Bits<const Element, Order>(right).part(from, from + size);
        combine(edit, Order::order, wanted, start, len, right, from, size);
        edit == 0 ? view &= other : edit == 1 ? view |= other : edit == 2 ? view ^= other : view -= other;
        expect(std::equal(left, left + 2, wanted), "an operator on few bits");
    }
}

template <class Element, class Order>
class Program {
    using Own = OwnBits<Element, Order>;
    Own bits;
    List list;

    static List some(size_t size) {
        List made(size);
        const size_t ones = below(4);
        for (size_t i = 0; i < size; ++i)
            made[i] = ones == 0 ? below(30) == 0 : ones == 1 ? below(30) != 0 : below(2) == 0;
        return made;
    }

    template <class Sequence>
    static auto at(Sequence &sequence, size_t index) {
        return sequence.begin() + ptrdiff_t(index);
    }

    void grow() {
        const List more = some(below(100));
        const size_t index = below(list.size() + 1), count = below(70);
        const bool bit = below(2) == 0;
        switch (below(10)) {
        case 0:
            for (const bool it : more)
                bits.push_back(it), list.push_back(it);
            break;
        case 1:
            expect(bits.insert(bits.begin() + ptrdiff_t(index), bit) == at(bits, index), "the place of a bit inserted");
            list.insert(at(list, index), bit);
            break;
        case 2:
            bits.insert(bits.cbegin() + ptrdiff_t(index), count, bit), list.insert(at(list, index), count, bit);
            break;
        case 3:
            expect(bits.insert(at(bits, index), more.begin(), more.end()) == at(bits, index), "the place of bits inserted");
            list.insert(at(list, index), more.begin(), more.end());
            break;
        case 4: { // some of its own
            const size_t from = below(list.size() + 1), to = from + below(std::min<size_t>(list.size() - from, 200) + 1);
            const List own(at(list, from), at(list, to));
            below(2) ? void(bits.insert(at(bits, index), at(bits, from), at(bits, to))) : bits.insert(index, bits.view().part(from, to));
            list.insert(at(list, index), own.begin(), own.end());
            break;
        }
        case 5:
            bits.resize(list.size() + count, bit), list.resize(list.size() + count, bit);
            break;
        case 6:
            bits.append(Own(more.begin(), more.end())), list.insert(list.end(), more.begin(), more.end());
            break;
        case 7:
            bits.insert(index, bit), list.insert(at(list, index), bit);
            break;
        case 8:
            bits.insert(at(bits, index), {bit, !bit, true}), list.insert(at(list, index), {bit, !bit, true});
            break;
        default:
            bits.reserve(bits.size() + count), expect(bits.capacity() >= list.size() + count, "room");
        }
    }

    void shrink() {
        const size_t from = below(list.size() + 1), to = from + below(list.size() - from + 1), count = below(9);
        switch (below(7)) {
        case 0:
            for (size_t i = 0; i < count && !list.empty(); ++i)
                bits.pop_back(), list.pop_back();
            break;
        case 1:
            expect(bits.erase(at(bits, from), at(bits, to)) == at(bits, from), "the place behind the bits erased");
            list.erase(at(list, from), at(list, to));
            break;
        case 2:
            if (from == list.size())
                break;
            expect(bits.erase(bits.cbegin() + ptrdiff_t(from)) == at(bits, from), "the place behind the bit erased");
            list.erase(at(list, from));
            break;
        case 3:
            bits.resize(from), list.resize(from);
            break;
        case 4:
            bits.shrink_to_fit();
            expect(bits.capacity() < list.size() + 8 * sizeof(Element), "no room");
            break;
        case 5:
            bits.erase(std::remove(bits.begin(), bits.end(), true), bits.end());
            list.erase(std::remove(list.begin(), list.end(), true), list.end());
            break;
        default:
            if (below(8) == 0)
                bits.clear(), list.clear();
        }
    }

    void replace() {
        const List more = some(below(300));
        switch (below(6)) {
        case 0:
            bits.assign(more.begin(), more.end()), list = more;
            break;
        case 1:
            bits.assign(more.size(), true), list.assign(more.size(), true);
            break;
        case 2: {
            Own other(more.begin(), more.end());
            below(2) ? swap(bits, other) : std::swap(bits, other);
            expect(List(other.begin(), other.end()) == list, "what is swapped");
            list = more;
            break;
        }
        case 3: {
            Own &same = bits;
            bits = std::move(same);
            break;
        }
        case 4:
            bits = OwnBits<uint16_t, Msb0>(bits).count() == bits.count() ? Own(OwnBits<uint16_t, Msb0>(bits)) : Own();
            break;
        default:
            bits = Own(bits.rbegin(), bits.rend()), list = List(list.rbegin(), list.rend());
        }
    }

    void edit() {
        if (list.empty())
            return;
        const size_t index = below(list.size()), other = below(list.size());
        switch (below(8)) {
        case 0: bits.set(index), list[index] = true; break;
        case 1: bits.reset(index), list[index] = false; break;
        case 2: bits.flip(index), list[index].flip(); break;
        case 3: std::swap(bits[index], bits[other]), List::swap(list[index], list[other]); break;
        case 4: bits.flip(), list.flip(); break;
        case 5: bits.at(index) = bits.at(other), list[index] = list[other]; break;
        case 6: bits.front() = bits.back(), list.front() = list.back(); break;
        default:
            if (below(4) == 0)
                below(2) ? (bits.set(), list.assign(list.size(), true)) : (bits.reset(), list.assign(list.size(), false));
        }
    }

    void algorithms() {
        const size_t from = below(list.size() + 1), to = from + below(list.size() - from + 1);
        const bool bit = below(2) == 0;
        const auto first = at(bits, from), last = at(bits, to);
        const auto list_first = at(list, from), list_last = at(list, to);
        expect(std::count(first, last, bit) == std::count(list_first, list_last, bit) && std::count(first, last, 2) == 0, "std::count");
        expect(std::find(first, last, bit) - first == std::find(list_first, list_last, bit) - list_first, "std::find");
        expect(std::find(std::as_const(bits).begin(), std::as_const(bits).end(), 7) == bits.end(), "std::find of no bit");
        const size_t dest = below(from + 1), behind = below(list.size() - to + from + 1);
        expect(std::copy(first, last, at(bits, dest)) - at(bits, dest) == last - first, "the end of std::copy");
        std::copy(list_first, list_last, at(list, dest));
        const bool same = std::equal(list_first, list_last, at(list, behind));
        expect(std::equal(bits.cbegin() + ptrdiff_t(from), bits.cbegin() + ptrdiff_t(to), at(bits, behind)) == same, "std::equal");
        if (below(8) == 0)
            std::fill(first, last, bit), std::fill(list_first, list_last, bit);
        if (below(8) == 0)
            std::sort(first, last), std::sort(list_first, list_last);
    }

    void check() {
        const Own &seen = bits;
        expect(bits.size() == list.size() && bits.empty() == list.empty() && std::equal(list.begin(), list.end(), seen.begin()), "the bits");
        expect(List(seen.begin(), seen.end()) == list && List(seen.rbegin(), seen.rend()) == List(list.rbegin(), list.rend()), "a walk");
        const auto ones = size_t(std::count(list.begin(), list.end(), true));
        expect(bits.count() == ones && bits.count_zeros() == list.size() - ones && bits.any() == (ones > 0), "a count");
        const auto first = size_t(std::find(list.begin(), list.end(), true) - list.begin());
        expect(bits.first_one().value_or(list.size()) == first, "the first one");
        size_t at = 0;
        for (const size_t one : bits.ones()) {
            at = size_t(std::find(list.begin() + ptrdiff_t(at), list.end(), true) - list.begin());
            expect(one == at++, "the ones");
        }
        compare<uint8_t, Lsb0>();
        compare<uint8_t, Msb0>();
        compare<uint64_t, Lsb0>();
        compare<uint64_t, Msb0>();
    }

    // With bits of other elements, which differ in a bit, in the length, or not.
    template <class Other, class OtherOrder>
    void compare() {
        List other_list = list;
        if (below(2) && !list.empty())
            other_list[below(list.size())].flip();
        if (below(3) == 0)
            other_list.resize(below(list.size() + 2));
        const OwnBits<Other, OtherOrder> other(other_list.begin(), other_list.end());
        expect((bits == other) == (list == other_list) && (other != bits) == (list != other_list), "== of other elements");
        expect((bits < other) == (list < other_list) && (bits >= other.view()) == (list >= other_list), "< of other elements");
        expect((bits.view() > other) == (list > other_list) && (bits <= other) == (list <= other_list), "> of other elements");
        const Own converted(other);
        expect(List(converted.begin(), converted.end()) == other_list, "bits of other elements");
        const auto hash = std::hash<Own>();
        expect((hash(bits) == hash(converted)) == (list == other_list), "a hash");
        Own moved(3, true);
        moved.append(bits);
        expect(std::hash<Bits<Element, Order>>()(moved.view().part(3, moved.size())) == hash(bits), "the hash of a part");
    }

  public:
    void run(size_t steps) {
        for (size_t step = 0; step < steps; ++step) {
            switch (below(5)) {
            case 0: grow(); break;
            case 1: shrink(); break;
            case 2: replace(); break;
            case 3: edit(); break;
            default: algorithms();
            }
            check();
        }
    }
};

template <class Element, class Order>
void compare(size_t steps) {
    single_bits<Element, Order>();
    operators<Element, Order>(steps);
    Program<Element, Order>().run(steps);
}

} // namespace

int main(int words, char **word) {
    const size_t steps = words > 1 ? std::strtoul(word[1], nullptr, 10) : 3000;
    compare<uint8_t, Lsb0>(steps);
    compare<uint8_t, Msb0>(steps);
    compare<uint16_t, Lsb0>(steps);
    compare<uint16_t, Msb0>(steps);
    compare<uint32_t, Lsb0>(steps);
    compare<uint32_t, Msb0>(steps);
    compare<uint64_t, Lsb0>(steps);
    compare<uint64_t, Msb0>(steps);
    std::printf("sequences: single bits of 8 kinds of elements, and %zu steps on each\n", steps);
}
