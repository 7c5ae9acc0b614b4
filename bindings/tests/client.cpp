// Compares the views of fehimbary.hpp with std::vector<bool> and <algorithm>, on windows at random: client [WINDOWS].
#include "fehimbary.hpp"

#include <algorithm>
#include <cstdio>
#include <cstdlib>
#include <random>
#include <string>
#include <vector>

namespace {

using fehimbary::Bits;
using fehimbary::Lsb0;
using fehimbary::Msb0;
using List = std::vector<bool>;

std::mt19937_64 random_number(7);

size_t below(size_t limit) { return random_number() % limit; }

// A size of at most `most`, its ends more often than others, and sometimes one that is too great.
size_t size_up_to(size_t most) {
    switch (below(24)) {
    case 0:
        return most + 1 + below(2);
    case 1:
        return ~size_t(0) - below(2);
    case 2:
        return 0;
    case 3:
        return most;
    default:
        return below(most + 1);
    }
}

void expect(bool holds, const std::string &what) {
    if (holds)
        return;
    std::fprintf(stderr, "%s differs\n", what.c_str());
    std::exit(1);
}

fb_status unless(bool holds, fb_status refusal) { return holds ? fb_status(FB_DONE) : refusal; }

// A call ends so: refused, with this status by its name, or not.
template <class Call>
void expect_status(fb_status wanted, const std::string &name, Call call) {
    fb_status status = FB_DONE;
    try {
        call();
    } catch (const fehimbary::Refused &refused) {
        status = refused.status();
        expect(std::string(refused.what()).rfind(fb_status_text(status) + std::string(": "), 0) == 0, "the name of a status");
    }
    expect(status == wanted, "the status of " + name);
}

List::iterator at(List &list, size_t index) { return list.begin() + std::ptrdiff_t(index); }

// A memory with random elements, and some bits of it that stand together.
template <class Element, class Order>
struct Window {
    static constexpr size_t width = 8 * sizeof(Element);

    std::vector<Element> memory;
    size_t from, to;

    explicit Window(size_t bits) : memory(bits / width) {
        for (Element &element : memory)
            element = Element(random_number());
        from = below(bits_in_all() + 1);
        to = from + below(bits_in_all() - from + 1);
    }

    size_t bits_in_all() const { return memory.size() * width; }

    Bits<Element, Order> view() { return Bits<Element, Order>(memory.data(), memory.size()).part(from, to); }

    Element mask(size_t place) const {
        return Element(Element(1) << (std::is_same_v<Order, Lsb0> ? place % width : width - 1 - place % width));
    }

    List list() const {
        List list;
        for (size_t place = from; place < to; ++place)
            list.push_back(memory[place / width] & mask(place));
        return list;
    }

    void write(const List &list) {
        for (size_t place = from; place < to; ++place) {
            Element &element = memory[place / width];
            element = Element(list[place - from] ? element | mask(place) : element & Element(~mask(place)));
        }
    }
};

template <class Element, class Order>
class Checks {
    using Place = Window<Element, Order>;
    using View = Bits<Element, Order>;
    using Seen = Bits<const Element, Order>;

  public:
    explicit Checks(size_t bits) : left(bits), right(bits), list(left.list()), right_list(right.list()) {
        if (below(2) == 0)
            right.to = right.from + std::min(list.size(), right.bits_in_all() - right.from);
        right_list = right.list();
    }

    void all() {
        parts();
        single_bits();
        edits();
        moves();
        transfers();
        scatter();
        questions();
        comparisons();
        numbers();
        run();
    }

  private:
    Place left, right;
    List list, right_list;

    // The left view edited, and its list, if the edit isn't refused.
    template <class ByView, class ByList>
    void edit(const std::string &name, fb_status wanted, ByView by_view, ByList by_list) {
        Place after = left;
        if (wanted == FB_DONE)
            by_list(list);
        after.write(list);
        expect_status(wanted, name, [&] { by_view(left.view()); });
        expect(left.memory == after.memory, "the memory after " + name);
    }

    // New bits, half of them ones, or few, or most.
    void scatter() {
        const size_t of = below(3);
        for (size_t i = 0; i < list.size(); ++i)
            list[i] = of == 0 ? below(2) == 0 : (below(40) == 0) == (of == 1);
        left.write(list);
    }

    void parts() {
        const size_t from = size_up_to(list.size()), to = size_up_to(list.size());
        expect_status(unless(from <= to && to <= list.size(), FB_RANGE), "part", [&] {
            const Seen part = left.view().part(from, to);
            expect(part.size() == to - from, "the size of a part");
            for (size_t i = 0; i < part.size(); ++i)
                expect(part[i] == list[from + i], "a bit of a part");
        });
        expect_status(FB_SIZE, "a view of too much", [&] { View(left.memory.data(), FB_MAX_BITS / left.width + 1); });
    }

    void single_bits() {
        const size_t i = size_up_to(list.size()), k = size_up_to(list.size());
        const bool bit = below(2) == 0, is_in = i < list.size(), old = is_in && list[i];
        const fb_status wanted = unless(is_in, FB_INDEX);
        expect_status(wanted, "[]", [&] { expect(left.view()[i] == old, "a bit"); });
        edit(
            "replace", wanted, [&](View view) { expect(view.replace(i, bit) == old, "the bit replaced"); },
            [&](List &l) { l[i] = bit; });
        edit(
            "set", wanted, [&](View view) { view.set(i, !bit); }, [&](List &l) { l[i] = !bit; });
        edit(
            "swap_bits", unless(is_in && k < list.size(), FB_INDEX), [&](View view) { view.swap_bits(i, k); },
            [&](List &l) { List::swap(l[i], l[k]); });
    }

    void edits() {
        const size_t len = list.size(), from = size_up_to(len), to = size_up_to(len), dest = size_up_to(len);
        const bool is_source = from <= to && to <= len, is_dest = dest <= len && to - from <= len - dest;
        edit(
            "invert", FB_DONE, [](View view) { view.invert(); }, [](List &l) { l.flip(); });
        edit(
            "reverse", FB_DONE, [](View view) { view.reverse(); }, [](List &l) { std::reverse(l.begin(), l.end()); });
        edit(
            "copy_within", is_source ? unless(is_dest, FB_DEST) : fb_status(FB_SOURCE),
            [&](View view) { view.copy_within(from, to, dest); },
            [&](List &l) {
                List old = l;
                std::copy(at(old, from), at(old, to), at(l, dest));
            });
    }

    void moves() {
        const size_t len = list.size(), by = size_up_to(len);
        const fb_status wanted = unless(by <= len, FB_AMOUNT);
        edit(
            "rotate_left", wanted, [&](View view) { view.rotate_left(by); },
            [&](List &l) { std::rotate(l.begin(), at(l, by), l.end()); });
        edit(
            "shift_start", wanted, [&](View view) { view.shift_start(by); },
            [&](List &l) {
                l.erase(l.begin(), at(l, by));
                l.resize(len);
            });
        left.write(list = right_sized(len));
        edit(
            "rotate_right", wanted, [&](View view) { view.rotate_right(by); },
            [&](List &l) { std::rotate(l.begin(), at(l, len - by), l.end()); });
        edit(
            "shift_end", wanted, [&](View view) { view.shift_end(by); },
            [&](List &l) {
                l.insert(l.begin(), by, false);
                l.resize(len);
            });
    }

    // The right list, cut or with zeros behind it.
    List right_sized(size_t len) const {
        List sized = right_list;
        sized.resize(len);
        return sized;
    }

    template <class Operator>
    void combine(const List &other, Operator by) {
        for (size_t i = 0; i < list.size(); ++i)
            list[i] = by(list[i], other[i]);
    }

    void transfers() {
        const List other = right_sized(list.size());
        const fb_status wanted = unless(list.size() == right_list.size(), FB_LENGTH);
        const std::vector<Element> before = right.memory;
        edit(
            "|=", FB_DONE, [&](View view) { view |= right.view(); },
            [&](List &) { combine(other, [](bool a, bool b) { return a || b; }); });
        edit(
            "^=", FB_DONE, [&](View view) { view ^= right.view(); },
            [&](List &) { combine(other, [](bool a, bool b) { return a != b; }); });
        edit(
            "&=", FB_DONE, [&](View view) { view &= right.view(); },
            [&](List &) { combine(other, [](bool a, bool b) { return a && b; }); });
        edit(
            "and_not", FB_DONE, [&](View view) { view.and_not(right.view()); },
            [&](List &) { combine(other, [](bool a, bool b) { return a && !b; }); });
        expect(right.memory == before, "the right memory");
        Place swapped = right;
        if (wanted == FB_DONE)
            swapped.write(list);
        edit(
            "swap", wanted, [&](View view) { view.swap(right.view()); }, [&](List &l) { std::swap(l, right_list); });
        expect(right.memory == swapped.memory, "the right memory after swap");
        edit(
            "copy", wanted, [&](View view) { view.copy_from(right.view()); }, [&](List &l) { l = right_list; });
        expect(right.memory == swapped.memory, "the right memory after copy");
    }

    void questions() {
        const Seen view = left.view();
        const size_t ones = size_t(std::count(list.begin(), list.end(), true));
        expect(view.count_ones() == ones && view.count_zeros() == list.size() - ones, "a count");
        expect(view.any() == (ones != 0) && view.all() == (ones == list.size()), "any or all");
        std::vector<size_t> places[2];
        for (size_t i = 0; i < list.size(); ++i)
            places[list[i]].push_back(i);
        const auto first = [](const std::vector<size_t> &l) {
            return l.empty() ? std::nullopt : std::optional(l.front());
        };
        const auto last = [](const std::vector<size_t> &l) {
            return l.empty() ? std::nullopt : std::optional(l.back());
        };
        expect(view.first_one() == first(places[1]) && view.last_one() == last(places[1]), "a search for a one");
        expect(view.first_zero() == first(places[0]) && view.last_zero() == last(places[0]), "a search for a zero");
        std::vector<size_t> found, some(1 + below(9));
        for (size_t from = 0, got = some.size(); got == some.size(); from = found.empty() ? 0 : found.back() + 1) {
            got = view.ones(from, some.data(), some.size());
            found.insert(found.end(), some.begin(), some.begin() + std::ptrdiff_t(got));
        }
        expect(found == places[1], "a walk over ones");
    }

    void comparisons() {
        if (below(2) == 0)
            right.to = right.from + std::min(below(12), right.bits_in_all() - right.from);
        right_list = right_sized(right.to - right.from);
        if (below(2) == 0 && right_list.size() <= list.size())
            std::copy(list.begin(), at(list, right_list.size()), right_list.begin());
        right.write(right_list);
        const Seen view = left.view(), other = right.view();
        const bool is_short = right_list.size() <= list.size();
        const size_t rest = is_short ? list.size() - right_list.size() : 0;
        expect((view == other) == (list == right_list) && (view != other) == (list != right_list), "==");
        expect(view == view && view.compare(view) == 0 && view.contains(view), "a view beside itself");
        expect(view.compare(other) == (list < right_list ? -1 : list == right_list ? 0 : 1), "compare");
        expect(view.starts_with(other) == (is_short && std::equal(right_list.begin(), right_list.end(), list.begin())),
               "starts_with");
        expect(view.ends_with(other) == (is_short && std::equal(right_list.begin(), right_list.end(), at(list, rest))),
               "ends_with");
        const auto place = std::search(list.begin(), list.end(), right_list.begin(), right_list.end());
        expect(view.contains(other) == (right_list.empty() || place != list.end()), "contains");
    }

    // The number of a list that begins at a place of the memory, its segments from the lowest on.
    static uint64_t number_of(const List &list, size_t place, bool big) {
        std::vector<List> segments;
        for (size_t i = 0; i < list.size(); ++i) {
            if (i == 0 || (place + i) % Place::width == 0)
                segments.emplace_back();
            segments.back().push_back(list[i]);
        }
        if (big)
            std::reverse(segments.begin(), segments.end());
        uint64_t number = 0;
        unsigned weight = 0;
        for (List &segment : segments) {
            if (std::is_same_v<Order, Msb0>)
                std::reverse(segment.begin(), segment.end());
            for (bool bit : segment)
                number |= uint64_t(bit) << weight++;
        }
        return number;
    }

    void numbers() {
        const size_t from = below(list.size() + 1), len = below(std::min<size_t>(list.size() - from, 66) + 1);
        const fb_status wanted = unless(1 <= len && len <= 64, FB_WIDTH);
        const uint64_t number = random_number(), cut = len < 64 ? number & ((uint64_t(1) << len) - 1) : number;
        left.to = (left.from += from) + len;
        list = left.list();
        expect_status(wanted, "load_le",
                      [&] { expect(left.view().load_le() == number_of(list, left.from, false), "load_le"); });
        expect_status(wanted, "load_be",
                      [&] { expect(left.view().load_be() == number_of(list, left.from, true), "load_be"); });
        const std::vector<Element> before = left.memory;
        expect_status(wanted, "store_le", [&] { left.view().store_le(number); });
        expect(wanted != FB_DONE || number_of(left.list(), left.from, false) == cut, "store_le");
        expect_status(wanted, "store_be", [&] { left.view().store_be(number); });
        expect(wanted != FB_DONE || number_of(left.list(), left.from, true) == cut, "store_be");
        left.write(list);
        expect(left.memory == before, "the bits beside a number");
    }

    void run() {
        list = left.list();
        const size_t len = list.size(), half = len / 2;
        edit(
            "fill", FB_DONE, [](View view) { view.fill(true); }, [&](List &l) { l.assign(len, true); });
        const fb_step steps[] = {{0, len + 1, 0, 0, 0, FB_FILL, 0},
                                 {half, len, 0, 0, 0, FB_INVERT, 0},
                                 {0, len, 0, 0, 0, FB_REVERSE, 0},
                                 {0, len, 0, 0, 0, FB_COUNT_ONES, 0},
                                 {0, len - half, 0, 0, 0, FB_LAST_ONE, 0}};
        fb_reply replies[5];
        const Element *elements = right.memory.data();
        expect_status(FB_ROOM, "run", [&] { left.view().run(elements, right.memory.size(), steps, 5, replies, 4); });
        edit(
            "run", FB_DONE, [&](View view) { view.run(elements, right.memory.size(), steps, 5, replies, 5); },
            [&](List &l) { std::fill(l.begin(), at(l, len - half), false); });
        const fb_status statuses[] = {FB_RANGE, FB_DONE, FB_DONE, FB_DONE, FB_NONE};
        for (size_t i = 0; i < 5; ++i)
            expect(replies[i].status == statuses[i], "the status of a step");
        expect(replies[3].kind == FB_REPLY_COUNT && replies[3].low == half, "the reply of a step");
    }
};

template <class Element>
void check(size_t windows) {
    for (size_t i = 0; i < windows; ++i) {
        Checks<Element, Lsb0>(below(600)).all();
        Checks<Element, Msb0>(below(600)).all();
    }
    std::printf("elements of %zu bits: every method on %zu views\n", 8 * sizeof(Element), 2 * windows);
}

} // namespace

int main(int count, char **words) {
    static_assert(sizeof(Bits<uint8_t>) == sizeof(void *) + 2 * sizeof(size_t), "two numbers and a pointer");
    const size_t windows = count > 1 ? std::strtoul(words[1], nullptr, 10) : 1000;
    check<uint8_t>(windows);
    check<uint16_t>(windows);
    check<uint32_t>(windows);
    check<uint64_t>(windows);
}
