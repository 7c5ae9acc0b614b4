// `driver check` tests the library against loops over single bits, `driver tables` times it beside its peers and prints
// tables, and `driver plot` prints the times that plot.py draws.
#include "checks.hpp"
#include "fields.hpp"
#include "library.hpp"
#include "loops.hpp"
#include "peers.hpp"
#include "timing.hpp"
#include <cstdio>
#include <cstring>
#include <numeric>
#include <string>
#include <vector>

namespace {

constexpr size_t sizes[] = {size_t(1) << 20, size_t(1) << 10};
constexpr size_t plot_sizes[] = {size_t(1) << 6, size_t(1) << 10, size_t(1) << 14, size_t(1) << 20, size_t(1) << 26};

// The bit of an element at which a shifted side starts, and by how far shifts go beside whole elements.
template <class Element>
constexpr size_t middle = sizeof(Element) == 1 ? 3 : sizeof(Element) == 2 ? 13 : 29;

template <class Element, class Order>
void check() {
    Checks<Element, Order> checks(1);
    constexpr size_t width = 8 * sizeof(Element);
    for (size_t len : sizes)
        for (size_t start : {size_t(0), middle<Element>})
            for (size_t by : {size_t(0), width, width + middle<Element>, len / 2 + middle<Element>, len})
                if (len == sizes[1] || by == width + middle<Element>)
                    checks.all({0, start, len, by});
    std::mt19937_64 random(2);
    for (int i = 0; i < 4000; ++i) {
        size_t len = random() % (i < 2000 ? 40 : 400);
        checks.all({random() % 130, random() % 130, len, random() % (len + 1)});
    }
    for (size_t len = width; len <= 6 * width; len += width)
        for (size_t start = 0; start < width; ++start) {
            checks.all({0, start, len, random() % (len + 1)});
            checks.all({start, start, len, random() % (len + 1)});
        }
}

template <class Element, class Order>
void check_fields() {
    FieldChecks<Element, Order> checks(1);
    for (size_t start = 0; start <= 16 * sizeof(Element); ++start)
        for (size_t count : {size_t(0), size_t(1), size_t(2), size_t(3), size_t(17), size_t(5000)})
            checks.all(start, count);
}

// The times of one operation at one place, of one call each; 0 where there is none.
struct Times {
    double library = 0, loop = 0, libc = 0;
};

struct Row {
    std::string operation, element, phase;
    size_t len;
    Times times;
    Best best;
};

// A number with three digits that count, or nothing for 0.
std::string number(double x) {
    char text[32] = "";
    if (x != 0)
        std::snprintf(text, sizeof text, "%.*f", x >= 100 ? 0 : x >= 10 ? 1 : x >= 1 ? 2 : x >= 0.1 ? 3 : 4, x);
    return text;
}

std::string ratio(double other, double library) { return number(other / library); }

std::string rate(size_t len, double nanoseconds) { return nanoseconds == 0 ? "" : number(double(len) / nanoseconds); }

void print_head(size_t len) {
    std::printf("\n### %zu bits\n\n", len);
    std::printf("| operation | elements | phase | library / peer | library / loop | library | peer | which | loop | libc | "
                "library / libc |\n");
    std::printf("|---|---|---|---|---|---|---|---|---|---|---|\n");
}

void print(const Row &row) {
    const Times &t = row.times;
    std::printf("| %s | %s | %s | %s | %s | %s | %s | %s | %s | %s | %s |\n", row.operation.c_str(),
                row.element.c_str(), row.phase.c_str(), ratio(row.best.nanoseconds, t.library).c_str(),
                ratio(t.loop, t.library).c_str(), rate(row.len, t.library).c_str(),
                rate(row.len, row.best.nanoseconds).c_str(), row.best.name.c_str(), rate(row.len, t.loop).c_str(),
                rate(row.len, t.libc).c_str(), ratio(t.libc, t.library).c_str());
    std::fflush(stdout);
}

// The library, the plain loop and libc on `len` bits. Where an operation has two sides the second
// begins at `start`, and the first at the edge of an element or at `start` too (`inner`); where it has
// one side this begins at `start`.
template <class Element, class Order>
class Timed {
    using Call = Library<Element, Order>;
    using Loop = Loops<Element, Order>;
    static constexpr size_t width = 8 * sizeof(Element);

  public:
    // Where the sides begin, and by how many bits they are moved and turned.
    const size_t start, first, by, turn;

    Timed(size_t len, size_t start, bool inner)
        : start(start), first(inner ? start : 0), by(start == 0 ? width : start), turn(len / 2 + start), len(len),
          inner(inner), count(len / width), size(count + 1), left(size), right(size), room(2 * count) {
        std::mt19937_64 random(3);
        for (Element &element : left)
            element = Element(random());
        for (Element &element : right)
            element = Element(random());
    }

    Times copy() {
        Times t;
        auto loop = inner ? Loop::inner_copy : Loop::copy;
        auto read = [&] { read_all(); };
        t.library = time_call([&] { Call::copy(l(), size, first, r(), size, start, len); }, read);
        t.loop = time_call([&] { loop(l(), r(), unsigned(start), count); }, read);
        if (start == 0)
            t.libc = time_call([&] { std::memmove(l(), r(), len / 8); }, read);
        return t;
    }

    Times combine() {
        Times t;
        auto loop = inner ? Loop::inner_combine : Loop::combine;
        t.library = time_call([&] { Call::combine(l(), size, first, r(), size, start, len); });
        t.loop = time_call([&] { loop(l(), r(), unsigned(start), count); });
        return t;
    }

    Times swap() {
        Times t;
        auto loop = inner ? Loop::inner_swap : Loop::swap;
        t.library = time_call([&] { Call::swap(l(), size, first, r(), size, start, len); });
        t.loop = time_call([&] { loop(l(), r(), unsigned(start), count); });
        return t;
    }

    // Of equal bits.
    Times equal() {
        (inner ? Loop::inner_copy : Loop::copy)(l(), r(), unsigned(start), count);
        Times t;
        auto loop = inner ? Loop::inner_equal : Loop::equal;
        t.library = time_call([&] { keep(Call::equal(l(), size, first, r(), size, start, len)); });
        t.loop = time_call([&] { keep(loop(l(), r(), unsigned(start), count)); });
        if (start == 0)
            t.libc = time_call([&] { keep(std::memcmp(l(), r(), len / 8)); });
        return t;
    }

    // Of equal bits.
    Times compare() {
        Loop::copy(l(), r(), unsigned(start), count);
        Times t;
        t.library = time_call([&] { keep(Call::compare(l(), size, first, r(), size, start, len)); });
        t.loop = time_call([&] { keep(Loop::compare(l(), r(), unsigned(start), count)); });
        return t;
    }

    // With the first half of equal bits.
    Times starts_with() {
        Loop::copy(l(), r(), unsigned(start), count);
        Times t;
        t.library = time_call([&] { keep(Call::starts_with(l(), size, first, r(), size, start, len)); });
        if (count >= 2)
            t.loop = time_call([&] { keep(Loop::equal(l(), r(), unsigned(start), count / 2)); });
        return t;
    }

    // Of 32 ones, which don't stand there.
    Times contains() {
        const std::vector<Element> needle((32 + width - 1) / width, Element(~Element(0)));
        Times t;
        t.library = time_call([&] { keep(Call::contains(r(), size, start, len, needle.data(), needle.size())); });
        t.loop = time_call([&] { keep(Loop::contains(r(), unsigned(start), count, 0xFFFFFFFF)); });
        return t;
    }

    Times copy_within() {
        Times t;
        t.library = time_call([&] { Call::copy_within(l(), size, 0, len, by); });
        t.loop = time_call([&] { Loop::copy_within(l(), count, by); });
        if (by % 8 == 0)
            t.libc = time_call([&] { std::memmove(l() + by / width, l(), (len - by) / 8); });
        return t;
    }

    Times shift_start() {
        Times t;
        t.library = time_call([&] { Call::shift_start(l(), size, 0, len, by); });
        t.loop = time_call([&] { Loop::shift_start(l(), count, by); });
        if (by % 8 == 0)
            t.libc = time_call([&] {
                std::memmove(l(), l() + by / width, (len - by) / 8);
                std::memset(l() + count - by / width, 0, by / 8);
            });
        return t;
    }

    Times reverse() {
        Times t;
        t.library = time_call([&] { Call::reverse(r(), size, start, len); });
        t.loop = time_call([&] { Loop::reverse(r(), unsigned(start), count, room.data()); });
        return t;
    }

    Times rotate_left() {
        Times t;
        t.library = time_call([&] { Call::rotate_left(l(), size, 0, len, turn); });
        t.loop = time_call([&] { Loop::rotate_left(l(), count, turn, room.data()); });
        return t;
    }

    Times fill() {
        Times t;
        auto read = [&] { read_all(); };
        t.library = time_call([&] { Call::fill(r(), size, start, len, true); }, read);
        t.loop = time_call([&] { Loop::fill(r(), unsigned(start), count, true); }, read);
        if (start == 0)
            t.libc = time_call([&] { std::memset(r(), 0xFF, len / 8); }, read);
        return t;
    }

    Times invert() {
        Times t;
        t.library = time_call([&] { Call::invert(r(), size, start, len); });
        t.loop = time_call([&] { Loop::invert(r(), unsigned(start), count); });
        return t;
    }

    Times count_ones() {
        Times t;
        t.library = time_call([&] { keep(Call::count_ones(r(), size, start, len)); });
        t.loop = time_call([&] { keep(Loop::count_ones(r(), unsigned(start), count)); });
        return t;
    }

    // Of zeros.
    Times first_one() {
        Call::fill(r(), size, start, len, false);
        Times t;
        t.library = time_call([&] { keep(Call::first_one(r(), size, start, len)); });
        t.loop = time_call([&] { keep(Loop::first_one(r(), unsigned(start), count)); });
        return t;
    }

    // The sum of the indices of the ones, which are one bit in `every`.
    Times iter_ones(unsigned every) {
        std::mt19937_64 random(5);
        for (Element &element : right) {
            element = 0;
            for (size_t i = 0; i < width; ++i)
                element = Element(element | Element(random() % every == 0) << i);
        }
        Times t;
        t.library = time_call([&] { keep(Call::iter_ones(r(), size, start, len)); });
        t.loop = time_call([&] { keep(Loop::iter_ones(r(), unsigned(start), count)); });
        return t;
    }

  private:
    size_t len;
    bool inner;
    size_t count, size;
    std::vector<Element> left, right, room;

    Element *l() { return left.data(); }
    Element *r() { return right.data(); }

    void read_all() {
        keep(std::accumulate(left.begin(), left.end(), Element(0)));
        keep(std::accumulate(right.begin(), right.end(), Element(0)));
    }
};

// Where the sides of an operation begin: at the edge of an element, one at an edge and one inside, or
// both inside at the same bit.
enum class Phase { edges, shifted, inner };

// The elements and the order of one row.
template <class E, class O>
struct Kind {
    using Element = E;
    using Order = O;
};

// Every operation on so many bits, or only copies, operators, exchanges and equality of two windows: each by the peers, which have
// elements of their own, and then by every kind.
template <class... Kinds, class Report>
void measure(size_t len, Phase phase, bool pairs_alone, Report report) {
    const bool at_edge = phase == Phase::edges, inner = phase == Phase::inner;
    const size_t peer_start = at_edge ? 0 : 29, peer_by = at_edge ? 64 : 29, peer_turn = len / 2 + peer_start;
    auto row = [&](const char *operation, auto place, auto act, auto best) {
        Peers sets(len, peer_start, inner);
        const Best peer = best(sets);
        auto kind = [&](auto of) {
            using Element = typename decltype(of)::Element;
            using Order = typename decltype(of)::Order;
            Timed<Element, Order> timed(len, at_edge ? 0 : middle<Element>, inner);
            const std::string elements = "u" + std::to_string(8 * sizeof(Element)) + " " + Order::name;
            report({operation, elements, place(timed), len, act(timed), peer});
        };
        (kind(Kinds()), ...);
    };
    auto two = [](auto &t) { return std::to_string(t.first) + ", " + std::to_string(t.start); };
    auto one = [](auto &t) { return std::to_string(t.start); };
    auto by = [](auto &t) { return "by " + std::to_string(t.by); };
    auto turn = [](auto &t) { return "by " + std::to_string(t.turn); };
    row("copy", two, [](auto &t) { return t.copy(); }, [](Peers &p) { return p.copy(); });
    row("or", two, [](auto &t) { return t.combine(); }, [](Peers &p) { return p.combine(); });
    row("swap", two, [](auto &t) { return t.swap(); }, [](Peers &p) { return p.swap(); });
    row("equality", two, [](auto &t) { return t.equal(); }, [](Peers &p) { return p.equal(); });
    if (pairs_alone)
        return;
    row("compare", two, [](auto &t) { return t.compare(); }, [](Peers &p) { return p.compare(); });
    row("starts_with", two, [](auto &t) { return t.starts_with(); }, [](Peers &p) { return p.starts_with(); });
    row("contains", one, [](auto &t) { return t.contains(); }, [](Peers &p) { return p.contains(); });
    row("copy_within", by, [](auto &t) { return t.copy_within(); }, [&](Peers &p) { return p.copy_within(peer_by); });
    row("shift_start", by, [](auto &t) { return t.shift_start(); }, [&](Peers &p) { return p.shift_start(peer_by); });
    row("rotate_left", turn, [](auto &t) { return t.rotate_left(); }, [&](Peers &p) { return p.rotate_left(peer_turn); });
    row("reverse", one, [](auto &t) { return t.reverse(); }, [](Peers &p) { return p.reverse(); });
    row("fill", one, [](auto &t) { return t.fill(); }, [](Peers &p) { return p.fill(); });
    row("invert", one, [](auto &t) { return t.invert(); }, [](Peers &p) { return p.invert(); });
    row("count_ones", one, [](auto &t) { return t.count_ones(); }, [](Peers &p) { return p.count_ones(); });
    row("first_one", one, [](auto &t) { return t.first_one(); }, [](Peers &p) { return p.first_one(); });
    row("ones 1/61", one, [](auto &t) { return t.iter_ones(61); }, [](Peers &p) { return p.iter_ones(61); });
    row("ones 1/2", one, [](auto &t) { return t.iter_ones(2); }, [](Peers &p) { return p.iter_ones(2); });
}

// Work on few bits, in nanoseconds, with starts that the compiler doesn't know.
template <class Element, class Order>
void measure_few() {
    using Call = Library<Element, Order>;
    using Loop = Loops<Element, Order>;
    const unsigned width = 8 * sizeof(Element);
    std::vector<Element> to(160 / width, Element(0x5A)), from(160 / width, Element(0x5A));
    Element *t = to.data();
    const Element *f = from.data();
    const size_t size = to.size();
    for (unsigned len : {2u, 8u, 16u, 64u})
        for (size_t start : {size_t(0), middle<Element>}) {
            auto row = [&](const char *operation, const char *place, double library, double by_hand) {
                std::printf("| %s | %u | u%u %s | %s%zu | %s | %s | %s |\n", operation, len, width, Order::name, place,
                            start, number(library).c_str(), number(by_hand).c_str(), ratio(by_hand, library).c_str());
            };
            if (len > width)
                continue;
            row("copy", "0, ", time_call([&] { Call::copy(t, size, 0, f, size, start, len); }),
                time_call([&] { Loop::copy_few(t, 0, f, start, len); }));
            row("equality", "0, ", time_call([&] { keep(Call::equal(t, size, 0, f, size, start, len)); }),
                time_call([&] { keep(Loop::equal_few(t, 0, f, start, len)); }));
            row("fill", "", time_call([&] { Call::fill(t, size, start, len, true); }),
                time_call([&] { Loop::fill_few(t, start, len, true); }));
            row("count_ones", "", time_call([&] { keep(Call::count_ones(f, size, start, len)); }),
                time_call([&] { keep(Loop::count_few(f, start, len)); }));
        }
}

// Single bits one after the other and at random, in nanoseconds a bit.
template <class Element, class Order>
void measure_single() {
    using Call = Library<Element, Order>;
    using Loop = Loops<Element, Order>;
    const unsigned width = 8 * sizeof(Element);
    const size_t len = size_t(1) << 20, some = size_t(1) << 14;
    std::vector<Element> memory(len / width, Element(0x5A));
    std::vector<bool> vector(len, true);
    std::vector<size_t> places(some);
    std::mt19937_64 random(3);
    for (size_t &place : places)
        place = random() % len;
    Element *p = memory.data();
    const size_t size = memory.size();
    // Does an act on so many bits.
    auto each = [&](bool at_random, auto act) {
        return [&, at_random, act] {
            size_t sum = 0;
            for (size_t i = 0; i < some; ++i)
                sum += act(at_random ? places[i] : i);
            keep(sum);
        };
    };
    auto row = [&](const char *operation, bool at_random, auto library, auto by_vector, auto by_hand) {
        const double times[] = {time_call(each(at_random, library)), time_call(each(at_random, by_vector)),
                                time_call(each(at_random, by_hand))};
        std::printf("| %s | u%u %s | %s | %s | %s | %s |\n", operation, width, Order::name,
                    number(times[0] / double(some)).c_str(), number(times[1] / double(some)).c_str(),
                    number(times[2] / double(some)).c_str(), ratio(times[1], times[0]).c_str());
    };
    auto get = [&](size_t i) { return Call::get(p, size, i); };
    auto get_of_vector = [&](size_t i) { return bool(vector[i]); };
    auto get_by_hand = [&](size_t i) { return Loop::get(p, i); };
    row("get, in a row", false, get, get_of_vector, get_by_hand);
    row("get, at random", true, get, get_of_vector, get_by_hand);
    auto set = [&](size_t i) { return Call::set(p, size, i, i % 3 == 0), 0; };
    auto set_of_vector = [&](size_t i) { return vector[i] = i % 3 == 0, 0; };
    auto set_by_hand = [&](size_t i) { return Loop::set(p, i, i % 3 == 0), 0; };
    row("set, in a row", false, set, set_of_vector, set_by_hand);
    row("set, at random", true, set, set_of_vector, set_by_hand);
}

// Fields of 12 bits that follow one another, in nanoseconds a field.
template <class Element, class Order>
void measure_fields() {
    using Call = Fields<Element, Order>;
    using Loop = FieldLoops<Element, Order>;
    const unsigned width = 8 * sizeof(Element);
    const size_t count = 4096;
    std::vector<Element> memory(Loop::field * count / width + 2, Element(0x5A5A5A5A));
    Element *p = memory.data();
    for (size_t start : {size_t(0), middle<Element>}) {
        const double load = time_call([&] { keep(Call::load(p, memory.size(), start, count)); });
        const double load_by_hand = time_call([&] { keep(Loop::load(p, start, count)); });
        const double store = time_call([&] { Call::store(p, memory.size(), start, count); });
        const double store_by_hand = time_call([&] { Loop::store(p, start, count); });
        auto row = [&](const char *operation, double library, double by_hand) {
            std::printf("| %s | u%u %s | %zu | %s | %s | %s |\n", operation, width, Order::name, start,
                        number(library / double(count)).c_str(), number(by_hand / double(count)).c_str(),
                        ratio(by_hand, library).c_str());
        };
        row("load", load, load_by_hand);
        row("store", store, store_by_hand);
    }
}

void check_all() {
    check<uint8_t, Lsb0>();
    check<uint8_t, Msb0>();
    check<uint16_t, Lsb0>();
    check<uint16_t, Msb0>();
    check<uint64_t, Lsb0>();
    check<uint64_t, Msb0>();
    check_fields<uint8_t, Lsb0>();
    check_fields<uint8_t, Msb0>();
    check_fields<uint32_t, Lsb0>();
    check_fields<uint32_t, Msb0>();
    std::printf("The library's results are those of the loops over single bits.\n");
}

void print_operations() {
    for (size_t len : sizes) {
        print_head(len);
        for (Phase phase : {Phase::edges, Phase::shifted, Phase::inner})
            measure<Kind<uint64_t, Lsb0>, Kind<uint64_t, Msb0>, Kind<uint16_t, Lsb0>, Kind<uint16_t, Msb0>, Kind<uint8_t, Lsb0>,
                    Kind<uint8_t, Msb0>>(len, phase, phase == Phase::inner, print);
    }
}

void print_few() {
    std::printf(
        "\n### Few bits, in ns\n\n| operation | bits | elements | phase | library | by hand | library / by hand |\n");
    std::printf("|---|---|---|---|---|---|---|\n");
    measure_few<uint64_t, Lsb0>();
    measure_few<uint64_t, Msb0>();
    measure_few<uint8_t, Lsb0>();
    measure_few<uint8_t, Msb0>();
    std::printf(
        "\n### Single bits, in ns a bit\n\n| operation | elements | library | `vector<bool>` | by hand | library / "
        "vector |\n|---|---|---|---|---|---|\n");
    measure_single<uint64_t, Lsb0>();
    measure_single<uint64_t, Msb0>();
    measure_single<uint8_t, Lsb0>();
    measure_single<uint8_t, Msb0>();
}

void print_fields() {
    std::printf("\n### Fields of 12 bits in a row, in ns a field\n\n"
                "| operation | elements | start | library | by hand | library / by hand |\n");
    std::printf("|---|---|---|---|---|---|\n");
    measure_fields<uint8_t, Lsb0>();
    measure_fields<uint8_t, Msb0>();
    measure_fields<uint32_t, Lsb0>();
    measure_fields<uint32_t, Msb0>();
}

// A line for the library in these elements, and where these are of 64 bits for each other that takes part.
void print_for_plot(const Row &row, const std::string &kind) {
    const std::string operation = row.operation + kind;
    auto line = [&](const std::string &name, double nanoseconds) {
        if (nanoseconds != 0)
            std::printf("%s\t%s\t%zu\t%g\n", operation.c_str(), name.c_str(), row.len, nanoseconds);
    };
    line(row.element.substr(0, row.element.find(' ')), row.times.library);
    if (row.element != "u64 Lsb0")
        return;
    line("loop", row.times.loop);
    line("libc", row.times.libc);
    for (const auto &[name, nanoseconds] : row.best.all)
        line(name, nanoseconds);
}

void print_plot() {
    rounds.count = 2;
    for (size_t len : plot_sizes)
        for (Phase phase : {Phase::edges, Phase::shifted}) {
            auto report = [&](const Row &row) { print_for_plot(row, phase == Phase::edges ? "" : ", shifted"); };
            measure<Kind<uint64_t, Lsb0>, Kind<uint16_t, Lsb0>, Kind<uint8_t, Lsb0>>(len, phase, phase == Phase::shifted, report);
        }
}

} // namespace

int main(int, char **words) {
    const std::string what = words[1];
    if (what == "check") {
        check_all();
    } else if (what == "plot") {
        print_plot();
    } else {
        print_operations();
        print_few();
        print_fields();
    }
}
