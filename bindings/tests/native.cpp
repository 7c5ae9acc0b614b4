// What makes the views of fehimbary.hpp native ones: ranges, <algorithm>, comparisons, containers. Expected values are by hand.
#include "fehimbary.hpp"

#include <algorithm>
#include <array>
#include <cstdio>
#include <cstdlib>
#include <iterator>
#include <numeric>
#include <sstream>
#include <string>
#include <unordered_map>
#include <unordered_set>
#include <vector>

namespace {

using fehimbary::Bits;
using fehimbary::Lsb0;
using fehimbary::Msb0;
using fehimbary::OwnBits;
using View = Bits<uint8_t>;
using Seen = Bits<const uint8_t>;
using Own = OwnBits<uint8_t>;

void expect(bool holds, const char *what) {
    if (holds)
        return;
    std::fprintf(stderr, "%s differs\n", what);
    std::exit(1);
}

template <class Call>
void expect_refused(fb_status wanted, Call call) {
    try {
        call();
    } catch (const fehimbary::Refused &refused) {
        return expect(refused.status() == wanted, "why a call is refused");
    }
    expect(false, "a call that is to be refused");
}

static_assert(std::is_same_v<View::iterator::iterator_category, std::random_access_iterator_tag>);
static_assert(std::is_same_v<Seen::reference, bool> && !std::is_same_v<View::reference, bool>);
static_assert(std::is_assignable_v<View::reference, bool> && !std::is_assignable_v<Seen::reference, bool>);
static_assert(std::is_convertible_v<View, Seen> && !std::is_convertible_v<Seen, View>);
static_assert(std::is_convertible_v<View::iterator, Seen::iterator> && !std::is_convertible_v<Seen::iterator, View::iterator>);
static_assert(!std::is_constructible_v<View, const std::vector<uint8_t> &> && !std::is_constructible_v<View, std::vector<int> &>);
static_assert(!std::is_constructible_v<View, std::vector<uint8_t>>, "a vector that ends with the call");
static_assert(std::is_constructible_v<Seen, const std::vector<uint8_t> &> && std::is_constructible_v<Seen, std::vector<uint8_t> &>);
static_assert(std::is_constructible_v<View, Own &> && std::is_constructible_v<Seen, const Own &> && !std::is_constructible_v<View, const Own &>);
static_assert(!std::is_convertible_v<Own, Seen> && !std::is_constructible_v<Seen, Own> && !std::is_constructible_v<View, Own>,
              "bits that end with the call");
static_assert(std::is_nothrow_move_constructible_v<Own> && std::is_nothrow_move_assignable_v<Own> && std::is_nothrow_swappable_v<Own>);
static_assert(noexcept(Own().size()) && noexcept(Own().count()) && noexcept(Own().flip()) && noexcept(View().begin()) && noexcept(View().any()));
static_assert(noexcept(*View().begin()) && noexcept(Own() == Own()) && noexcept(Own().clear()) && !noexcept(Own().push_back(true)) &&
              !noexcept(View()[0]) && !noexcept(View() |= View()));
static_assert(std::is_same_v<decltype(std::declval<const Own &>()[0]), bool> && std::is_same_v<Own::iterator, View::iterator>);
#if __cplusplus >= 202002L
template <class Bits>
concept HasView = requires(Bits &&bits) { std::forward<Bits>(bits).view(); std::forward<Bits>(bits).begin(); };
static_assert(HasView<Own &> && HasView<const Own &> && !HasView<Own> && !HasView<const Own>, "bits that end with the call");
static_assert(std::ranges::random_access_range<Own &> && std::ranges::random_access_range<const Own &>);
static_assert(std::three_way_comparable<Own> && std::three_way_comparable<View> && std::totally_ordered<Seen>);
static_assert(std::random_access_iterator<View::iterator> && std::random_access_iterator<Seen::iterator>);
static_assert(std::indirectly_writable<View::iterator, bool> && !std::indirectly_writable<Seen::iterator, bool>);
static_assert(std::ranges::view<View> && std::ranges::random_access_range<View> && std::ranges::sized_range<View>);
static_assert(std::ranges::borrowed_range<View> && std::ranges::view<Seen> && std::sortable<View::iterator>);
static_assert(std::ranges::forward_range<decltype(Seen().ones())> && std::ranges::view<decltype(Seen().ones())>);
#endif

// The 14 bits of "01101000101100" inside three elements; the bits beside them are ones.
struct Memory {
    std::array<uint8_t, 3> elements{0xFF, 0xFF, 0xFF};
    View view = View(elements).part(5, 19);

    Memory() {
        const std::string digits = "01101000101100";
        std::transform(digits.begin(), digits.end(), view.begin(), [](char digit) { return digit == '1'; });
    }

    void check(const std::string &wanted, const char *what) const {
        expect(view.to_string() == wanted, what);
        expect((elements[0] & 0x1F) == 0x1F && elements[2] >> 3 == 0x1F, "the bits beside the view");
    }
};

void ranges() {
    Memory memory;
    for (bool bit : memory.view | ~memory.view) // bits that last as long as the loop
        expect(bit, "a range-for over bits of their own");
    size_t count = 0;
    for (bool bit : Seen(memory.view))
        count += bit;
    expect(count == 6 && memory.view.size() == 14 && !memory.view.empty() && View().begin() == View().end(), "a range-for");
    for (auto bit : memory.view)
        bit = !bit;
    memory.check("10010111010011", "bits written in a range-for");
    for (auto &&bit : memory.view)
        bit.flip();
    memory.check("01101000101100", "bits flipped in a range-for");
    auto it = memory.view.begin();
    Seen::iterator seen = it + 3;
    expect(seen - it == 3 && it < seen && seen == 3 + it && it[1] && !*(it + 3) && *--seen && *seen-- && *seen++, "an iterator");
    expect(memory.view.cend() - memory.view.cbegin() == 14 && (it += 4) - 4 == memory.view.begin(), "the ends");
    expect(std::vector<bool>(memory.view.begin(), memory.view.end()).size() == 14, "a list of the bits");
}

void algorithms() {
    Memory memory;
    const View view = memory.view;
    expect(std::count(view.begin(), view.end(), true) == 6, "std::count");
    expect(std::find(view.begin(), view.end(), true) - view.begin() == 1, "std::find");
    expect(std::accumulate(view.begin(), view.end(), 0) == 6, "accumulate");
    std::reverse(view.begin(), view.end());
    memory.check("00110100010110", "std::reverse");
    std::rotate(view.begin(), view.begin() + 2, view.end());
    memory.check("11010001011000", "std::rotate");
    std::sort(view.begin() + 4, view.end());
    memory.check("11010000000111", "std::sort");
    std::stable_sort(view.begin(), view.end(), std::greater<bool>());
    memory.check("11111100000000", "std::stable_sort");
    std::swap_ranges(view.begin(), view.begin() + 3, view.end() - 3);
    memory.check("00011100000111", "std::swap_ranges");
    std::fill_n(view.begin(), 2, true);
    std::copy(view.begin(), view.begin() + 4, view.begin() + 5);
    memory.check("11011110100111", "std::copy");
    expect(count(view.begin(), view.end(), 1) == 10 && find(view.cbegin(), view.cend(), false) == view.begin() + 2, "without std::");
    bool bit = false;
    swap(view[0], bit);
    std::iter_swap(view.begin() + 1, view.begin() + 2);
    memory.check("00111110100111", "what is exchanged");
    expect(bit, "the bit exchanged");
#if __cplusplus >= 202002L
    std::ranges::sort(view);
    memory.check("00000111111111", "std::ranges::sort");
#if !defined(__clang__) || __clang_major__ >= 16 // older ones can't read the adaptors of libstdc++
    expect(std::ranges::count(view | std::views::drop(8), true) == 6, "a pipeline");
#endif
#endif
}

void single_bits() {
    Memory memory;
    const View view = memory.view;
    view[0] = true;
    view[1] = view[3];
    view[13].flip();
    memory.check("10101000101101", "bits by their indices");
    expect(view[0] && !view[1] && Seen(view)[13], "a bit by its index");
    expect_refused(FB_INDEX, [&] { view[14] = false; });
    expect_refused(FB_INDEX, [&] { return bool(Seen(view)[~size_t(0)]); });
}

void operators() {
    Memory memory, other;
    const Seen right = other.view;
    expect(memory.view == right && !(memory.view != right) && memory.view <= right && memory.view >= right, "equal bits");
    memory.view.set(13, true);
    expect(memory.view != right && memory.view > right && right < memory.view && right <= memory.view, "bits behind others");
    expect(right.part(0, 3) < right && right >= right.part(0, 0), "what bits begin with");
    memory.view ^= right;
    memory.check("00000000000001", "^=");
    (memory.view |= right) &= ~right;
    memory.check("00000000000001", "|=, &= and ~");
    Memory cleared;
    cleared.view.and_not(right.part(0, 3));
    cleared.check("00001000101100", "and_not");
    const fehimbary::OwnBits<uint8_t> opposite = ~memory.view;
    expect(opposite.view().to_string() == "11111111111110" && memory.view != opposite, "~");
    memory.check("00000000000001", "what ~ was made of");
}

void ones() {
    Memory memory;
    const auto ones = memory.view.ones();
    expect(std::vector<size_t>(ones.begin(), ones.end()) == std::vector<size_t>{1, 2, 4, 8, 10, 11}, "ones");
    for (size_t one : memory.view.ones())
        if (one < 7)
            memory.view.set(2 * one, false);
    memory.check("01001000001100", "ones cleared on the way");
    const auto none = memory.view.part(5, 8).ones();
    expect(none.begin() == none.end() && View().ones().begin() == View().ones().end(), "no ones");
}

void containers() {
    std::vector<uint16_t> vector{1, 0};
    std::array<uint32_t, 1> array{2};
    uint64_t elements[2] = {4, 0};
    const std::vector<uint8_t> seen{8};
    const Bits bits(vector);
    const Bits of_array(array);
    const Bits of_elements(elements), of_pointer(elements, 1);
    const Bits read(seen);
    static_assert(std::is_same_v<decltype(bits), const Bits<uint16_t, Lsb0>> && std::is_same_v<decltype(read), const Seen>);
    expect(bits.size() == 32 && of_array.size() == 32 && of_elements.size() == 128 && of_pointer.size() == 64 && read.size() == 8,
           "the bits of a container");
    expect(bits[0] && of_array[1] && of_elements[2] && of_pointer[2] && read[3], "a bit of a container");
    const Bits<uint16_t, Msb0> other(vector);
    other[0] = true;
    expect(vector[0] == 0x8001 && other.to_string() == "1000000000000001" + std::string(16, '0'), "the other order");
#if __cplusplus >= 202002L
    const Bits of_span{std::span{elements}.first(1)};
    const Bits<const uint64_t> of_const_span{std::span<const uint64_t>{elements}};
    expect(of_span.size() == 64 && of_span == of_const_span.part(0, 64), "the bits of a span");
#endif
}

void steps() {
    Memory memory;
    memory.view.fill_step(3, true);
    memory.check("11111010111110", "every third bit");
    expect(memory.view.count_step(3) == 5 && memory.view.part(1, 14).count_step(2) == 4, "how many of every so many");
    memory.view.part(1, 14).copy_step(2, Own("0110100"));
    memory.check("10111110111010", "bits copied to every second");
    memory.view.part(0, 5).copy_step(1, memory.view, 3);
    memory.check("11111110111010", "every third bit copied to others of the same memory");
    expect_refused(FB_STEP, [&] { memory.view.fill_step(0, true); });
    expect_refused(FB_LENGTH, [&] { memory.view.copy_step(2, Own("01")); });
}

void two_windows() {
    Memory memory, other;
    const View view = memory.view;
    expect(view.count_and(other.view) == 6 && view.count_xor(Own("11")) == 6 && view.intersects(other.view) && !view.intersects(~view),
           "pairs of bits");
    expect(view.is_subset_of(other.view) && !view.is_subset_of(other.view.part(0, 9)) && View().is_subset_of(view), "a subset");
    expect((view & ~view).none() && (view | ~view).all() && (view | ~view).count_ones() == 14 && (view ^ other.view) == Own(14), "operators of two");
    expect((view << 3) == Own("01000101100000") && (view >> 99) == Own(14) && View(view) == view, "operators with a number");
    std::ostringstream said;
    said << view << ' ' << view.part(0, 2);
    expect(said.str() == "01101000101100 01", "bits written to a stream");
    expect(!view.front() && !view.back() && view.test(1) && !view.none(), "a bit asked for");
    expect(std::string(view.rbegin(), view.rend()) == std::string("\0\0\1\1\0\1\0\0\0\1\0\1\1\0", 14), "bits from the last on");
    view.set(0);
    view.reset(1);
    view.flip(2);
    view[3] |= true;
    view[4] &= false;
    view[5] ^= true;
    memory.check("10010100101100", "bits set by name");
    (void)(view <<= 99);
    memory.check("00000000000000", "a shift by more than there are");
}

// Each edit by bits of the same memory does what one by a copy of them does.
void overlapping() {
    for (size_t from = 0; from < 20; ++from)
        for (size_t to = 0; to < 20; ++to)
            for (size_t len = 0; len <= 24 - std::max(from, to); ++len)
                for (int edit = 0; edit < 5; ++edit) {
                    uint8_t elements[] = {0x5A, 0xC7, 0x39}, wanted[] = {0x5A, 0xC7, 0x39};
                    const auto change = [edit](View left, const auto &right) {
                        edit == 0   ? left.copy_from(right)
                        : edit == 1 ? void(left &= right)
                        : edit == 2 ? void(left |= right)
                        : edit == 3 ? void(left ^= right)
                                    : left.copy_step(1, right);
                    };
                    const View all(elements), model(wanted);
                    change(all.part(to, to + len), all.part(from, from + len));
                    change(model.part(to, to + len), Own(model.part(from, from + len)));
                    expect(std::equal(elements, elements + 3, wanted), "bits that overlap");
                }
    uint8_t elements[] = {0x1B, 0xFF};
    const View all(elements);
    all.part(0, 3).swap(all.part(4, 7));
    expect(all.to_string() == "1001110011111111", "parts of one element exchanged");
    expect_refused(FB_RIGHT, [&] { all.part(0, 3).swap(all.part(2, 5)); });
    expect_refused(FB_RIGHT, [&] { all.run(elements + 1, 1, nullptr, 0, nullptr, 0); });
}

void own_bits() {
    Own bits("0110");
    bits.push_back(true);
    bits.append(Own{true, false});
    bits.insert(0, true);
    bits.insert(3, Own(20, true));
    expect(bits.to_string() == "101" + std::string(20, '1') + "10110" && bits.size() == 28 && bits.capacity() >= 28, "bits that grow");
    bits.erase(3, 23);
    bits.erase(0);
    bits.pop_back();
    expect(bits == Own("011011") && bits[1] && !std::as_const(bits)[0], "bits taken away");
    bits.append(bits);
    bits.insert(1, bits.view().part(4, 8));
    expect(bits == Own("0110111011011011"), "bits added to themselves");
    bits.resize(3);
    bits.resize(20, true);
    bits.resize(22);
    expect(bits == Own("0111111111111111111100"), "bits of another length");
    bits[21] = true;
    for (auto bit : bits)
        bit.flip();
    (bits ^= Own("1")) <<= 1;
    expect(std::count(bits.begin(), bits.end(), true) == 1 && bits[19] && bits != Own(22) && Own(22) < bits, "bits edited");
    const std::vector<bool> list{true, false, true};
    expect(Own(list.begin(), list.end()) == Own("101") && Own(std::string_view("10")).size() == 2, "bits of a range and of a text");
    Own moved = std::move(bits);
    expect(bits.empty() && bits.view().size() == 0 && bits == Own() && moved.size() == 22, "bits that were moved from");
    bits = std::move(moved);
    expect(moved.empty() && bits.size() == 22, "bits that were moved");
    bits.reserve(1000);
    expect(bits.capacity() >= 1000, "room");
    bits.clear();
    expect(bits.empty(), "no bits");
    expect(Own(0).empty() && Own(3, 1) == Own("111"), "bits of a length");
    expect_refused(FB_INDEX, [&] { bits.pop_back(); });
    expect_refused(FB_INDEX, [&] { bits.insert(1, true); });
    expect_refused(FB_RANGE, [&] { bits.erase(0, 1); });
    expect_refused(FB_SIZE, [&] { bits.reserve(FB_MAX_BITS + 1); });
    OwnBits<uint64_t, Msb0> wide(70, true);
    wide.erase(1, 69);
    expect(wide.view().load_be() == 3, "bits of other elements");
}

// What std::vector<bool> has.
void as_a_vector() {
    Own bits("0110");
    bits.assign(3, true);
    expect(bits == Own("111"), "bits of one value assigned");
    bits.assign({false, true});
    expect(bits == Own("01") && !bits.front() && bits.back() && bits.at(1) && !std::as_const(bits).at(0), "bits assigned");
    expect(*bits.rbegin() && bits.rend() - bits.rbegin() == 2 && !*(bits.crend() - 1), "bits from the last on");
    expect(bits.insert(bits.begin() + 1, true) - bits.begin() == 1 && bits == Own("011"), "a bit before a place");
    expect(bits.insert(bits.cend(), 3, false) - bits.begin() == 3 && bits == Own("011000"), "bits before a place");
    expect(bits.insert(bits.begin(), bits.rbegin(), bits.rend()) == bits.begin() && bits == Own("000110011000"), "its own bits before a place");
    expect(bits.insert(bits.begin() + 4, {false, true}) - bits.begin() == 4 && bits == Own("00010110011000"), "bits of a list");
    expect(bits.erase(bits.begin() + 3) - bits.begin() == 3 && bits == Own("0000110011000"), "a bit taken away at a place");
    expect(bits.erase(bits.cbegin() + 4, bits.cend() - 1) - bits.begin() == 4 && bits == Own("00000"), "bits taken away between places");
    bits.erase(bits.end(), bits.end());
    bits.front() = true;
    bits.back() = bits.front();
    Own other("1");
    swap(bits, other);
    bits.swap(other);
    std::swap(bits, other);
    expect(bits == Own("1") && other == Own("10001"), "bits swapped");
    std::swap(other[0], other[1]);
    swap(other[4], other[3]);
    expect(other == Own("01010"), "references swapped");
    bits.reserve(1000);
    bits.shrink_to_fit();
    expect(bits.capacity() == 8 && bits.max_size() > 1000 && bits == Own("1"), "no more room than there has to be");
    other.data()[0] = 0x12;
    expect(other == Own("01001") && std::as_const(other).data() == other.data(), "the elements of bits");
    Own &same = other;
    other = std::move(same);
    expect(other == Own("01001") && other.size() == 5 && other.count_ones() == 2, "bits moved to themselves");
    expect_refused(FB_INDEX, [&] { Own().front(); });
    expect_refused(FB_INDEX, [&] { std::as_const(other).back() ? Own().back() : Own().at(0); });
    expect_refused(FB_INDEX, [&] { other.erase(other.end()); });
    expect_refused(FB_RANGE, [&] { other.erase(other.end(), other.begin()); });
    expect_refused(FB_RANGE, [&] { View(other.end(), other.begin()); });
}

// What boost::dynamic_bitset has.
void as_a_bitset() {
    Own bits(5);
    expect(bits.set().count() == 5 && bits.all() && bits.reset().none() && bits.flip().count_zeros() == 0, "all bits");
    expect(bits.reset(1).flip(2).set(2, false).flip(4).set(4) == Own("10011"), "bits by their indices");
    expect(bits.first_one() == 0 && bits.first_zero() == 1 && bits.last_one() == 4 && bits.last_zero() == 2, "searches");
    const auto ones = bits.ones();
    expect(std::vector<size_t>(ones.begin(), ones.end()) == std::vector<size_t>{0, 3, 4}, "the ones");
    expect((bits - Own("10010")) == Own("00001") && ((bits -= Own("1")) == Own("00011")), "- and -=");
    expect(bits.is_subset_of(Own("10011")) && bits.intersects(Own("00001")) && !bits.intersects(Own("111")), "subsets");
    Memory memory;
    memory.view.set();
    memory.check("11111111111111", "all bits of a view");
    memory.view.flip();
    memory.check("00000000000000", "all bits of a view flipped");
    memory.view.flip();
    memory.view.reset();
    expect(memory.view.count() == 0, "no bits of a view");
    std::istringstream text(" 0101x11 2");
    Own read("1"), more, none("11");
    char behind = 0;
    text >> read >> behind >> more;
    expect(read == Own("0101") && behind == 'x' && more == Own("11") && !(text >> none) && none.empty(), "bits read from a stream");
    std::istringstream wide("11111");
    wide.width(3);
    expect(wide >> read && read == Own("111") && wide.peek() == '1' && wide >> read && read == Own("11") && wide.eof(), "so many bits of a stream");
}

// Bits of other elements, or of the other order, as words in a dictionary.
void other_elements() {
    const OwnBits<uint64_t, Msb0> wide("0110100010110");
    Memory memory;
    expect(memory.view != wide && memory.view > wide && wide < memory.view && memory.view.part(0, 13) == wide, "bits of other elements");
    expect(Own(wide) == memory.view.part(0, 13) && OwnBits<uint16_t, Msb0>(memory.view).to_string() == "01101000101100", "bits converted");
    const std::string digits = std::string(64, '0') + "1" + std::string(70, '0');
    const OwnBits<uint32_t> some(digits), less(std::string(65, '0'));
    expect((OwnBits<uint16_t, Msb0>(some) == some) && OwnBits<uint16_t, Msb0>(some).to_string() == digits && Own(less) < some, "many bits converted");
#ifdef __cpp_lib_three_way_comparison
    expect((some <=> less) > 0 && (wide <=> memory.view) < 0 && (some <=> some) == 0 && (Own("1") <=> Own("0")) > 0, "<=>");
#endif
}

void hashes() {
    std::unordered_set<Own> set{Own("01"), Own("010"), Own("01")};
    std::unordered_map<OwnBits<uint64_t, Msb0>, int> map{{OwnBits<uint64_t, Msb0>("1"), 1}};
    expect(set.size() == 2 && set.count(Own("010")) == 1 && map.count(OwnBits<uint64_t, Msb0>("10")) == 0 && map.count(OwnBits<uint64_t, Msb0>("1")) == 1, "a hash");
    Own grown(9, true);
    grown.resize(2); // what stands behind the bits has no part in it
    expect(std::hash<Own>()(grown) == std::hash<Own>()(Own("11")), "the hash of fewer bits");
    const uint8_t elements[] = {0x0F, 0x1E};
    const Seen seen(elements);
    Own same("11110000");
    expect(std::hash<Seen>()(seen.part(0, 7)) == std::hash<Seen>()(seen.part(9, 16)), "the hash of a part");
    expect(std::hash<Seen>()(seen.part(0, 8)) == std::hash<View>()(same.view()), "the hash of a view");
}

template <class Call>
void expect_said(const std::string &wanted, Call call) {
    try {
        call();
    } catch (const fehimbary::Refused &refused) {
        return expect(refused.what() == wanted, refused.what());
    }
    expect(false, "a call that is to be refused");
}

void what_is_refused() {
    Memory memory;
    const View view = memory.view;
    expect_said("FB_INDEX: 14 of 14 bits", [&] { view[14] = true; });
    expect_said("FB_INDEX: 15 of 14 bits", [&] { view.swap_bits(3, 15); });
    expect_said("FB_INDEX: 0 of 0 bits", [&] { Own().pop_back(); });
    expect_said("FB_INDEX: 3 of 2 bits", [&] { Own("01").insert(3, true); });
    expect_said("FB_INDEX: 15 of 14 bits", [&] { view.ones(15, nullptr, 0); });
    expect_said("FB_RANGE: 3 to 15 of 14 bits", [&] { view.part(3, 15); });
    expect_said("FB_AMOUNT: 15 of 14 bits", [&] { view.rotate_left(15); });
    expect_said("FB_SOURCE: 15 of 14 bits", [&] { view.copy_within(3, 15, 0); });
    expect_said("FB_DEST: 9 of 14 bits", [&] { view.copy_within(3, 10, 9); });
    expect_said("FB_LENGTH: 3 of 14 bits", [&] { view.copy_from(Own("011")); });
    expect_said("FB_STEP: 0 of 14 bits", [&] { view.fill_step(0, true); });
    expect_said("FB_WIDTH: of 0 bits", [&] { view.part(3, 3).load_le(); });
    memory.check("01101000101100", "bits after refused calls");
    const std::string names[] = {"FB_DONE",  "FB_RANGE", "FB_INDEX", "FB_AMOUNT", "FB_SOURCE", "FB_DEST", "FB_RIGHT", "FB_LENGTH",
                                 "FB_WIDTH", "FB_ORDER", "FB_SIZE",  "FB_NONE",   "FB_OP",     "FB_ROOM", "FB_STEP",  "no status"};
    for (fb_status status = FB_DONE; status <= FB_STEP + 1; ++status)
        expect(names[status] == fb_status_text(status) && names[status] == fehimbary::name_of(status), "the name of a status");
    expect(fb_status_text(FB_INDEX) == std::string("FB_INDEX") && fb_status_text(~fb_status(0)) == std::string("no status"), "the name of a status");
}

template <class Element>
void elements_of_a_type() {
    Element memory[3] = {};
    const Bits<Element, Msb0> bits(memory);
    bits.part(3, 9).fill(true);
    bits[4] = false;
    const Bits<const Element, Msb0> seen(bits);
    expect(seen.count_ones() == 5 && bits == ~~seen && seen.size() == 24 * sizeof(Element), "elements of a type");
}

void types() {
    elements_of_a_type<char>();
    elements_of_a_type<signed char>();
    elements_of_a_type<std::byte>();
    elements_of_a_type<short>();
    elements_of_a_type<unsigned>();
    elements_of_a_type<long>();
    elements_of_a_type<unsigned long>();
    elements_of_a_type<long long>();
    elements_of_a_type<unsigned long long>();
    elements_of_a_type<char32_t>();
}

} // namespace

int main() {
    ranges();
    algorithms();
    single_bits();
    operators();
    ones();
    containers();
    steps();
    two_windows();
    overlapping();
    own_bits();
    as_a_vector();
    as_a_bitset();
    other_elements();
    hashes();
    what_is_refused();
    types();
}
