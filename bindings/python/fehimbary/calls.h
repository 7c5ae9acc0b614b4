/* The functions of fehimbary.h by windows: fb_fill(w, bit) is the one for the elements of w. */
#include <fehimbary.h>
#include <string.h>

/* Some bits of a memory. `shift` is the binary logarithm of the bits of an element: 3 to 6. */
typedef struct fb_window {
    void *elements;
    size_t count, start, len;
    fb_order order;
    unsigned shift;
} fb_window;
typedef const fb_window *fb_seen;

/* So many bits are few: what they cost here is less than a call. */
enum { FB_FEW = 4096 };

/* The order by which elements of all widths number the bits of a memory alike. */
enum { FB_BYTEWISE = __BYTE_ORDER__ == __ORDER_LITTLE_ENDIAN__ ? FB_LSB0 : FB_MSB0 };

/* The `len` bits of a window from its bit `start` on, with no other elements than they touch. */
static inline fb_window fb_part(fb_seen w, size_t start, size_t len) {
    const size_t from = w->start + start, last = ((size_t)1 << w->shift) - 1;
    fb_window part = *w;
    part.elements = (char *)w->elements + (from >> w->shift << (w->shift - 3));
    part.start = from & last;
    part.len = len;
    part.count = (part.start + len + last) >> w->shift;
    return part;
}

/* How many bytes a window's elements have. */
static inline size_t fb_size(fb_seen w) { return w->count << (w->shift - 3); }

/* Whether two windows have a byte in common. */
static inline bool fb_overlap(fb_seen w, fb_seen r) {
    const char *left = w->elements, *right = r->elements;
    return left < right + fb_size(r) && right < left + fb_size(w);
}

/* Whether two windows of elements alike have a bit in common. */
static inline bool fb_meet(fb_seen w, fb_seen r) {
    const size_t left = 8 * (size_t)w->elements + w->start, right = 8 * (size_t)r->elements + r->start;
    return left < right + r->len && right < left + w->len;
}

/* Whether two windows number bits alike. */
static inline bool fb_alike(fb_seen w, fb_seen r) { return w->order == r->order && w->shift == r->shift; }

/* The byte of a window's memory that has the bit at an index, and which bit of it that is. Under FB_MSB0 the bits of an element
 * are numbered backwards, and where the machine puts an element's highest byte first, so are its bytes. */
static inline size_t fb_place(fb_seen w, size_t i) {
    return (w->start + i) ^ (w->order == FB_LSB0 ? 0 : ((size_t)1 << w->shift) - 1);
}
static inline uint8_t *fb_byte(fb_seen w, size_t place) {
    return (uint8_t *)w->elements + (place / 8 ^ (FB_BYTEWISE == FB_LSB0 ? 0 : ((size_t)1 << (w->shift - 3)) - 1));
}

/* The bit at an index of a window, which is one of its indices; and another one in its place. */
static inline bool fb_peek(fb_seen w, size_t i) {
    const size_t place = fb_place(w, i);
    return *fb_byte(w, place) >> place % 8 & 1;
}
static inline void fb_poke(fb_seen w, size_t i, bool bit) {
    const size_t place = fb_place(w, i);
    uint8_t *const byte = fb_byte(w, place);
    *byte = (uint8_t)((*byte & ~(1 << place % 8)) | bit << place % 8);
}

/* A call on a window and a right one: what else it takes stands in numbers, which have its answer afterwards. */
typedef fb_status (*fb_call)(fb_seen w, fb_seen r, uint64_t *n);

#define LEFT w->order, w->elements, w->count, w->start, w->len
#define RIGHT r->elements, r->count, r->start, r->len
#define CALL(stem, ...)                                                                          \
    (w->shift == 3 ? fb_u8_##stem(__VA_ARGS__) : w->shift == 4 ? fb_u16_##stem(__VA_ARGS__)      \
     : w->shift == 5 ? fb_u32_##stem(__VA_ARGS__) : fb_u64_##stem(__VA_ARGS__))
#define EDIT(stem, ...)                                                       \
    static inline fb_status fb_##stem(fb_seen w, fb_seen r, uint64_t *n) {    \
        return (void)r, (void)n, CALL(stem, __VA_ARGS__);                     \
    }
#define ASK(stem, Type, ...)                                                  \
    static inline fb_status fb_##stem(fb_seen w, fb_seen r, uint64_t *n) {    \
        Type it = 0;                                                          \
        const fb_status status = CALL(stem, __VA_ARGS__, &it);                \
        (void)r, n[0] = (uint64_t)it;                                         \
        return status;                                                        \
    }

EDIT(invert, LEFT) EDIT(reverse, LEFT)
EDIT(fill, LEFT, n[0] != 0) EDIT(fill_step, LEFT, n[0], n[1] != 0)
EDIT(shift_start, LEFT, n[0] < w->len ? n[0] : w->len) EDIT(shift_end, LEFT, n[0] < w->len ? n[0] : w->len) EDIT(rotate_left, LEFT, n[0]) EDIT(rotate_right, LEFT, n[0])
EDIT(store_le, LEFT, n[0]) EDIT(store_be, LEFT, n[0])
EDIT(swap_bits, LEFT, n[0], n[1]) EDIT(copy_within, LEFT, n[0], n[1], n[2])
EDIT(copy, LEFT, RIGHT) EDIT(and, LEFT, RIGHT) EDIT(or, LEFT, RIGHT) EDIT(xor, LEFT, RIGHT) EDIT(and_not, LEFT, RIGHT)
EDIT(swap, LEFT, RIGHT) EDIT(copy_step, LEFT, RIGHT, n[0], n[1])
ASK(load_le, uint64_t, LEFT) ASK(load_be, uint64_t, LEFT) ASK(any, bool, LEFT) ASK(all, bool, LEFT)
ASK(count_ones, size_t, LEFT) ASK(count_zeros, size_t, LEFT) ASK(count_step, size_t, LEFT, n[0])
ASK(first_one, size_t, LEFT) ASK(first_zero, size_t, LEFT) ASK(last_one, size_t, LEFT) ASK(last_zero, size_t, LEFT)
ASK(equal, bool, LEFT, RIGHT) ASK(starts_with, bool, LEFT, RIGHT) ASK(ends_with, bool, LEFT, RIGHT)
ASK(contains, bool, LEFT, RIGHT) ASK(disjoint, bool, LEFT, RIGHT) ASK(subset, bool, LEFT, RIGHT)
ASK(compare, int32_t, LEFT, RIGHT) ASK(count_and, size_t, LEFT, RIGHT) ASK(count_xor, size_t, LEFT, RIGHT)

/* The indices of ones from n[0] on, at most n[1] of them, into the table at n[2]; n[0] is then how many there are. */
ASK(ones, size_t, LEFT, n[0], (size_t *)(uintptr_t)n[2], n[1])

/* A run of n[1] steps at n[0], with replies at n[2]. */
EDIT(run, LEFT, r->elements, r->count, (const fb_step *)(uintptr_t)n[0], n[1], (fb_reply *)(uintptr_t)n[2], n[1])

/* A window as one of elements of 8 bits, where these number its bits alike. */
static inline bool fb_is_bytewise(fb_seen w) { return w->shift == 3 || w->order == FB_BYTEWISE; }
static inline fb_window fb_bytewise(fb_seen w) {
    return (fb_window){w->elements, fb_size(w), w->start, w->len, w->order, 3};
}

/* Whether two windows are as many whole elements alike. */
static inline bool fb_whole(fb_seen w, fb_seen r) {
    return fb_alike(w, r) && w->len && w->len == r->len && !(w->start | r->start) && w->len == w->count << w->shift && w->count == r->count;
}

/* Copies as many bits between elements of any kinds, 64 at a time. */
static inline fb_status fb_convert(fb_seen w, fb_seen r, uint64_t *n) {
    const bool alike = w->order == r->order;
    fb_status status = FB_DONE;
    for (size_t at = 0; at < r->len && status == FB_DONE; at += 64) {
        const size_t size = r->len - at < 64 ? r->len - at : 64;
        const fb_window from = fb_part(r, at, size), to = fb_part(w, alike ? at : r->len - at - size, size);
        status = r->order == FB_LSB0 ? fb_load_le(&from, r, n) : fb_load_be(&from, r, n);
        if (status == FB_DONE)
            status = w->order == FB_LSB0 ? fb_store_le(&to, r, n) : fb_store_be(&to, r, n);
    }
    return status != FB_DONE || alike ? status : fb_reverse(w, r, n);
}

/* Copies the right bits, as many as the window's, between elements of any kinds. */
static inline fb_status fb_carry(fb_seen w, fb_seen r, uint64_t *n) {
    uint64_t number[1];
    (void)n;
    if (fb_whole(w, r))
        return memcpy(w->elements, r->elements, fb_size(r)), FB_DONE;
    if (fb_alike(w, r))
        return fb_copy(w, r, number);
    if (w->order == r->order && fb_is_bytewise(w) && fb_is_bytewise(r)) {
        const fb_window to = fb_bytewise(w), from = fb_bytewise(r);
        return fb_copy(&to, &from, number);
    }
    return w->len == r->len ? fb_convert(w, r, number) : FB_LENGTH;
}

/* Whether two windows have the same bits. */
static inline fb_status fb_same(fb_seen w, fb_seen r, uint64_t *n) {
    return fb_whole(w, r) ? (n[0] = memcmp(w->elements, r->elements, fb_size(r)) == 0, FB_DONE) : fb_equal(w, r, n);
}

/* Whether the left window has no 1 where the right one has none. The first bits are asked, since most windows differ there
 * already; of each 2^14 others the right ones are taken away in a copy, which is faster. */
static inline fb_status fb_within(fb_seen w, fb_seen r, uint64_t *n) {
    enum { FIRST = 4096, BLOCK = 1 << 14 };
    uint64_t room[BLOCK / 64 + 1];
    fb_window part = fb_part(w, 0, w->len < FIRST ? w->len : FIRST);
    fb_status status = fb_subset(&part, r, n);
    for (size_t at = FIRST; status == FB_DONE && n[0] && at < w->len; at += BLOCK) {
        const size_t size = w->len - at < BLOCK ? w->len - at : BLOCK;
        const size_t beside = r->len < at ? 0 : r->len - at < size ? r->len - at : size;
        const fb_window right = fb_part(r, beside ? at : 0, beside);
        part = fb_part(w, at, size);
        part.elements = memcpy(room, part.elements, fb_size(&part));
        status = fb_and_not(&part, &right, n);
        if (status == FB_DONE)
            status = fb_any(&part, r, n);
        n[0] = !n[0];
    }
    return status;
}

/* Gives each bit a value: by bytes, where they are few and numbered as those of bytes, since a call costs more than this. */
static inline fb_status fb_flood(fb_seen w, fb_seen r, uint64_t *n) {
    const size_t first = w->start / 8, end = w->start + w->len, last = end / 8;
    const unsigned value = n[0] ? 0xff : 0, lowest = w->order == FB_LSB0;
    const unsigned head = lowest ? 0xffu << w->start % 8 : 0xffu >> w->start % 8;
    const unsigned tail = ~(lowest ? 0xffu << end % 8 : 0xffu >> end % 8) & 0xff;
    uint8_t *const bytes = (uint8_t *)w->elements;
    if (w->len > FB_FEW || !fb_is_bytewise(w))
        return fb_fill(w, r, n);
    if (w->len == 0)
        return FB_DONE;
    if (first == last)
        return bytes[first] ^= (bytes[first] ^ value) & head & tail, FB_DONE;
    bytes[first] ^= (bytes[first] ^ value) & head;
    memset(bytes + first + 1, (int)value, last - first - 1);
    if (tail)
        bytes[last] ^= (bytes[last] ^ value) & tail;
    return FB_DONE;
}

/* Whether two windows are some whole words of 64 bits alike. A call costs more than what it does on these. */
static inline bool fb_are_few(fb_seen w, fb_seen r) {
    return w->len <= FB_FEW && w->len % 64 == 0 && fb_whole(w, r);
}

/* Writes a word for each word of two such windows, combined as an operator does. */
typedef void (*fb_few)(uint64_t *to, fb_seen w, fb_seen r);
#define FEW(name, a, b, WORD)                                                                      \
    static inline void fb_few_##name(uint64_t *to, fb_seen w, fb_seen r) {                         \
        const char *const left = w->elements, *const right = r->elements;                          \
        const size_t size = fb_size(w);                                                            \
        for (size_t at = 0; at < size; at += 8) {                                                  \
            uint64_t a, b;                                                                         \
            memcpy(&a, left + at, 8), memcpy(&b, right + at, 8);                                   \
            a = WORD, memcpy((char *)to + at, &a, 8);                                              \
        }                                                                                          \
    }
FEW(and, a, b, a & b) FEW(or, a, b, a | b) FEW(xor, a, b, a ^ b) FEW(not, a, b, ~b)
static inline void fb_few_copy(uint64_t *to, fb_seen w, fb_seen r) { (void)w, memcpy(to, r->elements, fb_size(r)); }
