/* Fehimbary: proved operations on the bits of any memory.
 *
 * A memory is `count` elements at `elements`, of 8, 16, 32 or 64 bits each: fb_u8_.., fb_u16_.., fb_u32_.., fb_u64_...
 * Its bits are numbered from 0, element by element, in each from the least significant bit on under FB_LSB0, and from
 * the most significant under FB_MSB0. A window is the `len` bits of a memory from its bit `start` on. Every size and
 * place is in bits, but for `count`, which is in elements; an index, an amount and a range count from the window's start.
 *
 * What a caller has to keep:
 *   - pointer and count name memory that is there, and aligned for its elements (null is well with a count of 0);
 *   - nobody else writes it during the call, nor reads it where the call writes;
 *   - memories and results of one call do not overlap (.._copy_within copies inside one memory).
 * All else is answered: a call that can't be carried out tells why by its status, and has written nothing, neither in
 * a memory nor through the pointer to a result. The first that holds is told: FB_ORDER, FB_SIZE, FB_RANGE, where there is
 * a right window FB_RIGHT, and then what the function's comment names, in its order.
 *
 * A cost is how many elements a call loads and stores at most. A word step is about 64 bits, which touch at most
 * 64 / B + 1 elements of B bits: of a memory that is read it loads so many, of one that is written it stores so many and
 * loads two. n is the window's length, and r the right window's. Costs are proved of the functions that count, and tested
 * of these (loads/measure.py). An element that libc's memcpy, memmove or memset takes twice in a call counts once. */
#ifndef FEHIMBARY_H
#define FEHIMBARY_H

#include <stdbool.h>
#include <stddef.h>
#include <stdint.h>

#ifdef __cplusplus
extern "C" {
#endif

/* Which bit of an element comes first. */
typedef uint32_t fb_order;
enum {
    FB_LSB0 = 0, /* the least significant */
    FB_MSB0 = 1  /* the most significant */
};

/* What a call answers. */
typedef uint32_t fb_status;
enum {
    FB_DONE = 0,   /* carried out */
    FB_RANGE = 1,  /* the window doesn't lie in the memory; of a step: its range is reversed or not in the window */
    FB_INDEX = 2,  /* an index isn't below the window's length */
    FB_AMOUNT = 3, /* a shift or a rotation by more than the window's length */
    FB_SOURCE = 4, /* what is copied within a window is reversed or doesn't lie in it */
    FB_DEST = 5,   /* nor does the place that it is copied to */
    FB_RIGHT = 6,  /* the right window doesn't lie in the right memory */
    FB_LENGTH = 7, /* the right window hasn't the window's length */
    FB_WIDTH = 8,  /* a number of no bits, or of more than 64; of a step: more than 128 */
    FB_ORDER = 9,  /* the order is neither of the two */
    FB_SIZE = 10,  /* a memory has more than FB_MAX_BITS bits */
    FB_NONE = 11,  /* there is no such bit */
    FB_OP = 12,    /* there is no such command */
    FB_ROOM = 13,  /* fewer replies than steps */
    FB_STEP = 14   /* every so many bits, where these are 0 */
};

#define FB_MAX_BITS (SIZE_MAX / 8)

/* The name of a status, as "FB_RANGE". */
static inline const char *fb_status_text(fb_status status) {
    static const char *const names[] = {"FB_DONE",   "FB_RANGE", "FB_INDEX", "FB_AMOUNT", "FB_SOURCE",
                                        "FB_DEST",   "FB_RIGHT", "FB_LENGTH", "FB_WIDTH", "FB_ORDER",
                                        "FB_SIZE",   "FB_NONE",  "FB_OP",    "FB_ROOM",   "FB_STEP"};
    return status < sizeof names / sizeof *names ? names[status] : "no status";
}

/* A compiler warns where a call's status is dropped. `-DFB_NODISCARD=` asks for no warning. */
#ifndef FB_NODISCARD
#if (defined(__cplusplus) && __cplusplus >= 201703L) || (defined(__STDC_VERSION__) && __STDC_VERSION__ > 201710L)
#define FB_NODISCARD [[nodiscard]]
#elif defined(__GNUC__)
#define FB_NODISCARD __attribute__((warn_unused_result))
#else
#define FB_NODISCARD
#endif
#endif

#define FEHIMBARY_VERSION "0.2.0"

/* The parameters that windows of elements of a type are passed by: one that is read, one that is written, and a right one
 * beside either. */
#define FB_SEEN(Element) fb_order order, const Element *elements, size_t count, size_t start, size_t len
#define FB_EDITED(Element) fb_order order, Element *elements, size_t count, size_t start, size_t len
#define FB_SEEN_BESIDE(Element) \
    FB_SEEN(Element), const Element *right, size_t right_count, size_t right_start, size_t right_len
#define FB_EDITED_BESIDE(Element) \
    FB_EDITED(Element), const Element *right, size_t right_count, size_t right_start, size_t right_len
#define FB_EDITED_BY_MEMORY(Element) FB_EDITED(Element), const Element *right, size_t right_count
#define FB_BOTH_EDITED(Element) \
    FB_EDITED(Element), Element *right, size_t right_count, size_t right_start, size_t right_len

/* FB_DECLARE(fill, FB_EDITED, bool bit) declares fb_u8_fill, fb_u16_fill, fb_u32_fill and fb_u64_fill; without further
 * parameters FB_DECLARE_PLAIN does. */
#define FB_DECLARE(stem, WINDOW, ...)                                       \
    FB_NODISCARD fb_status fb_u8_##stem(WINDOW(uint8_t), __VA_ARGS__);      \
    FB_NODISCARD fb_status fb_u16_##stem(WINDOW(uint16_t), __VA_ARGS__);    \
    FB_NODISCARD fb_status fb_u32_##stem(WINDOW(uint32_t), __VA_ARGS__);    \
    FB_NODISCARD fb_status fb_u64_##stem(WINDOW(uint64_t), __VA_ARGS__);
#define FB_DECLARE_PLAIN(stem, WINDOW)                        \
    FB_NODISCARD fb_status fb_u8_##stem(WINDOW(uint8_t));     \
    FB_NODISCARD fb_status fb_u16_##stem(WINDOW(uint16_t));   \
    FB_NODISCARD fb_status fb_u32_##stem(WINDOW(uint32_t));   \
    FB_NODISCARD fb_status fb_u64_##stem(WINDOW(uint64_t));

/* ---- Single bits ---- */

/* Reads the bit at an index below n.
 * FB_INDEX. One load. */
FB_DECLARE(get, FB_SEEN, size_t index, bool *bit)

/* Writes the bit at an index below n.
 * FB_INDEX. One load, one store. */
FB_DECLARE(set, FB_EDITED, size_t index, bool bit)

/* Writes the bit at an index below n, and gives the old one.
 * FB_INDEX. Two loads, one store. */
FB_DECLARE(replace, FB_EDITED, size_t index, bool bit, bool *old)

/* Exchanges the bits at two indices below n.
 * FB_INDEX. Four loads, two stores. */
FB_DECLARE(swap_bits, FB_EDITED, size_t first, size_t second)

/* ---- Edits of one window ---- */

/* Gives each bit the value `bit`.
 * At most ceil(n / 64) word steps: each element is stored once, and two are loaded. */
FB_DECLARE(fill, FB_EDITED, bool bit)

/* Flips each bit.
 * At most ceil(n / 64) word steps: each element is loaded and stored once. */
FB_DECLARE_PLAIN(invert, FB_EDITED)

/* Puts the bits in the opposite order.
 * At most ceil(n / 64) + 1 word steps. */
FB_DECLARE_PLAIN(reverse, FB_EDITED)

/* Moves the bits by `by` places, at most n, towards the start; the last `by` bits become 0.
 * FB_AMOUNT. At most ceil(n / 64) + 1 word steps. */
FB_DECLARE(shift_start, FB_EDITED, size_t by)

/* Moves the bits by `by` places, at most n, towards the end; the first `by` bits become 0.
 * FB_AMOUNT. At most ceil(n / 64) + 1 word steps. */
FB_DECLARE(shift_end, FB_EDITED, size_t by)

/* Moves the first `by` bits, at most n, behind the others.
 * FB_AMOUNT. At most 2 * ceil(n / 64) + 4 word steps. */
FB_DECLARE(rotate_left, FB_EDITED, size_t by)

/* Moves the last `by` bits, at most n, before the others.
 * FB_AMOUNT. At most 2 * ceil(n / 64) + 4 word steps. */
FB_DECLARE(rotate_right, FB_EDITED, size_t by)

/* Copies the bits `from` up to, without, `to` to those from `dest` on, also where the two overlap.
 * FB_SOURCE unless from <= to <= n, FB_DEST unless dest + (to - from) <= n. At most ceil((to - from) / 64) word steps. */
FB_DECLARE(copy_within, FB_EDITED, size_t from, size_t to, size_t dest)

/* Gives every so many bits, from the first one on, the value `bit`: those whose index is a multiple of `step`.
 * FB_STEP where `step` is 0. ceil(n / step) loads and stores; with a step of at most 64, in a window of more than 64 * B bits, at
 * most ceil(n / 64) + n / (448 * B) + 1 word steps. */
FB_DECLARE(fill_step, FB_EDITED, size_t step, bool bit)

/* ---- Edits by a second window, of another memory ---- */

/* Copies the right bits, as many as n, to the window.
 * FB_LENGTH. At most ceil(n / 64) word steps. */
FB_DECLARE_PLAIN(copy, FB_EDITED_BESIDE)

/* Copies every so many right bits, from the first one on, to every so many bits of the window: the right bit at `k * right_step`
 * to the bit at `k * step`, for each k.
 * FB_STEP where a step is 0, FB_LENGTH unless ceil(n / step) = ceil(r / right_step). So many loads and stores, and as many
 * loads on the right. */
FB_DECLARE(copy_step, FB_EDITED_BESIDE, size_t step, size_t right_step)

/* Makes each bit `bit & right bit`; bits past the end of the right window count as 0, and further right bits as none.
 * At most ceil(n / 64) word steps. */
FB_DECLARE_PLAIN(and, FB_EDITED_BESIDE)

/* Makes each bit `bit | right bit`; bits past the end of the right window count as 0, and further right bits as none.
 * At most ceil(n / 64) word steps. */
FB_DECLARE_PLAIN(or, FB_EDITED_BESIDE)

/* Makes each bit `bit ^ right bit`; bits past the end of the right window count as 0, and further right bits as none.
 * At most ceil(n / 64) word steps. */
FB_DECLARE_PLAIN(xor, FB_EDITED_BESIDE)

/* Makes each bit `bit & ~right bit`; bits past the end of the right window count as 0, and further right bits as none.
 * At most ceil(n / 64) word steps. */
FB_DECLARE_PLAIN(and_not, FB_EDITED_BESIDE)

/* Exchanges the bits of the two windows, as many as n; both memories are written.
 * FB_LENGTH. At most ceil(n / 64) word steps. */
FB_DECLARE_PLAIN(swap, FB_BOTH_EDITED)

/* ---- Questions about one window ---- */

/* How many bits are 1.
 * At most ceil(n / 64) word steps: each element is loaded once. */
FB_DECLARE(count_ones, FB_SEEN, size_t *ones)

/* How many bits are 0.
 * At most ceil(n / 64) word steps: each element is loaded once. */
FB_DECLARE(count_zeros, FB_SEEN, size_t *zeros)

/* How many of every so many bits, from the first one on, are 1.
 * FB_STEP where `step` is 0. ceil(n / step) loads. */
FB_DECLARE(count_step, FB_SEEN, size_t step, size_t *ones)

/* The least index of a 1.
 * FB_NONE. At most ceil(n / 64) word steps: each element is loaded at most once. */
FB_DECLARE(first_one, FB_SEEN, size_t *index)

/* The least index of a 0.
 * FB_NONE. At most ceil(n / 64) word steps: each element is loaded at most once. */
FB_DECLARE(first_zero, FB_SEEN, size_t *index)

/* The greatest index of a 1.
 * FB_NONE. At most ceil(n / 64) word steps: each element is loaded at most once. */
FB_DECLARE(last_one, FB_SEEN, size_t *index)

/* The greatest index of a 0.
 * FB_NONE. At most ceil(n / 64) word steps: each element is loaded at most once. */
FB_DECLARE(last_zero, FB_SEEN, size_t *index)

/* Whether some bit is 1; of no bits none is.
 * At most ceil(n / 64) word steps: each element is loaded at most once. */
FB_DECLARE(any, FB_SEEN, bool *answer)

/* Whether no bit is 0; of no bits none is.
 * At most ceil(n / 64) word steps: each element is loaded at most once. */
FB_DECLARE(all, FB_SEEN, bool *answer)

/* The indices of ones from `from` on, at most n, ascending: the first `room` of them, and how many these are. Fewer than
 * `room` are the last ones; else the walk goes on behind the last of them. Only `found` of `indices` are written.
 * FB_INDEX. Each element is loaded at most once, and once more for each index. */
FB_DECLARE(ones, FB_SEEN, size_t from, size_t *indices, size_t room, size_t *found)

/* ---- Questions about two windows ---- */

/* Whether the windows have the same bits; of different lengths they haven't.
 * At most ceil(n / 64) word steps; none where the lengths differ. */
FB_DECLARE(equal, FB_SEEN_BESIDE, bool *answer)

/* How the window's bits compare with the right ones, as words in a dictionary, 0 before 1, and a window before those that
 * it begins: -1 before, 0 the same, 1 behind.
 * At most min(n, r) loads of each memory. */
FB_DECLARE(compare, FB_SEEN_BESIDE, int32_t *answer)

/* Whether the window begins with the right bits.
 * At most ceil(r / 64) word steps; none where r > n. */
FB_DECLARE(starts_with, FB_SEEN_BESIDE, bool *answer)

/* Whether the window ends with the right bits.
 * At most ceil(r / 64) word steps; none where r > n. */
FB_DECLARE(ends_with, FB_SEEN_BESIDE, bool *answer)

/* Whether the right bits stand together somewhere in the window; no bits do in each.
 * At most (n - r + 1) * ceil(r / 64) word steps; none where r > n. */
FB_DECLARE(contains, FB_SEEN_BESIDE, bool *answer)

/* How many bits are 1 and have a 1 at their index in the right window, where bits past its end count as 0.
 * At most ceil(n / 64) word steps on each side. */
FB_DECLARE(count_and, FB_SEEN_BESIDE, size_t *pairs)

/* How many bits differ from the one at their index in the right window, where bits past its end count as 0.
 * At most ceil(n / 64) word steps on each side. */
FB_DECLARE(count_xor, FB_SEEN_BESIDE, size_t *pairs)

/* Whether there is no index at which both windows have a 1.
 * At most ceil(n / 64) word steps on each side; none behind the first 64 bits that have such an index. */
FB_DECLARE(disjoint, FB_SEEN_BESIDE, bool *answer)

/* Whether at each 1 of the window the right one has a 1 too.
 * At most ceil(n / 64) word steps on each side; none behind the first 64 bits that have another 1. */
FB_DECLARE(subset, FB_SEEN_BESIDE, bool *answer)

/* ---- Numbers ---- */

/* The number of the bits, 1 to 64 of them. The edges of elements cut the window into segments; of each the first bit is
 * the lowest under FB_LSB0, the highest under FB_MSB0. _le takes the first segment as the lowest.
 * FB_WIDTH. At most one word step. */
FB_DECLARE(load_le, FB_SEEN, uint64_t *number)

/* The same, with the first segment as the highest.
 * FB_WIDTH. At most one word step. */
FB_DECLARE(load_be, FB_SEEN, uint64_t *number)

/* Gives the bits, 1 to 64 of them, the number modulo 2^n that load_le then reads.
 * FB_WIDTH. At most one word step. */
FB_DECLARE(store_le, FB_EDITED, uint64_t number)

/* Gives the bits, 1 to 64 of them, the number modulo 2^n that load_be then reads.
 * FB_WIDTH. At most one word step. */
FB_DECLARE(store_be, FB_EDITED, uint64_t number)

/* ---- Runs ---- */

/* The commands of a step: the functions of these names, on the bits `from` up to, without, `to` of the run's window. In
 * brackets is what a step has for them. A right window is the `second` bits of the right memory from its bit `first` on.
 * Numbers have 1 to 128 bits. */
enum {
    FB_GET = 0,           /* (first: the index) */
    FB_SET = 1,           /* (first: the index; bit) */
    FB_REPLACE = 2,       /* (first: the index; bit) */
    FB_SWAP_BITS = 3,     /* (first, second: the indices) */
    FB_FILL = 4,          /* (bit) */
    FB_INVERT = 5,
    FB_REVERSE = 6,
    FB_SHIFT_START = 7,   /* (first: by how many) */
    FB_SHIFT_END = 8,     /* (first: by how many) */
    FB_ROTATE_LEFT = 9,   /* (first: by how many) */
    FB_ROTATE_RIGHT = 10, /* (first: by how many) */
    FB_COPY_WITHIN = 11,  /* (first: from; second: to; third: dest) */
    FB_COPY = 12,         /* (first, second: the right window), and so FB_AND up to FB_CONTAINS */
    FB_AND = 13,
    FB_OR = 14,
    FB_XOR = 15,
    FB_EQUAL = 16,
    FB_COMPARE = 17,
    FB_STARTS_WITH = 18,
    FB_ENDS_WITH = 19,
    FB_CONTAINS = 20,
    FB_COUNT_ONES = 21,
    FB_COUNT_ZEROS = 22,
    FB_FIRST_ONE = 23,
    FB_FIRST_ZERO = 24,
    FB_LAST_ONE = 25,
    FB_LAST_ZERO = 26,
    FB_ANY = 27,
    FB_ALL = 28,
    FB_LOAD_LE = 29,
    FB_LOAD_BE = 30,
    FB_STORE_LE = 31,     /* (first + 2^64 * second: the number) */
    FB_STORE_BE = 32      /* (first + 2^64 * second: the number) */
};

/* One command of a run. A `bit` other than 0 is a 1. */
typedef struct fb_step {
    uint64_t from, to;
    uint64_t first, second, third;
    uint32_t op;
    uint32_t bit;
} fb_step;

/* What kind of answer a reply has. */
enum {
    FB_REPLY_DONE = 0,   /* nothing to tell */
    FB_REPLY_BIT = 1,    /* low: a bit, or whether something holds */
    FB_REPLY_COUNT = 2,  /* low: how many bits */
    FB_REPLY_INDEX = 3,  /* low: an index in from..to; with FB_NONE there is none, and low is 0 */
    FB_REPLY_ORDER = 4,  /* low: 0 before, 1 the same, 2 behind */
    FB_REPLY_NUMBER = 5, /* low + 2^64 * high */
    FB_REPLY_REFUSED = 6 /* the status says why */
};

/* What a step answers; `low` and `high` are 0 where its kind doesn't say otherwise. */
typedef struct fb_reply {
    uint64_t low, high;
    uint32_t kind;
    fb_status status;
} fb_reply;

/* Carries out the steps on the window, one after the other, and tells of each in its reply: FB_DONE, FB_NONE, or FB_RANGE
 * to FB_WIDTH of a step that changed nothing; the run goes on. FB_OP where the command of a step is none, FB_ROOM unless
 * reply_count >= step_count: then no step was carried out. Replies behind the last step's stay.
 * At most the sum of the steps' costs. */
FB_DECLARE(run, FB_EDITED_BY_MEMORY, const fb_step *steps, size_t step_count, fb_reply *replies, size_t reply_count)

#undef FB_DECLARE
#undef FB_DECLARE_PLAIN
#undef FB_SEEN
#undef FB_EDITED
#undef FB_SEEN_BESIDE
#undef FB_EDITED_BESIDE
#undef FB_EDITED_BY_MEMORY
#undef FB_BOTH_EDITED

#ifdef __cplusplus
}
#endif

#endif
