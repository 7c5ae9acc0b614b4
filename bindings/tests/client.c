/* Compares every function with loops over single bits, on windows at random and hostile arguments: client [WINDOWS]. */
#include "model.h"
#include "random.h"
#include <stdio.h>
#include <stdlib.h>
#include <string.h>

enum { MOST_STEPS = 24 };

/* The arguments of a call that aren't those of its command; without a right memory its count is 0. */
struct call {
    fb_order order;
    size_t left_count, right_count;
    size_t start, len;
};

struct steps {
    fb_step steps[MOST_STEPS];
    size_t count, reply_count;
};

static void expect(bool holds, const char *what, size_t width, const struct call *at, const fb_step *step) {
    if (holds)
        return;
    fprintf(stderr, "%s differs: u%zu, order %u, counts %zu and %zu, window %zu, %zu\n", what, width, at->order,
            at->left_count, at->right_count, at->start, at->len);
    fprintf(stderr, "command %u on %ju..%ju with %ju, %ju, %ju, bit %u\n", step->op, (uintmax_t)step->from,
            (uintmax_t)step->to, (uintmax_t)step->first, (uintmax_t)step->second, (uintmax_t)step->third, step->bit);
    exit(1);
}

#define JOINED(a, b, c) a##b##c
#define JOIN(a, b, c) JOINED(a, b, c)
#define NAME(stem) JOIN(stem, _, SUFFIX)

#define ELEMENT uint8_t
#define SUFFIX u8
#include "checks.h"
#undef ELEMENT
#undef SUFFIX
#define ELEMENT uint16_t
#define SUFFIX u16
#include "checks.h"
#undef ELEMENT
#undef SUFFIX
#define ELEMENT uint32_t
#define SUFFIX u32
#include "checks.h"
#undef ELEMENT
#undef SUFFIX
#define ELEMENT uint64_t
#define SUFFIX u64
#include "checks.h"

int main(int count, char **words) {
    size_t windows = count > 1 ? strtoul(words[1], NULL, 10) : 10000;
    check_u8(windows);
    check_u16(windows);
    check_u32(windows);
    check_u64(windows);
    return 0;
}
