#include "random.h"
#include "model.h"

static uint64_t state;

void random_from(uint64_t seed) { state = seed; }

uint64_t random_number(void) {
    uint64_t mixed = state += UINT64_C(0x9E3779B97F4A7C15);
    mixed = (mixed ^ mixed >> 30) * UINT64_C(0xBF58476D1CE4E5B9);
    mixed = (mixed ^ mixed >> 27) * UINT64_C(0x94D049BB133111EB);
    return mixed ^ mixed >> 31;
}

size_t random_below(size_t limit) { return limit == 0 ? random_number() : random_number() % limit; }

size_t random_size(size_t most) {
    switch (random_below(36)) {
    case 0: return most + 1 + random_below(3);
    case 1: return SIZE_MAX / 2 + random_below(5) - 1;
    case 2: return SIZE_MAX - random_below(most + 2);
    case 3:
    case 4: return 0;
    case 5:
    case 6: return most;
    default: return random_below(most + 1);
    }
}

fb_order random_order(void) {
    if (random_below(50) == 0)
        return (fb_order)(FB_MSB0 + 1 + random_below(random_below(2) == 0 ? 1 : UINT32_MAX - 1));
    return random_below(2) == 0 ? FB_LSB0 : FB_MSB0;
}

/* What a command takes as its second number, where it is a length from the first on and where it isn't. */
static size_t random_second(uint32_t op, size_t first, size_t len, size_t right_bits) {
    size_t left = first <= right_bits ? right_bits - first : 0;
    if (op == FB_COPY && len <= left && random_below(8) != 0)
        return len;
    if (FB_COPY <= op && op <= FB_CONTAINS)
        return random_below(3) == 0 ? random_size(left < 6 ? left : 6) : random_size(left);
    return random_size(len);
}

fb_step random_arguments(uint32_t op, size_t len, size_t right_bits) {
    fb_step step = {.op = op, .bit = (uint32_t)random_below(2), .third = random_size(len)};
    step.first = random_size(FB_COPY <= op && op <= FB_CONTAINS ? right_bits : len);
    step.second = random_second(op, step.first, len, right_bits);
    if (op == FB_COPY_WITHIN && step.first <= len && random_below(4) != 0) {
        step.second = step.first + random_size(len - step.first);
        step.third = random_size(len - (step.second <= len ? step.second - step.first : 0));
    }
    if (op == FB_STORE_LE || op == FB_STORE_BE) {
        step.first = random_number();
        step.second = random_number();
    }
    return step;
}

/* A range of at most so many bits, in most cases in `len` bits. */
static void random_range(fb_step *step, size_t len, size_t most) {
    step->from = random_size(len);
    size_t left = step->from <= len ? len - step->from : 0;
    step->to = step->from + random_size(left < most ? left : most);
    if (random_below(40) == 0)
        step->to = random_size(len);
}

fb_step random_step(size_t len, size_t right_bits) {
    uint32_t op = (uint32_t)random_below(COMMANDS);
    fb_step range;
    random_range(&range, len, is_number(op) ? 130 : random_below(4) == 0 ? len : 300);
    fb_step step = random_arguments(op, range.from <= range.to ? range.to - range.from : 0, right_bits);
    step.from = range.from;
    step.to = range.to;
    if (random_below(8) == 0)
        step.bit = (uint32_t)random_number();
    if (random_below(1000) == 0)
        step.op = (uint32_t)(COMMANDS + random_below(UINT32_MAX - COMMANDS));
    return step;
}
