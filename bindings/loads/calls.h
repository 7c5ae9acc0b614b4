/* The calls on elements of one type: included once for each, with ELEMENT and SUFFIX defined. */

#define FB(stem) JOIN(fb_, SUFFIX, _##stem)
#define WIDTH (8 * sizeof(ELEMENT))
#define COUNT (MEMORY_BYTES / sizeof(ELEMENT))
#define WINDOW at->order, left, COUNT, at->start, at->len
#define RIGHT(len) right, COUNT, at->right_start, len

/* The right window has the bits of the left one, which are of both kinds. */
static void NAME(scatter)(const struct place *at, ELEMENT *left, ELEMENT *right) {
    for (size_t i = 0; i < COUNT; ++i)
        left[i] = right[i] = (ELEMENT)(UINT64_C(0x9E3779B97F4A7C15) * (i + 1) >> 17);
    expect_done(FB(copy)(at->order, right, COUNT, at->right_start, at->len, left, COUNT, at->start, at->len), "copy");
}

static void NAME(ask)(const struct place *at, const ELEMENT *left, const ELEMENT *right) {
    size_t n = at->len, place, indices[16], found;
    bool answer;
    int32_t order;
    uint64_t number;
    CALL("get", 0, FB(get)(WINDOW, n / 2, &answer));
    CALL("count_ones", 0, FB(count_ones)(WINDOW, &place));
    CALL("count_zeros", 0, FB(count_zeros)(WINDOW, &place));
    CALL("ones", found, FB(ones)(WINDOW, 0, indices, 16, &found));
    CALL("count_step", 3, FB(count_step)(WINDOW, 3, &place));
    CALL("count_and", n, FB(count_and)(WINDOW, RIGHT(n), &place));
    CALL("count_xor", n / 2, FB(count_xor)(WINDOW, RIGHT(n / 2), &place));
    CALL("disjoint", n, FB(disjoint)(WINDOW, RIGHT(n), &answer));
    CALL("subset", n, FB(subset)(WINDOW, RIGHT(n), &answer));
    CALL("equal", n, FB(equal)(WINDOW, RIGHT(n), &answer));
    CALL("compare", n, FB(compare)(WINDOW, RIGHT(n), &order));
    CALL("starts_with", n, FB(starts_with)(WINDOW, RIGHT(n), &answer));
    CALL("starts_with", n / 2, FB(starts_with)(WINDOW, RIGHT(n / 2), &answer));
    CALL("ends_with", n, FB(ends_with)(WINDOW, RIGHT(n), &answer));
    CALL("ends_with", n / 2, FB(ends_with)(WINDOW, RIGHT(n / 2), &answer));
    if (n <= 64) {
        CALL("load_le", 0, FB(load_le)(WINDOW, &number));
        CALL("load_be", 0, FB(load_be)(WINDOW, &number));
    }
}

/* Of a window without the bit that is looked for. */
static void NAME(search)(const struct place *at, ELEMENT *left, ELEMENT *right) {
    size_t n = at->len, place;
    bool answer;
    expect_done(FB(fill)(WINDOW, true), "fill");
    CALL("first_zero", 0, FB(first_zero)(WINDOW, &place));
    CALL("last_zero", 0, FB(last_zero)(WINDOW, &place));
    CALL("all", 0, FB(all)(WINDOW, &answer));
    expect_done(FB(fill)(WINDOW, false), "fill");
    CALL("first_one", 0, FB(first_one)(WINDOW, &place));
    CALL("last_one", 0, FB(last_one)(WINDOW, &place));
    CALL("any", 0, FB(any)(WINDOW, &answer));
    /* the last bit of the right window stands nowhere in the left one */
    size_t r = n < 30 ? n : 30;
    expect_done(FB(set)(at->order, right, COUNT, at->right_start, n, r - 1, true), "set");
    CALL("contains", r, FB(contains)(WINDOW, RIGHT(r), &answer));
}

static void NAME(edit)(const struct place *at, ELEMENT *left) {
    size_t n = at->len;
    bool old;
    CALL("set", 0, FB(set)(WINDOW, n / 2, true));
    CALL("replace", 0, FB(replace)(WINDOW, n / 2, true, &old));
    CALL("swap_bits", 0, FB(swap_bits)(WINDOW, 0, n / 2));
    CALL("fill", 0, FB(fill)(WINDOW, false));
    CALL("fill", 1, FB(fill)(WINDOW, true));
    CALL("fill_step", 3, FB(fill_step)(WINDOW, 3, true));
    CALL("fill_step", 64, FB(fill_step)(WINDOW, 64, false));
    CALL("fill_step", 65, FB(fill_step)(WINDOW, 65, true));
    CALL("invert", 0, FB(invert)(WINDOW));
    CALL("reverse", 0, FB(reverse)(WINDOW));
    const size_t amounts[] = {n < 5 ? n : 5, n / 3, n};
    for (size_t i = 0; i < 3; ++i) {
        size_t by = amounts[i];
        CALL("shift_start", by, FB(shift_start)(WINDOW, by));
        CALL("shift_end", by, FB(shift_end)(WINDOW, by));
        CALL("rotate_left", by, FB(rotate_left)(WINDOW, by));
        CALL("rotate_right", by, FB(rotate_right)(WINDOW, by));
        CALL("copy_within", n - by, FB(copy_within)(WINDOW, 0, n - by, by));
        CALL("copy_within", n - by, FB(copy_within)(WINDOW, by, n, 0));
    }
    if (n <= 64) {
        CALL("store_le", 0, FB(store_le)(WINDOW, UINT64_C(0x123456789ABCDEF)));
        CALL("store_be", 0, FB(store_be)(WINDOW, UINT64_C(0x123456789ABCDEF)));
    }
}

static void NAME(edit_beside)(const struct place *at, ELEMENT *left, ELEMENT *right) {
    size_t n = at->len;
    CALL("copy", n, FB(copy)(WINDOW, RIGHT(n)));
    CALL("copy_step", 3, FB(copy_step)(WINDOW, RIGHT(n / 3 + (n % 3 != 0)), 3, 1));
    CALL("copy_step", 9, FB(copy_step)(WINDOW, RIGHT(n), 9, 9));
    CALL("and", n, FB(and)(WINDOW, RIGHT(n)));
    CALL("or", n, FB(or)(WINDOW, RIGHT(n)));
    CALL("xor", n, FB(xor)(WINDOW, RIGHT(n)));
    CALL("and", n / 2, FB(and)(WINDOW, RIGHT(n / 2)));
    CALL("or", n / 2, FB(or)(WINDOW, RIGHT(n / 2)));
    CALL("swap", n, FB(swap)(WINDOW, RIGHT(n)));
}

/* Each operation of the headline as a run of its own; a run has no exchange of two windows. */
static void NAME(run)(const struct place *at, ELEMENT *left, ELEMENT *right) {
    size_t n = at->len, r = at->right_start;
    const fb_step steps[] = {
        {.to = n, .op = FB_EQUAL, .first = r, .second = n},     {.to = n, .op = FB_COPY, .first = r, .second = n},
        {.to = n, .op = FB_COPY_WITHIN, .second = n - n / 3, .third = n / 3},
        {.to = n, .op = FB_AND, .first = r, .second = n},       {.to = n, .op = FB_OR, .first = r, .second = n},
        {.to = n, .op = FB_XOR, .first = r, .second = n},       {.to = n, .op = FB_REVERSE},
        {.to = n, .op = FB_ROTATE_LEFT, .first = n / 3},        {.to = n, .op = FB_FILL, .bit = 1},
        {.to = n, .op = FB_COUNT_ONES},                         {.to = n, .op = FB_FIRST_ZERO},
        {.to = n, .op = FB_INVERT},
    };
    static const char *const names[] = {"run:equal", "run:copy",        "run:copy_within", "run:and",
                                        "run:or",    "run:xor",         "run:reverse",     "run:rotate_left",
                                        "run:fill",  "run:count_ones",  "run:first_zero",  "run:invert"};
    fb_reply reply;
    for (size_t i = 0; i < sizeof steps / sizeof *steps; ++i) {
        size_t first = steps[i].op == FB_COPY_WITHIN ? n - n / 3 : steps[i].op == FB_ROTATE_LEFT ? n / 3 : n;
        CALL(names[i], first, FB(run)(WINDOW, right, COUNT, &steps[i], 1, &reply, 1));
    }
}

static void NAME(call)(const struct place *at) {
    ELEMENT *left = (ELEMENT *)left_memory, *right = (ELEMENT *)right_memory;
    NAME(scatter)(at, left, right);
    NAME(ask)(at, left, right);
    NAME(edit_beside)(at, left, right);
    NAME(edit)(at, left);
    NAME(run)(at, left, right);
    NAME(search)(at, left, right);
}

#undef FB
#undef WIDTH
#undef COUNT
#undef WINDOW
#undef RIGHT
