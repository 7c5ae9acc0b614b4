/* The functions of one element type, called by a step: included once for each, with ELEMENT and SUFFIX defined. */

#define FB(stem) JOIN(fb_, SUFFIX, _##stem)
#define WINDOW at->order, left, at->left_count, at->start, at->len
#define RIGHT right, at->right_count, step->first, step->second

static fb_status NAME(edit)(ELEMENT *left, const struct call *at, const fb_step *step) {
    bool bit = step->bit != 0;
    switch (step->op) {
    case FB_SET: return FB(set)(WINDOW, step->first, bit);
    case FB_SWAP_BITS: return FB(swap_bits)(WINDOW, step->first, step->second);
    case FB_FILL: return FB(fill)(WINDOW, bit);
    case FB_INVERT: return FB(invert)(WINDOW);
    case FB_REVERSE: return FB(reverse)(WINDOW);
    case FB_SHIFT_START: return FB(shift_start)(WINDOW, step->first);
    case FB_SHIFT_END: return FB(shift_end)(WINDOW, step->first);
    case FB_ROTATE_LEFT: return FB(rotate_left)(WINDOW, step->first);
    case FB_ROTATE_RIGHT: return FB(rotate_right)(WINDOW, step->first);
    case FB_COPY_WITHIN: return FB(copy_within)(WINDOW, step->first, step->second, step->third);
    case FB_STORE_LE: return FB(store_le)(WINDOW, step->first);
    default: return FB(store_be)(WINDOW, step->first);
    }
}

static fb_status NAME(edit_by)(ELEMENT *left, const ELEMENT *right, const struct call *at, const fb_step *step) {
    switch (step->op) {
    case FB_COPY: return FB(copy)(WINDOW, RIGHT);
    case FB_AND: return FB(and)(WINDOW, RIGHT);
    case FB_OR: return FB(or)(WINDOW, RIGHT);
    default: return FB(xor)(WINDOW, RIGHT);
    }
}

static fb_status NAME(ask_bit)(ELEMENT *left, const ELEMENT *right, const struct call *at, const fb_step *step,
                               bool *answer) {
    switch (step->op) {
    case FB_GET: return FB(get)(WINDOW, step->first, answer);
    case FB_REPLACE: return FB(replace)(WINDOW, step->first, step->bit != 0, answer);
    case FB_EQUAL: return FB(equal)(WINDOW, RIGHT, answer);
    case FB_STARTS_WITH: return FB(starts_with)(WINDOW, RIGHT, answer);
    case FB_ENDS_WITH: return FB(ends_with)(WINDOW, RIGHT, answer);
    case FB_CONTAINS: return FB(contains)(WINDOW, RIGHT, answer);
    case FB_ANY: return FB(any)(WINDOW, answer);
    default: return FB(all)(WINDOW, answer);
    }
}

static fb_status NAME(ask_size)(const ELEMENT *left, const struct call *at, const fb_step *step, size_t *answer) {
    switch (step->op) {
    case FB_COUNT_ONES: return FB(count_ones)(WINDOW, answer);
    case FB_COUNT_ZEROS: return FB(count_zeros)(WINDOW, answer);
    case FB_FIRST_ONE: return FB(first_one)(WINDOW, answer);
    case FB_FIRST_ZERO: return FB(first_zero)(WINDOW, answer);
    case FB_LAST_ONE: return FB(last_one)(WINDOW, answer);
    default: return FB(last_zero)(WINDOW, answer);
    }
}

/* Calls the function of a step's command. What it answers is `unwritten` where it answers nothing: 0 or 1. */
static fb_reply NAME(call)(ELEMENT *left, const ELEMENT *right, const struct call *at, const fb_step *step,
                           unsigned unwritten) {
    fb_reply said = {.low = unwritten, .kind = kind_of(step->op)};
    bool bit = unwritten != 0;
    int32_t order = (int32_t)unwritten - 1;
    switch (said.kind) {
    case FB_REPLY_BIT:
        said.status = NAME(ask_bit)(left, right, at, step, &bit);
        said.low = bit;
        break;
    case FB_REPLY_COUNT:
    case FB_REPLY_INDEX:
        said.status = NAME(ask_size)(left, at, step, &said.low);
        break;
    case FB_REPLY_ORDER:
        said.status = FB(compare)(WINDOW, RIGHT, &order);
        said.low = (uint64_t)(order + 1);
        break;
    case FB_REPLY_NUMBER:
        said.status = step->op == FB_LOAD_LE ? FB(load_le)(WINDOW, &said.low) : FB(load_be)(WINDOW, &said.low);
        break;
    default:
        said.status = FB_COPY <= step->op && step->op <= FB_XOR ? NAME(edit_by)(left, right, at, step)
                                                                : NAME(edit)(left, at, step);
    }
    return said;
}
