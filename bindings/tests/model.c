#include "model.h"
#include <string.h>

bool lies_in(size_t start, size_t len, size_t bits) { return start <= bits && len <= bits - start; }

void cut(struct list *part, const struct list *list, size_t from, size_t to) {
    part->len = to - from;
    memcpy(part->bits, list->bits + from, part->len);
}

bool is_number(uint32_t op) {
    return op == FB_LOAD_LE || op == FB_LOAD_BE || op == FB_STORE_LE || op == FB_STORE_BE;
}

uint32_t kind_of(uint32_t op) {
    switch (op) {
    case FB_GET:
    case FB_REPLACE:
    case FB_EQUAL:
    case FB_STARTS_WITH:
    case FB_ENDS_WITH:
    case FB_CONTAINS:
    case FB_ANY:
    case FB_ALL: return FB_REPLY_BIT;
    case FB_COUNT_ONES:
    case FB_COUNT_ZEROS: return FB_REPLY_COUNT;
    case FB_FIRST_ONE:
    case FB_FIRST_ZERO:
    case FB_LAST_ONE:
    case FB_LAST_ZERO: return FB_REPLY_INDEX;
    case FB_COMPARE: return FB_REPLY_ORDER;
    case FB_LOAD_LE:
    case FB_LOAD_BE: return FB_REPLY_NUMBER;
    default: return FB_REPLY_DONE;
    }
}

/* ---- Refusals ---- */

static fb_status unless(bool holds, fb_status refusal) { return holds ? FB_DONE : refusal; }

static fb_status copy_within_refusal(size_t len, const fb_step *step) {
    if (step->first > step->second || step->second > len)
        return FB_SOURCE;
    return unless(lies_in(step->third, step->second - step->first, len), FB_DEST);
}

static fb_status right_refusal(size_t len, size_t right_len, const fb_step *step) {
    if (!lies_in(step->first, step->second, right_len))
        return FB_RIGHT;
    return unless(step->op != FB_COPY || step->second == len, FB_LENGTH);
}

static fb_status refusal(size_t len, size_t right_len, const fb_step *step, unsigned widest) {
    switch (step->op) {
    case FB_GET:
    case FB_SET:
    case FB_REPLACE: return unless(step->first < len, FB_INDEX);
    case FB_SWAP_BITS: return unless(step->first < len && step->second < len, FB_INDEX);
    case FB_SHIFT_START:
    case FB_SHIFT_END:
    case FB_ROTATE_LEFT:
    case FB_ROTATE_RIGHT: return unless(step->first <= len, FB_AMOUNT);
    case FB_COPY_WITHIN: return copy_within_refusal(len, step);
    case FB_LOAD_LE:
    case FB_LOAD_BE:
    case FB_STORE_LE:
    case FB_STORE_BE: return unless(1 <= len && len <= widest, FB_WIDTH);
    default: return FB_COPY <= step->op && step->op <= FB_CONTAINS ? right_refusal(len, right_len, step) : FB_DONE;
    }
}

/* ---- Numbers ---- */

/* The power of two that the bit at an index counts in a number of so many bits, whose first segment is the highest
 * (`big`) or the lowest. */
static unsigned weight(size_t index, size_t len, struct place place, bool big) {
    size_t in_element = (place.start + index) % place.width;
    size_t first = in_element <= index ? index - in_element : 0;
    size_t end = index - in_element + place.width < len ? index - in_element + place.width : len;
    size_t lower = big ? len - end : first;
    return (unsigned)(lower + (place.order == FB_LSB0 ? index - first : end - 1 - index));
}

static bool number_bit(const fb_step *step, unsigned weight) {
    return (weight < 64 ? step->first >> weight : step->second >> (weight - 64)) & 1;
}

static void add_power(fb_reply *number, unsigned weight) {
    if (weight < 64)
        number->low |= UINT64_C(1) << weight;
    else
        number->high |= UINT64_C(1) << (weight - 64);
}

/* ---- Edits ---- */

static bool right_bit(const struct list *right, const fb_step *step, size_t index) {
    return index < step->second && right->bits[step->first + index];
}

static bool copied_bit(const struct list *old, const fb_step *step, size_t index) {
    bool copied = step->third <= index && index - step->third < step->second - step->first;
    return old->bits[copied ? step->first + (index - step->third) : index];
}

/* The bit at an index after a command that moves bits, or changes each by itself. */
static bool edited_bit(const struct list *old, const fb_step *step, size_t index) {
    size_t len = old->len, by = step->first;
    switch (step->op) {
    case FB_SET:
    case FB_REPLACE: return index == step->first ? step->bit != 0 : old->bits[index];
    case FB_SWAP_BITS:
        return old->bits[index == step->first ? step->second : index == step->second ? step->first : index];
    case FB_FILL: return step->bit != 0;
    case FB_INVERT: return !old->bits[index];
    case FB_REVERSE: return old->bits[len - 1 - index];
    case FB_SHIFT_START: return by < len - index && old->bits[index + by];
    case FB_SHIFT_END: return by <= index && old->bits[index - by];
    case FB_ROTATE_LEFT: return old->bits[(index + by) % len];
    case FB_ROTATE_RIGHT: return old->bits[(index + len - by) % len];
    case FB_COPY_WITHIN: return copied_bit(old, step, index);
    default: return old->bits[index];
    }
}

/* The bit at an index after any command. */
static bool new_bit(const struct list *old, struct place place, const struct list *right, const fb_step *step,
                    size_t index) {
    switch (step->op) {
    case FB_COPY: return right_bit(right, step, index);
    case FB_AND: return old->bits[index] && right_bit(right, step, index);
    case FB_OR: return old->bits[index] || right_bit(right, step, index);
    case FB_XOR: return old->bits[index] != right_bit(right, step, index);
    case FB_STORE_LE:
    case FB_STORE_BE: return number_bit(step, weight(index, old->len, place, step->op == FB_STORE_BE));
    default: return edited_bit(old, step, index);
    }
}

/* ---- Answers ---- */

static size_t count(const struct list *list, bool bit) {
    size_t found = 0;
    for (size_t i = 0; i < list->len; ++i)
        found += list->bits[i] == bit;
    return found;
}

/* The first index of a bit, or the length. */
static size_t first_of(const struct list *list, bool bit) {
    size_t i = 0;
    while (i < list->len && list->bits[i] != bit)
        ++i;
    return i;
}

/* The index behind the last of a bit, or 0. */
static size_t behind_last_of(const struct list *list, bool bit) {
    size_t i = list->len;
    while (i > 0 && list->bits[i - 1] != bit)
        --i;
    return i;
}

static fb_reply found(bool is_there, size_t index) {
    return (fb_reply){.low = is_there ? index : 0, .kind = FB_REPLY_INDEX, .status = is_there ? FB_DONE : FB_NONE};
}

static fb_reply search(const struct list *list, uint32_t op) {
    bool bit = op == FB_FIRST_ONE || op == FB_LAST_ONE;
    if (op == FB_FIRST_ONE || op == FB_FIRST_ZERO)
        return found(first_of(list, bit) < list->len, first_of(list, bit));
    return found(behind_last_of(list, bit) > 0, behind_last_of(list, bit) - 1);
}

/* Whether the right bits stand in the list from an index on. */
static bool stand_at(const struct list *list, const struct list *right, const fb_step *step, size_t index) {
    size_t same = 0;
    while (same < step->second && index + same < list->len && list->bits[index + same] == right_bit(right, step, same))
        ++same;
    return same == step->second;
}

static bool contains(const struct list *list, const struct list *right, const fb_step *step) {
    for (size_t i = 0; i <= list->len; ++i)
        if (stand_at(list, right, step, i))
            return true;
    return false;
}

/* 0, 1 or 2: before, the same, behind. */
static unsigned compare(const struct list *list, const struct list *right, const fb_step *step) {
    for (size_t i = 0; i < list->len && i < step->second; ++i)
        if (list->bits[i] != right_bit(right, step, i))
            return list->bits[i] ? 2 : 0;
    return list->len < step->second ? 0 : list->len == step->second ? 1 : 2;
}

static uint64_t answer(const struct list *list, const struct list *right, const fb_step *step) {
    switch (step->op) {
    case FB_GET:
    case FB_REPLACE: return list->bits[step->first];
    case FB_EQUAL: return list->len == step->second && stand_at(list, right, step, 0);
    case FB_COMPARE: return compare(list, right, step);
    case FB_STARTS_WITH: return stand_at(list, right, step, 0);
    case FB_ENDS_WITH: return step->second <= list->len && stand_at(list, right, step, list->len - step->second);
    case FB_CONTAINS: return contains(list, right, step);
    case FB_COUNT_ONES: return count(list, true);
    case FB_COUNT_ZEROS: return count(list, false);
    case FB_ANY: return count(list, true) != 0;
    case FB_ALL: return count(list, false) == 0;
    default: return 0;
    }
}

static fb_reply number(const struct list *list, struct place place, bool big) {
    fb_reply number = {.kind = FB_REPLY_NUMBER};
    for (size_t i = 0; i < list->len; ++i)
        if (list->bits[i])
            add_power(&number, weight(i, list->len, place, big));
    return number;
}

/* ---- Commands ---- */

static fb_reply reply(const struct list *list, struct place place, const struct list *right, const fb_step *step) {
    switch (kind_of(step->op)) {
    case FB_REPLY_INDEX: return search(list, step->op);
    case FB_REPLY_NUMBER: return number(list, place, step->op == FB_LOAD_BE);
    default: return (fb_reply){.low = answer(list, right, step), .kind = kind_of(step->op)};
    }
}

fb_reply model_command(struct list *list, struct place place, const struct list *right, const fb_step *step,
                       unsigned widest) {
    fb_status refused = refusal(list->len, right->len, step, widest);
    if (refused != FB_DONE)
        return (fb_reply){.kind = FB_REPLY_REFUSED, .status = refused};
    struct list old;
    cut(&old, list, 0, list->len);
    for (size_t i = 0; i < old.len; ++i)
        list->bits[i] = new_bit(&old, place, right, step, i);
    return reply(&old, place, right, step);
}

fb_reply model_step(struct list *list, struct place place, const struct list *right, const fb_step *step) {
    if (step->from > step->to || step->to > list->len)
        return (fb_reply){.kind = FB_REPLY_REFUSED, .status = FB_RANGE};
    struct list part;
    cut(&part, list, step->from, step->to);
    place.start += step->from;
    fb_reply said = model_command(&part, place, right, step, 128);
    memcpy(list->bits + step->from, part.bits, part.len);
    return said;
}
