/* The checks of one element type: included once for each, with ELEMENT and SUFFIX defined. */

#include "calls.h"

#define WIDTH (8 * sizeof(ELEMENT))

struct NAME(memory) {
    ELEMENT *elements;
    size_t count;
};

/* ---- Bits of a memory ---- */

static ELEMENT NAME(mask)(fb_order order, size_t place) {
    size_t index = place % WIDTH;
    return (ELEMENT)((ELEMENT)1 << (order == FB_LSB0 ? index : WIDTH - 1 - index));
}

static void NAME(read)(struct list *list, const ELEMENT *elements, fb_order order, size_t start, size_t len) {
    list->len = len;
    for (size_t i = 0; i < len; ++i)
        list->bits[i] = (elements[(start + i) / WIDTH] & NAME(mask)(order, start + i)) != 0;
}

static void NAME(write)(ELEMENT *elements, fb_order order, size_t start, const struct list *list) {
    for (size_t i = 0; i < list->len; ++i) {
        ELEMENT *element = &elements[(start + i) / WIDTH], mask = NAME(mask)(order, start + i);
        *element = (ELEMENT)(list->bits[i] ? *element | mask : *element & (ELEMENT)~mask);
    }
}

/* ---- Memories at random ---- */

/* Of no element it is null, or a place behind which there is nothing. */
static struct NAME(memory) NAME(new_memory)(void) {
    size_t bits = random_below(8) == 0 ? random_below(MOST_BITS) : random_below(400);
    struct NAME(memory) memory = {NULL, bits / WIDTH};
    if (memory.count != 0 || random_below(2) == 0)
        memory.elements = malloc(memory.count * sizeof(ELEMENT) + (memory.count == 0));
    return memory;
}

/* All zeros, all ones, few of either, or half of them. */
static void NAME(scatter)(struct NAME(memory) memory) {
    size_t kind = random_below(6);
    for (size_t i = 0; i < memory.count; ++i) {
        ELEMENT few = random_below(8) == 0 ? (ELEMENT)((ELEMENT)1 << random_below(WIDTH)) : 0;
        ELEMENT kinds[] = {0, (ELEMENT) ~(ELEMENT)0, few, (ELEMENT)~few};
        memory.elements[i] = kind < 4 ? kinds[kind] : (ELEMENT)random_number();
    }
}

/* Gives the right window bits of the left one that begin at its start or its end or somewhere, or all but one of them.
 */
static void NAME(make_alike)(struct NAME(memory) right, fb_order order, const struct list *list, const fb_step *step) {
    if (!lies_in(step->first, step->second, right.count * WIDTH) || step->second > list->len)
        return;
    size_t rest = list->len - step->second;
    size_t from = step->op == FB_ENDS_WITH ? rest : step->op == FB_CONTAINS ? random_below(rest + 1) : 0;
    struct list part;
    cut(&part, list, from, from + step->second);
    if (part.len > 0 && random_below(3) == 0)
        part.bits[random_below(part.len)] ^= true;
    NAME(write)(right.elements, order, step->first, &part);
}

/* ---- What a call has to answer before its command is looked at ---- */

static fb_status NAME(window_status)(const struct call *at) {
    if (at->order > FB_MSB0)
        return FB_ORDER;
    if (at->left_count > FB_MAX_BITS / WIDTH || at->right_count > FB_MAX_BITS / WIDTH)
        return FB_SIZE;
    return lies_in(at->start, at->len, at->left_count * WIDTH) ? FB_DONE : FB_RANGE;
}

/* A window of at most so many bits. */
static struct call NAME(random_call)(struct NAME(memory) left, struct NAME(memory) right, size_t most) {
    size_t bits = left.count * WIDTH;
    struct call at = {random_order(), left.count, right.count, random_size(bits), 0};
    size_t rest = at.start <= bits ? bits - at.start : 0;
    at.len = random_size(rest < most ? rest : most);
    return at;
}

/* More elements than a memory may have. */
static size_t NAME(too_many)(void) {
    return random_below(2) == 0 ? FB_MAX_BITS / WIDTH + 1 + random_below(3) : SIZE_MAX - random_below(3);
}

/* ---- Checks ---- */

static ELEMENT NAME(left_wanted)[MOST_BITS / WIDTH], NAME(right_wanted)[MOST_BITS / WIDTH];

static void NAME(keep)(ELEMENT *wanted, struct NAME(memory) memory) {
    if (memory.count != 0)
        memcpy(wanted, memory.elements, memory.count * sizeof(ELEMENT));
}

static bool NAME(is_as)(struct NAME(memory) memory, const ELEMENT *wanted) {
    return memory.count == 0 || memcmp(memory.elements, wanted, memory.count * sizeof(ELEMENT)) == 0;
}

/* What the command has to answer, of which the wanted memory then holds what it has to leave. */
static fb_reply NAME(wanted_reply)(struct NAME(memory) left, struct NAME(memory) right, const struct call *at,
                                   const fb_step *step) {
    static struct list list, right_list;
    fb_reply wanted = {.kind = FB_REPLY_REFUSED, .status = NAME(window_status)(at)};
    if (wanted.status == FB_DONE) {
        NAME(read)(&list, left.elements, at->order, at->start, at->len);
        if (FB_EQUAL <= step->op && step->op <= FB_CONTAINS && random_below(2) == 0)
            NAME(make_alike)(right, at->order, &list, step);
        NAME(read)(&right_list, right.elements, at->order, 0, right.count * WIDTH);
        wanted = model_command(&list, (struct place){WIDTH, at->order, at->start}, &right_list, step, 64);
    }
    NAME(keep)(NAME(left_wanted), left);
    NAME(keep)(NAME(right_wanted), right);
    if (wanted.status == FB_DONE)
        NAME(write)(NAME(left_wanted), at->order, at->start, &list);
    return wanted;
}

/* One command on a window, as a function of its own. */
static void NAME(check_command)(struct NAME(memory) left, struct NAME(memory) right, uint32_t op) {
    bool takes_right = FB_COPY <= op && op <= FB_CONTAINS;
    struct call at = NAME(random_call)(left, right, is_number(op) ? 66 : MOST_BITS);
    fb_step step = random_arguments(op, at.len <= left.count * WIDTH ? at.len : 0, right.count * WIDTH);
    if (random_below(60) == 0)
        at.left_count = NAME(too_many)();
    if (takes_right && random_below(60) == 0)
        at.right_count = NAME(too_many)();
    fb_reply wanted = NAME(wanted_reply)(left, right, &at, &step);
    unsigned unwritten = (unsigned)random_below(2);
    fb_reply said = NAME(call)(left.elements, right.elements, &at, &step, unwritten);
    bool is_answer = wanted.status == FB_DONE && wanted.kind != FB_REPLY_DONE;
    expect(said.status == wanted.status, "the status", WIDTH, &at, &step);
    expect(said.low == (is_answer ? wanted.low : unwritten), "the answer", WIDTH, &at, &step);
    expect(NAME(is_as)(left, NAME(left_wanted)), "the memory", WIDTH, &at, &step);
    expect(NAME(is_as)(right, NAME(right_wanted)), "the right memory", WIDTH, &at, &step);
}

/* The exchange of two windows. */
static void NAME(check_swap)(struct NAME(memory) left, struct NAME(memory) right) {
    static struct list list, right_list;
    struct call at = NAME(random_call)(left, right, MOST_BITS);
    fb_step step = random_arguments(FB_COPY, at.len <= left.count * WIDTH ? at.len : 0, right.count * WIDTH);
    fb_status wanted = NAME(window_status)(&at);
    if (wanted == FB_DONE && !lies_in(step.first, step.second, right.count * WIDTH))
        wanted = FB_RIGHT;
    if (wanted == FB_DONE && step.second != at.len)
        wanted = FB_LENGTH;
    NAME(keep)(NAME(left_wanted), left);
    NAME(keep)(NAME(right_wanted), right);
    if (wanted == FB_DONE) {
        NAME(read)(&list, left.elements, at.order, at.start, at.len);
        NAME(read)(&right_list, right.elements, at.order, step.first, step.second);
        NAME(write)(NAME(left_wanted), at.order, at.start, &right_list);
        NAME(write)(NAME(right_wanted), at.order, step.first, &list);
    }
    fb_status said = FB(swap)(at.order, left.elements, at.left_count, at.start, at.len, right.elements, at.right_count,
                              step.first, step.second);
    expect(said == wanted, "the status of swap", WIDTH, &at, &step);
    expect(NAME(is_as)(left, NAME(left_wanted)), "the memory of swap", WIDTH, &at, &step);
    expect(NAME(is_as)(right, NAME(right_wanted)), "the right memory of swap", WIDTH, &at, &step);
}

/* The first ones from an index on, into more or less room than they take. */
static void NAME(check_ones)(struct NAME(memory) left) {
    static struct list list;
    struct call at = NAME(random_call)(left, left, MOST_BITS);
    size_t len = at.len <= left.count * WIDTH ? at.len : 0;
    fb_step step = {.first = random_size(len), .second = random_below(3) == 0 ? random_below(12) : 700};
    size_t from = step.first, room = step.second, untold = random_number(), found = untold;
    size_t *indices = room != 0 || random_below(2) == 0 ? malloc(room * sizeof(size_t) + (room == 0)) : NULL;
    for (size_t i = 0; i < room; ++i)
        indices[i] = untold;
    fb_status wanted = NAME(window_status)(&at);
    if (wanted == FB_DONE && from > at.len)
        wanted = FB_INDEX;
    list.len = 0;
    if (wanted == FB_DONE)
        NAME(read)(&list, left.elements, at.order, at.start, at.len);
    NAME(keep)(NAME(left_wanted), left);
    fb_status said = FB(ones)(at.order, left.elements, at.left_count, at.start, at.len, from, indices, room, &found);
    expect(said == wanted, "the status of ones", WIDTH, &at, &step);
    size_t told = 0;
    for (size_t i = from; i < list.len && told < room; ++i)
        if (list.bits[i])
            expect(indices[told++] == i, "an index of ones", WIDTH, &at, &step);
    expect(found == (wanted == FB_DONE ? told : untold), "how many ones", WIDTH, &at, &step);
    for (size_t i = told; i < room; ++i)
        expect(indices[i] == untold, "an index behind the last of ones", WIDTH, &at, &step);
    expect(NAME(is_as)(left, NAME(left_wanted)), "the memory of ones", WIDTH, &at, &step);
    free(indices);
}

/* How many of so many bits are every so many from the first one on. */
static size_t NAME(places)(size_t len, size_t by) { return len / by + (len % by != 0); }

/* What is made of a window's list by every so many bits of it, and of every so many right bits. */
static void NAME(check_steps)(struct NAME(memory) left, struct NAME(memory) right) {
    static struct list list, right_list;
    struct call at = NAME(random_call)(left, right, MOST_BITS);
    size_t by = random_below(random_below(3) == 0 ? 700 : 70), right_by = random_below(20);
    size_t len = at.len <= left.count * WIDTH ? at.len : 0, many = by == 0 ? 0 : NAME(places)(len, by);
    fb_step step = random_arguments(FB_COPY, len, right.count * WIDTH);
    step.third = by;
    if (many != 0 && random_below(8) != 0)
        step.second = (many - 1) * right_by + 1;
    size_t untold = random_number(), ones = untold, wanted_ones = 0;
    bool bit = random_below(2) == 0;
    fb_status wanted = NAME(window_status)(&at);
    NAME(keep)(NAME(left_wanted), left);
    if (wanted == FB_DONE)
        NAME(read)(&list, left.elements, at.order, at.start, at.len);
    fb_status filled = wanted == FB_DONE && by == 0 ? FB_STEP : wanted, copied = wanted;
    for (size_t k = 0; filled == FB_DONE && k < many; ++k)
        wanted_ones += list.bits[k * by];
    expect(FB(count_step)(at.order, left.elements, at.left_count, at.start, at.len, by, &ones) == filled,
           "the status of count_step", WIDTH, &at, &step);
    expect(ones == (filled == FB_DONE ? wanted_ones : untold), "every so many ones", WIDTH, &at, &step);
    if (copied == FB_DONE && !lies_in(step.first, step.second, right.count * WIDTH))
        copied = FB_RIGHT;
    if (copied == FB_DONE && (by == 0 || right_by == 0))
        copied = FB_STEP;
    if (copied == FB_DONE && many != NAME(places)(step.second, right_by))
        copied = FB_LENGTH;
    if (copied == FB_DONE) {
        NAME(read)(&right_list, right.elements, at.order, step.first, step.second);
        for (size_t k = 0; k < many; ++k)
            list.bits[k * by] = right_list.bits[k * right_by];
        NAME(write)(NAME(left_wanted), at.order, at.start, &list);
    }
    expect(FB(copy_step)(at.order, left.elements, at.left_count, at.start, at.len, right.elements, at.right_count,
                         step.first, step.second, by, right_by) == copied,
           "the status of copy_step", WIDTH, &at, &step);
    expect(NAME(is_as)(left, NAME(left_wanted)), "the memory of copy_step", WIDTH, &at, &step);
    for (size_t k = 0; filled == FB_DONE && k < many; ++k)
        list.bits[k * by] = bit;
    if (filled == FB_DONE)
        NAME(write)(NAME(left_wanted), at.order, at.start, &list);
    expect(FB(fill_step)(at.order, left.elements, at.left_count, at.start, at.len, by, bit) == filled,
           "the status of fill_step", WIDTH, &at, &step);
    expect(NAME(is_as)(left, NAME(left_wanted)), "the memory of fill_step", WIDTH, &at, &step);
}

/* What two windows have in common. */
static void NAME(check_pairs)(struct NAME(memory) left, struct NAME(memory) right) {
    static struct list list, right_list;
    struct call at = NAME(random_call)(left, right, MOST_BITS);
    fb_step step = random_arguments(FB_AND, at.len <= left.count * WIDTH ? at.len : 0, right.count * WIDTH);
    size_t untold = random_number(), both = untold, differing = untold, wanted_both = 0, wanted_differing = 0, first = 0;
    bool unwritten = random_below(2) == 0, disjoint = unwritten, subset = unwritten;
    fb_status wanted = NAME(window_status)(&at);
    if (wanted == FB_DONE && !lies_in(step.first, step.second, right.count * WIDTH))
        wanted = FB_RIGHT;
    if (wanted == FB_DONE) {
        NAME(read)(&list, left.elements, at.order, at.start, at.len);
        NAME(read)(&right_list, right.elements, at.order, step.first, step.second);
        for (size_t i = 0; i < list.len; ++i) {
            bool bit = list.bits[i], other = i < right_list.len && right_list.bits[i];
            wanted_both += bit && other;
            wanted_differing += bit != other;
            first += bit && !other;
        }
    }
#define ASK(stem, answer)                                                                                              \
    expect(FB(stem)(at.order, left.elements, at.left_count, at.start, at.len, right.elements, at.right_count,          \
                    step.first, step.second, &answer) == wanted,                                                      \
           "the status of " #stem, WIDTH, &at, &step)
    ASK(count_and, both);
    ASK(count_xor, differing);
    ASK(disjoint, disjoint);
    ASK(subset, subset);
#undef ASK
    bool told = wanted == FB_DONE;
    expect(both == (told ? wanted_both : untold), "count_and", WIDTH, &at, &step);
    expect(differing == (told ? wanted_differing : untold), "count_xor", WIDTH, &at, &step);
    expect(disjoint == (told ? wanted_both == 0 : unwritten), "disjoint", WIDTH, &at, &step);
    expect(subset == (told ? first == 0 : unwritten), "subset", WIDTH, &at, &step);
}

/* What a run of the steps has to answer, and, where that is FB_DONE, the replies, and what it has to leave in the
 * wanted memory. */
static fb_status NAME(wanted_run)(struct NAME(memory) left, struct NAME(memory) right, const struct call *at,
                                  const struct steps *run, fb_reply *replies) {
    static struct list list, right_list;
    fb_status status = NAME(window_status)(at);
    for (size_t i = 0; i < run->count; ++i)
        if (status == FB_DONE && run->steps[i].op >= COMMANDS)
            status = FB_OP;
    if (status == FB_DONE && run->reply_count < run->count)
        status = FB_ROOM;
    NAME(keep)(NAME(left_wanted), left);
    NAME(keep)(NAME(right_wanted), right);
    if (status != FB_DONE)
        return status;
    NAME(read)(&list, left.elements, at->order, at->start, at->len);
    NAME(read)(&right_list, right.elements, at->order, 0, right.count * WIDTH);
    for (size_t i = 0; i < run->count; ++i)
        replies[i] = model_step(&list, (struct place){WIDTH, at->order, at->start}, &right_list, &run->steps[i]);
    NAME(write)(NAME(left_wanted), at->order, at->start, &list);
    return status;
}

/* A run of steps. */
static void NAME(check_run)(struct NAME(memory) left, struct NAME(memory) right) {
    struct call at = NAME(random_call)(left, right, MOST_BITS);
    if (random_below(60) == 0)
        at.right_count = NAME(too_many)();
    struct steps run = {.count = random_below(MOST_STEPS + 1)};
    run.reply_count = run.count == 0 || random_below(40) != 0 ? run.count + random_below(2) : random_below(run.count);
    for (size_t i = 0; i < run.count; ++i)
        run.steps[i] = random_step(at.len <= left.count * WIDTH ? at.len : 0, right.count * WIDTH);
    fb_reply said[MOST_STEPS + 1], wanted[MOST_STEPS + 1];
    for (size_t i = 0; i < run.reply_count; ++i)
        said[i] = wanted[i] = (fb_reply){random_number(), random_number(), (uint32_t)i, (uint32_t)random_number()};
    fb_status status = NAME(wanted_run)(left, right, &at, &run, wanted);
    const fb_step *steps = run.count != 0 || random_below(2) == 0 ? run.steps : NULL;
    fb_reply *replies = run.reply_count != 0 || random_below(2) == 0 ? said : NULL;
    expect(FB(run)(at.order, left.elements, at.left_count, at.start, at.len, right.elements, at.right_count, steps,
                   run.count, replies, run.reply_count) == status,
           "the status of run", WIDTH, &at, &run.steps[0]);
    for (size_t i = 0; i < run.reply_count; ++i)
        expect(said[i].low == wanted[i].low && said[i].high == wanted[i].high && said[i].kind == wanted[i].kind &&
                   said[i].status == wanted[i].status,
               "a reply of run", WIDTH, &at, &run.steps[i]);
    expect(NAME(is_as)(left, NAME(left_wanted)), "the memory of run", WIDTH, &at, &run.steps[0]);
    expect(NAME(is_as)(right, NAME(right_wanted)), "the right memory of run", WIDTH, &at, &run.steps[0]);
}

/* Every function on so many windows. */
static void NAME(check)(size_t windows) {
    random_from(WIDTH);
    for (size_t i = 0; i < windows; ++i) {
        struct NAME(memory) left = NAME(new_memory)(), right = NAME(new_memory)();
        NAME(scatter)(right);
        for (uint32_t op = 0; op < COMMANDS; ++op) {
            NAME(scatter)(left);
            NAME(check_command)(left, right, op);
        }
        NAME(scatter)(left);
        NAME(check_swap)(left, right);
        NAME(check_ones)(left);
        NAME(check_steps)(left, right);
        NAME(check_pairs)(left, right);
        NAME(check_run)(left, right);
        free(left.elements);
        free(right.elements);
    }
    printf("elements of %zu bits: every function on %zu windows\n", WIDTH, windows);
}

#undef FB
#undef WINDOW
#undef RIGHT
#undef WIDTH
