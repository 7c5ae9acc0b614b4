/* Lists of single bits, and what each command means on them: what the library's functions are compared with. */
#ifndef MODEL_H
#define MODEL_H

#include "fehimbary.h"

enum { MOST_BITS = 5120, COMMANDS = FB_STORE_BE + 1 };

struct list {
    size_t len;
    bool bits[MOST_BITS];
};

/* Makes a list of a part of another. */
void cut(struct list *part, const struct list *list, size_t from, size_t to);

/* Where the first bit of a list stands: in elements of so many bits, under an order, at a place of the memory. */
struct place {
    unsigned width;
    fb_order order;
    size_t start;
};

/* Whether `len` bits from `start` on are among so many. */
bool lies_in(size_t start, size_t len, size_t bits);

/* Whether a command loads or stores a number. */
bool is_number(uint32_t op);

/* The kind of a command's answer, where it isn't refused. */
uint32_t kind_of(uint32_t op);

/* Makes the list what the command of a step leaves, and tells what it answers: on all of the list, whatever the step's
 * range. Numbers have at most `widest` bits. */
fb_reply model_command(struct list *list, struct place place, const struct list *right, const fb_step *step,
                       unsigned widest);

/* The same on the step's range of the list. */
fb_reply model_step(struct list *list, struct place place, const struct list *right, const fb_step *step);

#endif
