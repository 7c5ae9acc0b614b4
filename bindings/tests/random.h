/* Arguments at random, the same in each run. */
#ifndef RANDOM_H
#define RANDOM_H

#include "fehimbary.h"

/* Begins anew. */
void random_from(uint64_t seed);

uint64_t random_number(void);

/* One below a limit; any, where this is 0. */
size_t random_below(size_t limit);

/* A size of at most `most`, its ends more often than others, and one time in twelve a hostile one: a little more, or
 * near 2^63 or 2^64. */
size_t random_size(size_t most);

/* One of the two orders, or rarely none. */
fb_order random_order(void);

/* The arguments of a command on `len` bits, with a right memory of so many. */
fb_step random_arguments(uint32_t op, size_t len, size_t right_bits);

/* Any command, or rarely none, on a range of `len` bits. */
fb_step random_step(size_t len, size_t right_bits);

#endif
