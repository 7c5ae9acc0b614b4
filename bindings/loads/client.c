/* Calls every function on windows of many lengths and places, in elements of each width under both orders. Around each
 * call it stores into two markers, so that a trace of the process tells what the call loads and stores. With an argument
 * it prints besides what it calls, a line a call. measure.py reads both. */
#include "fehimbary.h"
#include <stdio.h>
#include <stdlib.h>

/* 9,000 bits from bit 63 on, and an element more. */
enum { MEMORY_BYTES = 1152 };

static _Alignas(64) unsigned char left_memory[MEMORY_BYTES], right_memory[MEMORY_BYTES];
static volatile uint64_t begins, ends;
static bool tells;

/* Where both windows stand, and how long they are. */
struct place {
    fb_order order;
    size_t len, start, right_start;
};

static void expect_done(fb_status status, const char *name) {
    if (status == FB_DONE || status == FB_NONE)
        return;
    fprintf(stderr, "client.c: %s answers %u\n", name, status);
    exit(1);
}

/* A call between the two marks, and what is told of it: with the number that its cost is about, where that isn't the
 * windows' length. */
#define CALL(name, about, call)                                                                                    \
    do {                                                                                                            \
        begins = 1;                                                                                                 \
        fb_status status = call;                                                                                    \
        ends = 1;                                                                                                   \
        if (tells)                                                                                                  \
            printf("%s %zu %u %zu %zu %zu %zu\n", name, WIDTH, at->order, at->len, at->start, at->right_start,      \
                   (size_t)(about));                                                                                \
        expect_done(status, name);                                                                                  \
    } while (0)

#define JOINED(a, b, c) a##b##c
#define JOIN(a, b, c) JOINED(a, b, c)
#define NAME(stem) JOIN(stem, _, SUFFIX)

#define ELEMENT uint8_t
#define SUFFIX u8
#include "calls.h"
#undef ELEMENT
#undef SUFFIX
#define ELEMENT uint16_t
#define SUFFIX u16
#include "calls.h"
#undef ELEMENT
#undef SUFFIX
#define ELEMENT uint32_t
#define SUFFIX u32
#include "calls.h"
#undef ELEMENT
#undef SUFFIX
#define ELEMENT uint64_t
#define SUFFIX u64
#include "calls.h"

int main(int count, char **words) {
    (void)words;
    tells = count > 1;
    static const size_t lens[] = {1, 6, 33, 64, 130, 257, 600, 1024, 3000, 4096, 9000};
    static const size_t starts[][2] = {{0, 0}, {0, 29}, {29, 29}, {13, 59}, {63, 2}};
    for (fb_order order = FB_LSB0; order <= FB_MSB0; ++order)
        for (size_t i = 0; i < sizeof lens / sizeof *lens; ++i)
            for (size_t j = 0; j < sizeof starts / sizeof *starts; ++j) {
                struct place at = {order, lens[i], starts[j][0], starts[j][1]};
                call_u8(&at);
                call_u16(&at);
                call_u32(&at);
                call_u64(&at);
            }
    return 0;
}
