/* Numbers by their bits, a pattern to fill buffers with, and a drawing of any length. */
#ifndef NUMBERS_H
#define NUMBERS_H

#include <stdbool.h>
#include <stddef.h>
#include <stdint.h>

/* A number by its bits. */
union number {
    uint64_t bits;
    double value;
};

static const union number INFINITE = {0x7ff0000000000000}, NOT_A_NUMBER = {0x7ff8000000000000};

/* The next number after one that is not zero: away from zero, and towards it. */
static inline double farther(double number)
{
    union number next = {.value = number};
    next.bits++;
    return next.value;
}

static inline double nearer(double number)
{
    union number next = {.value = number};
    next.bits--;
    return next.value;
}

static inline bool same_bits(double a, double b)
{
    union number x = {.value = a}, y = {.value = b};
    return x.bits == y.bits;
}

/* Two patterns that differ in every place: what is the same over both was written. */
static const uint64_t PATTERNS[] = {0xfff5555555555555, 0x7ffaaaaaaaaaaaaa};

static inline uint64_t pattern_at(uint64_t pattern, size_t i) { return pattern ^ i; }

/*
 * So many vertices that go round the first at right angles, ever farther out, so that each corner
 * is an outer one to the right.
 */
static inline void wind(double *spiral, int vertices)
{
    const int ways[4][2] = {{1, 0}, {0, 1}, {-1, 0}, {0, -1}};
    int x = 0, y = 0;
    for (int i = 0; i < vertices; i++) {
        spiral[3 * i] = x;
        spiral[3 * i + 1] = y;
        spiral[3 * i + 2] = 0;
        x += ways[i % 4][0] * (i / 2 + 1);
        y += ways[i % 4][1] * (i / 2 + 1);
    }
}

#endif
