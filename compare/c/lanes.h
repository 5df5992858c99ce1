// Sixteen bytes at a time by the compiler's vector types, which it maps to SSE2 on x86-64 and to NEON on AArch64.
#ifndef LANES_H
#define LANES_H

#include <stdbool.h>
#include <stddef.h>
#include <stdint.h>
#include <string.h>

#include "straight.h"

enum { LANES = 16, WIDE_LANES = 8 };

typedef uint8_t lanes __attribute__((vector_size(16)));
typedef int8_t signed_lanes __attribute__((vector_size(16)));
// Signed, because SSE2 has the lesser of two signed half-words and not of unsigned ones.
typedef int16_t wide_lanes __attribute__((vector_size(16)));
typedef int8_t narrow_lanes __attribute__((vector_size(8)));

STRAIGHT lanes load(const uint8_t *bytes)
{
    lanes loaded;
    memcpy(&loaded, bytes, sizeof loaded);
    return loaded;
}

STRAIGHT void store(uint8_t *bytes, lanes stored)
{
    memcpy(bytes, &stored, sizeof stored);
}

STRAIGHT lanes all(uint8_t byte)
{
    return (lanes){0} + byte;
}

// 255 in each lane that is equal, 0 in the others: subtracting it adds one.
STRAIGHT lanes equal(lanes a, lanes b)
{
    return (lanes)(a == b);
}

STRAIGHT lanes lesser(lanes a, lanes b)
{
    return __builtin_elementwise_min(a, b);
}

STRAIGHT bool any_at_most(lanes a, lanes most)
{
    return __builtin_reduce_or((lanes)(a <= most)) != 0;
}

// The lower and the upper half of the lanes as signed half-words.
STRAIGHT wide_lanes lower_half(lanes a)
{
    signed_lanes whole = (signed_lanes)a;
    return __builtin_convertvector(__builtin_shufflevector(whole, whole, 0, 1, 2, 3, 4, 5, 6, 7), wide_lanes);
}

STRAIGHT wide_lanes upper_half(lanes a)
{
    signed_lanes whole = (signed_lanes)a;
    return __builtin_convertvector(__builtin_shufflevector(whole, whole, 8, 9, 10, 11, 12, 13, 14, 15), wide_lanes);
}

#endif
