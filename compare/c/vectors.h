// Vectors of one bit for each rotation, held by value. Each function is called with a literal word count, so that the
// compiler makes straight code for 1, 2, 3 and 4 words.
#ifndef VECTORS_H
#define VECTORS_H

#include <stdbool.h>
#include <stddef.h>
#include <stdint.h>
#include <string.h>

#include "straight.h"

enum { WORD_BITS = 64, VECTOR_WORDS = 4, BYTES = 256 };

struct vector {
    uint64_t word[VECTOR_WORDS];
};

// The ring's occurrence vectors, one for each byte; that of the mark is empty.
struct table {
    struct vector of[BYTES];
};

static void occurrences(struct table *table, const uint8_t *ring, size_t m)
{
    memset(table, 0, sizeof *table);
    for (size_t r = 0; r < m; r++)
        table->of[ring[r]].word[r / WORD_BITS] |= UINT64_C(1) << (r % WORD_BITS);
}

// The first m bits set: an empty stretch is the beginning of every rotation.
STRAIGHT struct vector first_bits(size_t m)
{
    struct vector full;
    for (size_t w = 0; w < VECTOR_WORDS; w++) {
        size_t from = w * WORD_BITS;
        size_t left = from < m ? m - from : 0;
        full.word[w] = left < WORD_BITS ? (UINT64_C(1) << left) - 1 : UINT64_MAX;
    }
    return full;
}

// The held vector grown by one edge: rotated within m bits, AND the edge's occurrence vector.
STRAIGHT struct vector grown(struct vector held, struct vector occurs, size_t m, size_t words)
{
    struct vector next = {{0}};
    uint64_t first = (held.word[0] & 1) << ((m + WORD_BITS - 1) % WORD_BITS);
    for (size_t w = 0; w < words; w++) {
        uint64_t carry = w + 1 < words ? held.word[w + 1] << (WORD_BITS - 1) : first;
        next.word[w] = ((held.word[w] >> 1) | carry) & occurs.word[w];
    }
    return next;
}

// All words are joined before the one test, so that a caller has one branch.
STRAIGHT bool no_bit(struct vector held, size_t words)
{
    uint64_t joined = 0;
    for (size_t w = 0; w < words; w++)
        joined |= held.word[w];
    return joined == 0;
}

#endif
