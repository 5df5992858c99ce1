// What the open calls of rules.c and of limit.c share: bounds, the refusals of a search, and how a finding is written.
#ifndef ADMIT_H
#define ADMIT_H

#include <stddef.h>
#include <stdint.h>
#include <string.h>

#include "mark.h"

enum { MOST_RING = 256, MOST_LINE = 65536, WORDS_EACH = 4 };

struct finding {
    size_t start;
    size_t rotation;
    size_t distance;
    size_t ties;
};

// How many windows a line has.
static size_t open_windows(size_t m, size_t n)
{
    return n >= m ? n - m + 1 : 0;
}

// Refusals 1, 12, 2, 3 and 4, in this order, or 0. Each window may be a finding.
static size_t admit(const uint8_t *ring, size_t m, size_t k, size_t n, size_t windows, size_t room)
{
    if (m == 0 || m > MOST_RING)
        return 1;
    if (memchr(ring, MARK, m) != NULL)
        return 12;
    if (k >= m)
        return 2;
    if (n > MOST_LINE)
        return 3;
    if (room < WORDS_EACH * windows)
        return 4;
    return 0;
}

static void put_finding(uint32_t *words, size_t before, struct finding finding)
{
    words[WORDS_EACH * before] = (uint32_t)finding.start;
    words[WORDS_EACH * before + 1] = (uint32_t)finding.rotation;
    words[WORDS_EACH * before + 2] = (uint32_t)finding.distance;
    words[WORDS_EACH * before + 3] = (uint32_t)finding.ties;
}

#endif
