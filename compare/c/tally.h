// Rule 5: the tally of one count for each rotation, counted afresh or moved along the line. It is changed in place.
#ifndef TALLY_H
#define TALLY_H

#include <stddef.h>
#include <stdint.h>
#include <string.h>

#include "admit.h"
#include "mark.h"

// A count is at most 256, which eight bits do not hold. `past_mark` is the line place just past the last mark among the
// edges counted, or 0: the window reached holds no mark if it begins there or later.
struct tally {
    uint16_t counts[MOST_RING];
    size_t past_mark;
};

// The start that a tally has reached, the least of its counts, and the looks that it took.
struct reached {
    size_t start;
    size_t least;
    size_t looks;
};

static size_t least_of(const struct tally *tally, size_t m)
{
    uint16_t least = tally->counts[0];
    for (size_t r = 1; r < m; r++)
        if (tally->counts[r] < least)
            least = tally->counts[r];
    return least;
}

static size_t lowest_rotation(const struct tally *tally, size_t m, size_t least)
{
    size_t rotation = 0;
    while (rotation < m && tally->counts[rotation] != least)
        rotation++;
    return rotation;
}

// How many rotations have the least count. Summed in the width of a count, so that the compiler can use vectors.
static size_t ties_of(const struct tally *tally, size_t m, size_t least)
{
    uint16_t sought = (uint16_t)least;
    uint16_t ties = 0;
    for (size_t r = 0; r < m; r++)
        ties += tally->counts[r] == sought;
    return ties;
}

// The ring twice, end to end, so that every rotation is a part of it.
static void double_ring(uint8_t *doubled, const uint8_t *ring, size_t m)
{
    memcpy(doubled, ring, m);
    memcpy(doubled + m, ring, m);
}

// One window edge against every rotation's edge over it.
static size_t count_edge(uint16_t *restrict counts, const uint8_t *restrict over, size_t m, uint8_t edge)
{
    size_t looks = 0;
    for (size_t r = 0; r < m; r++) {
        counts[r] += edge != over[r];
        looks++; // one look
    }
    return looks;
}

static void note_mark(struct tally *tally, const uint8_t *line, size_t place)
{
    if (line[place] == MARK)
        tally->past_mark = place + 1;
}

// Every rotation counted afresh: m edges, each against m ring edges.
static struct reached count_afresh(struct tally *tally, const uint8_t *doubled, size_t m, const uint8_t *line, size_t start)
{
    size_t looks = 0;
    memset(tally->counts, 0, m * sizeof tally->counts[0]);
    tally->past_mark = 0;
    for (size_t q = 0; q < m; q++) {
        looks += count_edge(tally->counts, doubled + q, m, line[start + q]);
        note_mark(tally, line, start + q);
    }
    return (struct reached){start, least_of(tally, m), looks};
}

// The leaving and the entering edge, each against every ring edge: rotation r at this start and the next rotation at the
// next start both meet the ring's edge at r.
static struct reached change(uint16_t *restrict counts, const uint8_t *restrict ring, size_t m, uint8_t leaving,
                             uint8_t entering)
{
    uint16_t least = UINT16_MAX;
    size_t looks = 0;
    for (size_t r = 0; r < m; r++) {
        uint8_t edge = ring[r];
        uint16_t lost = leaving != edge;
        looks++; // one look, at the leaving edge
        uint16_t won = entering != edge;
        looks++; // one look, at the entering edge
        uint16_t count = counts[r] - lost + won;
        counts[r] = count;
        if (count < least)
            least = count;
    }
    return (struct reached){0, least, looks};
}

// Each count moves on to the next rotation's number, from the last down so that none is overwritten before it is moved.
static void renumber(uint16_t *counts, size_t m)
{
    uint16_t last = counts[m - 1];
    for (size_t r = m - 1; r > 0; r--)
        counts[r] = counts[r - 1];
    counts[0] = last;
}

// Moves the tally `steps` steps along the line, or only to the first start on the way whose least count is below `below`. A
// window with a mark is no start.
static struct reached move_along(struct tally *tally, const uint8_t *ring, size_t m, const uint8_t *line, size_t from,
                                 size_t steps, size_t below)
{
    struct reached reached = {from, 0, 0};
    while (reached.start < from + steps) {
        size_t i = reached.start;
        struct reached step = change(tally->counts, ring, m, line[i], line[i + m]);
        renumber(tally->counts, m);
        note_mark(tally, line, i + m);
        reached.start++;
        reached.least = step.least;
        reached.looks += step.looks;
        if (step.least < below && tally->past_mark <= reached.start)
            break;
    }
    return reached;
}

#endif
