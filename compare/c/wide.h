// The padded tally of a ring of 256 edges, which has no slot to spare: its counts need half-words.
#ifndef WIDE_H
#define WIDE_H

#include "padded.h"

// Edges whose matches a signed byte holds.
enum { PART = 64 };

STRAIGHT wide_lanes load_wide(const int16_t *counts)
{
    wide_lanes loaded;
    memcpy(&loaded, counts, sizeof loaded);
    return loaded;
}

STRAIGHT void store_wide(int16_t *counts, wide_lanes stored)
{
    memcpy(counts, &stored, sizeof stored);
}

STRAIGHT wide_lanes lesser_wide(wide_lanes a, wide_lanes b)
{
    return __builtin_elementwise_min(a, b);
}

// Takes from sixteen counts, and returns the lesser ones.
STRAIGHT wide_lanes take(int16_t *counts, lanes taken)
{
    wide_lanes lower = load_wide(counts) - lower_half(taken);
    wide_lanes upper = load_wide(counts + WIDE_LANES) - upper_half(taken);
    store_wide(counts, lower);
    store_wide(counts + WIDE_LANES, upper);
    return lesser_wide(lower, upper);
}

// Takes from some slots the matches of one part of the window.
STRAIGHT wide_lanes take_part(int16_t *counts, const uint8_t *around, const uint8_t *window)
{
    lanes matches[BLOCK];
    wide_lanes least = (wide_lanes){0} + MOST_RING;
    count_matches(matches, around, window, PART, BLOCK);
#pragma clang loop unroll(full)
    for (size_t v = 0; v < BLOCK; v++)
        least = lesser_wide(least, take(counts + LANES * v, matches[v]));
    return least;
}

static size_t count_wide(struct padded *tally, const uint8_t *window)
{
    wide_lanes least = (wide_lanes){0} + MOST_RING;
    for (size_t r = 0; r < MOST_RING; r++)
        tally->wide[r] = MOST_RING;
    for (size_t slot = 0; slot < MOST_RING; slot += LANES * BLOCK)
        for (size_t q = 0; q < MOST_RING; q += PART)
            least = lesser_wide(least, take_part(tally->wide + slot, tally->around + slot + q, window + q));
    return (size_t)__builtin_reduce_min(least);
}

STRAIGHT size_t walk_wide(struct padded *tally, struct walk *walk, bool stops)
{
    struct walk at = *walk;
    size_t turn = tally->turn;
    size_t reached;
    do {
        const uint8_t *over = tally->around + turn;
        uint8_t entering = at.line[at.start + MOST_RING];
        lanes lost = all(at.line[at.start]);
        lanes won = all(entering);
        wide_lanes least = (wide_lanes){0} + MOST_RING;
        for (size_t v = 0; v < MOST_VECTORS; v++) {
            lanes edge = load(over + LANES * v);
            lanes taken = equal(lost, edge) - equal(won, edge);
            least = lesser_wide(least, take(tally->wide + LANES * v, taken));
        }
        reached = (size_t)__builtin_reduce_min(least);
        turn = (turn + 1) % MOST_RING;
        at.start++;
        if (entering == MARK)
            at.past_mark = at.start + MOST_RING;
        if (stops && reached <= at.most && at.past_mark <= at.start)
            break;
    } while (at.start < at.end);
    tally->turn = turn;
    *walk = at;
    return reached;
}

#endif
