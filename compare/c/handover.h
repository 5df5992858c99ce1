// Rotation, distance and ties of a finding, read off the padded tally. The masks are searched as words of eight bytes with the
// first lane lowest, as on every little-endian processor.
#ifndef HANDOVER_H
#define HANDOVER_H

#include "padded.h"
#include "wide.h"

// For a ring of 256 edges: bytes that are equal to the least count where the half-words are.
static void show_least(struct padded *tally, size_t least)
{
    wide_lanes sought = (wide_lanes){0} + (int16_t)least;
    for (size_t slot = 0; slot < MOST_RING; slot += WIDE_LANES) {
        narrow_lanes same = __builtin_convertvector(load_wide(tally->wide + slot) == sought, narrow_lanes);
        narrow_lanes shown = same ^ ~(narrow_lanes){0} ^ (int8_t)least;
        memcpy(tally->counts + slot, &shown, sizeof shown);
    }
}

STRAIGHT lanes places(void)
{
    return (lanes){0, 1, 2, 3, 4, 5, 6, 7, 8, 9, 10, 11, 12, 13, 14, 15};
}

// The first slot from here on whose count is the least; `to` or a later one if none before `to` has it. Loads
// begin where stores began: a load across two stores would wait for both.
static size_t first_least(const struct padded *tally, size_t from, size_t to, size_t least)
{
    lanes counted = (lanes)(places() >= all((uint8_t)(from % LANES)));
    for (size_t slot = from - from % LANES; slot < to; slot += LANES) {
        uint64_t same[2];
        lanes mask = equal(load(tally->counts + slot), all((uint8_t)least)) & counted;
        memcpy(same, &mask, sizeof same);
        if (same[0] != 0)
            return slot + (size_t)__builtin_ctzll(same[0]) / 8;
        if (same[1] != 0)
            return slot + 8 + (size_t)__builtin_ctzll(same[1]) / 8;
        counted = all(UINT8_MAX);
    }
    return to;
}

// Sixteen numbers of at most 32 in bytes, summed.
static size_t sum_of(lanes numbers)
{
    const uint64_t every_second = UINT64_C(0x00FF00FF00FF00FF);
    uint64_t halves[2];
    memcpy(halves, &numbers, sizeof halves);
    uint64_t bytes = halves[0] + halves[1];
    uint64_t pairs = (bytes & every_second) + (bytes >> 8 & every_second);
    return pairs * UINT64_C(0x0001000100010001) >> 48;
}

static size_t ties_of(const struct padded *tally, size_t least)
{
    lanes ties = all(0);
    lanes sought = all((uint8_t)least);
    size_t slot = 0;
    for (; slot + LANES <= tally->m; slot += LANES)
        ties -= equal(load(tally->counts + slot), sought);
    lanes inside = (lanes)(places() < all((uint8_t)(tally->m - slot)));
    ties -= equal(load(tally->counts + slot), sought) & inside;
    return sum_of(ties);
}

// Rotations below `turn` stand in the last slots.
static struct finding finding_at(struct padded *tally, size_t start, size_t least)
{
    size_t m = tally->m;
    size_t split = m - tally->turn;
    if (m == MOST_RING)
        show_least(tally, least);
    size_t slot = first_least(tally, split, m, least);
    size_t rotation = slot < m ? slot - split : first_least(tally, 0, split, least) + tally->turn;
    return (struct finding){start, rotation, least, ties_of(tally, least)};
}

#endif
