// Rule 5 by vectors. A count keeps its slot while the tally moves, and the ring turns under the slots: `turn` steps after the
// fresh count, slot x is for rotation (x + turn) mod m. Slots past m repeat those from 0 on, so they change no least count.
#ifndef PADDED_H
#define PADDED_H

#include "admit.h"
#include "lanes.h"

enum { MOST_VECTORS = MOST_RING / LANES, BLOCK = 8 };

// `around` is the ring over and over. Bytes hold the counts of up to 255 edges; wide.h has those of 256.
struct padded {
    size_t m;
    size_t turn;
    uint8_t counts[MOST_RING + LANES];
    int16_t wide[MOST_RING];
    uint8_t around[3 * MOST_RING];
};

static void pad_ring(struct padded *tally, const uint8_t *ring, size_t m)
{
    size_t length = 2 * m + LANES * BLOCK;
    tally->m = m;
    tally->turn = 0;
    memset(tally->counts, 0, sizeof tally->counts); // vectors are loaded past the last count
    memcpy(tally->around, ring, m);
    for (size_t done = m; done < length;) {
        size_t more = done < length - done ? done : length - done;
        memcpy(tally->around + done, tally->around, more);
        done += more;
    }
}

// How many of these window edges the rotation of each slot matches: at most 255.
STRAIGHT void count_matches(lanes *matches, const uint8_t *around, const uint8_t *window, size_t edges, size_t vectors)
{
    for (size_t v = 0; v < vectors; v++)
        matches[v] = all(0);
    for (size_t q = 0; q < edges; q++) {
        lanes edge = all(window[q]);
        for (size_t v = 0; v < vectors; v++)
            matches[v] -= equal(edge, load(around + q + LANES * v));
    }
}

// Some slots counted afresh; the least count of each lane.
STRAIGHT lanes count_slots(struct padded *tally, const uint8_t *window, size_t slot, size_t vectors)
{
    lanes matches[BLOCK];
    lanes least = all(UINT8_MAX);
    count_matches(matches, tally->around + slot, window, tally->m, vectors);
    for (size_t v = 0; v < vectors; v++) {
        lanes count = all((uint8_t)tally->m) - matches[v];
        store(tally->counts + slot + LANES * v, count);
        least = lesser(least, count);
    }
    return least;
}

// Every rotation counted afresh, m up to 255; the least count.
static size_t count_padded(struct padded *tally, const uint8_t *window)
{
    lanes least;
    switch ((tally->m + LANES - 1) / LANES) {
    case 1:
        least = count_slots(tally, window, 0, 1);
        break;
    case 2:
        least = count_slots(tally, window, 0, 2);
        break;
    case 3:
        least = count_slots(tally, window, 0, 3);
        break;
    case 4:
        least = count_slots(tally, window, 0, 4);
        break;
    default:
        least = count_slots(tally, window, 0, BLOCK);
        if (tally->m > LANES * BLOCK)
            least = lesser(least, count_slots(tally, window, LANES * BLOCK, BLOCK));
    }
    return __builtin_reduce_min(least);
}

// What a walk needs beside the tally: `most` is the allowance, and `past_mark` the place just past the last mark that entered.
struct walk {
    const uint8_t *line;
    size_t start;
    size_t end;
    size_t most;
    size_t past_mark;
};

// Moves the tally to the walk's end, at least one step. With `stops` it stops at the first start without a mark whose least
// count is at most `most`. The counts stay in registers where there are enough. Returns the least count reached.
STRAIGHT size_t walk_slots(struct padded *tally, struct walk *walk, bool stops, size_t vectors)
{
    lanes count[MOST_VECTORS];
    lanes least;
    struct walk at = *walk; // a local copy, because byte loads could alias the struct
    size_t m = tally->m;
    size_t turn = tally->turn;
    for (size_t v = 0; v < vectors; v++)
        count[v] = load(tally->counts + LANES * v);
    do {
        const uint8_t *over = tally->around + turn;
        uint8_t entering = at.line[at.start + m];
        lanes lost = all(at.line[at.start]);
        lanes won = all(entering);
        least = all(UINT8_MAX);
        for (size_t v = 0; v < vectors; v++) {
            lanes edge = load(over + LANES * v);
            count[v] += equal(won, edge) - equal(lost, edge);
            least = lesser(least, count[v]);
        }
        turn = turn + 1 == m ? 0 : turn + 1;
        at.start++;
        if (entering == MARK)
            at.past_mark = at.start + m;
        if (stops && any_at_most(least, all((uint8_t)at.most)) && at.past_mark <= at.start)
            break;
    } while (at.start < at.end);
    for (size_t v = 0; v < vectors; v++)
        store(tally->counts + LANES * v, count[v]);
    tally->turn = turn;
    *walk = at;
    return __builtin_reduce_min(least);
}

STRAIGHT size_t walk_padded(struct padded *tally, struct walk *walk, bool stops)
{
    switch ((tally->m + LANES - 1) / LANES) {
    case 1:
        return walk_slots(tally, walk, stops, 1);
    case 2:
        return walk_slots(tally, walk, stops, 2);
    case 3:
        return walk_slots(tally, walk, stops, 3);
    case 4:
        return walk_slots(tally, walk, stops, 4);
    case 5:
    case 6:
    case 7:
    case 8:
        return walk_slots(tally, walk, stops, BLOCK);
    default:
        return walk_slots(tally, walk, stops, MOST_VECTORS);
    }
}

#endif
