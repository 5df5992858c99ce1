// Rules 1 to 3 for one window after another, until one is a candidate. The forms below were timed on the rows of the benchmark
// and kept where each was the fastest.
#ifndef LIMIT_READING_H
#define LIMIT_READING_H

#include <stdbool.h>

#include "admit.h"
#include "straight.h"

enum { MOST_WORDS = 4, CODES = 256, BITS = 64, FEW_CODES = 15 };

// Occurrence vectors of `words` words for each code. Place r of the ring is bit r / words of word r % words, so that growing a
// stretch by an edge moves whole words and shifts one. `full` has every place, `top` the last. With `twice` a vector has the
// ring's places twice, in one word.
struct occurrences {
    size_t m;
    size_t words;
    bool twice;
    bool unlearnt;
    uint64_t full[MOST_WORDS];
    uint64_t top[MOST_WORDS];
    uint64_t of[CODES * MOST_WORDS];
};

// The candidate reached and where the next window begins, or none; and the looks.
struct swept {
    bool candidate;
    size_t start;
    size_t next;
    size_t looks;
};

// Whether to read without a branch at a break: the ring is of one word, has 2 to 15 codes, and k is 2 or more or m at most 32.
// A branch predictor would not learn there where a stretch breaks.
static bool is_unlearnt(const struct occurrences *table, size_t k)
{
    size_t codes = 0;
    if (table->words > 1 || (k < 2 && !table->twice))
        return false;
    for (size_t code = 0; code < CODES; code++)
        codes += table->of[code] != 0;
    return codes > 1 && codes <= FEW_CODES;
}

static void find_occurrences(struct occurrences *table, const uint8_t *ring, size_t m, size_t k)
{
    size_t words = (m + BITS - 1) / BITS;
    table->m = m;
    table->words = words;
    table->twice = 2 * m <= BITS;
    memset(table->full, 0, sizeof table->full);
    memset(table->top, 0, sizeof table->top);
    memset(table->of, 0, CODES * words * sizeof table->of[0]);
    for (size_t r = 0; r < m; r++) {
        uint64_t bit = UINT64_C(1) << (r / words);
        table->full[r % words] |= bit;
        table->of[words * ring[r] + r % words] |= table->twice ? bit | bit << m : bit;
    }
    table->top[(m - 1) % words] = UINT64_C(1) << ((m - 1) / words);
    table->unlearnt = is_unlearnt(table, k);
}

// An occurrence vector turned to a window place: bit b is for rotation b of the whole window, so the held vector stays in
// place.
STRAIGHT uint64_t turned(uint64_t occurs, size_t place, size_t m, bool twice)
{
    return twice ? occurs >> place : occurs >> place | occurs << 1 << (m - 1 - place);
}

// The edges left unread where reading stops at a mark or at break k + 1, or m for a candidate. One word, a branch at a break.
STRAIGHT size_t read_learnt(const struct occurrences *table, const uint8_t *window, size_t m, size_t k, bool twice)
{
    uint64_t full = table->full[0];
    uint64_t held = full;
    size_t breaks = 0;
    size_t left = m;
    do {
        uint8_t edge = window[--left];
        held &= turned(table->of[edge], left, m, twice);
        if (held == 0) {
            if (edge == MARK || breaks == k)
                return left;
            breaks++;
            held = full;
        }
    } while (left > 0);
    return m;
}

// The same with no branch at a break.
STRAIGHT size_t read_unlearnt(const struct occurrences *table, const uint8_t *window, size_t m, size_t k, bool twice)
{
    uint64_t full = table->full[0];
    uint64_t held = full;
    size_t breaks = 0;
    size_t left = m;
    do {
        uint8_t edge = window[--left];
        uint64_t next = held & turned(table->of[edge], left, m, twice);
        bool is_break = next == 0;
        breaks += is_break;
        held = __builtin_unpredictable(is_break) ? full : next;
        if (k < breaks || edge == MARK)
            return left;
    } while (left > 0);
    return m;
}

// The same for two to four words. Where m is a multiple of `words`, the top bit is in the last word.
STRAIGHT size_t read_words(const struct occurrences *table, const uint8_t *window, size_t m, size_t k, bool multiple,
                           size_t words)
{
    uint64_t held[MOST_WORDS];
    uint64_t next[MOST_WORDS] = {0};
    size_t breaks = 0;
    size_t left = m;
    memcpy(held, table->full, sizeof held);
    do {
        uint8_t edge = window[--left];
        const uint64_t *occurs = table->of + words * edge;
        uint64_t wraps = -(held[0] & 1);
        uint64_t joined = 0;
        for (size_t w = 0; w < words; w++) {
            uint64_t moved = w + 1 < words ? held[w + 1] : held[0] >> 1;
            if (!multiple || w + 1 == words)
                moved |= wraps & table->top[w];
            next[w] = moved & occurs[w];
            joined |= next[w];
        }
        if (joined == 0) {
            if (edge == MARK || breaks == k)
                return left;
            breaks++;
            memcpy(held, table->full, sizeof held);
        } else {
            memcpy(held, next, sizeof held);
        }
    } while (left > 0);
    return m;
}

// `easy` is `twice` for one word and `multiple` for more.
STRAIGHT struct swept sweep(const struct occurrences *table, const uint8_t *line, size_t n, size_t k, size_t start,
                            size_t words, bool easy, bool unlearnt)
{
    size_t m = table->m;
    size_t looks = 0;
    while (start + m <= n) {
        const uint8_t *window = line + start;
        size_t left = words > 1  ? read_words(table, window, m, k, easy, words)
                      : unlearnt ? read_unlearnt(table, window, m, k, easy)
                                 : read_learnt(table, window, m, k, easy);
        if (left == m)
            return (struct swept){true, start, start + 1, looks + m};
        looks += m - left;
        start += left + 1;
    }
    return (struct swept){false, start, start, looks};
}

static struct swept sweep_on(const struct occurrences *table, const uint8_t *line, size_t n, size_t k, size_t start)
{
    bool easy = table->words == 1 ? table->twice : table->m % table->words == 0;
    switch (8 * table->words + 2 * easy + table->unlearnt) {
    case 8:
        return sweep(table, line, n, k, start, 1, false, false);
    case 9:
        return sweep(table, line, n, k, start, 1, false, true);
    case 10:
        return sweep(table, line, n, k, start, 1, true, false);
    case 11:
        return sweep(table, line, n, k, start, 1, true, true);
    case 16:
        return sweep(table, line, n, k, start, 2, false, false);
    case 18:
        return sweep(table, line, n, k, start, 2, true, false);
    case 24:
        return sweep(table, line, n, k, start, 3, false, false);
    case 26:
        return sweep(table, line, n, k, start, 3, true, false);
    case 32:
        return sweep(table, line, n, k, start, 4, false, false);
    default:
        return sweep(table, line, n, k, start, 4, true, false);
    }
}

#endif
