// Rules 1 to 3: one window is read from its last edge towards its first.
#ifndef READING_H
#define READING_H

#include "mark.h"
#include "vectors.h"

// How far a window was read: the edges left unread, the looks, and whether all are read with at most k breaks and no mark.
struct window_read {
    size_t left;
    size_t looks;
    bool candidate;
};

// Rules 2 and 3, with the held vector in `words` words. The test for break k + 1 stands at the break, and so does that for a
// mark: no ring holds one, so a mark never fits.
STRAIGHT struct window_read read_words(const struct table *table, const uint8_t *window, size_t m, size_t k, size_t words)
{
    struct vector full = first_bits(m);
    struct vector held = full;
    struct window_read read = {m, 0, false};
    size_t breaks = 0;
    while (read.left > 0) {
        uint8_t edge = window[--read.left];
        read.looks++; // one look
        struct vector next = grown(held, table->of[edge], m, words);
        if (no_bit(next, words)) {
            if (edge == MARK || breaks == k)
                return read;
            breaks++;
            held = full;
        } else {
            held = next;
        }
    }
    read.candidate = true;
    return read;
}

static struct window_read read_window(const struct table *table, const uint8_t *window, size_t m, size_t k)
{
    switch ((m + WORD_BITS - 1) / WORD_BITS) {
    case 1:
        return read_words(table, window, m, k, 1);
    case 2:
        return read_words(table, window, m, k, 2);
    case 3:
        return read_words(table, window, m, k, 3);
    default:
        return read_words(table, window, m, k, 4);
    }
}

#endif
