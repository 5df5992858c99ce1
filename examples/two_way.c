/* One producer draws anticlockwise. The line holds a square drawn clockwise, a mark, and the same square drawn the other way from another corner. The scan finds
 * the first, the two-way scan both. To build it after `make install`: cc examples/two_way.c $(pkg-config --cflags --libs outlines). It prints
 * examples/two_way.out. */
#include <stdio.h>

#include "outlines.h"

/* 8 * length class + octant: class 3, octants 0, 2, 4 and 6, which are north, east, south and west. */
static const uint8_t ring[] = {24, 26, 28, 30};
/* Walked the other way the ring is 26 24 30 28: east, north, west, south. The second square is that from its edge 2 on. */
static const uint8_t line[] = {24, 26, 28, 30, OUTLINES_MARK, 30, 28, 26, 24};

static const uint32_t *print(const char *which, uint64_t found, uint64_t looks, const uint32_t *words) {
    printf("%s: found %u looks %u\n", which, (unsigned)found, (unsigned)looks);
    for (uint64_t i = 0; i < found; i++, words += OUTLINES_FINDING_WORDS)
        printf("  start %u rotation %u distance %u ties %u\n", (unsigned)words[0], (unsigned)words[1], (unsigned)words[2], (unsigned)words[3]);
    return words;
}

int main(void) {
    uint32_t words[OUTLINES_ROOM_TWO_WAY(sizeof ring, sizeof line)]; /* 8 (n - m + 1) words: both passes may find at every window */
    size_t room = sizeof words / sizeof words[0];

    struct outlines_answer answer = outlines_scan(ring, sizeof ring, line, sizeof line, 0, words, room);
    print("scan", answer.found, answer.looks, words);
    struct outlines_two_way both = outlines_scan_two_way(ring, sizeof ring, line, sizeof line, 0, words, room);
    const uint32_t *behind = print("two ways, forward", both.forward_found, both.forward_looks, words);
    print("two ways, backward", both.backward_found, both.backward_looks, behind);

    static const uint8_t no_edge[] = {24, 26, 250, 30}; /* 248 to 255 are no edges */
    both = outlines_scan_two_way(no_edge, sizeof no_edge, line, sizeof line, 0, words, room);
    printf("refusal %u place %u: %s\n", (unsigned)both.refusal, (unsigned)both.place, outlines_refusal_text(both.refusal));
    return 0;
}
