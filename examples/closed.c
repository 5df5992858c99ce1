/* A cell that delivers one boundary alone: its line is a ring. The copy lies across the line's first vertex, so the open scan loses it and the closed one
 * finds it; a silence hides it at its start. To build it after `make install`: cc examples/closed.c $(pkg-config --cflags --libs outlines).
 * It prints examples/closed.out. */
#include <stdio.h>

#include "outlines.h"

static const uint8_t ring[] = {3, 1, 4, 1, 5};
/* From place 7 on stands 4 1 5, and after the last edge it goes on with the first ones, 3 1: the ring from its edge 2 on. */
static const uint8_t line[] = {3, 1, 7, 7, 7, 7, 7, 4, 1, 5};
static const uint32_t silence[] = {7, 2, 7, 0}; /* cell, ring number, start, ceiling: the copy is exact */

static void print(const char *which, struct outlines_answer answer, const uint32_t *words) {
    printf("%s: refusal %u found %u hidden %u looks %u\n", which, (unsigned)answer.refusal, (unsigned)answer.found, (unsigned)answer.hidden,
           (unsigned)answer.looks);
    for (uint64_t i = 0; i < answer.found - answer.hidden; i++, words += OUTLINES_FINDING_WORDS)
        printf("  start %u rotation %u distance %u ties %u\n", (unsigned)words[0], (unsigned)words[1], (unsigned)words[2], (unsigned)words[3]);
}

int main(void) {
    uint32_t words[OUTLINES_ROOM_CLOSED(sizeof ring, sizeof line)]; /* 4 n words: every place can be a start */
    uint8_t join[OUTLINES_ROOM_JOIN(sizeof ring, sizeof line)], book[OUTLINES_SILENCE_BYTES];
    size_t room = sizeof words / sizeof words[0];

    print("open", outlines_scan(ring, sizeof ring, line, sizeof line, 0, words, room), words);
    print("closed", outlines_scan_closed(ring, sizeof ring, line, sizeof line, 0, join, sizeof join, words, room), words);
    printf("join area:");
    for (size_t i = 0; i < sizeof join; i++) printf(" %u", (unsigned)join[i]);
    printf("\n");
    struct outlines_answer packed = outlines_pack(silence, OUTLINES_SILENCE_WORDS, book, sizeof book);
    if (packed.refusal != OUTLINES_ACCEPTED) return 1;
    print("closed, silenced",
          outlines_report_closed(7, 2, ring, sizeof ring, line, sizeof line, 0, book, sizeof book, join, sizeof join, words, room), words);
    return 0;
}
