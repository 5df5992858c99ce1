/* Finds an edited copy of a ring in a line, then silences it up to the distance that it has: the report of its cell hides it, the report of another cell
 * shows it. A silence with ceiling 0 hides exact copies only, so it does not hide this one.
 * To build it after `make install`: cc examples/find.c $(pkg-config --cflags --libs outlines). It prints examples/find.out. */
#include <stdio.h>

#include "outlines.h"

static const uint8_t ring[] = {3, 1, 4, 1, 5, 9};
/* At place 4 stands the ring from its edge 2 on, 4 1 5 9 3 1, with one edge edited: the 9 is stored as 8. With k = 1 that is one finding. */
static const uint8_t line[] = {7, 7, 7, 7, 4, 1, 5, 8, 3, 1, 7, 7};
static const uint32_t silence[] = {7, 2, 4, 1}; /* cell, ring number, start, ceiling */
static const uint32_t exact[] = {7, 2, 4, 0};

static void print(const char *which, struct outlines_answer answer, const uint32_t *words) {
    printf("%s: refusal %u found %u hidden %u looks %u\n", which, (unsigned)answer.refusal, (unsigned)answer.found, (unsigned)answer.hidden,
           (unsigned)answer.looks);
    for (uint64_t i = 0; i < answer.found - answer.hidden; i++, words += OUTLINES_FINDING_WORDS)
        printf("  start %u rotation %u distance %u ties %u\n", (unsigned)words[0], (unsigned)words[1], (unsigned)words[2], (unsigned)words[3]);
}

/* The report of a cell by a book of one silence. */
static struct outlines_answer report(uint32_t cell, const uint32_t *by, uint32_t *words, size_t room) {
    uint8_t book[OUTLINES_SILENCE_BYTES];
    struct outlines_answer packed = outlines_pack(by, OUTLINES_SILENCE_WORDS, book, sizeof book);
    if (packed.refusal != OUTLINES_ACCEPTED) return packed;
    return outlines_report(cell, 2, ring, sizeof ring, line, sizeof line, 1, book, sizeof book, words, room);
}

int main(void) {
    uint32_t words[OUTLINES_ROOM(sizeof ring, sizeof line)];
    size_t room = sizeof words / sizeof words[0];

    print("scan", outlines_scan(ring, sizeof ring, line, sizeof line, 1, words, room), words);
    print("report of cell 7", report(7, silence, words, room), words);
    print("report of cell 8", report(8, silence, words, room), words);
    print("report of cell 7, ceiling 0", report(7, exact, words, room), words);
    return 0;
}
