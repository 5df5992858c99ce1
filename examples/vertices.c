/* From vertices to findings. A ring and two boundaries are imported; the boundaries, with a mark between them, are a cell's line. The first is the ring's outline
 * elsewhere, begun at another vertex; the second is drawn the other way. The two-way scan finds both. To build it after `make install`: cc
 * examples/vertices.c $(pkg-config --cflags --libs outlines). It prints examples/vertices.out. */
#include <stdio.h>

#include "outlines.h"

/* North before east. The outline: a quay with a step in it. */
static const int32_t outline[] = {0, 0, 40, 0, 40, 25, 60, 25, 60, 70, 0, 70};
static const int32_t elsewhere[] = {1040, -475, 1060, -475, 1060, -430, 1000, -430, 1000, -500, 1040, -500};
static const int32_t backwards[] = {-200, 70, -140, 70, -140, 25, -160, 25, -160, 0, -200, 0};
enum { VERTICES = 6, LINE = 2 * VERTICES + 1 };

/* Imports a boundary of 6 vertices and prints its edges, 8 * length class + octant. Returns whether it was accepted. */
static int import(const char *name, const int32_t *numbers, uint8_t *edges) {
    struct outlines_answer answer = outlines_import_vertices(numbers, 2 * VERTICES, edges, VERTICES);
    printf("%s: refusal %u, %u edges", name, (unsigned)answer.refusal, (unsigned)answer.found);
    for (uint64_t i = 0; i < answer.found; i++) printf(" %u", (unsigned)edges[i]);
    printf("\n");
    return answer.refusal == OUTLINES_ACCEPTED;
}

static const uint32_t *print(const char *which, uint64_t found, const uint32_t *words) {
    for (uint64_t i = 0; i < found; i++, words += OUTLINES_FINDING_WORDS)
        printf("%s: start %u rotation %u distance %u\n", which, (unsigned)words[0], (unsigned)words[1], (unsigned)words[2]);
    return words;
}

int main(void) {
    uint8_t ring[VERTICES], line[LINE];
    uint32_t words[OUTLINES_ROOM_TWO_WAY(VERTICES, LINE)]; /* 8 (n - m + 1) words */
    if (!import("ring", outline, ring) || !import("elsewhere", elsewhere, line) || !import("backwards", backwards, line + VERTICES + 1)) return 1;
    line[VERTICES] = OUTLINES_MARK; /* between the two boundaries */

    struct outlines_two_way both = outlines_scan_two_way(ring, sizeof ring, line, sizeof line, 0, words, sizeof words / sizeof words[0]);
    print("backward", both.backward_found, print("forward", both.forward_found, words));

    static const int32_t closed_twice[] = {0, 0, 40, 0, 40, 25, 0, 0}; /* the first vertex once more: the closing pair is equal */
    struct outlines_answer refused = outlines_import_vertices(closed_twice, 8, ring, sizeof ring);
    printf("the first vertex given again: refusal %u place %u: ", (unsigned)refused.refusal, (unsigned)refused.place);
    puts(outlines_refusal_text(refused.refusal));
    return 0;
}
