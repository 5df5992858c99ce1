// The calls of documents 01 and 02 in C, built like the library's own code but for the fresh count, the table of
// vectors and the mask of the bit that goes round (docs/BENCH.md, trials 11, 13 and 14). The benchmark's ratios are to these.
#ifndef RULES_H
#define RULES_H

#include <stddef.h>
#include <stdint.h>

// A refusal's number and place, or 0 and 0 with the counts of an accepted call. Only a report hides.
struct rules_answer {
    size_t refusal;
    size_t place;
    size_t found;
    size_t hidden;
    size_t looks;
};

// Rules 1 to 5: ring of m edges, line of n edges, allowance k, `room` words lent for the findings, which are four
// words each: start, rotation, distance, ties. The byte 255 in the line is a boundary mark; a ring that holds it is refused.
struct rules_answer rules_scan(const uint8_t *ring, size_t m, const uint8_t *line, size_t n, size_t k,
                               uint32_t *words, size_t room);

// The plain survey.
struct rules_answer rules_survey(const uint8_t *ring, size_t m, const uint8_t *line, size_t n, size_t k,
                                 uint32_t *words, size_t room);

// Both in closed mode: behind its last edge the line goes on with its first one, and every place is a start if n >= m. They
// copy the line with its first m - 1 edges behind it and search that, so they are lent no join area. `room` is 4 n words.
struct rules_answer rules_scan_closed(const uint8_t *ring, size_t m, const uint8_t *line, size_t n, size_t k,
                                      uint32_t *words, size_t room);
struct rules_answer rules_survey_closed(const uint8_t *ring, size_t m, const uint8_t *line, size_t n, size_t k,
                                        uint32_t *words, size_t room);

// The quick scan; each finding is looked up in the silence book before it is written. It is hidden up to the distance that its
// silence gives.
struct rules_answer rules_report(uint32_t cell, uint16_t ring_number, const uint8_t *ring, size_t m,
                                 const uint8_t *line, size_t n, size_t k, const uint8_t *book, size_t length,
                                 uint32_t *words, size_t room);

#endif
