// The same looks as fast as we know to write them by hand: what scan and survey of open lines are set against in
// docs/BENCH.md. Counts and edges lie in the compiler's vectors of 16 bytes, with lanes to spare. Looks are computed, not
// counted: the edges read of a window, m * m for a fresh count, 2 * m for a step. Answers, looks and words are those of
// rules.h.
#ifndef LIMIT_H
#define LIMIT_H

#include "rules.h"

struct rules_answer limit_scan(const uint8_t *ring, size_t m, const uint8_t *line, size_t n, size_t k,
                               uint32_t *words, size_t room);
struct rules_answer limit_survey(const uint8_t *ring, size_t m, const uint8_t *line, size_t n, size_t k,
                                 uint32_t *words, size_t room);

#endif
