// The quick scan, the plain survey and the report; scan and survey of closed lines. The headers have the parts and say what
// each does.
#include "rules.h"

#include "admit.h"
#include "book.h"
#include "reading.h"
#include "tally.h"

// A call's ring and line, and what is made of the ring once for a call.
struct search {
    const uint8_t *ring;
    size_t m;
    const uint8_t *line;
    size_t n;
    size_t k;
    struct table table;
    uint8_t doubled[2 * MOST_RING];
    struct tally tally;
};

// How many windows a closed line has.
static size_t closed_windows(size_t m, size_t n)
{
    return n >= m ? n : 0;
}

// Where a sweep stands: the next window's start, the last verified start if there is one, the looks so far.
struct sweep {
    size_t start;
    bool verified;
    size_t last;
    size_t looks;
};

// Rule 5: afresh with no earlier tally or where 2·s > m, else moved by s steps. Few windows are candidates, so this stays out
// of line and leaves the registers to the reading.
static __attribute__((noinline)) struct reached verify(struct search *search, size_t start, bool verified, size_t last)
{
    size_t s = start - last;
    if (!verified || 2 * s > search->m)
        return count_afresh(&search->tally, search->doubled, search->m, search->line, start);
    return move_along(&search->tally, search->ring, search->m, search->line, last, s, 0);
}

static struct finding finding_at(const struct search *search, struct reached reached)
{
    size_t rotation = lowest_rotation(&search->tally, search->m, reached.least);
    return (struct finding){reached.start, rotation, reached.least, ties_of(&search->tally, search->m, reached.least)};
}

// Reads one window and verifies it if it is a candidate. True if it is a finding.
STRAIGHT bool sweep_window(struct search *search, struct sweep *at, struct finding *finding)
{
    size_t i = at->start;
    struct window_read read = read_window(&search->table, search->line + i, search->m, search->k);
    at->looks += read.looks;
    bool found = false;
    if (read.candidate) {
        struct reached reached = verify(search, i, at->verified, at->last);
        at->verified = true;
        at->last = i;
        at->looks += reached.looks;
        found = reached.least <= search->k;
        if (found)
            *finding = finding_at(search, reached);
    }
    at->start = i + read.left + 1;
    return found;
}

static void prepare(struct search *search, const uint8_t *ring, size_t m, const uint8_t *line, size_t n, size_t k)
{
    search->ring = ring;
    search->m = m;
    search->line = line;
    search->n = n;
    search->k = k;
    double_ring(search->doubled, ring, m);
}

static struct rules_answer scan(const uint8_t *ring, size_t m, const uint8_t *line, size_t n, size_t k, uint32_t *words)
{
    struct rules_answer answer = {0};
    struct search search;
    prepare(&search, ring, m, line, n, k);
    occurrences(&search.table, ring, m);
    struct sweep at = {0, false, 0, 0};
    struct finding finding;
    while (at.start + m <= n)
        if (sweep_window(&search, &at, &finding))
            put_finding(words, answer.found++, finding);
    answer.looks = at.looks;
    return answer;
}

// "The first afresh and each next by one step, at m = 1 too": on to the next finding or to the last window.
static struct reached verify_on(struct search *search, size_t i)
{
    if (i == 0)
        return count_afresh(&search->tally, search->doubled, search->m, search->line, 0);
    size_t from = i - 1;
    size_t steps = search->n - search->m - from;
    return move_along(&search->tally, search->ring, search->m, search->line, from, steps, search->k + 1);
}

static struct rules_answer survey(const uint8_t *ring, size_t m, const uint8_t *line, size_t n, size_t k, uint32_t *words)
{
    struct rules_answer answer = {0};
    struct search search;
    prepare(&search, ring, m, line, n, k);
    for (size_t i = 0; i + m <= n;) {
        struct reached reached = verify_on(&search, i);
        answer.looks += reached.looks;
        if (reached.least <= k && search.tally.past_mark <= reached.start)
            put_finding(words, answer.found++, finding_at(&search, reached));
        i = reached.start + 1;
    }
    return answer;
}

struct rules_answer rules_scan(const uint8_t *ring, size_t m, const uint8_t *line, size_t n, size_t k,
                               uint32_t *words, size_t room)
{
    size_t refusal = admit(ring, m, k, n, open_windows(m, n), room);
    if (refusal != 0)
        return (struct rules_answer){refusal, 0, 0, 0, 0};
    return scan(ring, m, line, n, k, words);
}

struct rules_answer rules_survey(const uint8_t *ring, size_t m, const uint8_t *line, size_t n, size_t k,
                                 uint32_t *words, size_t room)
{
    size_t refusal = admit(ring, m, k, n, open_windows(m, n), room);
    if (refusal != 0)
        return (struct rules_answer){refusal, 0, 0, 0, 0};
    return survey(ring, m, line, n, k, words);
}

// The line followed by its first m - 1 edges. A line shorter than the ring has no window and stays as it is.
struct longer {
    size_t n;
    uint8_t line[MOST_LINE + MOST_RING - 1];
};

static void lengthen(struct longer *longer, const uint8_t *line, size_t n, size_t m)
{
    size_t more = n >= m ? m - 1 : 0;
    memcpy(longer->line, line, n);
    memcpy(longer->line + n, line, more);
    longer->n = n + more;
}

struct rules_answer rules_scan_closed(const uint8_t *ring, size_t m, const uint8_t *line, size_t n, size_t k,
                                      uint32_t *words, size_t room)
{
    size_t refusal = admit(ring, m, k, n, closed_windows(m, n), room);
    if (refusal != 0)
        return (struct rules_answer){refusal, 0, 0, 0, 0};
    struct longer longer;
    lengthen(&longer, line, n, m);
    return scan(ring, m, longer.line, longer.n, k, words);
}

struct rules_answer rules_survey_closed(const uint8_t *ring, size_t m, const uint8_t *line, size_t n, size_t k,
                                        uint32_t *words, size_t room)
{
    size_t refusal = admit(ring, m, k, n, closed_windows(m, n), room);
    if (refusal != 0)
        return (struct rules_answer){refusal, 0, 0, 0, 0};
    struct longer longer;
    lengthen(&longer, line, n, m);
    return survey(ring, m, longer.line, longer.n, k, words);
}

struct rules_answer rules_report(uint32_t cell, uint16_t ring_number, const uint8_t *ring, size_t m,
                                 const uint8_t *line, size_t n, size_t k, const uint8_t *bytes, size_t length,
                                 uint32_t *words, size_t room)
{
    struct rules_answer answer = {admit(ring, m, k, n, open_windows(m, n), room), 0, 0, 0, 0};
    struct book book = {bytes, length};
    if (answer.refusal == 0)
        answer.refusal = read_book(book, &answer.place);
    if (answer.refusal != 0)
        return answer;
    struct search search;
    prepare(&search, ring, m, line, n, k);
    occurrences(&search.table, ring, m);
    struct sweep at = {0, false, 0, 0};
    struct field held;
    seek(book, &held, 0, (struct address){cell, ring_number, 0});
    struct finding finding;
    while (at.start + m <= n) {
        if (!sweep_window(&search, &at, &finding))
            continue;
        if (ask(book, &held, (struct address){cell, ring_number, (uint32_t)finding.start}, finding.distance))
            answer.hidden++;
        else
            put_finding(words, answer.found - answer.hidden, finding);
        answer.found++;
    }
    answer.looks = at.looks;
    return answer;
}
