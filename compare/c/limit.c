// `limit_scan` and `limit_survey` of limit.h.
#include "limit.h"

#include "handover.h"
#include "limit_reading.h"
#include "padded.h"
#include "wide.h"

static __attribute__((noinline)) size_t count_afresh(struct padded *tally, const uint8_t *window)
{
    tally->turn = 0;
    return tally->m < MOST_RING ? count_padded(tally, window) : count_wide(tally, window);
}

static __attribute__((noinline)) size_t walk_to_end(struct padded *tally, struct walk *walk)
{
    return tally->m < MOST_RING ? walk_padded(tally, walk, false) : walk_wide(tally, walk, false);
}

static __attribute__((noinline)) size_t walk_to_finding(struct padded *tally, struct walk *walk)
{
    return tally->m < MOST_RING ? walk_padded(tally, walk, true) : walk_wide(tally, walk, true);
}

struct rules_answer limit_scan(const uint8_t *ring, size_t m, const uint8_t *line, size_t n, size_t k,
                               uint32_t *words, size_t room)
{
    struct rules_answer answer = {admit(ring, m, k, n, open_windows(m, n), room), 0, 0, 0, 0};
    if (answer.refusal != 0)
        return answer;
    struct occurrences table;
    struct padded tally;
    find_occurrences(&table, ring, m, k);
    pad_ring(&tally, ring, m);
    bool verified = false;
    size_t last = 0;
    struct swept swept = sweep_on(&table, line, n, k, 0);
    for (; swept.candidate; swept = sweep_on(&table, line, n, k, swept.next)) {
        size_t steps = swept.start - last;
        struct walk walk = {line, last, swept.start, 0, 0};
        bool afresh = !verified || 2 * steps > m;
        size_t least = afresh ? count_afresh(&tally, line + swept.start) : walk_to_end(&tally, &walk);
        answer.looks += swept.looks + (afresh ? m * m : 2 * m * steps);
        verified = true;
        last = swept.start;
        if (least <= k)
            put_finding(words, answer.found++, finding_at(&tally, swept.start, least));
    }
    answer.looks += swept.looks;
    return answer;
}

struct rules_answer limit_survey(const uint8_t *ring, size_t m, const uint8_t *line, size_t n, size_t k,
                                 uint32_t *words, size_t room)
{
    struct rules_answer answer = {admit(ring, m, k, n, open_windows(m, n), room), 0, 0, 0, 0};
    if (answer.refusal != 0 || n < m)
        return answer;
    struct padded tally;
    pad_ring(&tally, ring, m);
    struct walk walk = {line, 0, n - m, k, 0};
    for (size_t place = 0; place < m; place++)
        if (line[place] == MARK)
            walk.past_mark = place + 1;
    size_t least = count_afresh(&tally, line);
    answer.looks = m * m + 2 * m * (n - m);
    for (;;) {
        if (least <= k && walk.past_mark <= walk.start)
            put_finding(words, answer.found++, finding_at(&tally, walk.start, least));
        if (walk.start == walk.end)
            return answer;
        least = walk_to_finding(&tally, &walk);
    }
}
