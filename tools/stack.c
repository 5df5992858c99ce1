/* Runs the searching calls on a small stack, as a plotter would: it has as many bytes as the argument says, and below it are pages that nothing may
 * touch. Each answer and each lent area must be what the same call gives on main's own stack and, but for the looks, what include/outlines.h defines.
 * The stack is painted before each call, and the deepest change is printed for each call, in bytes from the top. That counts what this program has
 * there itself; `idle` is that alone, by a call that does nothing. tools/stack builds and runs it. The last line is 'N passed, M failed'. */
#define _GNU_SOURCE
#include <signal.h>
#include <stdio.h>
#include <stdlib.h>
#include <string.h>
#include <sys/mman.h>
#include <ucontext.h>

#include "outlines.h"

enum { MOST = 6 * OUTLINES_MOST_RING + 40, GUARD = 1 << 16, PAINT = 0xA5, CELL = 7, NUMBER = 2 };
enum codes { ALL, ONE, TWO }; /* of a ring: as many as it has edges, up to 248; one; 0 and 247 */

/* An input and what must come of it: the findings of the closed line, by rising start, and the ceiling of the silence at each, -1 if there is none; and
 * the findings of the reversed ring. */
static struct {
    uint8_t ring[OUTLINES_MOST_RING], reversed[OUTLINES_MOST_RING], line[MOST], book[OUTLINES_MOST_BOOK];
    size_t m, n, k, book_length, findings, backward;
    uint32_t found[MOST][OUTLINES_FINDING_WORDS], back[MOST][OUTLINES_FINDING_WORDS], refusal, book_refusal;
    int ceiling[MOST];
    const char *what;
} in;
struct areas {
    uint32_t words[2 * OUTLINES_FINDING_WORDS * MOST];
    uint8_t join[2 * OUTLINES_MOST_RING - 2];
    struct outlines_two_way both; /* what the two-way scan returned */
};
static struct areas lent;
static struct outlines_answer answer;
static uint8_t *guard, *stack; /* the pages that nothing may touch, and the stack above them */
static size_t size;
static ucontext_t back, there;
static volatile sig_atomic_t overflowed;
static unsigned passed, failed;

#define SEARCH in.ring, in.m, in.line, in.n, in.k
#define BOOK in.book, in.book_length
#define JOIN lent.join, sizeof lent.join
#define WORDS lent.words, OUTLINES_FINDING_WORDS * in.n
static void survey(void) { answer = outlines_survey(SEARCH, WORDS); }
static void survey_closed(void) { answer = outlines_survey_closed(SEARCH, JOIN, WORDS); }
static void scan(void) { answer = outlines_scan(SEARCH, WORDS); }
static void scan_closed(void) { answer = outlines_scan_closed(SEARCH, JOIN, WORDS); }
static void report(void) { answer = outlines_report(CELL, NUMBER, SEARCH, BOOK, WORDS); }
static void report_closed(void) { answer = outlines_report_closed(CELL, NUMBER, SEARCH, BOOK, JOIN, WORDS); }
static void scan_two_way(void) {
    struct outlines_two_way both = lent.both = outlines_scan_two_way(SEARCH, lent.words, 2 * OUTLINES_FINDING_WORDS * in.n);
    answer = (struct outlines_answer){both.refusal, both.place, both.forward_found, 0, both.forward_looks};
}

static struct call {
    const char *name;
    void (*run)(void);
    int closed, reports, two_way;
    size_t deepest;
    unsigned overflows;
} calls[] = {
    {"scan", scan, 0, 0, 0, 0, 0},
    {"scan_closed", scan_closed, 1, 0, 0, 0, 0},
    {"report", report, 0, 1, 0, 0, 0},
    {"report_closed", report_closed, 1, 1, 0, 0, 0},
    {"survey", survey, 0, 0, 0, 0, 0},
    {"survey_closed", survey_closed, 1, 0, 0, 0, 0},
    {"scan_two_way", scan_two_way, 0, 0, 1, 0, 0},
};
enum { CALLS = sizeof calls / sizeof calls[0] };

/* The idle call has the most arguments. A pointer that may change keeps the compiler from leaving them out. */
static struct outlines_answer nothing(uint32_t cell, ...) { return (struct outlines_answer){.looks = cell}; }
static struct outlines_answer (*volatile to_nothing)(uint32_t, ...) = nothing;
static void idle(void) { answer = to_nothing(CELL, NUMBER, SEARCH, BOOK, JOIN, WORDS); }

/* Runs on a stack of its own, because there may be none left. A fault elsewhere is no overflow: it comes again and ends the program. */
static void fault(int number, siginfo_t *info, void *context) {
    uint8_t *at = info->si_addr;
    (void)context;
    if (at < guard || at >= stack) {
        signal(number, SIG_DFL);
        return;
    }
    overflowed = 1;
    setcontext(&back);
}

static void set_up(void) {
    static uint8_t other[1 << 16];
    stack_t alternate = {.ss_sp = other, .ss_size = sizeof other};
    struct sigaction action = {.sa_flags = SA_SIGINFO | SA_ONSTACK};
    guard = mmap(NULL, GUARD + size, PROT_READ | PROT_WRITE, MAP_PRIVATE | MAP_ANONYMOUS, -1, 0);
    if (guard == MAP_FAILED || mprotect(guard, GUARD, PROT_NONE)) exit(2);
    stack = guard + GUARD;
    action.sa_sigaction = fault;
    if (sigaltstack(&alternate, NULL) || sigaction(SIGSEGV, &action, NULL)) exit(2);
}

/* The deepest word of the small stack that is changed by the call, in bytes from the top. */
static size_t on_small_stack(void (*run)(void)) {
    memset(stack, PAINT, size);
    getcontext(&there);
    there.uc_stack.ss_sp = stack;
    there.uc_stack.ss_size = size;
    there.uc_link = &back;
    makecontext(&there, run, 0);
    overflowed = 0;
    swapcontext(&back, &there);
    size_t clean = 0;
    while (clean < size && stack[clean] == PAINT) clean++;
    return size - clean / 8 * 8;
}

/* The finding of a ring at place i of the closed line, by its definition; whether it is one. */
static int is_finding(const uint8_t *ring, size_t i, uint32_t *found) {
    size_t least = in.k + 1;
    for (size_t q = 0; q < in.m; q++)
        if (in.line[(i + q) % in.n] == OUTLINES_MARK) return 0;
    for (size_t r = 0; r < in.m; r++) {
        size_t distance = 0;
        for (size_t q = 0, at = i, turned = r; q < in.m && distance <= least; q++) {
            distance += in.line[at] != ring[turned];
            if (++at == in.n) at = 0;
            if (++turned == in.m) turned = 0;
        }
        if (distance < least) least = distance, found[0] = (uint32_t)i, found[1] = (uint32_t)r, found[2] = (uint32_t)distance, found[3] = 0;
        if (distance == least) found[3]++;
    }
    return least <= in.k;
}

/* The ring the other way round: each octant, the low three bits, turned by four; 248 to 255 are no edges. */
static void reverse(void) {
    for (size_t q = 0; q < in.m; q++) {
        uint8_t code = in.ring[in.m - 1 - q];
        in.reversed[q] = code < 248 ? code ^ 4 : code;
    }
}

/* Lists the findings and makes a book. Of three findings in a row it hides the first; its ceiling for the second is too low by one, so an exact copy
 * gets none; it has no record of the third. Its first record is of another cell. */
static void define(void) {
    static uint32_t records[OUTLINES_SILENCE_WORDS * OUTLINES_MOST_SILENCES] = {CELL - 1};
    size_t count = 1;
    in.findings = in.backward = 0, in.refusal = in.book_refusal = OUTLINES_ACCEPTED;
    reverse();
    for (size_t i = 0; in.n >= in.m && i < in.n; i++) {
        uint32_t *found = in.found[in.findings];
        if (is_finding(in.reversed, i, in.back[in.backward])) in.backward++;
        if (!is_finding(in.ring, i, found)) continue;
        int ceiling = in.findings % 3 == 2 || count == OUTLINES_MOST_SILENCES ? -1 : (int)found[2] - (int)(in.findings % 3);
        in.ceiling[in.findings++] = ceiling;
        if (ceiling >= 0) memcpy(records + 4 * count++, (uint32_t[]){CELL, NUMBER, (uint32_t)i, (uint32_t)ceiling}, 4 * sizeof *records);
    }
    in.book_length = OUTLINES_SILENCE_BYTES * count;
    if (outlines_pack(records, 4 * count, in.book, sizeof in.book).found != count) exit(2);
}

static uint32_t any(uint32_t below) {
    static uint32_t state = 2463534242;
    state ^= state << 13, state ^= state >> 17, state ^= state << 5;
    return state % below;
}

static void copy(const uint8_t *ring, size_t at, size_t length, size_t turned) {
    for (size_t q = 0; q < length; q++) in.line[(at + q) % in.n] = ring[(turned + q) % in.m];
}

/* A line with copies. The first two touch: every start from one to the other is a finding, and all but the first are verified by a step. Behind a mark
 * stand a copy of the reversed ring and a copy with one edge edited, too far on for a step. The last copy lies across the line's end. */
static void make(size_t m, size_t k, enum codes codes) {
    in.m = m, in.k = k, in.n = 6 * m + 40;
    for (size_t q = 0; q < m; q++) in.ring[q] = (uint8_t)(codes == ALL ? (7 * q + 3) % 248 : codes == ONE ? 9 : 247 * any(2));
    for (size_t i = 0; i < in.n; i++) in.line[i] = (uint8_t)(codes == ALL ? any(255) : codes == ONE ? 9 + any(2) : 247 * any(2));
    reverse();
    copy(in.ring, m + 9, 2 * m, m / 3);
    in.line[3 * m + 15] = OUTLINES_MARK;
    copy(in.reversed, 3 * m + 17, m, m / 5);
    copy(in.ring, 4 * m + 21, m, m / 2);
    in.line[4 * m + 21 + m / 2] = (uint8_t)((in.line[4 * m + 21 + m / 2] + 1) % 255);
    copy(in.ring, in.n - (m + 1) / 2, m, 1 % m);
    define();
}

/* The areas and the answer, but for its looks, that the definitions give. */
static struct outlines_answer expect(const struct call *call, struct areas *areas) {
    struct outlines_answer wanted = {.refusal = in.refusal ? in.refusal : call->reports ? in.book_refusal : OUTLINES_ACCEPTED};
    uint32_t *word = areas->words;
    memset(areas, PAINT, sizeof *areas);
    for (size_t q = in.m; call->two_way && !in.refusal && q-- > 0;)
        if (in.ring[q] > 247) wanted.refusal = OUTLINES_RING_CODE, wanted.place = (uint32_t)q;
    if (call->two_way) areas->both = (struct outlines_two_way){.refusal = wanted.refusal, .place = wanted.place};
    if (wanted.refusal == OUTLINES_FIELD) wanted.place = (uint32_t)(in.book_length / OUTLINES_SILENCE_BYTES * OUTLINES_SILENCE_BYTES);
    if (wanted.refusal || in.n < in.m) return wanted;
    for (size_t j = 0; j < in.findings; j++) {
        if (!call->closed && in.found[j][0] + in.m > in.n) continue;
        int hidden = call->reports && in.ceiling[j] >= (int)in.found[j][2];
        wanted.found++, wanted.hidden += (uint64_t)hidden;
        if (!hidden) memcpy(word, in.found[j], sizeof in.found[j]), word += OUTLINES_FINDING_WORDS;
    }
    for (size_t j = 0; call->two_way && j < in.backward; j++)
        if (in.back[j][0] + in.m <= in.n) memcpy(word, in.back[j], sizeof in.back[j]), word += OUTLINES_FINDING_WORDS, areas->both.backward_found++;
    if (call->two_way) areas->both.forward_found = wanted.found;
    if (call->closed) memcpy(areas->join, in.line + in.n - (in.m - 1), in.m - 1), memcpy(areas->join + in.m - 1, in.line, in.m - 1);
    return wanted;
}

static void judge(int good, const struct call *call, const char *why) {
    passed += good != 0, failed += !good;
    if (!good) printf("%s, %zu edges, %zu bytes of line, k %zu, %s: %s\n", call->name, in.m, in.n, in.k, in.what, why);
}

/* Tries every call with the input, which has at least `least` findings. */
static void try(const char *what, size_t least) {
    static struct areas small, wanted;
    in.what = what;
    for (struct call *call = calls; call < calls + CALLS; call++) {
        memset(&lent, PAINT, sizeof lent);
        size_t deepest = on_small_stack(call->run);
        if (overflowed) {
            call->overflows++, failed++;
            continue;
        }
        if (deepest > call->deepest) call->deepest = deepest;
        struct outlines_answer given = answer, defined = expect(call, &wanted);
        small = lent;
        memset(&lent, PAINT, sizeof lent);
        call->run();
        judge(!memcmp(&given, &answer, sizeof given) && !memcmp(&small, &lent, sizeof lent), call, "not as on main's stack");
        defined.looks = given.looks;
        if (call->two_way) wanted.both.forward_looks = given.looks, wanted.both.backward_looks = small.both.backward_looks;
        judge(!memcmp(&given, &defined, sizeof given) && !memcmp(&small, &wanted, sizeof lent) && given.found >= least && (!call->two_way || !least || small.both.backward_found),
              call, "not as defined");
    }
}

/* Lines shorter than the ring, and what is refused. */
static void try_without_findings(void) {
    make(65, 1, ALL);
    in.n = 64, define(), try("a line shorter than the ring", 0);
    in.n = 0, define(), try("no line", 0);
    make(65, 65, TWO);
    in.refusal = OUTLINES_ALLOWANCE, try("refused for k", 0);
    make(256, 3, ALL);
    in.ring[255] = OUTLINES_MARK, in.refusal = OUTLINES_RING_MARK, try("refused for a mark in the ring", 0);
    make(256, 3, ALL);
    in.book_length--, in.book_refusal = OUTLINES_FIELD, try("a book cut short", 0);
    make(256, 3, ALL);
    in.ring[255] = 254, define(), try("a ring code above 247", 0);
}

int main(int count, char **arguments) {
    static const size_t lengths[] = {1, 63, 64, 65, 128, 129, 192, 193, 255, 256};
    static const char *const named[] = {"all codes", "one code", "codes 0 and 247"};
    size = count > 1 ? strtoul(arguments[1], NULL, 10) : 8192;
    set_up();
    for (size_t i = 0; i < sizeof lengths / sizeof lengths[0]; i++) {
        size_t m = lengths[i], allowed[] = {0, 1, m / 4, m - 1};
        for (size_t j = 0; j < (m == 1 ? 1 : 4); j++)
            for (enum codes codes = ALL; codes <= TWO; codes++) make(m, allowed[j], codes), try(named[codes], m + 1);
    }
    try_without_findings();
    printf("idle: %zu bytes by its paint\n", on_small_stack(idle));
    for (struct call *call = calls; call < calls + CALLS; call++) {
        if (call->overflows) printf("%s: overflow of a stack of %zu bytes, by %u inputs\n", call->name, size, call->overflows);
        else printf("%s: %zu bytes by its paint\n", call->name, call->deepest);
    }
    printf("%u passed, %u failed\n", passed, failed);
    return failed != 0;
}
