/* Tests include/outlines.h against the built library: every refusal, limit, field, room and text, by the name that the header gives it. The library takes
 * no number from the header, so a wrong one in the header makes a test fail. Samples and their counts are those of docs/SPEC.md, section 10.
 * This is C11 and C++11. The argument is the path of the report program. tools/header builds and runs it. It prints a line for each failed test, and the
 * last line is 'N passed, M failed'. */
#define _POSIX_C_SOURCE 200809L /* popen and setenv */
#include "outlines.h" /* first, because it must need no other header; and twice, because nothing may be defined twice */
#include "outlines.h"

#include <stdio.h>
#include <stdlib.h>
#include <string.h>

/* The calls as bits, so that a test can name every call that it is for. BOOKS are the calls that read a book. */
enum {
    SURVEY = 1, SCAN = 2, REPORT = 4, SURVEY_CLOSED = 8, SCAN_CLOSED = 16, REPORT_CLOSED = 32, TWO_WAY = 64, PACK = 128, UNPACK = 256, IMPORT = 512,
    OPEN = SURVEY + SCAN + REPORT, CLOSED = SURVEY_CLOSED + SCAN_CLOSED + REPORT_CLOSED, SEARCHES = OPEN + CLOSED + TWO_WAY,
    BOOKS = REPORT + REPORT_CLOSED + UNPACK, ALL = SEARCHES + PACK + UNPACK + IMPORT
};
static const char *const names[] = {"survey", "scan", "report", "survey_closed", "scan_closed", "report_closed", "scan_two_way", "pack", "unpack",
                                    "import_vertices"};

/* OLD_BYTES: bytes of a record of tag 21, which has no name in the header. SPARE: elements behind each area. PAINT: every byte of a lent area at entry. */
enum { OLD_BYTES = 13, SPARE = 64, PAINT = 0xA5, CELL = 7 };
enum { WORDS = 2 * OUTLINES_FINDING_WORDS * OUTLINES_MOST_LINE, BYTES = OUTLINES_SILENCE_BYTES * OUTLINES_MOST_SILENCES + OUTLINES_MOST_VERTICES };

/* The input of all ten calls. `records` counts those of the book and of the words to pack. Each call is lent exactly the room that the header states, less
 * words_less and bytes_less. */
static struct {
    uint8_t ring[OUTLINES_MOST_RING + SPARE], line[OUTLINES_MOST_LINE + SPARE], book[OUTLINES_MOST_BOOK + OLD_BYTES * OUTLINES_MOST_RECORDS + SPARE];
    uint32_t words[OUTLINES_SILENCE_WORDS * OUTLINES_MOST_SILENCES + SPARE];
    int32_t numbers[2 * OUTLINES_MOST_VERTICES + SPARE];
    size_t m, n, k, book_length, words_length, numbers_length, records, words_less, bytes_less;
    uint16_t ring_number;
} in;
static uint32_t words[WORDS + SPARE]; /* lent for findings, and to unpack */
static uint8_t bytes[BYTES + SPARE];  /* lent as the join area, for a book and for edges */
static size_t words_lent, bytes_lent;
static struct outlines_answer answer; /* of the last call; if that was a two-way scan, its refusal and place alone */
static struct outlines_two_way both;  /* of the last call if that was a two-way scan, else zero */
static const char *about, *called, *given;
static unsigned passed, failed;

static void same(const char *what, unsigned long long expected, unsigned long long came) {
    passed += expected == came, failed += expected != came;
    if (expected != came) printf("%s: %s, %s: %s: expected %llu, came %llu\n", about, called, given, what, expected, came);
}

/* An input that every call accepts: sample P2, two silences of which the first hides a finding, and a square. */
static void begin(const char *name) {
    static const uint8_t book[] = {0x22, 0, 0x0C, 0, 0, 0, CELL, 0, 2, 0, 0, 0, 10, 0, 0, 0x22, 0, 0x0C, 0, 0, 0, 8, 0, 1, 0, 0, 0, 5, 0, 3};
    static const uint32_t silences[] = {CELL, 2, 10, 0, 8, 1, 5, 3};
    static const int32_t square[] = {0, 0, 8, 0, 8, 8, 0, 8};
    about = name, called = "header", given = "";
    memset(&in, 0, sizeof in);
    memcpy(in.ring, "GGGTCTA", in.m = 7);
    memcpy(in.line, "GATACGATACCTAGGGTGATAGAATAG", in.n = 27);
    memcpy(in.book, book, in.book_length = sizeof book);
    memcpy(in.words, silences, sizeof silences), in.words_length = sizeof silences / sizeof *silences;
    memcpy(in.numbers, square, sizeof square), in.numbers_length = sizeof square / sizeof *square;
    in.k = 1, in.records = 2, in.ring_number = 2;
}

static size_t words_room(unsigned call) {
    if (call & OPEN) return OUTLINES_ROOM(in.m, in.n);
    if (call & CLOSED) return OUTLINES_ROOM_CLOSED(in.m, in.n);
    if (call & TWO_WAY) return OUTLINES_ROOM_TWO_WAY(in.m, in.n);
    return call & UNPACK ? OUTLINES_SILENCE_WORDS * in.records : 0;
}
static size_t bytes_room(unsigned call) {
    if (call & CLOSED) return OUTLINES_ROOM_JOIN(in.m, in.n);
    if (call & PACK) return OUTLINES_SILENCE_BYTES * in.records;
    return call & IMPORT ? in.numbers_length / 2 : 0;
}

/* The header may be wrong, so what is lent must not wrap, and must be there. */
static size_t lent(size_t room, size_t less, size_t most) {
    room = room < less ? 0 : room - less;
    return room < most ? room : most;
}

/* Runs one call over painted areas. Where a length is 0, the pointer is null. */
#define IF_ANY(area, length) ((length) ? (area) : NULL), (length)
#define SEARCH IF_ANY(in.ring, in.m), IF_ANY(in.line, in.n), in.k
#define BOOK IF_ANY(in.book, in.book_length)
#define LENT_BYTES IF_ANY(bytes, bytes_lent)
#define LENT_WORDS IF_ANY(words, words_lent)
static void run(unsigned call) {
    words_lent = lent(words_room(call), in.words_less, WORDS);
    bytes_lent = lent(bytes_room(call), in.bytes_less, BYTES);
    memset(words, PAINT, (words_lent + SPARE) * sizeof *words);
    memset(bytes, PAINT, bytes_lent + SPARE);
    memset(&answer, 0, sizeof answer);
    memset(&both, 0, sizeof both);
    switch (call) {
    case SURVEY: answer = outlines_survey(SEARCH, LENT_WORDS); break;
    case SCAN: answer = outlines_scan(SEARCH, LENT_WORDS); break;
    case REPORT: answer = outlines_report(CELL, in.ring_number, SEARCH, BOOK, LENT_WORDS); break;
    case SURVEY_CLOSED: answer = outlines_survey_closed(SEARCH, LENT_BYTES, LENT_WORDS); break;
    case SCAN_CLOSED: answer = outlines_scan_closed(SEARCH, LENT_BYTES, LENT_WORDS); break;
    case REPORT_CLOSED: answer = outlines_report_closed(CELL, in.ring_number, SEARCH, BOOK, LENT_BYTES, LENT_WORDS); break;
    case TWO_WAY: both = outlines_scan_two_way(SEARCH, LENT_WORDS), answer.refusal = both.refusal, answer.place = both.place; break;
    case PACK: answer = outlines_pack(IF_ANY(in.words, in.words_length), LENT_BYTES); break;
    case UNPACK: answer = outlines_unpack(BOOK, LENT_WORDS); break;
    case IMPORT: answer = outlines_import_vertices(IF_ANY(in.numbers, in.numbers_length), LENT_BYTES); break;
    }
}

/* Whether a byte of the lent areas, from this word and this byte on, is not the paint. Bytes that equal themselves one place on are all the same. */
static unsigned changed(size_t word, size_t byte) {
    const uint8_t *first = (const uint8_t *)(words + word);
    return *first != PAINT || memcmp(first, first + 1, (words_lent + SPARE - word) * sizeof *words - 1) != 0 || bytes[byte] != PAINT ||
           memcmp(bytes + byte, bytes + byte + 1, bytes_lent + SPARE - byte - 1) != 0;
}

/* Each of the calls must give this refusal, or OUTLINES_ACCEPTED, at this place. A refused call has no counts, and has written nothing. */
static void expect(unsigned calls, uint32_t refusal, size_t place, const char *what) {
    given = what;
    for (unsigned bit = 0; bit < sizeof names / sizeof *names; bit++) {
        if (!(calls & 1u << bit)) continue;
        called = names[bit];
        run(1u << bit);
        same("refusal", refusal, answer.refusal);
        same("place", place, answer.place);
        if (refusal == OUTLINES_ACCEPTED) continue;
        same("counts", 0, answer.found | answer.hidden | answer.looks);
        same("counts", 0, both.forward_found | both.forward_looks | both.backward_found | both.backward_looks);
        same("a lent area changed", 0, changed(0, 0));
    }
}
static void expect_counts(unsigned call, const char *what, uint64_t found, uint64_t hidden, uint64_t looks) {
    expect(call, OUTLINES_ACCEPTED, 0, what);
    same("found", found, answer.found);
    same("hidden", hidden, answer.hidden);
    same("looks", looks, answer.looks);
}

/* Refusals by their numbers. Those at a limit are in the table of limits too. */
static void refuse_searches(void) {
    begin("OUTLINES_ACCEPTED"), expect(ALL, OUTLINES_ACCEPTED, 0, "nothing wrong");
    begin("OUTLINES_RING"), in.m = 0, expect(SEARCHES, OUTLINES_RING, 0, "no edge");
    begin("OUTLINES_ALLOWANCE");
    in.k = in.m - 1, expect(SEARCHES, OUTLINES_ACCEPTED, 0, "k = m - 1");
    in.k = in.m, expect(SEARCHES, OUTLINES_ALLOWANCE, 0, "k = m");
    in.k = SIZE_MAX, expect(SEARCHES, OUTLINES_ALLOWANCE, 0, "k = SIZE_MAX");
    begin("OUTLINES_LINE"), in.n = OUTLINES_MOST_LINE + 1, expect(SEARCHES, OUTLINES_LINE, 0, "too many bytes, and no room is lent");
    begin("OUTLINES_FINDINGS_ROOM"), in.words_less = 1, expect(SEARCHES, OUTLINES_FINDINGS_ROOM, 0, "one word too few");
    begin("OUTLINES_RING_MARK"), in.ring[3] = (uint8_t)OUTLINES_MARK, expect(SEARCHES, OUTLINES_RING_MARK, 0, "a mark at place 3");
    begin("OUTLINES_RING_CODE"), in.ring[3] = in.ring[5] = (uint8_t)(OUTLINES_MOST_CODE + 1);
    expect(TWO_WAY, OUTLINES_RING_CODE, 3, "too high codes at places 3 and 5");
    expect(OPEN + CLOSED, OUTLINES_ACCEPTED, 0, "too high codes at places 3 and 5");
}
static void refuse_others(void) {
    begin("OUTLINES_BOOK_LENGTH"), in.book_length = OUTLINES_MOST_BOOK + 1, expect(BOOKS, OUTLINES_BOOK_LENGTH, 0, "too many bytes");
    begin("OUTLINES_FIELD"), in.book[0] = 0x23, expect(BOOKS, OUTLINES_FIELD, 0, "the first field has another tag");
    begin("OUTLINES_FIELD"), in.book_length--, expect(BOOKS, OUTLINES_FIELD, OUTLINES_SILENCE_BYTES, "the second field is cut off");
    begin("OUTLINES_NOT_ABOVE"), memcpy(in.book + OUTLINES_SILENCE_BYTES, in.book, OUTLINES_SILENCE_BYTES);
    memcpy(in.words + OUTLINES_SILENCE_WORDS, in.words, OUTLINES_SILENCE_WORDS * sizeof *in.words);
    expect(BOOKS, OUTLINES_NOT_ABOVE, OUTLINES_SILENCE_BYTES, "the same record twice");
    expect(PACK, OUTLINES_NOT_ABOVE, 1, "the same record twice");
    begin("OUTLINES_WORD_COUNT"), in.words_length++, expect(PACK, OUTLINES_WORD_COUNT, 0, "one word more");
    begin("OUTLINES_NUMBER_IN_RECORD"), in.words[OUTLINES_SILENCE_WORDS + 1] = UINT32_MAX, expect(PACK, OUTLINES_NUMBER_IN_RECORD, 1, "a ring number");
    begin("OUTLINES_NUMBER_IN_RECORD"), in.words[OUTLINES_SILENCE_WORDS + 3] = UINT32_MAX, expect(PACK, OUTLINES_NUMBER_IN_RECORD, 1, "a ceiling");
    begin("OUTLINES_OUTPUT_ROOM"), in.words_less = 1, expect(UNPACK, OUTLINES_OUTPUT_ROOM, 0, "one word too few");
    begin("OUTLINES_OUTPUT_ROOM"), in.bytes_less = 1, expect(CLOSED + PACK + IMPORT, OUTLINES_OUTPUT_ROOM, 0, "one byte too few");
    begin("OUTLINES_VERTEX_COUNT"), in.numbers_length--, expect(IMPORT, OUTLINES_VERTEX_COUNT, 0, "an odd count of numbers");
    begin("OUTLINES_EQUAL_NEIGHBOURS"), in.numbers[5] = 0, expect(IMPORT, OUTLINES_EQUAL_NEIGHBOURS, 1, "the second vertex and the third");
    begin("OUTLINES_EQUAL_NEIGHBOURS"), in.numbers[7] = 0, expect(IMPORT, OUTLINES_EQUAL_NEIGHBOURS, 3, "the last vertex and the first");
}

/* The report program alone gives OUTLINES_INPUT. A shell runs it; $REPORT is its path. */
static void refuse_input(const char *command, unsigned place) {
    unsigned refusal = 0, at = 0;
    FILE *output = popen(command, "r");
    begin("OUTLINES_INPUT"), called = "report program", given = command;
    same("numbers in its line", 2, output ? (unsigned)fscanf(output, "refused %u place %u", &refusal, &at) : 0);
    same("refusal", OUTLINES_INPUT, refusal), same("place", place, at);
    if (output) pclose(output);
}

/* One copy of a ring of m edges, at the end of a line of n bytes that are not in the ring. */
static void make_search(size_t m, size_t n) {
    in.m = m, in.n = n, in.k = 0;
    memset(in.line, 0, n);
    for (size_t q = 0; q < m; q++) in.ring[q] = in.line[n - m + q] = (uint8_t)(1 + q % 200);
}

/* A book of records by rising start. A field of tag 22 is that of tag 21 with a ceiling behind it. */
static void make_book(size_t records, size_t length, uint8_t tag) {
    in.records = records, in.book_length = length * records;
    for (size_t i = 0; i < records; i++) {
        uint8_t *field = in.book + length * i;
        memset(field, 0, length);
        field[0] = tag, field[2] = (uint8_t)(length - 3), field[11] = (uint8_t)(i >> 8), field[12] = (uint8_t)i;
    }
}

/* Each sets the quantity of one limit to the number. */
static void ring_of(size_t edges) { make_search(edges, OUTLINES_MOST_RING + 2); }
static void line_of(size_t length) { make_search(3, length); }
static void ring_with(size_t code) { in.ring[3] = (uint8_t)code; }
static void words_of(size_t silences) {
    in.records = silences, in.words_length = OUTLINES_SILENCE_WORDS * silences;
    for (size_t i = 0; i < silences; i++) in.words[OUTLINES_SILENCE_WORDS * i] = (uint32_t)i;
}
static void word_of_ring_number(size_t number) { in.words[1] = (uint32_t)number; }
static void word_of_ceiling(size_t ceiling) { in.words[3] = (uint32_t)ceiling; }
static void book_of_records(size_t records) { make_book(records, OLD_BYTES, 0x21); }
static void book_of_bytes(size_t length) { make_book(OUTLINES_MOST_SILENCES, OUTLINES_SILENCE_BYTES, 0x22), in.book_length = length; }
static void numbers_of(size_t vertices) { /* a zigzag: no two neighbours are equal */
    in.numbers_length = 2 * vertices;
    for (size_t i = 0; i < vertices; i++) in.numbers[2 * i] = (int32_t)i, in.numbers[2 * i + 1] = (int32_t)(i % 2);
}

/* The limit is accepted, and the number behind it is refused. `counts`: the last of the calls returns the limit in found. */
static const struct {
    const char *name;
    void (*make)(size_t number);
    size_t limit, behind;
    unsigned calls, counts, refusal, place;
} limits[] = {
    {"OUTLINES_MOST_RING", ring_of, OUTLINES_MOST_RING, OUTLINES_MOST_RING + 1, SEARCHES, 0, OUTLINES_RING, 0},
    {"OUTLINES_MOST_LINE", line_of, OUTLINES_MOST_LINE, OUTLINES_MOST_LINE + 1, SEARCHES, 0, OUTLINES_LINE, 0},
    {"OUTLINES_MARK", ring_with, OUTLINES_MARK - 1, OUTLINES_MARK, OPEN + CLOSED, 0, OUTLINES_RING_MARK, 0},
    {"OUTLINES_MOST_CODE", ring_with, OUTLINES_MOST_CODE, OUTLINES_MOST_CODE + 1, TWO_WAY, 0, OUTLINES_RING_CODE, 3},
    {"OUTLINES_MOST_SILENCES", words_of, OUTLINES_MOST_SILENCES, OUTLINES_MOST_SILENCES + 1, PACK, 1, OUTLINES_WORD_COUNT, 0},
    {"OUTLINES_MOST_RING_NUMBER", word_of_ring_number, OUTLINES_MOST_RING_NUMBER, OUTLINES_MOST_RING_NUMBER + 1, PACK, 0, OUTLINES_NUMBER_IN_RECORD, 0},
    {"OUTLINES_MOST_CEILING", word_of_ceiling, OUTLINES_MOST_CEILING, OUTLINES_MOST_CEILING + 1, PACK, 0, OUTLINES_NUMBER_IN_RECORD, 0},
    {"OUTLINES_MOST_RECORDS", book_of_records, OUTLINES_MOST_RECORDS, OUTLINES_MOST_RECORDS + 1, BOOKS, 1, OUTLINES_BOOK_LENGTH, 0},
    {"OUTLINES_MOST_BOOK", book_of_bytes, OUTLINES_MOST_BOOK, OUTLINES_MOST_BOOK + 1, BOOKS, 0, OUTLINES_BOOK_LENGTH, 0},
    {"OUTLINES_FEWEST_VERTICES", numbers_of, OUTLINES_FEWEST_VERTICES, OUTLINES_FEWEST_VERTICES - 1, IMPORT, 1, OUTLINES_VERTEX_COUNT, 0},
    {"OUTLINES_MOST_VERTICES", numbers_of, OUTLINES_MOST_VERTICES, OUTLINES_MOST_VERTICES + 1, IMPORT, 1, OUTLINES_VERTEX_COUNT, 0},
};
static void try_limits(void) {
    for (size_t i = 0; i < sizeof limits / sizeof *limits; i++) {
        begin(limits[i].name), limits[i].make(limits[i].limit), expect(limits[i].calls, OUTLINES_ACCEPTED, 0, "at the limit");
        if (limits[i].counts) same("found", limits[i].limit, answer.found);
        begin(limits[i].name), limits[i].make(limits[i].behind), expect(limits[i].calls, limits[i].refusal, limits[i].place, "behind the limit");
    }
}

/* What the limits say besides: where a line ends, what a mark does in it, the highest code of an import, the highest ring number of a report. */
static void try_limits_in_use(void) {
    begin("OUTLINES_MOST_LINE"), line_of(OUTLINES_MOST_LINE), expect(SCAN, OUTLINES_ACCEPTED, 0, "a copy at its end"), same("start", in.n - 3, words[0]);
    begin("OUTLINES_MARK"), memcpy(in.ring, "ab", in.m = 2), memcpy(in.line, "ab|ab", in.n = 5), called = "scan", given = "ab|ab";
    in.line[2] = (uint8_t)OUTLINES_MARK, run(SCAN), same("found where a mark parts two boundaries", 2, answer.found);
    in.line[2] = (uint8_t)(OUTLINES_MARK - 1), run(SCAN), same("found where an edge stands there", 4, answer.found);
    begin("OUTLINES_MOST_CODE"), in.numbers[2] = INT32_MAX, in.numbers[3] = -1;
    expect(IMPORT, OUTLINES_ACCEPTED, 0, "length class 30, octant 7"), same("edge", OUTLINES_MOST_CODE, bytes[0]);
    begin("OUTLINES_MOST_RING_NUMBER"), in.ring_number = (uint16_t)OUTLINES_MOST_RING_NUMBER, in.book[7] = in.book[8] = 0xFF;
    expect_counts(REPORT, "the highest number of two bytes", 3, 1, 185);
}

/* A size: exactly this number of words or bytes is written. */
static void try_size(const char *name, unsigned call, uint64_t found, size_t words_written, size_t bytes_written) {
    begin(name), expect(call, OUTLINES_ACCEPTED, 0, "words or bytes written"), same("found", found, answer.found);
    same("the last one is written", 1, changed(words_written - (words_written > 0), bytes_written - (bytes_written > 0)));
    same("one behind it is written", 0, changed(words_written, bytes_written));
}
static void try_sizes(void) {
    try_size("OUTLINES_FINDING_WORDS", SCAN, 3, 3 * OUTLINES_FINDING_WORDS, 0);
    try_size("OUTLINES_SILENCE_WORDS", UNPACK, 2, 2 * OUTLINES_SILENCE_WORDS, 0);
    try_size("OUTLINES_SILENCE_BYTES", PACK, 2, 0, 2 * OUTLINES_SILENCE_BYTES);
    begin("OUTLINES_SILENCE_WORDS"), words_of(1), expect_counts(PACK, "one silence", 1, 0, 0);
}

/* place, found, hidden and looks of a report are all different here. Refusal and place differ where a book is refused, above. */
static void try_answer(void) {
    static const uint32_t shown[] = {9, 3, 1, 1, 11, 5, 1, 1};
    static const uint8_t edges[] = {24, 26, 28, 30};
    begin("struct outlines_answer");
    expect_counts(SURVEY, "sample P2", 3, 0, 329);
    expect_counts(SCAN, "sample P2", 3, 0, 185);
    expect_counts(REPORT, "sample P2", 3, 1, 185), same("the words differ", 0, memcmp(words, shown, sizeof shown) != 0);
    expect_counts(PACK, "two silences", 2, 0, 0), same("the bytes differ", 0, memcmp(bytes, in.book, in.book_length) != 0);
    expect_counts(UNPACK, "two silences", 2, 0, 0), same("the words differ", 0, memcmp(words, in.words, in.words_length * sizeof *words) != 0);
    expect_counts(IMPORT, "a square", 4, 0, 0), same("the edges differ", 0, memcmp(bytes, edges, sizeof edges) != 0);
    memcpy(in.ring, "abc", in.m = 3), memcpy(in.line, "bca", in.n = 3), in.k = 0, in.book[12] = 2;
    expect_counts(SURVEY_CLOSED, "abc in bca", 3, 0, 21);
    expect_counts(SCAN_CLOSED, "abc in bca", 3, 0, 30), same("the join areas differ", 0, memcmp(bytes, "cabc", 4) != 0);
    expect_counts(REPORT_CLOSED, "abc in bca", 3, 1, 30);
}

/* The looks are those of scans for the ring and for the reversed ring. The four counts are all different. */
static void try_two_way(void) {
    static const uint8_t ring[] = {24, 26, 28, 30}, reversed[] = {26, 24, 30, 28}, line[] = {24, 26, 28, 30, 0, 30, 28, 26, 24, 0, 24, 26, 28, 30};
    uint64_t forward, backward;
    begin("struct outlines_two_way"), memcpy(in.line, line, in.n = sizeof line), in.m = sizeof ring, in.k = 0;
    memcpy(in.ring, reversed, in.m), run(SCAN), backward = answer.looks;
    memcpy(in.ring, ring, in.m), run(SCAN), forward = answer.looks;
    expect(TWO_WAY, OUTLINES_ACCEPTED, 0, "two copies forward, one backward");
    same("forward_found", 2, both.forward_found), same("forward_looks", forward, both.forward_looks);
    same("backward_found", 1, both.backward_found), same("backward_looks", backward, both.backward_looks);
    same("looks all different", 1, forward > 2 && backward > 2 && forward != backward);
}

/* The rooms by their values. SAME_ROOMS is a macro, because they must be right for arguments of every type and form. */
static void same_room(const char *name, const char *what, size_t expected, size_t came) {
    about = name, called = "value", given = what, same("room", expected, came);
}
#define SAME_ROOMS(what, m, n, open, closed, join) \
    same_room("OUTLINES_ROOM", what, open, OUTLINES_ROOM(m, n)), same_room("OUTLINES_ROOM_CLOSED", what, closed, OUTLINES_ROOM_CLOSED(m, n)), \
    same_room("OUTLINES_ROOM_TWO_WAY", what, 2 * (open), OUTLINES_ROOM_TWO_WAY(m, n)), same_room("OUTLINES_ROOM_JOIN", what, join, OUTLINES_ROOM_JOIN(m, n))
static void same_rooms(const char *what, size_t m, size_t n, size_t windows, size_t places, size_t join) {
    SAME_ROOMS(what, m, n, OUTLINES_FINDING_WORDS * windows, OUTLINES_FINDING_WORDS * places, join);
}
static void try_room_values(void) {
    same_rooms("n = m - 2", 5, 3, 0, 0, 0);
    same_rooms("n = m", 5, 5, 1, 5, 8);
    same_rooms("n = m + 1", 5, 6, 2, 6, 8);
    same_rooms("n = m = 1", 1, 1, 1, 1, 0);
    same_rooms("n = OUTLINES_MOST_LINE", 5, OUTLINES_MOST_LINE, OUTLINES_MOST_LINE - 4, OUTLINES_MOST_LINE, 8);
    same_rooms("n = OUTLINES_MOST_LINE + 1", 5, OUTLINES_MOST_LINE + 1, 0, 0, 0);
    same_rooms("n = SIZE_MAX", 5, SIZE_MAX, 0, 0, 0);
    same_rooms("m = SIZE_MAX", SIZE_MAX, 5, 0, 0, 0);
    same_rooms("m = 0", 0, 5, 6, 5, 0);
}

/* The rooms of int constants, also as array dimensions, of int variables and of expressions; and as divisors, which need brackets around them. */
struct rooms { uint32_t open[OUTLINES_ROOM(3, 5)], closed[OUTLINES_ROOM_CLOSED(3, 5)], two_way[OUTLINES_ROOM_TWO_WAY(3, 5)], join[OUTLINES_ROOM_JOIN(3, 5)]; };
static void try_room_forms(void) {
    int m = 7, n = 3, each = OUTLINES_FINDING_WORDS;
    uint8_t narrow = 7;
    SAME_ROOMS("int constants", 5, 3, 0, 0, 0);
    SAME_ROOMS("int variables", m, n, 0, 0, 0);
    SAME_ROOMS("a negative int, which is no length", -1, n, 0, 0, 0);
    SAME_ROOMS("narrow variables", narrow, (uint16_t)(narrow + 2), (size_t)(3 * each), (size_t)(9 * each), 12);
    SAME_ROOMS("0 as a constant", 0, n, (size_t)(4 * each), (size_t)(3 * each), 0);
    SAME_ROOMS("products", 2 * n, 3 * m, (size_t)(16 * each), (size_t)(21 * each), 10);
    SAME_ROOMS("expressions", n < m ? n : m, n < m ? m : n, (size_t)(5 * each), (size_t)(7 * each), 4);
    same_room("OUTLINES_ROOM", "array dimensions", (size_t)(14 * each + 4), sizeof(struct rooms) / sizeof(uint32_t));
    same_room("OUTLINES_ROOM", "a divisor", 20, (size_t)(60 * each) / OUTLINES_ROOM(3, 5));
    same_room("OUTLINES_ROOM_TWO_WAY", "a divisor", 10, (size_t)(60 * each) / OUTLINES_ROOM_TWO_WAY(3, 5));
}

/* Exactly the room is accepted, and one word or byte less is refused. A join area of a ring of one edge has no byte. */
static void try_rooms_lent(size_t m, size_t n) {
    static const char *const rooms[] = {"OUTLINES_ROOM", "OUTLINES_ROOM_CLOSED", "OUTLINES_ROOM_TWO_WAY"};
    static const unsigned calls[] = {OPEN, CLOSED, TWO_WAY};
    for (size_t i = 0; i < 3; i++) {
        begin(rooms[i]), make_search(m, n), expect(calls[i], OUTLINES_ACCEPTED, 0, "exactly the words");
        in.words_less = 1, expect(calls[i], OUTLINES_FINDINGS_ROOM, 0, "one word less");
    }
    begin("OUTLINES_ROOM_JOIN"), make_search(m, n), expect(CLOSED, OUTLINES_ACCEPTED, 0, "exactly the bytes");
    in.bytes_less = 1, expect(m > 1 ? CLOSED : 0, OUTLINES_OUTPUT_ROOM, 0, "one byte less");
}

/* A text has a key that no other has, so no two are equal or swapped. Its numbers are the limits of the header, in this order; 0 for none. */
static const struct {
    uint32_t refusal;
    const char *name, *key;
    unsigned long numbers[2];
} texts[] = {
    {OUTLINES_ACCEPTED, "OUTLINES_ACCEPTED", "accepted", {0, 0}},
    {OUTLINES_RING, "OUTLINES_RING", "no edge", {OUTLINES_MOST_RING, 0}},
    {OUTLINES_ALLOWANCE, "OUTLINES_ALLOWANCE", "allowance", {0, 0}},
    {OUTLINES_LINE, "OUTLINES_LINE", "line", {OUTLINES_MOST_LINE, 0}},
    {OUTLINES_FINDINGS_ROOM, "OUTLINES_FINDINGS_ROOM", "findings", {0, 0}},
    {OUTLINES_BOOK_LENGTH, "OUTLINES_BOOK_LENGTH", "book has", {OUTLINES_MOST_BOOK, 0}},
    {OUTLINES_FIELD, "OUTLINES_FIELD", "field", {0, 0}},
    {OUTLINES_NOT_ABOVE, "OUTLINES_NOT_ABOVE", "address", {0, 0}},
    {OUTLINES_WORD_COUNT, "OUTLINES_WORD_COUNT", "words to pack", {OUTLINES_SILENCE_WORDS, OUTLINES_SILENCE_WORDS * OUTLINES_MOST_SILENCES}},
    {OUTLINES_NUMBER_IN_RECORD, "OUTLINES_NUMBER_IN_RECORD", "ceiling", {OUTLINES_MOST_CEILING, 0}},
    {OUTLINES_OUTPUT_ROOM, "OUTLINES_OUTPUT_ROOM", "output", {0, 0}},
    {OUTLINES_INPUT, "OUTLINES_INPUT", "input", {0, 0}},
    {OUTLINES_RING_MARK, "OUTLINES_RING_MARK", "mark", {OUTLINES_MARK, 0}},
    {OUTLINES_RING_CODE, "OUTLINES_RING_CODE", "code", {OUTLINES_MOST_CODE, 0}},
    {OUTLINES_VERTEX_COUNT, "OUTLINES_VERTEX_COUNT", "odd", {OUTLINES_FEWEST_VERTICES, OUTLINES_MOST_VERTICES}},
    {OUTLINES_EQUAL_NEIGHBOURS, "OUTLINES_EQUAL_NEIGHBOURS", "neighbour", {0, 0}},
};
enum { TEXTS = sizeof texts / sizeof *texts };

/* The next number of a text, 0 if there is none. Goes on behind it. */
static unsigned long next_number(const char **at) {
    char *end;
    unsigned long number = strtoul(*at += strcspn(*at, "0123456789"), &end, 10);
    *at = end;
    return number;
}
static void try_texts(void) {
    static const uint32_t unknown[] = {13, 17, UINT32_MAX};
    for (size_t i = 0; i < TEXTS; i++) {
        const char *text = outlines_refusal_text(texts[i].refusal), *at = text;
        about = texts[i].name, called = "text", given = text;
        same("empty", 0, !*text);
        same("a newline", 0, strchr(text, '\n') != NULL);
        same("a full stop at the end", 0, *text && text[strlen(text) - 1] == '.');
        for (size_t j = 0; j < TEXTS; j++) same(texts[j].key, i == j, strstr(text, texts[j].key) != NULL);
        for (size_t j = 0; j < 3; j++) same("number", j < 2 ? texts[i].numbers[j] : 0, next_number(&at));
    }
    about = "unknown refusal", called = "text", given = "13, 17 and UINT32_MAX";
    for (size_t i = 0; i < 3; i++) same("this text", 1, !strcmp(about, outlines_refusal_text(unknown[i])));
}

/* A null pointer is taken where its length is 0: `run` passes one. */
static void try_nulls(void) {
    begin("null pointers");
    in.n = 0, expect(SEARCHES, OUTLINES_ACCEPTED, 0, "no line, no words, no join area");
    in.m = 0, expect(SEARCHES, OUTLINES_RING, 0, "no ring");
    in.numbers_length = 0, expect(IMPORT, OUTLINES_VERTEX_COUNT, 0, "no numbers, no edges");
    begin("null pointers"), in.book_length = in.words_length = in.records = 0;
    expect(REPORT + REPORT_CLOSED, OUTLINES_ACCEPTED, 0, "no book");
    expect_counts(UNPACK, "no book, no words", 0, 0, 0);
    expect_counts(PACK, "no words, no bytes", 0, 0, 0);
    in.m = 1, in.k = 0, expect(CLOSED, OUTLINES_ACCEPTED, 0, "a ring of one edge, no join area");
}

int main(int count, char **arguments) {
    if (count != 2 || setenv("REPORT", arguments[1], 1)) return 2;
    refuse_searches(), refuse_others();
    refuse_input("\"$REPORT\" < /dev/null", 0);
    refuse_input("printf '4\\000\\004\\000\\000\\000\\007' | \"$REPORT\"", 7); /* ends behind the cell, where the ring number must begin */
    try_limits(), try_limits_in_use(), try_sizes();
    try_answer(), try_two_way();
    try_room_values(), try_room_forms();
    try_rooms_lent(1, 1), try_rooms_lent(5, 5), try_rooms_lent(5, 6), try_rooms_lent(5, OUTLINES_MOST_LINE), try_rooms_lent(OUTLINES_MOST_RING, 300);
    try_texts(), try_nulls();
    printf("%u passed, %u failed\n", passed, failed);
    return failed != 0;
}
