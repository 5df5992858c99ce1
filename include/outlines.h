/* Outlines stored twice: finds a closed ring of edges in a line of edges, starting at any of its edges and with at most k edges that differ.
 * `make install` puts the library and this header in place; `pkg-config --cflags --libs outlines` prints what to compile and link with. It is C99 and C++11.
 * docs/SPEC.md has all of this in full, CHANGES.md what stays compatible; both are installed in share/outlines, with docs/LOOKS.md.
 *
 * Terms. A ring has m edges, one byte each; a line has n bytes, edges and boundary marks. The bytes 0 to 254 are edge codes, and a search only asks
 * whether two of them are equal. outlines_scan_two_way also reads each code of its ring as 8 * length class + octant, so that ring may hold the codes 0
 * to 247 only (refusal 14); these are the codes that outlines_import_vertices makes of a boundary's vertices. Byte 255 (OUTLINES_MARK) is a mark: it
 * stands in a line where one boundary ends and the next begins. It counts as one of the n bytes. A ring must not hold one (refusal 12). Turning the ring
 * by r, 0 <= r < m, brings its edge (r + q) mod m to place q; r is called a rotation.
 * If i + m <= n, the line's places i to i + m - 1 are the window at i, and i is a start if that window holds no mark. The distance of such a place i
 * under a rotation counts the places at which the window and the turned ring differ; a mark differs from every ring edge. A start is a finding if its
 * distance is at most k, the allowance, for at least one rotation. A finding has four numbers: the start, the lowest rotation with the least distance,
 * that distance, and the ties: how many rotations have that distance, itself included, 1 to m (equal turns of a periodic ring each count). Places and
 * rotations count from 0.
 *
 * Marks came with change request 2. Before, byte 255 was an edge code like any other: a line in which it means an edge is searched differently now, and a
 * ring with that edge is refused. A silence at a place that is no start any more hides nothing.
 *
 * Silences. A silence has an address, which is a cell, a ring number and a start, and a ceiling, which is a distance. In a report of that cell and that
 * ring number it hides the finding at that start exactly if the finding's distance is at most the ceiling. So a copy that an edit made worse than what
 * was signed is shown again. A ceiling of 0 hides exact copies only. A book has a record for each silence, in strictly rising order by cell, then ring
 * number, then start. Ceilings play no part in the order, so no two records have the same address. A record is a field of one of two kinds. Its first
 * byte, the tag, says which; numbers have their high byte first:
 *   22 00 0C hex, cell (4 bytes), ring number (2), start (4), ceiling (2)   tag 22, 15 bytes; outlines_pack writes this kind only
 *   21 00 0A hex, cell (4 bytes), ring number (2), start (4)                tag 21, 13 bytes; read with ceiling 0
 * Both kinds may stand in one book. A book that is read has at most 15,000 bytes, and so at most 1,153 records (15,000 / 13), which are 4,612 words to
 * unpack; of 1,153 at most 5 can be of tag 22. To pack there are at most 1,000 records, 4,000 words.
 *
 * Ceilings came with change request 4, and they change what old books hide. Before, there was tag 21 only, and a silence hid the finding at its address
 * whatever its distance. A book of tag 21 is still read, but from now on it hides exact copies only: a finding at one of its addresses with a distance of
 * 1 or more is shown. To hide such findings again, unpack the book, set each record's fourth word to the distance that was signed, and pack the words. A
 * report by a book of tag 21 alone, of at most 1,000 records, is the report by the same addresses with ceiling 0 under tag 22. A record to pack or unpack
 * has four words now; it had three.
 *
 * One stored copy can be several findings. If an exact copy of the ring stands at start i, a window that begins s edges before or after it has a distance
 * of at most s. So every start from i - k to i + k is a finding, and the copy gives at least 2 k + 1 findings. There are fewer near the ends of an open
 * line, near marks, and in a closed line of fewer than 2 k + 1 places. With a mark just before it and another just behind it the copy gives one. A
 * reviewer who accepts that copy needs as many silences, each with its own finding's distance as ceiling: 5 at k = 2, so that a book of 1,000 silences is
 * full after some 200 separate copies.
 *
 * A closed line. A cell may deliver one boundary alone; its line is then a ring itself, and a copy may lie across its first vertex. The calls that end in
 * _closed search such a line: if n >= m, every place i from 0 to n - 1 has a window, the line's bytes at places i, i + 1, .. i + m - 1 mod n, and i is a
 * start if that window holds no mark. Findings and looks are those that the meanings and rules of an open line give for the line followed by its first
 * m - 1 bytes, even if that is longer than 65,536. If n < m there is no start and no look. Every finding of the open line is one of the closed line, with
 * the same four numbers.
 * These calls are lent one area more, the join area. If such a call is accepted and n >= m, the area's first 2 m - 2 bytes hold the line's last m - 1
 * bytes and then its first m - 1; the bytes behind them keep their values. If n < m, or if the call is refused, the whole area keeps its values.
 *
 * The other way round. One producer draws anticlockwise, so an outline may be stored in the other direction. For this an edge code is read as 8 * length
 * class + octant: length classes 0 to 30, octants 0 to 7, and so the codes 0 to 247. The reversed ring has the ring's edges in opposite order, each with its
 * octant turned by 4 modulo 8 and its length class kept: at place q stands the reversed code of the ring's edge at m - 1 - q, and the reversed code of c
 * is, in C, c / 8 * 8 + (c % 8 + 4) % 8. A ring that is reversed twice is the ring again. outlines_scan_two_way seeks the ring and the reversed ring.
 *
 * From vertices. outlines_import_vertices makes the edge bytes of a boundary from its vertices, one byte for each: edge i leads from vertex i to vertex
 * i + 1, the last from the last vertex to the first. A vertex is two signed 32-bit numbers, north before east. The steps dn and de of an edge, north
 * and east, are its second vertex less its first, computed exactly: up to 2^32 - 1 in size, which does not fit an int32_t. Its octant is 0 if dn > 0
 * and 0 <= de < dn, and so on clockwise, each octant with its first ray and without its last: the rays north, northeast, east, southeast, south,
 * southwest, west and northwest begin the octants 0 to 7. Its length class is the bit length of the larger of |dn| and |de|, less one, and 30 if that
 * is 31: class c below 30 is 2^c <= larger < 2^(c + 1), class 30 is 2^30 and more. The byte is 8 * length class + octant, at most 247. So an imported
 * ring holds no mark and no code that refusal 14 is for. A boundary of more than 256 vertices can stand in a line; as a ring it is refused (1). To make
 * a line of several boundaries, import each and put OUTLINES_MARK between them. Moving all vertices by the same step changes no byte; starting from
 * vertex s turns the bytes by s; the vertices in opposite order give the reversed ring, turned by 1.
 *
 * Calls. Every call takes every input. It is accepted or refused, and returns a struct by value: outlines_scan_two_way a struct outlines_two_way, each
 * other call a struct outlines_answer. A refused call has written nothing and returns zero in every count. A length counts elements: bytes of a ring, a
 * line, a book, a join area or an area for edges, 32-bit words of an area of words, numbers of a list of vertices, two for each vertex. A pointer must be
 * aligned for its type. Where its length is 0 it is never followed and may be null. An area that is lent for writing may be uninitialised, and must not
 * overlap anything else that is passed to the same call; inputs may overlap one another. A call reads and writes only what it is passed, and keeps no
 * pointer to it.
 *
 * Threads. The library keeps no state and takes no lock: calls may run at the same time, on any threads, as long as no area that one of them writes is
 * passed to another. Two calls may read the same ring, line or book. While a call runs, no thread may write what it reads, or touch what it writes.
 *
 * Stack. A call allocates nothing. The most bytes of stack that it needs, on x86-64 and aarch64, without the arguments that its caller pushes and without
 * the frames of the C library's memcpy, memmove and memset (docs/LOOKS.md):
 *   outlines_scan 6,000, outlines_scan_closed 6,000, outlines_report 6,000, outlines_report_closed 6,000, outlines_scan_two_way 6,400
 *   outlines_survey 3,224, outlines_survey_closed 3,288, outlines_pack 200, outlines_unpack 320, outlines_import_vertices 400
 * Where symbols are bound lazily, the first call takes some 3,200 bytes more, for the dynamic linker. On a small stack link the program with -Wl,-z,now, or
 * run it with LD_BIND_NOW=1.
 */
#ifndef OUTLINES_H
#define OUTLINES_H

#include <stddef.h>
#include <stdint.h>

#ifdef __cplusplus
extern "C" {
#endif

#define OUTLINES_VERSION "0.1.0"

/* Limits and sizes. */
#define OUTLINES_MOST_RING 256          /* most edges of a ring; the least is 1 */
#define OUTLINES_MOST_LINE 65536        /* most bytes of a line, marks included; the least is 0 */
#define OUTLINES_MARK 255               /* the byte that is a boundary mark */
#define OUTLINES_MOST_CODE 247          /* highest edge code of a ring for outlines_scan_two_way, and of an imported edge */
#define OUTLINES_FINDING_WORDS 4        /* words of a finding: start, rotation, distance, ties */
#define OUTLINES_SILENCE_WORDS 4        /* words of a silence: cell, ring number, start, ceiling */
#define OUTLINES_SILENCE_BYTES 15       /* bytes of a silence that outlines_pack writes */
#define OUTLINES_MOST_SILENCES 1000     /* most silences to pack */
#define OUTLINES_MOST_RING_NUMBER 65535 /* highest ring number of a silence and of a report */
#define OUTLINES_MOST_CEILING 65535     /* highest ceiling of a silence */
#define OUTLINES_MOST_RECORDS 1153      /* most records of a book that is read; 4,612 words to unpack */
#define OUTLINES_MOST_BOOK 15000        /* most bytes of a book */
#define OUTLINES_FEWEST_VERTICES 3      /* fewest vertices of a boundary to import */
#define OUTLINES_MOST_VERTICES 4096     /* most vertices of a boundary to import */

/* Room to lend for a ring of m edges and a line of n bytes: words for the findings of an open line, of a closed line and of a two-way scan, and bytes of a join
 * area. 0 if n < m, where no room is needed, and if n is above OUTLINES_MOST_LINE, which is refused whatever is lent; so nothing wraps. A ring of 0 or of
 * more than 256 edges is refused whatever is lent, and its room means nothing. A negative number counts as a very large one. m and n may be evaluated more
 * than once. If both are constants, so is the room, but not for #if; a room of 0 is no array's length in C. */
#define OUTLINES_ROOM(m, n) OUTLINES_IF_SEARCHED(m, n, OUTLINES_FINDING_WORDS * (OUTLINES_SIZE(n) - OUTLINES_SIZE(m) + 1))
#define OUTLINES_ROOM_CLOSED(m, n) OUTLINES_IF_SEARCHED(m, n, OUTLINES_FINDING_WORDS * OUTLINES_SIZE(n))
#define OUTLINES_ROOM_TWO_WAY(m, n) (2 * OUTLINES_ROOM(m, n))
#define OUTLINES_ROOM_JOIN(m, n) OUTLINES_IF_SEARCHED(m, n, OUTLINES_SIZE(m) > 0 ? 2 * OUTLINES_SIZE(m) - 2 : 0)
/* n < m, or n > OUTLINES_MOST_LINE, in a form in which no compiler warns that a narrow type is never so large */
#define OUTLINES_IF_SEARCHED(m, n, room) \
    (OUTLINES_SIZE(n) + 1 <= OUTLINES_SIZE(m) || OUTLINES_SIZE(n) / (OUTLINES_MOST_LINE + 1) != 0 ? OUTLINES_SIZE(0) : OUTLINES_SIZE(room))
#ifdef __cplusplus /* some are warned of a cast in C's form */
#define OUTLINES_SIZE(number) static_cast<size_t>(number)
#else
#define OUTLINES_SIZE(number) ((size_t)(number))
#endif

/* Refusals: the condition of each, and its place. If several conditions hold, the call gives the first in the order stated at the call. Record numbers
 * count from 0. */
enum outlines_refusal {
    OUTLINES_ACCEPTED = 0,
    OUTLINES_RING = 1,             /* the ring has no edge, or more than 256; place 0 */
    OUTLINES_ALLOWANCE = 2,        /* k is m or more; place 0 */
    OUTLINES_LINE = 3,             /* the line has more than 65,536 bytes; place 0 */
    OUTLINES_FINDINGS_ROOM = 4,    /* n >= m, and fewer than 4 (n - m + 1) words are lent for the findings, 4 n if the line is closed, 8 (n - m + 1) in the
                                    * two-way scan; place 0 */
    OUTLINES_BOOK_LENGTH = 5,      /* the book has more than 15,000 bytes; place 0 */
    OUTLINES_FIELD = 6,            /* a field of the book is neither 13 bytes that begin with 21 00 0A hex nor 15 bytes that begin with 22 00 0C hex, or
                                    * is cut off; place: the field's byte offset */
    OUTLINES_NOT_ABOVE = 7,        /* a record's address is not above that of the record before it, whatever their ceilings are; place: its byte offset
                                    * (the reports, unpack) or its record number (pack) */
    OUTLINES_WORD_COUNT = 8,       /* the number of words to pack is not a multiple of 4, or is above 4,000; place 0 */
    OUTLINES_NUMBER_IN_RECORD = 9, /* a word to pack as a ring number or a ceiling is above 65,535; place: its record number */
    OUTLINES_OUTPUT_ROOM = 10,     /* the area lent to pack, unpack or import_vertices is too small for the whole output; or, in a closed call, n >= m
                                    * and the join area has fewer than 2 m - 2 bytes; place 0 */
    OUTLINES_INPUT = 11,           /* the report program's input is not laid out as SPEC, section 8, says, which has its place too; no call declared
                                    * here gives it */
    OUTLINES_RING_MARK = 12,       /* the ring holds 255, a boundary mark; place 0 */
    OUTLINES_RING_CODE = 14,       /* two-way scan only: the ring holds a code above 247; place: the first ring place with such a code */
    OUTLINES_VERTEX_COUNT = 15,    /* import_vertices: an odd count of numbers, or fewer than 3 or more than 4,096 vertices; place 0 */
    OUTLINES_EQUAL_NEIGHBOURS = 16 /* import_vertices: a vertex equals the one after it, or the last one the first; place: the first vertex of the
                                    * earliest such pair, from 0 (the last vertex for the closing pair) */
};

/* A line of text for a refusal, in English, without a full stop; for a number that is none of them "unknown refusal". It is not part of the library's binary
 * interface, and its words may change. */
static inline const char *outlines_refusal_text(uint32_t refusal) {
    switch (refusal) {
    case OUTLINES_ACCEPTED: return "accepted";
    case OUTLINES_RING: return "the ring has no edge, or more than 256";
    case OUTLINES_ALLOWANCE: return "the allowance is not below the number of ring edges";
    case OUTLINES_LINE: return "the line has more than 65536 bytes";
    case OUTLINES_FINDINGS_ROOM: return "too few words are lent for the findings";
    case OUTLINES_BOOK_LENGTH: return "the book has more than 15000 bytes";
    case OUTLINES_FIELD: return "a field of the book is malformed or cut off";
    case OUTLINES_NOT_ABOVE: return "the address of a record is not above that of the record before it";
    case OUTLINES_WORD_COUNT: return "the number of words to pack is not a multiple of 4, or is above 4000";
    case OUTLINES_NUMBER_IN_RECORD: return "a ring number or a ceiling to pack is above 65535";
    case OUTLINES_OUTPUT_ROOM: return "too little room is lent for the output, or for the join area";
    case OUTLINES_INPUT: return "the input of the report program is malformed";
    case OUTLINES_RING_MARK: return "the ring holds byte 255, a boundary mark";
    case OUTLINES_RING_CODE: return "the ring holds a code above 247";
    case OUTLINES_VERTEX_COUNT: return "the count of numbers is odd, or there are fewer than 3 vertices or more than 4096";
    case OUTLINES_EQUAL_NEIGHBOURS: return "two neighbouring vertices are equal";
    default: return "unknown refusal";
    }
}

/* What every call but the two-way scan returns. A look is one byte of the line read by the quick scan, a mark too, or one comparison of a byte of the line
 * with a ring edge in computing distances; to test whether edges read so far fit the ring costs none (SPEC, section 3). */
struct outlines_answer {
    uint32_t refusal; /* 0 if the call is accepted, else a number of enum outlines_refusal */
    uint32_t place;   /* the place of the refusal; 0 if the call is accepted */
    uint64_t found;   /* survey, scan and report, open and closed: findings, hidden ones included; pack and unpack: records; import_vertices: edges */
    uint64_t hidden;  /* the two reports: findings that the book hides; 0 from the other calls */
    uint64_t looks;   /* survey, scan and report, open and closed: looks; 0 from pack, unpack and import_vertices */
};

/* What the two-way scan returns: found and looks of each of its two passes. */
struct outlines_two_way {
    uint32_t refusal;        /* 0 if the call is accepted, else a number of enum outlines_refusal */
    uint32_t place;          /* the place of the refusal; 0 if the call is accepted */
    uint64_t forward_found;  /* findings of the ring */
    uint64_t forward_looks;  /* looks of the scan for the ring */
    uint64_t backward_found; /* findings of the reversed ring */
    uint64_t backward_looks; /* looks of the scan for the reversed ring */
};

/* The plain survey: computes the least distance at every place i with i + m <= n, and lists the starts among them that are findings.
 *   ring, ring_length     the ring, m = ring_length: 1 to 256 edges, none of them 255
 *   line, line_length     the line, n = line_length: 0 to 65,536 bytes, with marks anywhere; a line shorter than the ring is accepted and has no start
 *   k                     the allowance: 0 to m - 1
 *   words, words_length   lent for the findings: at least 4 (n - m + 1) words if n >= m, marks or not; none are needed if n < m
 * Returns found and looks; looks are 2 m n - m m if n >= m, marks or not, else 0. Writes four words for each finding (start, rotation, distance, ties), by
 * rising start, and no word behind them. Refusals, in order: 1, 12, 2, 3, 4. */
struct outlines_answer outlines_survey(const uint8_t *ring, size_t ring_length, const uint8_t *line, size_t line_length, size_t k, uint32_t *words,
                                       size_t words_length);

/* The quick scan: the arguments, findings, words and refusals of outlines_survey, usually in much less time (README.md says when not). Its looks are
 * those that SPEC, section 3, counts: at most 3 m n - 2 m m + m if n >= m, else 0. */
struct outlines_answer outlines_scan(const uint8_t *ring, size_t ring_length, const uint8_t *line, size_t line_length, size_t k, uint32_t *words,
                                     size_t words_length);

/* The report: the quick scan, without the findings that the book hides. A finding is hidden exactly if the book has a record of this cell, this ring
 * number and the finding's start, and the finding's distance is at most that record's ceiling. Zero is a cell, ring number, start and ceiling like any
 * other, and no value stands for all. A record whose address has no finding hides nothing.
 *   cell, ring_number     the cell that the line is of, and the number of the ring; C cuts a larger number to 32 and 16 bits before the call, so test
 *                         it first
 *   book, book_length     a silence book: 0 to 15,000 bytes, records of tag 22, as outlines_pack writes them, and of tag 21; an empty book is valid
 *   the others            as for outlines_scan, with the same room for findings however many are hidden
 * Returns found (hidden ones included), hidden, and the looks of the scan. Writes the words of the shown findings only, found - hidden of them, by
 * rising start and without a gap, and no word behind them. Refusals, in order: 1, 12, 2, 3, 4, 5, then the first faulty
 * field of the book, 6 before 7. The book is read even if the line is shorter than the ring. */
struct outlines_answer outlines_report(uint32_t cell, uint16_t ring_number, const uint8_t *ring, size_t ring_length, const uint8_t *line,
                                       size_t line_length, size_t k, const uint8_t *book, size_t book_length, uint32_t *words, size_t words_length);

/* The two-way scan: the quick scan for the ring (forward), then the quick scan for the reversed ring (backward), over the same line.
 *   ring, ring_length     the ring, m = ring_length: 1 to 256 edges, none of their codes above 247
 *   line, line_length     the line, as for outlines_scan; its codes are not tested, and a byte of 248 to 254 differs from every edge of either ring
 *   k                     the allowance: 0 to m - 1, for both passes
 *   words, words_length   lent for the findings of both passes: at least 8 (n - m + 1) words if n >= m; none are needed if n < m
 * Returns found and looks of each pass. The forward pass has the findings and looks of outlines_scan for the ring, and the backward pass those of
 * outlines_scan for the reversed ring: of each pass at most 3 m n - 2 m m + m looks if n >= m, else 0. Writes four words for each finding (start, rotation,
 * distance, ties): the forward findings by rising start, then the backward ones by rising start, without a gap; so the first backward finding begins at word
 * 4 forward_found. No word behind the last one is written. The rotation of a backward finding counts on the reversed ring: turned by r, that ring has at
 * place q its edge (r + q) mod m. A start can be a finding of both passes. Refusals, in order: 1, 12, 2, 14, 3, 4. No other call refuses
 * a ring for the codes 248 to 254; for a ring that holds 255, refusal 12 comes before 14. */
struct outlines_two_way outlines_scan_two_way(const uint8_t *ring, size_t ring_length, const uint8_t *line, size_t line_length, size_t k, uint32_t *words,
                                              size_t words_length);

/* The plain survey of a closed line.
 *   join, join_length     the join area: at least 2 m - 2 bytes if n >= m, so none if m = 1; none are needed if n < m
 *   words, words_length   lent for the findings: at least 4 n words if n >= m; none are needed if n < m
 *   the others            as for outlines_survey
 * Returns found and looks; looks are 2 m (n + m - 1) - m m if n >= m, marks or not, else 0. Writes the words of the findings as outlines_survey does, and the
 * join area. Refusals, in order: 1, 12, 2, 3 (n alone is tested), 4, 10. */
struct outlines_answer outlines_survey_closed(const uint8_t *ring, size_t ring_length, const uint8_t *line, size_t line_length, size_t k, uint8_t *join,
                                              size_t join_length, uint32_t *words, size_t words_length);

/* The quick scan of a closed line: the arguments, findings, words, join area and refusals of outlines_survey_closed. Its looks are at most
 * 3 m (n + m - 1) - 2 m m + m if n >= m, else 0. */
struct outlines_answer outlines_scan_closed(const uint8_t *ring, size_t ring_length, const uint8_t *line, size_t line_length, size_t k, uint8_t *join,
                                            size_t join_length, uint32_t *words, size_t words_length);

/* The report of a closed line: outlines_scan_closed without the findings that the book hides. A record of this cell and ring number hides the finding at
 * its start, whichever of the places 0 to n - 1 that is, if the finding's distance is at most the record's ceiling.
 *   cell, ring_number, book, book_length   as for outlines_report
 *   the others                             as for outlines_survey_closed
 * As many words are needed however many findings are hidden. Returns found (hidden ones included), hidden, and the looks of the closed scan. Refusals, in
 * order: 1, 12, 2, 3 (n alone is tested), 4, 10, 5, then the first faulty field of the book, 6 before 7. The book is read even if n < m, and the join area is
 * written only if nothing is refused. */
struct outlines_answer outlines_report_closed(uint32_t cell, uint16_t ring_number, const uint8_t *ring, size_t ring_length, const uint8_t *line,
                                              size_t line_length, size_t k, const uint8_t *book, size_t book_length, uint8_t *join, size_t join_length,
                                              uint32_t *words, size_t words_length);

/* Packs silences into a book.
 *   words, words_length   four words for each silence (cell, ring number, start, ceiling): at most 4,000 words, in strictly rising order by cell, then
 *                         ring number, then start; a ring number and a ceiling are at most 65,535
 *   bytes, bytes_length   lent for the book: at least 15 bytes for each silence
 * Returns the number of records in found. Writes 15 bytes for each silence: 22 00 0C hex, cell (4 bytes), ring number (2), start (4), ceiling (2),
 * numbers high byte first; no byte behind them. Refusals, in order: 8, then the first faulty record, 9 before 7, then 10. */
struct outlines_answer outlines_pack(const uint32_t *words, size_t words_length, uint8_t *bytes, size_t bytes_length);

/* Unpacks a book into words. Unpacking a packed book gives the words back, word for word. A book of at most 1,000 records, unpacked and packed, reads back
 * to the same values, and has the same bytes if no record is of tag 21. The words of more than 1,000 records are refused by outlines_pack (8).
 *   book, book_length     a silence book: 0 to 15,000 bytes, records of tag 21 and tag 22; an empty book is valid
 *   words, words_length   lent for the silences: at least four words for each record; OUTLINES_SILENCE_WORDS * OUTLINES_MOST_RECORDS, which is
 *                         4,612, suffice for every book
 * Returns the number of records in found. Writes four words for each record (cell, ring number, start, ceiling), the ceiling 0 for tag 21, and no word
 * behind them. Refusals, in order: 5, then the first faulty field of the book, 6 before 7, then 10. */
struct outlines_answer outlines_unpack(const uint8_t *book, size_t book_length, uint32_t *words, size_t words_length);

/* Makes the edge bytes of a boundary from its vertices, as "From vertices" above says.
 *   numbers, numbers_length   the vertices, two numbers each, north before east; numbers_length counts numbers, so it is even, 6 to 8,192. No two
 *                             neighbours may be equal. The first vertex is the last one's neighbour too: do not give it again at the end
 *   edges, edges_length       lent for the edges: at least one byte for each vertex
 * Returns the number of edges in found. Writes one byte for each vertex, and no byte behind them. Refusals, in order: 15, 16, 10. */
struct outlines_answer outlines_import_vertices(const int32_t *numbers, size_t numbers_length, uint8_t *edges, size_t edges_length);

#ifdef __cplusplus
}
#endif

#endif
