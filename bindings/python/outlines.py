"""Outlines stored twice: finds a closed ring of edges in a line of edges, starting at any of its edges and with at most k edges that differ.

This module calls the proved shared library liboutlines.so.0 (include/outlines.h) by ctypes. It needs Python 3.8 or later and nothing else.

Terms. A ring has 1 to 256 edges, one byte each. A line has up to 65,536 bytes: edges, and byte 255 (MARK) where one boundary ends and the next begins. A
ring of m edges turned by r has its edge (r + q) mod m at place q; r is a rotation. Places and rotations count from 0. The allowance k is the most edges
that may differ, 0 to m - 1. One stored copy can be several findings: away from the line's ends and from marks an exact copy gives at least 2 k + 1.

From vertices to a report. The second boundary is the same square elsewhere, begun at another vertex, with one edge made shorter:

    >>> import outlines
    >>> ring = outlines.import_vertices([(0, 0), (8, 0), (8, 8), (0, 8)])  # north before east; the first vertex is not given again
    >>> copy = outlines.import_vertices([(108, 50), (108, 58), (100, 58), (101, 50)])
    >>> line = ring + bytes([outlines.MARK]) + copy
    >>> answer = outlines.scan(ring, line, 1)
    >>> for finding in answer.findings:
    ...     print("start", finding.start, "rotation", finding.rotation, "distance", finding.distance, "ties", finding.ties)
    start 0 rotation 0 distance 0 ties 1
    start 5 rotation 1 distance 1 ties 1
    >>> book = outlines.pack([outlines.Silence(cell=7, ring_number=2, start=0, ceiling=0)])
    >>> report = outlines.report(7, 2, ring, line, 1, book)
    >>> [finding.start for finding in report.findings], report.found, report.hidden
    ([5], 2, 1)
    >>> outlines.scan(ring, line, 4)
    Traceback (most recent call last):
        ...
    outlines.Refused: the allowance is not below the number of ring edges (refusal 2, place 0)

Arguments. A ring, a line and a book are bytes, or another contiguous buffer of unsigned bytes: bytearray, memoryview, array("B"), mmap. A str, a list and an
array of wider or signed items are a TypeError. A number is an integer and no bool, else a TypeError. A number that does not fit its C type is a ValueError
before the call; it is never cut. What fits, the library accepts or refuses, and a refusal is the exception Refused.

Threads. The module keeps no state, so calls may run at the same time. A buffer that can change is copied before the call.

Loading. The environment variable OUTLINES_LIBRARY has the library's path. If it is unset or empty, the library is the one that `make install` puts into
PREFIX/lib for the module in PREFIX/share/outlines/python, else the one that the system's loader finds.
"""
import enum, operator, os
from collections.abc import Iterable, Mapping, Set
from ctypes import CDLL, POINTER, Structure, c_char_p, c_int32, c_size_t, c_uint8, c_uint16, c_uint32, c_uint64, sizeof
from dataclasses import dataclass
from typing import Any, Callable, List, NamedTuple, Sequence, Tuple, Union

__version__ = "0.1.0"
__all__ = [
    "FEWEST_VERTICES", "FINDING_WORDS", "MARK", "MOST_BOOK", "MOST_CEILING", "MOST_CODE", "MOST_LINE", "MOST_RECORDS", "MOST_RING", "MOST_RING_NUMBER",
    "MOST_SILENCES", "MOST_VERTICES", "SILENCE_BYTES", "SILENCE_WORDS", "ByteBuffer", "Finding", "Found", "Refusal", "Refused", "Silence", "TwoWay",
    "import_vertices", "pack", "report", "report_closed", "scan", "scan_closed", "scan_two_way", "survey", "survey_closed", "unpack"]

MOST_RING = 256  # most edges of a ring; the least is 1
MOST_LINE = 65536  # most bytes of a line, marks included; the least is 0
MARK = 255  # the byte that is a boundary mark
MOST_CODE = 247  # highest edge code of a ring for scan_two_way, and of an imported edge
FINDING_WORDS = 4  # numbers of a Finding
SILENCE_WORDS = 4  # numbers of a Silence
SILENCE_BYTES = 15  # bytes of a silence that pack writes
MOST_SILENCES = 1000  # most silences to pack
MOST_RING_NUMBER = 65535  # highest ring number of a silence and of a report
MOST_CEILING = 65535  # highest ceiling of a silence
MOST_RECORDS = 1153  # most records of a book that is read: 15,000 bytes / 13
MOST_BOOK = 15000  # most bytes of a book
FEWEST_VERTICES = 3  # fewest vertices of a boundary to import
MOST_VERTICES = 4096  # most vertices of a boundary to import

ByteBuffer = Union[bytes, bytearray, memoryview]  # for the signatures; other contiguous buffers of unsigned bytes are accepted too


class Refusal(enum.IntEnum):
    """Why the library refuses a call: a number and `.text`, a line of English that may change. This module never causes FINDINGS_ROOM and OUTPUT_ROOM, because
    it lends enough room; INPUT belongs to the report program."""
    RING = 1, "the ring has no edge, or more than 256"
    ALLOWANCE = 2, "the allowance is not below the number of ring edges"
    LINE = 3, "the line has more than 65536 bytes"
    FINDINGS_ROOM = 4, "too few words are lent for the findings"
    BOOK_LENGTH = 5, "the book has more than 15000 bytes"
    FIELD = 6, "a field of the book is malformed or cut off"
    NOT_ABOVE = 7, "the address of a record is not above that of the record before it"
    WORD_COUNT = 8, "the number of words to pack is not a multiple of 4, or is above 4000"
    NUMBER_IN_RECORD = 9, "a ring number or a ceiling to pack is above 65535"
    OUTPUT_ROOM = 10, "too little room is lent for the output, or for the join area"
    INPUT = 11, "the input of the report program is malformed"
    RING_MARK = 12, "the ring holds byte 255, a boundary mark"
    RING_CODE = 14, "the ring holds a code above 247"
    VERTEX_COUNT = 15, "the count of numbers is odd, or there are fewer than 3 vertices or more than 4096"
    EQUAL_NEIGHBOURS = 16, "two neighbouring vertices are equal"
    text: str

    def __new__(cls, number: int, text: str) -> "Refusal":
        member = int.__new__(cls, number)
        member._value_, member.text = number, text
        return member


class Refused(Exception):
    """The library refused the call, so there is no answer.

    refusal   the Refusal; if several conditions hold, the first in the order that the function states
    place     FIELD and NOT_ABOVE in a book: the record's byte offset; NOT_ABOVE and NUMBER_IN_RECORD in pack: the record's number; RING_CODE: the ring
              place; EQUAL_NEIGHBOURS: the vertex; 0 for the others. All count from 0, so 0 may be a place: ask for the refusal first
    """

    def __init__(self, refusal: Refusal, place: int) -> None:
        super().__init__(refusal, place)
        self.refusal, self.place = Refusal(refusal), place

    def __str__(self) -> str:
        return f"{self.refusal.text} (refusal {int(self.refusal)}, place {self.place})"


class Finding(NamedTuple):
    """A place of the line whose window, the m bytes from there on, holds no mark and differs in at most k edges from the ring under some rotation.

    start      the window's first place in the line; in a closed line the window may cross the end and go on with the line's first bytes
    rotation   the lowest rotation with the least distance; that of a backward finding counts on the reversed ring
    distance   that least distance: the number of edges that differ
    ties       how many rotations have that distance, this one included: 1 to m, and 1 if no other has it; equal turns of a periodic ring each count
    """
    start: int
    rotation: int
    distance: int
    ties: int


class Silence(NamedTuple):
    """Hides the finding at `start` in reports of this cell and this ring number, exactly if the finding's distance is at most the ceiling. Zero is a value like
    any other, and none stands for all. Ceiling 0 hides exact copies only. Cell and start have 32 bits, ring number and ceiling 16."""
    cell: int
    ring_number: int
    start: int
    ceiling: int


@dataclass(frozen=True)
class Found:
    """What a search found. It is no sequence, and it is true even if nothing was found: use `findings`.

    findings   by rising start; a report has the shown ones only, found - hidden of them
    found      how many findings there are, hidden ones included
    hidden     how many findings the book hides (it does not count silences); 0 if the call is no report
    looks      the work: reads of a byte of the line by the quick scan, plus comparisons of a byte of the line with a ring edge
    """
    findings: List[Finding]
    found: int
    hidden: int
    looks: int


@dataclass(frozen=True)
class TwoWay:
    """What scan_two_way found: the answer of scan for the ring (forward) and for the reversed ring (backward). A start can be a finding of both."""
    forward: Found
    backward: Found


class _Answer(Structure):
    _fields_ = [("refusal", c_uint32), ("place", c_uint32)] + [(count, c_uint64) for count in ("found", "hidden", "looks")]


class _TwoWayAnswer(Structure):
    _fields_ = [("refusal", c_uint32), ("place", c_uint32)] + [
        (count, c_uint64) for count in ("forward_found", "forward_looks", "backward_found", "backward_looks")]


# The C types of each call, in the header's order. A pointer comes with its length.
_GIVEN, _AREA, _WORDS, _NUMBERS = ([pointer, c_size_t] for pointer in (c_char_p, POINTER(c_uint8), POINTER(c_uint32), POINTER(c_int32)))
_SEARCH = _GIVEN + _GIVEN + [c_size_t]
_REPORT = [c_uint32, c_uint16] + _SEARCH + _GIVEN
_CALLS = {
    "outlines_survey": (_Answer, _SEARCH + _WORDS),
    "outlines_scan": (_Answer, _SEARCH + _WORDS),
    "outlines_report": (_Answer, _REPORT + _WORDS),
    "outlines_scan_two_way": (_TwoWayAnswer, _SEARCH + _WORDS),
    "outlines_survey_closed": (_Answer, _SEARCH + _AREA + _WORDS),
    "outlines_scan_closed": (_Answer, _SEARCH + _AREA + _WORDS),
    "outlines_report_closed": (_Answer, _REPORT + _AREA + _WORDS),
    "outlines_pack": (_Answer, _WORDS + _AREA),
    "outlines_unpack": (_Answer, _GIVEN + _WORDS),
    "outlines_import_vertices": (_Answer, _NUMBERS + _AREA),
}


def _load() -> CDLL:
    """The library, with the types of each call declared."""
    folder, mine = os.path.dirname(os.path.realpath(__file__)), os.path.join("share", "outlines", "python")
    installed = os.path.join(folder[:-len(mine)], "lib", "liboutlines.so.0") if folder.endswith(os.sep + mine) else ""
    path = os.environ.get("OUTLINES_LIBRARY") or (installed if os.path.exists(installed) else "liboutlines.so.0")
    try:
        library = CDLL(path)
        for name, (result, arguments) in _CALLS.items():
            call = getattr(library, name)
            call.restype, call.argtypes = result, arguments
    except (OSError, AttributeError) as error:
        raise ImportError(f"the outlines library does not load ({error}): run `make install PREFIX=..`, or set OUTLINES_LIBRARY to its path") from None
    return library


_library = _load()
_MOST_WORD, _MOST_SIZE = 2**32 - 1, 2 ** (8 * sizeof(c_size_t)) - 1


def _number(name: str, value: Any, low: int, high: int) -> int:
    """The number, if it fits its C type: ctypes would cut it. It is read once, as an exact int, because a second __index__ may give another number."""
    if isinstance(value, bool) or not hasattr(type(value), "__index__"):
        raise TypeError(f"{name} must be an integer, not {type(value).__name__}")
    number = int.__index__(operator.index(value))
    if not low <= number <= high:
        shown = str(number) if number.bit_length() <= 128 else f"an integer of {number.bit_length()} bits"
        raise ValueError(f"{name} is {shown}; its range is {low} to {high}")
    return number


def _bytes(name: str, value: Any) -> bytes:
    """The buffer's bytes, where nothing can change them during the call."""
    if type(value) is bytes:
        return value
    try:
        view = memoryview(value)
    except TypeError:
        raise TypeError(f"{name} must be bytes or another buffer of unsigned bytes, not {type(value).__name__}") from None
    with view:
        if view.format.lstrip("@=<>!") not in ("B", "c") or view.ndim != 1 or not view.contiguous:
            shape = f"format {view.format!r}, ndim {view.ndim}, {'' if view.contiguous else 'not '}contiguous"
            raise TypeError(f"{name} must be one contiguous row of unsigned bytes (format 'B' or 'c'), not {type(value).__name__} of {shape}")
        return view.tobytes()


def _items(name: str, value: Any, what: str) -> List[Any]:
    """The items of a sequence, or of another iterable in which they have an order. A Finding has four numbers too, but it is no silence."""
    if not isinstance(value, Iterable) or isinstance(value, (str, bytes, bytearray, memoryview, Set, Mapping, Finding)):
        raise TypeError(f"{name} must be {what}, not {type(value).__name__}")
    return list(value)


def _numbers(name: str, rows: Any, fields: Sequence[str], low: int, high: int) -> List[int]:
    """The numbers of all silences or vertices, row by row. Each row must have one for each field, so no row can pass for a part of another."""
    what, numbers = f"({', '.join(fields)})", []
    for place, row in enumerate(_items(name, rows, f"a sequence of {what}")):
        items = _items(f"{name}[{place}]", row, what)
        if len(items) != len(fields):
            raise ValueError(f"{name}[{place}] has {len(items)} numbers; it must have {len(fields)}: {what}")
        numbers += [_number(f"{name}[{place}].{field}", item, low, high) for field, item in zip(fields, items)]
    return numbers


def _accepted(answer: Any) -> Any:
    """The answer of an accepted call. A number that the header does not have comes from another library; it must not pass for an answer."""
    if answer.refusal == 0:
        return answer
    if answer.refusal not in list(Refusal):
        raise RuntimeError(f"the library gave refusal {answer.refusal}, which the module outlines {__version__} does not know")
    raise Refused(Refusal(answer.refusal), answer.place)


def _rows(kind: Callable[..., Any], words: Any, first: int, count: int) -> List[Any]:
    """`count` findings or silences, from number `first` on; each has four words."""
    flat = iter(words[4 * first:4 * (first + count)])
    return [kind(*four) for four in zip(flat, flat, flat, flat)]


def _windows(ring: bytes, line: bytes, closed: bool = False) -> int:
    """How many windows the line has, and so the most findings of a pass; 0 if the ring's or the line's length is refused, whatever is lent."""
    m, n = len(ring), len(line)
    if not (1 <= m <= MOST_RING and m <= n <= MOST_LINE):
        return 0
    return n if closed else n - m + 1


def _search(call: str, ring: Any, line: Any, allowance: Any, closed: bool = False, reported: Tuple[Any, ...] = ()) -> Found:
    """A search by the named call; `reported` is empty, or cell, ring number and book."""
    passed: List[Any] = []
    if reported:
        passed = [_number("cell", reported[0], 0, _MOST_WORD), _number("ring_number", reported[1], 0, MOST_RING_NUMBER)]
    ring, line = _bytes("ring", ring), _bytes("line", line)
    passed += [ring, len(ring), line, len(line), _number("allowance", allowance, 0, _MOST_SIZE)]
    if reported:
        book = _bytes("book", reported[2])
        passed += [book, len(book)]
    windows = _windows(ring, line, closed)
    if closed:
        join = (c_uint8 * (2 * len(ring) - 2 if windows else 0))()
        passed += [join, len(join)]
    words = (c_uint32 * (FINDING_WORDS * windows))()
    answer = _accepted(getattr(_library, call)(*passed, words, len(words)))
    return Found(_rows(Finding, words, 0, answer.found - answer.hidden), answer.found, answer.hidden, answer.looks)


def survey(ring: ByteBuffer, line: ByteBuffer, allowance: int) -> Found:
    """The plain survey: computes the least distance at every window. It has the findings of scan and usually takes much longer. Its looks are 2 m n - m m if
    n >= m, else 0. Refusals, in order: RING, RING_MARK, ALLOWANCE, LINE."""
    return _search("outlines_survey", ring, line, allowance)


def scan(ring: ByteBuffer, line: ByteBuffer, allowance: int) -> Found:
    """The quick scan: finds every place of the line where some rotation of the ring stands, within one boundary, with at most `allowance` differing edges. A
    line shorter than the ring is accepted and has no finding. If the ring was cut from this line, its own place is found too. A newline at a file's end counts
    as an edge. Refusals, in order: RING, RING_MARK, ALLOWANCE, LINE."""
    return _search("outlines_scan", ring, line, allowance)


def report(cell: int, ring_number: int, ring: ByteBuffer, line: ByteBuffer, allowance: int, book: ByteBuffer) -> Found:
    """The report: the quick scan, without the findings that the book hides; b"" is the empty book. A finding is hidden exactly if the book has a record of
    this cell, this ring number and the finding's start, and the finding's distance is at most that record's ceiling. The book is read even if the line is
    shorter than the ring. Refusals, in order: RING, RING_MARK, ALLOWANCE, LINE, BOOK_LENGTH, then the first faulty field, FIELD before NOT_ABOVE."""
    return _search("outlines_report", ring, line, allowance, reported=(cell, ring_number, book))


def survey_closed(ring: ByteBuffer, line: ByteBuffer, allowance: int) -> Found:
    """The plain survey of a closed line: the findings of scan_closed, as survey has those of scan. Its looks are 2 m (n + m - 1) - m m if n >= m, else 0.
    Refusals as for scan."""
    return _search("outlines_survey_closed", ring, line, allowance, closed=True)


def scan_closed(ring: ByteBuffer, line: ByteBuffer, allowance: int) -> Found:
    """The quick scan of a closed line, which is one boundary alone: after its last byte comes its first, and if n >= m every place 0 to n - 1 has a window. Do
    not give the first bytes again. Every finding of scan is one of these, with the same numbers; the others cross the line's end. Refusals as for scan."""
    return _search("outlines_scan_closed", ring, line, allowance, closed=True)


def report_closed(cell: int, ring_number: int, ring: ByteBuffer, line: ByteBuffer, allowance: int, book: ByteBuffer) -> Found:
    """The report of a closed line: scan_closed without the findings that the book hides. A start names the place in the line as it is stored: if the line is
    stored from another vertex, the starts are other numbers. Refusals as for report."""
    return _search("outlines_report_closed", ring, line, allowance, closed=True, reported=(cell, ring_number, book))


def scan_two_way(ring: ByteBuffer, line: ByteBuffer, allowance: int) -> TwoWay:
    """The quick scan for the ring, then for the reversed ring, which is the outline drawn in the other direction. The line is open. A code is read as
    8 * length class + octant, so the ring may hold 0 to 247 only. The reversed ring has at place q the ring's edge m - 1 - q with its code c made
    c // 8 * 8 + (c % 8 + 4) % 8. The rotation of a backward finding counts on the reversed ring: turned by r, that has its edge (r + q) mod m at place q.
    Refusals, in order: RING, RING_MARK, ALLOWANCE, RING_CODE (place: the first such ring place), LINE."""
    ring, line, allowance = _bytes("ring", ring), _bytes("line", line), _number("allowance", allowance, 0, _MOST_SIZE)
    words = (c_uint32 * (2 * FINDING_WORDS * _windows(ring, line)))()
    answer = _accepted(_library.outlines_scan_two_way(ring, len(ring), line, len(line), allowance, words, len(words)))
    forward, backward = answer.forward_found, answer.backward_found
    return TwoWay(Found(_rows(Finding, words, 0, forward), forward, 0, answer.forward_looks),
                  Found(_rows(Finding, words, forward, backward), backward, 0, answer.backward_looks))


def pack(silences: Sequence[Tuple[int, int, int, int]]) -> bytes:
    """Packs silences, or plain (cell, ring_number, start, ceiling) tuples, into a book: 15 bytes each, at most 1,000. They must come in strictly rising order
    by cell, then ring number, then start, as `sorted` puts them; pack does not sort. No two may have the same address, whatever their ceilings are. Refusals,
    in order: WORD_COUNT, then the first faulty record (place: its number), NUMBER_IN_RECORD before NOT_ABOVE."""
    numbers = _numbers("silences", silences, Silence._fields, 0, _MOST_WORD)
    words = (c_uint32 * len(numbers))(*numbers)
    book = (c_uint8 * (SILENCE_BYTES * min(len(numbers) // SILENCE_WORDS, MOST_SILENCES)))()
    answer = _accepted(_library.outlines_pack(words, len(words), book, len(book)))
    return bytes(book)[:SILENCE_BYTES * answer.found]


def unpack(book: ByteBuffer) -> List[Silence]:
    """Unpacks a book. A record of tag 21 has ceiling 0, so it hides exact copies only. A book of more than 1,000 records is read, but pack refuses to write it
    again. Refusals, in order: BOOK_LENGTH, then the first faulty field (place: its byte offset), FIELD before NOT_ABOVE."""
    book = _bytes("book", book)
    words = (c_uint32 * (SILENCE_WORDS * MOST_RECORDS))()
    answer = _accepted(_library.outlines_unpack(book, len(book), words, len(words)))
    return _rows(Silence, words, 0, answer.found)


def import_vertices(vertices: Sequence[Tuple[int, int]]) -> bytes:
    """The edge bytes of a boundary, one for each (north, east) vertex: 8 * length class + octant, at most 247. Edge i leads from vertex i to the next one, the
    last edge from the last vertex to the first. So do not give the first vertex again at the end: that is an equal neighbour. For a line of several boundaries
    import each and put MARK between them. A boundary of more than 256 vertices can stand in a line, but is refused as a ring. Refusals, in order: VERTEX_COUNT
    (fewer than 3 vertices or more than 4,096), EQUAL_NEIGHBOURS (place: the first vertex of the earliest such pair)."""
    numbers = _numbers("vertices", vertices, ("north", "east"), -(2**31), 2**31 - 1)
    words = (c_int32 * len(numbers))(*numbers)
    edges = (c_uint8 * min(len(numbers) // 2, MOST_VERTICES))()
    answer = _accepted(_library.outlines_import_vertices(words, len(words), edges, len(edges)))
    return bytes(edges)[:answer.found]
