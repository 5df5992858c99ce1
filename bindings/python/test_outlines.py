#!/usr/bin/env python3
"""Tests outlines.py on the shared library: the one that OUTLINES_LIBRARY names, or target/native/liboutlines.so.VERSION, which tools/native builds.

    python3 bindings/python/test_outlines.py

The last line is 'N passed, M failed', where N and M count tests; exit status 1 if one failed.
"""
import array, ctypes, decimal, doctest, functools, itertools, mmap, os, pickle, random, re, shutil, subprocess, sys, tempfile, threading, unittest
from unittest import mock

sys.dont_write_bytecode = True
HERE = os.path.dirname(os.path.abspath(__file__))
ROOT = os.path.join(HERE, "..", "..")


def read(name):
    with open(os.path.join(ROOT, name), encoding="utf-8") as file:
        return file.read()


VERSION = read("VERSION").strip()
LIBRARY = os.path.abspath(os.environ.get("OUTLINES_LIBRARY") or os.path.join(ROOT, "target/native", f"liboutlines.so.{VERSION}"))
os.environ["OUTLINES_LIBRARY"] = LIBRARY
sys.path.insert(0, HERE)
import outlines
from outlines import MARK, Finding, Found, Refusal, Refused, Silence

HEADER = read("include/outlines.h")
C_TYPES = {
    "const uint8_t *": ctypes.c_char_p, "uint8_t *": ctypes.POINTER(ctypes.c_uint8), "const uint32_t *": ctypes.POINTER(ctypes.c_uint32),
    "uint32_t *": ctypes.POINTER(ctypes.c_uint32), "const int32_t *": ctypes.POINTER(ctypes.c_int32), "size_t": ctypes.c_size_t, "uint16_t": ctypes.c_uint16,
    "uint32_t": ctypes.c_uint32, "uint64_t": ctypes.c_uint64,
}
SQUARE = ((0, 0), (8, 0), (8, 8), (0, 8))
SEARCHES = ("survey", "scan", "survey_closed", "scan_closed", "scan_two_way")
REPORTS = ("report", "report_closed")
# Arguments that each function accepts, by name and in order.
GOOD = {**{name: {"ring": b"aa", "line": b"aaa", "allowance": 0} for name in SEARCHES},
        **{name: {"cell": 7, "ring_number": 2, "ring": b"aa", "line": b"aaa", "allowance": 0, "book": b""} for name in REPORTS},
        "pack": {"silences": ((7, 2, 1, 0), (7, 2, 3, 1))}, "unpack": {"book": b""}, "import_vertices": {"vertices": SQUARE}}
WORD, SIZE, SIGNED = (0, 2**32 - 1), (0, 2**64 - 1), (-(2**31), 2**31 - 1)
RANGES = {"cell": WORD, "ring_number": (0, 65535), "allowance": SIZE}
BUFFERS = ("ring", "line", "book")


class Recorder:
    """A library that records each call and returns an answer with this refusal and nothing found."""
    def __init__(self, refusal=0, place=0):
        self.calls, self.answer = [], (refusal, place)

    def __getattr__(self, name):
        def call(*passed):
            self.calls.append(tuple(item.value if hasattr(item, "value") else tuple(item) if isinstance(item, ctypes.Array) else item for item in passed))
            return outlines._CALLS[name][0](*self.answer)
        return call


def places():
    """(function, argument as messages name it, range, a function that gives the arguments with a value put there, where it is passed) for every number"""
    for name, good in GOOD.items():
        for argument in [one for one in RANGES if one in good]:
            at = {"cell": 0, "ring_number": 1, "allowance": 6 if "cell" in good else 4}[argument]
            yield name, argument, RANGES[argument], lambda value, good=good, argument=argument: {**good, argument: value}, lambda passed, at=at: passed[at]
        for argument, fields, span in (("silences", Silence._fields, WORD), ("vertices", ("north", "east"), SIGNED)):
            for row, field in itertools.product((0, 1), range(len(fields) if argument in good else 0)):
                def changed(value, good=good, argument=argument, row=row, field=field):
                    rows = [list(one) for one in good[argument]]
                    rows[row][field] = value
                    return {argument: rows}
                at = row * len(fields) + field
                yield name, f"{argument}[{row}].{fields[field]}", span, changed, lambda passed, at=at: passed[0][at]


def reversed_ring(ring):
    return bytes(code // 8 * 8 + (code % 8 + 4) % 8 for code in ring[::-1])


@functools.lru_cache(maxsize=None)
def least(ring, window):
    """rotation, distance and ties of a window by their definition; None if it holds a mark"""
    if MARK in window:
        return None
    m = len(ring)
    distances = [sum(window[q] != ring[(r + q) % m] for q in range(m)) for r in range(m)]
    return distances.index(min(distances)), min(distances), distances.count(min(distances))


def naive(ring, line, allowance, closed=False):
    """the findings by their definition"""
    m, n = len(ring), len(line)
    windows = [(i, (line + line)[i:i + m]) for i in (range(n) if closed else range(n - m + 1))] if n >= m else []
    return [Finding(i, *least(ring, window)) for i, window in windows if least(ring, window) and least(ring, window)[1] <= allowance]


def python(script, *options, env=None, cwd=None):
    """what a script prints in a Python of its own, and its exit status"""
    done = subprocess.run([sys.executable, "-B", *options, "-c", script], stdout=subprocess.PIPE, stderr=subprocess.STDOUT, env=env, cwd=cwd, timeout=60)
    return done.stdout.decode(), done.returncode


class Case(unittest.TestCase):
    def refused(self, refusal, place, name, *arguments):
        with self.assertRaises(Refused) as caught:
            getattr(outlines, name)(*arguments)
        self.assertEqual((caught.exception.refusal, caught.exception.place), (refusal, place))
        self.assertIs(caught.exception.refusal, refusal)

    def uncalled(self, error, pattern, name, arguments):
        """the error comes before the call"""
        with mock.patch.object(outlines, "_library", Recorder()) as library:
            with self.assertRaisesRegex(error, pattern) as caught:
                getattr(outlines, name)(**arguments)
        self.assertIs(type(caught.exception), error)
        self.assertEqual(library.calls, [])


class TheHeader(Case):
    def test_constants(self):
        header = {name: int(value) for name, value in re.findall(r"(?m)^#define OUTLINES_([A-Z_]+) (\d+)\b", HEADER)}
        self.assertEqual({name: value for name, value in vars(outlines).items() if type(value) is int and name[0] != "_"}, header)

    def test_version(self):
        self.assertEqual((outlines.__version__, re.search(r'#define OUTLINES_VERSION "(.*)"', HEADER)[1]), (VERSION, VERSION))

    def test_refusals(self):
        numbers = {name: int(number) for name, number in re.findall(r"OUTLINES_([A-Z_]+) = (\d+)", HEADER)}
        self.assertEqual(numbers.pop("ACCEPTED"), 0)
        self.assertEqual({refusal.name: refusal.value for refusal in Refusal}, numbers)
        self.assertEqual({name: int(refusal) for name, refusal in Refusal.__members__.items()}, numbers)

    def test_refusal_texts(self):
        texts = dict(re.findall(r'case OUTLINES_([A-Z_]+): return "(.*)";', HEADER))
        self.assertEqual(texts.pop("ACCEPTED"), "accepted")
        self.assertEqual({refusal.name: refusal.text for refusal in Refusal}, texts)

    def test_prototypes(self):
        results = {"outlines_answer": outlines._Answer, "outlines_two_way": outlines._TwoWayAnswer}
        header = {}
        for result, name, arguments in re.findall(r"(?m)^struct (\w+) (outlines_\w+)\(([^)]*)\);", HEADER):
            types = [re.fullmatch(r"(.*?\W)\w+", " ".join(argument.split()))[1].strip() for argument in arguments.split(",")]
            header[name] = results[result], [C_TYPES[one] for one in types]
        self.assertEqual(outlines._CALLS, header)
        for name, (result, arguments) in header.items():
            call = getattr(outlines._library, name)
            self.assertEqual((call.restype, list(call.argtypes)), (result, arguments), name)

    def test_structs(self):
        for name, struct in (("outlines_answer", outlines._Answer), ("outlines_two_way", outlines._TwoWayAnswer)):
            body = re.search(r"(?s)struct %s \{\n(.*?)\n\};" % name, HEADER)[1]
            fields = [(field, C_TYPES[kind]) for kind, field in re.findall(r"(?m)^    (\w+) (\w+);", body)]
            self.assertEqual((struct._fields_, ctypes.sizeof(struct)), (fields, 8 + 8 * (len(fields) - 2)))

    def test_names(self):
        calls = {name[len("outlines_"):] for name in re.findall(r"(?m)^struct \w+ (outlines_\w+)\(", HEADER)}
        kinds = {"ByteBuffer", "Refusal", "Refused", "Finding", "Silence", "Found", "TwoWay"}
        self.assertEqual(calls, GOOD.keys())
        self.assertEqual(set(outlines.__all__), calls | kinds | set(re.findall(r"(?m)^#define OUTLINES_([A-Z_]+) \d", HEADER)))
        self.assertEqual(len(set(outlines.__all__)), len(outlines.__all__))
        for name in calls | kinds - {"ByteBuffer"}:
            self.assertTrue(getattr(outlines, name).__doc__, name)
        for name, good in GOOD.items():
            self.assertEqual([*getattr(outlines, name).__annotations__], [*good, "return"])


class TheRanges(Case):
    def test_every_number_at_its_ends(self):
        for name, argument, span, changed, arrived in places():
            for value in span:
                with self.subTest(name=name, argument=argument, value=value), mock.patch.object(outlines, "_library", Recorder()) as library:
                    getattr(outlines, name)(**changed(value))
                    self.assertEqual(len(library.calls), 1)
                    self.assertEqual(arrived(library.calls[0]), value)

    def test_every_number_beyond_its_ends(self):
        seen = set()
        for name, argument, (low, high), changed, _ in places():
            for value in (low - 1, high + 1, -(2**63), 2**64, 2**64 + 7, -(2**64) + 1):
                with self.subTest(name=name, argument=argument, value=value):
                    self.uncalled(ValueError, "^" + re.escape(f"{argument} is {value}; its range is {low} to {high}") + "$", name, changed(value))
                    seen.add((name, argument))
        self.assertEqual(len(seen), 5 + 2 * 3 + 2 * 4 + 2 * 2)

    def test_a_cell_is_not_cut(self):
        for name in REPORTS:
            self.uncalled(ValueError, "^cell is 4294967303; its range is 0 to 4294967295$", name, {**GOOD[name], "cell": 2**32 + 7})
            self.uncalled(ValueError, "^ring_number is 65538; its range is 0 to 65535$", name, {**GOOD[name], "ring_number": 65538})

    def test_the_ends_reach_the_library_whole(self):
        for cell, ring_number in itertools.product((0, 1, 2**31, 2**32 - 1), (0, 1, 2**15, 65535)):
            book = outlines.pack([(cell, ring_number, 0, 0)])
            for name in REPORTS:
                report = getattr(outlines, name)
                self.assertEqual(report(cell, ring_number, b"ab", b"abz", 0, book), Found([], 1, 1, report(0, 0, b"ab", b"abz", 0, b"").looks))
                self.assertEqual(report(cell ^ 2**31, ring_number, b"ab", b"abz", 0, book).hidden, 0)
                self.assertEqual(report(cell, ring_number ^ 2**15, b"ab", b"abz", 0, book).hidden, 0)
        for name in SEARCHES + REPORTS:
            for allowance in (2, 2**8, 2**16, 2**31, 2**32, 2**32 + 1, 2**63, 2**64 - 1):
                self.refused(Refusal.ALLOWANCE, 0, name, *{**GOOD[name], "allowance": allowance}.values())

    def test_numbers_of_wrong_types(self):
        for name, argument, _, changed, _ in places():
            for value in (True, False, 1.0, "1", b"1", None, 1j, decimal.Decimal(1), [1], float("nan")):
                with self.subTest(name=name, argument=argument, value=value):
                    self.uncalled(TypeError, f"^{re.escape(argument)} must be an integer, not {type(value).__name__}$", name, changed(value))

    def test_huge_numbers(self):
        for value, shown in ((2**128, "an integer of 129 bits"), (-(10**5000), "an integer of 16610 bits"), (1 << 10**7, "an integer of 10000001 bits")):
            self.uncalled(ValueError, f"^allowance is {shown}; its range is 0 to 18446744073709551615$", "scan", {**GOOD["scan"], "allowance": value})

    def test_an_index_is_read_once(self):
        class Changing:
            def __init__(self, *values):
                self.values = list(values)

            def __index__(self):
                return self.values.pop(0)

        for name in REPORTS:
            with mock.patch.object(outlines, "_library", Recorder()) as library:
                getattr(outlines, name)(**{**GOOD[name], "cell": Changing(7, 2**32 + 9), "ring_number": Changing(2, -1), "allowance": Changing(1, -1)})
            self.assertEqual((library.calls[0][:2], library.calls[0][6]), ((7, 2), 1))
            self.uncalled(ValueError, "^cell is 4294967305;", name, {**GOOD[name], "cell": Changing(2**32 + 9, 7)})

    def test_numbers_that_lie(self):
        class Lying(int):
            __le__ = __ge__ = __lt__ = __gt__ = lambda self, other: True
            __int__ = __index__ = lambda self: 0
            __str__ = __repr__ = __format__ = lambda self, *_: "0"

        class Two:
            __index__, __int__ = (lambda self: 7), (lambda self: 9)

        for name in REPORTS:
            self.uncalled(ValueError, "^cell is 4294967303; its range", name, {**GOOD[name], "cell": Lying(2**32 + 7)})
            with mock.patch.object(outlines, "_library", Recorder()) as library:
                getattr(outlines, name)(**{**GOOD[name], "cell": Lying(7), "ring_number": Two()})
            self.assertEqual((library.calls[0][:2], {type(number) for number in library.calls[0][:2]}), ((7, 7), {int}))

    def test_integers_of_other_kinds(self):
        class Number:
            def __index__(self):
                return 1

        for number in (Number(), Refusal.RING, ctypes.c_uint8(1).value, True + 0):
            self.assertEqual(outlines.scan(b"ab", b"zbz", number), outlines.scan(b"ab", b"zbz", 1))


class TheBuffers(Case):
    def test_wrong_buffers(self):
        wide = array.array("i", [97, 98])
        row = bytes(range(8))
        wrong = ("aa", ["a"], [97, 98], (97, 98), wide, array.array("b", [97]), array.array("H", [97]), memoryview(wide), memoryview(row).cast("b"),
                 memoryview(row).cast("?"), memoryview(row).cast("B", (2, 4)), memoryview(row)[::2], memoryview(row)[::-1], None, 2, 2.0, {97}, object(),
                 iter(b"aa"), (ctypes.c_int8 * 2)(97, 98), (ctypes.c_uint16 * 2)(97, 98), ctypes.c_uint8(97), memoryview(row).cast("I"), range(3))
        for name, good in GOOD.items():
            for argument, value in itertools.product([one for one in BUFFERS if one in good], wrong):
                with self.subTest(name=name, argument=argument, value=value):
                    self.uncalled(TypeError, f"^{argument} must be .*unsigned bytes.*, not {type(value).__name__}\\b", name, {**good, argument: value})

    def test_all_kinds_give_the_same_answer(self):
        def mapped(data):
            memory = mmap.mmap(-1, len(data))
            memory[:] = data
            return memory

        class Bytes(bytes):
            def __len__(self):
                return 10**9

        kinds = (bytes, bytearray, memoryview, lambda data: array.array("B", data), mapped, Bytes, lambda data: memoryview(data).cast("c"),
                 lambda data: memoryview(b"xx" + data + b"xx")[2:-2], lambda data: (ctypes.c_uint8 * len(data))(*data), lambda data: memoryview(bytearray(data)),
                 lambda data: (ctypes.c_char * len(data))(*data), lambda data: memoryview(b"".join(bytes([byte, 0]) for byte in data))[::2].tobytes())
        ring, line, book = b"GGGTCTA", b"GATACGATACCTAGGGTGATAGAATAG", outlines.pack([(7, 2, 10, 0)])
        for kind in kinds:
            given = kind(ring), kind(line)
            for name in SEARCHES:
                self.assertEqual(getattr(outlines, name)(*given, 1), getattr(outlines, name)(ring, line, 1))
            for name in REPORTS:
                self.assertEqual(getattr(outlines, name)(7, 2, *given, 1, kind(book)), getattr(outlines, name)(7, 2, ring, line, 1, book))
            self.assertEqual(outlines.unpack(kind(book)), [(7, 2, 10, 0)])

    def test_zero_bytes_are_edges(self):
        self.assertEqual(outlines.scan(b"\0\1", b"\1\0\0\1\0", 0).findings, naive(b"\0\1", b"\1\0\0\1\0", 0))
        self.assertEqual(outlines.scan(b"\0", b"\0" * 5, 0).found, 5)

    def test_empty_inputs(self):
        for empty in (b"", bytearray(), memoryview(b""), array.array("B")):
            for name in SEARCHES:
                self.refused(Refusal.RING, 0, name, empty, empty, 0)
                self.refused(Refusal.RING, 0, name, empty, b"abc", 0)
            nothing = Found([], 0, 0, 0)
            for name in SEARCHES[:-1]:
                self.assertEqual(getattr(outlines, name)(b"a", empty, 0), nothing)
            self.assertEqual(outlines.scan_two_way(b"a", empty, 0), outlines.TwoWay(nothing, nothing))
            for name in REPORTS:
                self.assertEqual(getattr(outlines, name)(0, 0, b"a", empty, 0, empty), nothing)
            self.assertEqual(outlines.unpack(empty), [])
        for empty in ([], (), iter(())):
            self.assertEqual(outlines.pack(empty), b"")
            self.refused(Refusal.VERTEX_COUNT, 0, "import_vertices", empty)

    def test_a_buffer_is_free_after_the_call(self):
        ring, line = bytearray(b"aa"), bytearray(b"aaa")
        outlines.scan(ring, line, 0)
        with self.assertRaises(Refused):
            outlines.scan(ring, line, 2)
        view = memoryview(array.array("h", [1]))
        with self.assertRaises(TypeError):
            outlines.scan(view, line, 0)
        view.release()
        ring += b"b"
        line.clear()
        self.assertEqual(outlines.scan(ring, b"aab", 0).found, 1)

    def test_rows_of_wrong_kinds(self):
        for name, argument, fields in (("pack", "silences", "(cell, ring_number, start, ceiling)"), ("import_vertices", "vertices", "(north, east)")):
            rows = list(GOOD[name][argument])
            for value in (5, None, "abcd", b"abcd", bytearray(8), memoryview(b"abcd"), set(rows), frozenset(rows), dict.fromkeys(rows), dict.fromkeys(rows).keys()):
                self.uncalled(TypeError, f"^{argument} must be a sequence of {re.escape(fields)}, not {type(value).__name__}$", name, {argument: value})
            for row in (5, None, "abcd", b"ab", bytearray(2), b"abcd", {1, 2}, {0: 1, 1: 2}, Finding(9, 0, 0, 1)):
                self.uncalled(TypeError, rf"^{argument}\[1\] must be {re.escape(fields)}, not {type(row).__name__}$", name, {argument: [rows[0], row]})
            for row in ((), (1,), (1, 2, 3), (1, 2, 3, 4, 5), rows[0] + rows[0]):
                self.uncalled(ValueError, rf"^{argument}\[1\] has {len(row)} numbers; it must have {len(rows[0])}: ", name, {argument: [rows[0], row]})
            flat = [number for row in rows for number in row]
            self.uncalled(TypeError, rf"^{argument}\[0\] must be {re.escape(fields)}, not int$", name, {argument: flat})

    def test_rows_of_other_kinds(self):
        edges, book = outlines.import_vertices(SQUARE), outlines.pack(GOOD["pack"]["silences"])
        for kind in (tuple, list, iter, lambda rows: (row for row in rows), lambda rows: map(list, rows), lambda rows: [array.array("i", row) for row in rows]):
            self.assertEqual(outlines.import_vertices(kind(SQUARE)), edges)
            self.assertEqual(outlines.pack(kind(GOOD["pack"]["silences"])), book)
        self.assertEqual(outlines.pack([Silence(*row) for row in GOOD["pack"]["silences"]]), book)


class TheRefusals(Case):
    def test_rings(self):
        for name in SEARCHES + REPORTS:
            def call(**changes):
                return name, *{**GOOD[name], **changes}.values()
            self.refused(Refusal.RING, 0, *call(ring=b""))
            self.refused(Refusal.RING, 0, *call(ring=b"a" * 257))
            self.refused(Refusal.RING, 0, *call(ring=b"a" * 257, line=b"a" * 300))
            self.refused(Refusal.RING, 0, *call(ring=b"a" * 10**6, line=b"a" * 10**6))
            self.refused(Refusal.RING_MARK, 0, *call(ring=b"a\xff", allowance=2))
            self.refused(Refusal.ALLOWANCE, 0, *call(allowance=2))
            getattr(outlines, name)(**{**GOOD[name], "ring": b"a" * 256, "line": b"a" * 300, "allowance": 255})
            getattr(outlines, name)(**{**GOOD[name], "ring": b"a", "line": b"a", "allowance": 0})
            self.refused(Refusal.ALLOWANCE, 0, *call(ring=b"a" * 256, line=b"a" * 300, allowance=256))
            if name != "scan_two_way":
                self.assertEqual(getattr(outlines, name)(**{**GOOD[name], "ring": b"\xfe"}).found, 0)

    def test_lines(self):
        for name in SEARCHES + REPORTS:
            ring, longest = b"a" * 255 + b"b", b"z" * 65535 + b"a"
            answer = getattr(outlines, name)(**{**GOOD[name], "ring": ring, "line": longest})
            self.assertEqual(answer.forward.found if name == "scan_two_way" else answer.found, 0)
            for length in (65537, 2**20, 2**24):
                line = bytes(length)
                self.refused(Refusal.LINE, 0, name, *{**GOOD[name], "ring": ring, "line": line}.values())
                with mock.patch.object(outlines, "_library", Recorder()) as library:
                    getattr(outlines, name)(**{**GOOD[name], "ring": ring, "line": line})
                passed = library.calls[0][2 if name in REPORTS else 0:]
                self.assertEqual((passed[1], passed[3], passed[-2:]), (256, length, ((), 0)), "no room is lent for findings")
        self.assertEqual(outlines.scan(b"a", b"a" * 65536, 0).found, 65536)
        self.assertEqual(outlines.scan_closed(b"ab", b"ba" * 32768, 0).findings[-1], (65535, 0, 0, 1))

    def test_ring_codes(self):
        for m in range(1, 8):
            for place, code in itertools.product(range(m), range(248, 255)):
                self.refused(Refusal.RING_CODE, place, "scan_two_way", bytes([0] * place + [code] + [250] * (m - place - 1)), b"", 0)
        self.assertEqual(outlines.scan_two_way(b"\xf7", b"\xf7\xf3\xf8\xfe", 0).forward.findings, [(0, 0, 0, 1)])
        self.refused(Refusal.RING_MARK, 0, "scan_two_way", b"\xf8\xff", b"", 0)
        self.refused(Refusal.ALLOWANCE, 0, "scan_two_way", b"\xf8", b"", 1)
        self.refused(Refusal.RING_CODE, 0, "scan_two_way", b"\xf8", bytes(65537), 0)

    def test_books(self):
        whole, old = outlines.pack([(7, 2, start, start) for start in range(1000)]), b"".join(
            bytes.fromhex("21000A") + (7).to_bytes(4, "big") + (2).to_bytes(2, "big") + start.to_bytes(4, "big") for start in range(1154))
        first, second = outlines.pack([(7, 2, 1, 5)]), outlines.pack([(7, 2, 2, 0)])
        faults = [
            (Refusal.BOOK_LENGTH, 0, whole + b"\0"), (Refusal.BOOK_LENGTH, 0, bytes(15001)), (Refusal.BOOK_LENGTH, 0, bytes(2**20)), (Refusal.BOOK_LENGTH, 0, old),
            (Refusal.FIELD, 0, bytes(15000)), (Refusal.FIELD, 0, b"!"), (Refusal.FIELD, 0, first[:-1]), (Refusal.FIELD, 15, first + second[:1]),
            (Refusal.FIELD, 13, old[:25]), (Refusal.FIELD, 15, first + b"\x23" + second[1:]), (Refusal.FIELD, 14985, whole[:-1]),
            (Refusal.NOT_ABOVE, 15, first + first), (Refusal.NOT_ABOVE, 15, second + first), (Refusal.NOT_ABOVE, 26, old[13:39] + first),
            (Refusal.NOT_ABOVE, 15, second + second + b"!"), (Refusal.NOT_ABOVE, 14985, whole[:-15] + first)]
        for refusal, place, book in faults:
            self.refused(refusal, place, "unpack", book)
            for name, line in itertools.product(REPORTS, (b"aaa", b"")):
                self.refused(refusal, place, name, 7, 2, b"aa", line, 0, book)
        for name in REPORTS:
            self.refused(Refusal.LINE, 0, name, 7, 2, b"aa", bytes(65537), 0, faults[0][2])
            self.refused(Refusal.BOOK_LENGTH, 0, name, 7, 2, b"a", bytes(65536), 0, faults[0][2])
            for book in (whole, old[:-13]):
                self.assertEqual(getattr(outlines, name)(7, 2, b"a", b"a" * 2000, 0, book).hidden, len(outlines.unpack(book)))
        self.assertEqual([len(whole), len(old) - 13, len(outlines.unpack(old[:-13]))], [15000, 14989, outlines.MOST_RECORDS])
        several = [(8, 0, start, 1) for start in range(6)]
        self.assertEqual(outlines.unpack(old[:1148 * 13] + outlines.pack(several[:5]))[-6:], [(7, 2, 1147, 0)] + several[:5])
        self.refused(Refusal.BOOK_LENGTH, 0, "unpack", old[:1147 * 13] + outlines.pack(several))

    def test_silences_to_pack(self):
        rising = [(0, 0, start, 0) for start in range(1001)]
        self.assertEqual(len(outlines.pack(rising[:1000])), outlines.MOST_BOOK)
        self.refused(Refusal.WORD_COUNT, 0, "pack", rising)
        self.refused(Refusal.WORD_COUNT, 0, "pack", [(9, 65536, 9, 65536)] * 5000)
        self.assertEqual(outlines.unpack(outlines.pack([(1, 65535, 2, 65535)])), [(1, 65535, 2, 65535)])
        for record in ((9, 65536, 9, 0), (9, 0, 9, 65536), (9, 2**32 - 1, 9, 0), (9, 0, 9, 2**32 - 1), (0, 65536, 0, 0)):
            self.refused(Refusal.NUMBER_IN_RECORD, 0, "pack", [record, (0, 0, 0, 0)])
            self.refused(Refusal.NUMBER_IN_RECORD, 2, "pack", [(1, 1, 1, 1), (1, 1, 2, 0), record])
        for later in ((7, 2, 5, 0), (7, 2, 5, 9), (7, 2, 4, 9), (7, 1, 9, 9), (6, 3, 9, 9)):
            self.refused(Refusal.NOT_ABOVE, 1, "pack", [(7, 2, 5, 4), later])
            self.refused(Refusal.NOT_ABOVE, 2, "pack", [(0, 0, 0, 0), (7, 2, 5, 4), later, (0, 65536, 0, 0)])

    def test_vertices(self):
        many = [(place % 2, place) for place in range(4097)]
        for count, accepted in ((0, False), (1, False), (2, False), (3, True), (4, True), (4095, True), (4096, True), (4097, False)):
            if accepted:
                self.assertEqual(len(outlines.import_vertices(many[:count])), count)
            else:
                self.refused(Refusal.VERTEX_COUNT, 0, "import_vertices", many[:count])
        self.refused(Refusal.VERTEX_COUNT, 0, "import_vertices", [(0, 0)] * 9000)
        self.refused(Refusal.EQUAL_NEIGHBOURS, 0, "import_vertices", [(0, 0)] * 4096)
        self.refused(Refusal.EQUAL_NEIGHBOURS, 1, "import_vertices", [(0, 0), (5, 0), (5, 0), (5, -3)])
        self.refused(Refusal.EQUAL_NEIGHBOURS, 3, "import_vertices", [(0, 0), (5, 0), (5, -3), (0, 0)])
        self.refused(Refusal.EQUAL_NEIGHBOURS, 4095, "import_vertices", many[:4095] + many[:1])
        self.refused(Refusal.RING, 0, "scan", outlines.import_vertices(many[:257]), b"", 0)
        outlines.scan_two_way(outlines.import_vertices(many[:256]), b"", 255)

    def test_each_refusal_as_the_library_gives_it(self):
        for refusal, name in itertools.product(Refusal, GOOD):
            with mock.patch.object(outlines, "_library", Recorder(int(refusal), 3)):
                self.refused(refusal, 3, name, *GOOD[name].values())

    def test_an_unknown_refusal_is_no_answer(self):
        for number, name in itertools.product((13, 17, 255, 2**16, 2**32 - 1), GOOD):
            with mock.patch.object(outlines, "_library", Recorder(number)), self.assertRaisesRegex(RuntimeError, f"refusal {number}\\b"):
                getattr(outlines, name)(**GOOD[name])

    def test_the_exception(self):
        for refusal in Refusal:
            error = Refused(refusal, 3)
            self.assertEqual(str(error), f"{refusal.text} (refusal {refusal.value}, place 3)")
            for protocol in range(pickle.HIGHEST_PROTOCOL + 1):
                other = pickle.loads(pickle.dumps(error, protocol))
                self.assertEqual((type(other), other.args, other.refusal, other.place, str(other)), (Refused, error.args, refusal, 3, str(error)))
                self.assertIs(pickle.loads(pickle.dumps(refusal, protocol)), refusal)
        self.assertEqual(str(Refused(Refusal.RING_CODE, 3)), "the ring holds a code above 247 (refusal 14, place 3)")
        self.assertEqual(Refused.__bases__, (Exception,))


class TheAnswers(Case):
    def test_examples(self):
        def shown(findings, ties=True):
            return [f"start {one.start} rotation {one.rotation} distance {one.distance}" + (f" ties {one.ties}" if ties else "") for one in findings]

        def block(which, answer, counts="refusal 0 found {0.found} hidden {0.hidden} looks {0.looks}"):
            return [f"{which}: " + counts.format(answer)] + ["  " + line for line in shown(answer.findings)]

        def refused(which, name, *arguments):
            with self.assertRaises(Refused) as caught:
                getattr(outlines, name)(*arguments)
            return [f"{which}refusal {int(caught.exception.refusal)} place {caught.exception.place}: {caught.exception.refusal.text}"]

        ring, line = bytes([3, 1, 4, 1, 5, 9]), bytes([7, 7, 7, 7, 4, 1, 5, 8, 3, 1, 7, 7])
        book, exact = outlines.pack([(7, 2, 4, 1)]), outlines.pack([(7, 2, 4, 0)])
        self.example("find", block("scan", outlines.scan(ring, line, 1)) + block("report of cell 7", outlines.report(7, 2, ring, line, 1, book))
                     + block("report of cell 8", outlines.report(8, 2, ring, line, 1, book))
                     + block("report of cell 7, ceiling 0", outlines.report(7, 2, ring, line, 1, exact)))
        ring, line, book = bytes([3, 1, 4, 1, 5]), bytes([3, 1, 7, 7, 7, 7, 7, 4, 1, 5]), outlines.pack([(7, 2, 7, 0)])
        self.example("closed", block("open", outlines.scan(ring, line, 0)) + block("closed", outlines.scan_closed(ring, line, 0))
                     + block("closed, silenced", outlines.report_closed(7, 2, ring, line, 0, book)))
        ring, line, counts = bytes([24, 26, 28, 30]), bytes([24, 26, 28, 30, MARK, 30, 28, 26, 24]), "found {0.found} looks {0.looks}"
        both = outlines.scan_two_way(ring, line, 0)
        self.example("two_way", block("scan", outlines.scan(ring, line, 0), counts) + block("two ways, forward", both.forward, counts)
                     + block("two ways, backward", both.backward, counts) + refused("", "scan_two_way", bytes([24, 26, 250, 30]), line, 0))
        rows = {name: [int(number) for number in numbers.split(",")] for name, numbers in
                re.findall(r"static const int32_t (\w+)\[\] = \{(.*?)\}", read("examples/vertices.c"))}
        edges = {name: outlines.import_vertices(zip(rows[name][::2], rows[name][1::2])) for name in ("outline", "elsewhere", "backwards")}
        both = outlines.scan_two_way(edges["outline"], edges["elsewhere"] + bytes([MARK]) + edges["backwards"], 0)
        self.example("vertices", [f"{name}: refusal 0, {len(codes)} edges {' '.join(map(str, codes))}" for name, codes in
                                  zip(("ring", "elsewhere", "backwards"), edges.values())]
                     + ["forward: " + line for line in shown(both.forward.findings, False)] + ["backward: " + line for line in shown(both.backward.findings, False)]
                     + refused("the first vertex given again: ", "import_vertices", [(0, 0), (40, 0), (40, 25), (0, 0)]))

    def example(self, name, lines):
        """the lines are those of examples/NAME.out but for the join area, which the module does not show"""
        self.assertEqual([line for line in read(f"examples/{name}.out").splitlines() if not line.startswith("join area:")], lines)

    def test_samples_of_the_specification(self):
        rows = [[cell.strip().strip("`") for cell in row.split("|")[1:-1]] for row in re.findall(r"(?m)^\| P\d+ \|.*$", read("docs/SPEC.md"))]
        self.assertEqual([row[0] for row in rows], [f"P{i}" for i in range(1, 13)])
        for name, ring, line, k, findings, looks, survey_looks in rows:
            found = [Finding(*map(int, four)) for four in re.findall(r"\((\d+),(\d+),(\d+),(\d+)\)", findings)]
            given = ring.encode(), line.encode(), int(k)
            self.assertEqual(outlines.scan(*given), Found(found, len(found), 0, int(looks)), name)
            self.assertEqual(outlines.survey(*given), Found(found, len(found), 0, int(survey_looks)), name)
            self.assertEqual(outlines.report(7, 2, *given, b""), Found(found, len(found), 0, int(looks)), name)

    def test_other_samples_of_the_specification(self):
        def marked(text):
            return text.replace(b"|", b"\xff")
        for k in (0, 1, 2):
            self.assertEqual(outlines.scan(b"abc", marked(b"zzz|abc|zzz"), k).findings, [(4, 0, 0, 1)])
        self.assertEqual([outlines.scan(b"abc", b"zzzzabczzzz", k).found for k in (1, 2)], [3, 5])
        self.assertEqual((outlines.scan(b"ab", b"\xff" * 7, 0).looks, outlines.survey(b"ab", b"\xff" * 7, 0).looks), (3, 24))
        self.assertEqual(outlines.scan_closed(b"abc", b"bca", 0), Found([(0, 1, 0, 1), (1, 2, 0, 1), (2, 0, 0, 1)], 3, 0, 30))
        self.assertEqual(outlines.survey_closed(b"abc", b"bca", 0), Found([(0, 1, 0, 1), (1, 2, 0, 1), (2, 0, 0, 1)], 3, 0, 21))
        self.assertEqual(outlines.scan_closed(b"abcd", b"dzzzabc", 1).findings, [(3, 3, 1, 1), (4, 0, 0, 1), (5, 1, 1, 1)])
        self.assertEqual(outlines.scan_closed(b"abc", marked(b"c|ab"), 0).findings, [(2, 0, 0, 1)])
        self.assertEqual(outlines.scan_closed(b"abc", marked(b"bca|"), 1).findings, [(0, 1, 0, 1)])
        both = outlines.scan_two_way(b"ae", b"aea", 0)
        self.assertEqual((both.forward.findings, both.backward.findings), ([(0, 0, 0, 1), (1, 1, 0, 1)],) * 2)
        self.assertEqual([*outlines.import_vertices(SQUARE), *outlines.import_vertices([(0, 0), (5, 0), (5, -3)])], [24, 26, 28, 30, 16, 14, 19])
        for step, code in ((2**30 - 1, 232), (2**30, 240), (2**31, 240), (2**32 - 1, 240)):
            self.assertEqual(outlines.import_vertices([(-(2**31), 0), (step - 2**31, 0), (0, 1)])[0], code)
        ring, line = b"GGGTCTA", b"GATACGATACCTAGGGTGATAGAATAG"
        for cell, silence, starts in ((7, (7, 2, 10, 0), [9, 11]), (8, (7, 2, 10, 9), [9, 10, 11]), (7, (7, 2, 9, 0), [9, 10, 11]), (7, (7, 2, 9, 1), [10, 11])):
            report = outlines.report(cell, 2, ring, line, 1, outlines.pack([silence]))
            self.assertEqual(([one.start for one in report.findings], report.found, report.hidden), (starts, 3, 3 - len(starts)))
        example = outlines.report(7, 2, b"aa", b"aaa", 0, bytes.fromhex("21000A00000007000200000001"))
        self.assertEqual(example, Found([(0, 0, 0, 2)], 2, 1, 12))

    def test_all_small_searches(self):
        """every ring of at most 3 edges over two letters in every line of at most 6 over two letters and the mark, with every allowance"""
        ceilings = ({0: 0, 1: 1, 2: 0, 4: 2, 5: 65535}, {1: 0, 2: 2, 3: 1, 5: 0})
        decoys = [(cell, ring_number, start, 65535) for cell, ring_number in ((0, 2), (6, 2), (7, 0), (7, 1), (7, 3), (8, 2)) for start in range(6)]
        books = [(hides, outlines.pack(sorted(decoys + [(7, 2, *silence) for silence in hides.items()]))) for hides in ceilings]
        lines = [bytes(line) for n in range(7) for line in itertools.product(b"ab\xff", repeat=n)]
        rings = [bytes(ring) for m in (1, 2, 3) for ring in itertools.product(b"ab", repeat=m)]
        self.assertEqual((len(lines), len(rings)), (1093, 14))
        searches, cases = ((outlines.survey, outlines.scan, outlines.report), (outlines.survey_closed, outlines.scan_closed, outlines.report_closed)), 0
        for ring, line in itertools.product(rings, lines):
            m, n = len(ring), len(line)
            for closed, (survey, scan, report) in enumerate(searches):
                every, long = naive(ring, line, m, closed), n + (m - 1) * closed
                for k in range(m):
                    expected = [one for one in every if one.distance <= k]
                    hides, book = books[cases % 2]
                    shown = [one for one in expected if one.distance > hides.get(one.start, -1)]
                    surveyed, scanned, reported = survey(ring, line, k), scan(ring, line, k), report(7, 2, ring, line, k, book)
                    right = (surveyed == Found(expected, len(expected), 0, 2 * m * long - m * m if n >= m else 0)
                             and scanned == Found(expected, len(expected), 0, scanned.looks) and scanned.looks <= max(0, 3 * m * long - 2 * m * m + m)
                             and reported == Found(shown, len(expected), len(expected) - len(shown), scanned.looks))
                    self.assertTrue(right, (ring, line, k, closed))
                    cases += 1
        self.assertEqual(cases, 2 * 34 * 1093)

    def test_two_ways(self):
        chance, both_ways = random.Random(6), 0
        for _ in range(300):
            ring = bytes(chance.choices((0, 4, 12, 247), k=chance.randrange(1, 7)))
            parts = (ring, reversed_ring(ring), bytes([MARK]), bytes(chance.choices((0, 4, 250), k=3)))
            line, k = b"".join(chance.choices(parts, k=chance.randrange(6))), chance.randrange(len(ring))
            both, forward, backward = outlines.scan_two_way(ring, line, k), outlines.scan(ring, line, k), outlines.scan(reversed_ring(ring), line, k)
            self.assertEqual((both.forward, both.backward), (forward, backward))
            self.assertEqual((forward.findings, backward.findings), (naive(ring, line, k), naive(reversed_ring(ring), line, k)))
            both_ways += bool(forward.findings and backward.findings and forward.findings != backward.findings)
        self.assertGreater(both_ways, 50)

    def test_edges_of_vertices(self):
        def code(north, east):
            quarter = 0
            while not (north > 0 and east >= 0):
                north, east, quarter = east, -north, quarter + 1
            return 8 * min(30, max(abs(north), abs(east)).bit_length() - 1) + 2 * quarter + (east >= north)

        chance, ends = random.Random(7), (-(2**31), -(2**31) + 1, -1, 0, 1, 2**31 - 2, 2**31 - 1)
        for _ in range(500):
            some = ends if chance.random() < 0.5 else range(-9, 10)
            vertices = [(chance.choice(some), chance.choice(some)) for _ in range(chance.randrange(3, 12))]
            steps = [(b[0] - a[0], b[1] - a[1]) for a, b in zip(vertices, vertices[1:] + vertices[:1])]
            if (0, 0) in steps:
                self.refused(Refusal.EQUAL_NEIGHBOURS, steps.index((0, 0)), "import_vertices", vertices)
            else:
                self.assertEqual(list(outlines.import_vertices(vertices)), [code(*step) for step in steps])

    def test_round_trips(self):
        chance, ends = random.Random(4), (0, 1, 255, 256, 65535)
        for count in (0, 1, 2, 3, 50, 1000):
            numbers = ends + (65536, 2**31, 2**32 - 1)
            addresses = {(chance.choice(numbers), chance.choice(ends), chance.randrange(2**32)) for _ in range(count)}
            silences = [Silence(*address, chance.choice(ends)) for address in sorted(addresses)]
            book = outlines.pack(silences)
            self.assertEqual(book, b"".join(bytes.fromhex("22000C") + one.cell.to_bytes(4, "big") + one.ring_number.to_bytes(2, "big")
                                            + one.start.to_bytes(4, "big") + one.ceiling.to_bytes(2, "big") for one in silences))
            self.assertEqual((type(book), len(silences)), (bytes, count))
            self.assertEqual(outlines.unpack(book), silences)
            self.assertTrue(all(type(one) is Silence for one in outlines.unpack(book)))
            self.assertEqual(outlines.pack(outlines.unpack(book)), book)

    def test_both_tags(self):
        book = bytes.fromhex("21000A 00000007 0002 00000001  22000C 00000007 0002 00000009 FFFF  21000A FFFFFFFF FFFF FFFFFFFF")
        silences = [(7, 2, 1, 0), (7, 2, 9, 65535), (2**32 - 1, 65535, 2**32 - 1, 0)]
        self.assertEqual(outlines.unpack(book), silences)
        self.assertEqual(outlines.unpack(outlines.pack(outlines.unpack(book))), silences)

    def test_answers_are_plain(self):
        answer = outlines.scan(b"aa", b"aaa", 0)
        self.assertEqual((type(answer), type(answer.findings), type(answer.findings[0])), (Found, list, Finding))
        self.assertEqual({type(number) for number in (*answer.findings[0], answer.found, answer.hidden, answer.looks)}, {int})
        self.assertEqual(pickle.loads(pickle.dumps(answer)), answer)
        self.assertIs(type(outlines.import_vertices(SQUARE)), bytes)
        with self.assertRaises(TypeError):
            iter(answer)
        with self.assertRaises(AttributeError):
            answer.found = 0


class TheProcess(Case):
    def test_threads(self):
        chance, jobs, faults = random.Random(8), [], []
        for number in range(8):
            ring = bytes(chance.choices(b"abc", k=8 + number))
            line = b"".join(chance.choices((ring, ring[3:] + ring[:3], b"cab", b"\xff"), k=150))
            jobs.append((ring, line, number % 3, naive(ring, line, number % 3), naive(ring, line, number % 3, True)))
            self.assertTrue(jobs[-1][3])

        def work(ring, line, k, expected, closed):
            try:
                for _ in range(6):
                    for given in (line, bytearray(line)):
                        if (outlines.scan(ring, given, k).findings, outlines.survey_closed(ring, given, k).findings) != (expected, closed):
                            faults.append("a wrong answer")
                    if not isinstance(outlines.pack([(7, 2, k, 0)]), bytes):
                        faults.append("no book")
            except BaseException as error:
                faults.append(repr(error))

        threads = [threading.Thread(target=work, args=job) for job in jobs]
        for thread in threads:
            thread.start()
        for thread in threads:
            thread.join()
        self.assertEqual(faults, [])

    def test_a_buffer_that_another_thread_changes(self):
        line, over = bytearray(b"ab" * 20000), threading.Event()

        def change():
            while not over.is_set():
                line[:] = b"ba" * 20000
                try:
                    line.clear()
                    line.extend(b"ab" * 20000)
                except BufferError:  # it cannot change its length while it is copied
                    pass

        thread = threading.Thread(target=change)
        thread.start()
        try:
            for _ in range(60):
                answer = outlines.scan(b"ab", line, 0)
                self.assertIn(answer.found, (0, 39999))
                self.assertEqual({one.distance for one in answer.findings} - {0}, set())
        finally:
            over.set()
            thread.join()

    def test_documented_examples(self):
        done = doctest.testmod(outlines)
        self.assertEqual(done.failed, 0)
        self.assertGreater(done.attempted, 0)

    def test_quick_start(self):
        script = "\n".join(['import outlines', 'answer = outlines.scan(b"aa", b"aaa", 0)', 'for finding in answer.findings:',
                            '    print("start", finding.start, "distance", finding.distance)'])
        for options in ((), ("-O",), ("-OO",), ("-W", "error", "-bb")):
            self.assertEqual(python(script, *options, cwd=HERE), ("start 0 distance 0\nstart 1 distance 0\n", 0), options)

    def test_with_warnings_as_errors(self):
        script = "; ".join(["import sys", "sys.path.insert(0, '.')", "import test_outlines as t", "t.TheRanges('test_numbers_of_wrong_types').debug()",
                            "t.TheBuffers('test_wrong_buffers').debug()", "t.TheBuffers('test_all_kinds_give_the_same_answer').debug()",
                            "t.TheRefusals('test_books').debug()", "t.TheAnswers('test_examples').debug()", "print('whole')"])
        for options in (("-W", "error", "-bb"), ("-W", "error", "-bb", "-O")):
            self.assertEqual(python(script, *options, cwd=HERE), ("whole\n", 0))


class TheLoading(Case):
    SCRIPT = "\n".join(["try:", "    import outlines", "    print(outlines._library._name, outlines.scan(b'aa', b'aaa', 0).found)",
                        "except ImportError as error:", "    print('ImportError', error)"])
    SENTENCE = r"^ImportError the outlines library does not load \([^\n]+\): run `make install PREFIX=\.\.`, or set OUTLINES_LIBRARY to its path\n$"

    def load(self, folder, cwd="/", **changes):
        env = {name: value for name, value in os.environ.items() if name not in ("OUTLINES_LIBRARY", "LD_LIBRARY_PATH", "PYTHONPATH")}
        text, status = python(self.SCRIPT, "-W", "error", "-bb", env={**env, "PYTHONPATH": folder, **changes}, cwd=cwd)
        self.assertEqual(status, 0, text)
        return text

    def prefix(self, folder):
        """lays out a PREFIX, and returns the module's folder and the library's path"""
        module, library = os.path.join(folder, "share/outlines/python"), os.path.join(folder, "lib/liboutlines.so.0")
        os.makedirs(module)
        os.makedirs(os.path.dirname(library))
        shutil.copy(outlines.__file__, module)
        shutil.copy(LIBRARY, library)
        return module, library

    def test_a_wrong_library(self):
        with tempfile.TemporaryDirectory() as folder:
            module, _ = self.prefix(folder)
            for wrong in (os.path.join(folder, "none.so"), folder, outlines.__file__, "libc.so.6"):
                self.assertRegex(self.load(module, OUTLINES_LIBRARY=wrong), self.SENTENCE)

    def test_an_installed_one(self):
        with tempfile.TemporaryDirectory() as folder:
            module, library = self.prefix(os.path.join(os.path.realpath(folder), "pre fix"))
            elsewhere = os.path.join(folder, "elsewhere")
            os.symlink(module, elsewhere)
            for path, changes in ((module, {}), (elsewhere, {}), (module, {"OUTLINES_LIBRARY": ""})):
                name, found = self.load(path, **changes).rsplit(" ", 1)
                self.assertEqual((os.path.normpath(name), found), (library, "2\n"))
            self.assertEqual(self.load(module, OUTLINES_LIBRARY=LIBRARY), f"{LIBRARY} 2\n")

    def test_a_stranger_where_the_repository_lies(self):
        """From bindings/python of a repository, ../../../lib is outside it: what lies there is not this library."""
        with tempfile.TemporaryDirectory() as folder:
            module, library = os.path.join(folder, "repository/bindings/python"), os.path.join(folder, "lib/liboutlines.so.0")
            os.makedirs(module)
            os.makedirs(os.path.dirname(library))
            shutil.copy(outlines.__file__, module)
            shutil.copy(LIBRARY, library)
            self.assertNotIn(folder, self.load(module))

    def test_the_loader_search(self):
        with tempfile.TemporaryDirectory() as folder:
            os.makedirs(os.path.join(folder, "a/b/c/d"))
            alone = shutil.copy(outlines.__file__, os.path.join(folder, "a/b/c/d"))
            # The second form where this machine has the library installed.
            self.assertRegex(self.load(os.path.dirname(alone)), self.SENTENCE + r"|^liboutlines\.so\.0 2\n$")
            shutil.copy(LIBRARY, os.path.join(folder, "liboutlines.so.0"))
            self.assertEqual(self.load(os.path.dirname(alone), LD_LIBRARY_PATH=folder), "liboutlines.so.0 2\n")
            self.assertEqual(self.load(os.path.dirname(alone), cwd=folder, OUTLINES_LIBRARY="./liboutlines.so.0"), "./liboutlines.so.0 2\n")


def main():
    result = unittest.TestResult()
    unittest.defaultTestLoader.loadTestsFromModule(sys.modules[__name__]).run(result)
    faults = [(getattr(test, "test_case", test).id(), str(test), text) for test, text in result.failures + result.errors]
    failed = len({name for name, _, _ in faults})
    for _, name, text in faults:
        print(f"{name}\n{text}")
    print(f"{result.testsRun - failed} passed, {failed} failed")
    return 1 if failed else 0


if __name__ == "__main__":
    sys.exit(main())
