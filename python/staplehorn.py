"""Staplehorn from Python: tcgen05 sheets judged, statements and descriptor words read and written, elements of fragments found, by the
proved library.

    >>> import staplehorn
    >>> staplehorn.judge(b"sheet\\t1\\tsm_100a\\n0\\texit;\\n")
    Passed(line=2, peak=0, starts=[])

Every function takes any bytes and any numbers. What is refused raises `Refused`, whose `reason` is the number and whose text
says why. The shared library is the one that STAPLEHORN_LIBRARY names; else the one that was installed with this file or
built beside it; else the one that the system finds. Any number of threads may call at once.
"""
import ctypes
import enum
import os
from typing import List, NamedTuple

SONAME = "libstaplehorn.so.0.7"
REPORT_ROOM = 102391
STATEMENT_ROOM = 2560
MOST_ALLOCS = 4095
ANSWER_FIELDS = 6


class Reason(enum.IntEnum):
    """Why something is refused. 20 and 21 are asked directly after 13, 18 directly after 15."""

    PASSED = 0
    SIZE = 1
    LAYOUT = 2
    FORM = 3
    NUMBER = 4
    REGISTERS = 5
    NAME = 6
    VALUES = 7
    WARP = 8
    COLUMNS = 9
    RELINQUISHED = 10
    SPACE = 11
    DESCRIPTOR = 12
    SHAPE_M = 13
    CELLS = 14
    EXIT = 15
    STARTS = 16
    OUTSTANDING = 18
    ROOM = 19
    SHAPE_N = 20
    TYPES = 21
    FRAGMENT = 22


TEXTS = {
    1: "the sheet has over 65,536 bytes or 4,096 lines",
    2: "line 1 is not the header, or a line's layout is wrong",
    3: "the statement matches no form",
    4: "a number is out of range",
    5: "N is over the largest of its shape, or the count of registers differs",
    6: "a name is unbound, of the wrong sort or width, or taken",
    7: "a 129th value name is bound",
    8: "the warp is wrong, or the lane is not the warp's",
    9: "the request is illegal, or the size of a dealloc differs",
    10: "an alloc follows relinquish",
    11: "no free run of that length starts at a multiple of 32",
    12: "a descriptor has no reading under the opcode",
    13: "the descriptor's M is not listed",
    14: "the lane of an mma is not 0, or columns go past the end of the allocation",
    15: "exit while columns are held, a line after exit, or no exit",
    16: "the lent list has fewer places than there are allocs",
    18: "dealloc while a load or store of any warp is outstanding on its allocation",
    19: "the lent room is too short",
    20: "the descriptor's N is not listed",
    21: "the descriptor's types are not listed",
    22: "the matrix, thread, element, row or column is outside the fragment",
}


class Refused(ValueError):
    """What is refused: `reason`; for a sheet `line` and `column` (bytes of the line, from 1; both 0 with reason 1), `held` and `peak`;
    for a statement read alone `column` (from 1 at its first byte). What does not apply is None."""

    def __init__(self, reason, line=None, column=None, held=None, peak=None):
        self.reason, self.line, self.column, self.held, self.peak = reason, line, column, held, peak
        text = TEXTS.get(reason, f"reason {reason}")
        place = ", ".join(f"{name} {number}" for name, number in (("line", line), ("column", column)) if number)
        super().__init__(f"{place}: {text}" if place else text)


class Passed(NamedTuple):
    """A sheet that passed: its last line, the most columns held, and the first column of each alloc."""

    line: int
    peak: int
    starts: List[int]


class Instruction(NamedTuple):
    """The fields of an instruction descriptor, in the order of its bits. Types are codes; n and m are the real N and M."""

    selector: int = 0
    sparse: int = 0
    saturate: int = 0
    dtype: int = 0
    atype: int = 0
    btype: int = 0
    negate_a: int = 0
    negate_b: int = 0
    transpose_a: int = 0
    transpose_b: int = 0
    n: int = 0
    m: int = 0
    max_shift: int = 0


class Shared(NamedTuple):
    """The fields of a shared memory descriptor. Start, leading and stride are in bytes."""

    start: int = 0
    leading: int = 0
    stride: int = 0
    base: int = 0
    mode: int = 0
    swizzle: int = 0


class Place(NamedTuple):
    """Where an element of a matrix stands."""

    row: int
    column: int


class Holder(NamedTuple):
    """Who holds an element: the thread in its warp (%laneid), and which of its elements, as the PTX ISA numbers them (a0, a1, ..)."""

    thread: int
    element: int


KINDS = {"f16": 0, "tf32": 1, "f8f6f4": 2, "i8": 3}
MATRICES = {"A": 0, "B": 1, "C": 2}


def _load():
    here = os.path.dirname(os.path.abspath(__file__))
    named = os.environ.get("STAPLEHORN_LIBRARY")
    beside = [os.path.join(here, *way, SONAME) for way in (["..", "..", "..", "lib"], ["..", "target", "shared"])]
    path = named or next((p for p in beside if os.path.exists(p)), SONAME)
    library = ctypes.CDLL(path)
    size, byte, u32, u64 = ctypes.c_size_t, ctypes.c_char_p, ctypes.c_uint32, ctypes.c_uint64
    pointer = ctypes.POINTER
    for name, arguments in {
        "version": [],
        "judge": [byte, size, pointer(ctypes.c_uint16), size, pointer(u32)],
        "report": [byte, size, byte, size, pointer(size)],
        "statement_reason": [byte, size, pointer(size)],
        "statement_canonical": [byte, size, byte, size, pointer(size)],
        "instruction_decode": [u32, u32, u32, u32, pointer(u32)],
        "instruction_encode": [u32, u32, u32, pointer(u32), pointer(u32)],
        "instruction_judge": [u32, u32, u32, u32],
        "instruction_listed": [u32, u32, u32, pointer(u32)],
        "instruction_k": [u32, u32, pointer(u32)],
        "shared_decode": [u64, pointer(u64)],
        "shared_encode": [pointer(u64), pointer(u64)],
        "request": [u32],
        "fragment_place": [u32, u32, u32, pointer(u32)],
        "fragment_holder": [u32, u32, u32, pointer(u32)],
    }.items():
        function = getattr(library, "staplehorn_" + name)
        function.argtypes, function.restype = arguments, u32
    return library


_c = _load()


def version():
    """The library's version: major * 10,000 + minor * 100 + patch."""
    return _c.staplehorn_version()


def _check(reason):
    if reason:
        raise Refused(reason)


def _number(value, bits, name, reason=Reason.DESCRIPTOR):
    """ctypes would cut a number that is too wide; no word has such a field, and no fragment such a number."""
    if not isinstance(value, int):
        raise TypeError(f"{name}: not an integer")
    if not 0 <= value < 1 << bits:
        raise Refused(reason)
    return value


def judge(sheet):
    """Judges a sheet: Passed, or raises Refused."""
    starts, answer = (ctypes.c_uint16 * MOST_ALLOCS)(), (ctypes.c_uint32 * ANSWER_FIELDS)()
    sheet = bytes(sheet)
    if _c.staplehorn_judge(sheet, len(sheet), starts, MOST_ALLOCS, answer):
        raise Refused(*answer[:5])
    _, line, _, _, peak, count = answer
    return Passed(line, peak, starts[:count])


def report(sheet):
    """The bytes that foot prints for a sheet. A refusal raises nothing: its number stands first in the report."""
    sheet, room, length = bytes(sheet), ctypes.create_string_buffer(REPORT_ROOM), ctypes.c_size_t()
    _c.staplehorn_report(sheet, len(sheet), room, REPORT_ROOM, length)
    return room.raw[: length.value]


def statement(text):
    """Raises Refused (3, 4 or 5), with its column, for a text that is no statement by itself."""
    text, column = bytes(text), ctypes.c_size_t()
    reason = _c.staplehorn_statement_reason(text, len(text), column)
    if reason:
        raise Refused(reason, column=column.value)


def canonical(text):
    """The canonical text of a statement, or raises Refused (3 or 4); `statement` says where. Numbers are written in decimals, an
    expression as what it comes to."""
    text, room, length = bytes(text), ctypes.create_string_buffer(STATEMENT_ROOM), ctypes.c_size_t()
    _check(_c.staplehorn_statement_canonical(text, len(text), room, STATEMENT_ROOM, length))
    return room.raw[: length.value]


def _opcode(kind, ws, sp):
    if kind not in KINDS:
        raise Refused(Reason.DESCRIPTOR)
    return KINDS[kind], int(bool(ws)), int(bool(sp))


def instruction_decode(kind, word, ws=False, sp=False):
    """What an instruction descriptor says under an opcode ('f16', 'tf32', 'f8f6f4' or 'i8')."""
    fields = (ctypes.c_uint32 * 13)()
    _check(_c.staplehorn_instruction_decode(*_opcode(kind, ws, sp), _number(word, 32, "word"), fields))
    return Instruction(*fields)


def instruction_encode(kind, fields, ws=False, sp=False):
    """The word of an instruction descriptor's fields."""
    array, word = (ctypes.c_uint32 * 13)(*[_number(v, 32, n) for n, v in fields._asdict().items()]), ctypes.c_uint32()
    _check(_c.staplehorn_instruction_encode(*_opcode(kind, ws, sp), array, word))
    return word.value


def instruction_judge(kind, word, ws=False, sp=False):
    """Raises Refused: 12 if a word has no reading; else 13, 20 or 21 if its M, its N or its types are not listed."""
    _check(_c.staplehorn_instruction_judge(*_opcode(kind, ws, sp), _number(word, 32, "word")))


def instruction_listed(kind, fields, ws=False, sp=False):
    """The same of fields."""
    array = (ctypes.c_uint32 * 13)(*[_number(v, 32, n) for n, v in fields._asdict().items()])
    _check(_c.staplehorn_instruction_listed(*_opcode(kind, ws, sp), array))


def instruction_k(kind, sp=False):
    """K of a kind, dense or sparse."""
    k = ctypes.c_uint32()
    number, _, sparse = _opcode(kind, False, sp)
    _check(_c.staplehorn_instruction_k(number, sparse, k))
    return k.value


def shared_decode(word):
    """What a shared memory descriptor says."""
    fields = (ctypes.c_uint64 * 6)()
    _check(_c.staplehorn_shared_decode(_number(word, 64, "word"), fields))
    return Shared(*fields)


def shared_encode(fields):
    """The word of a shared memory descriptor's fields."""
    array, word = (ctypes.c_uint64 * 6)(*[_number(v, 64, n) for n, v in fields._asdict().items()]), ctypes.c_uint64()
    _check(_c.staplehorn_shared_encode(array, word))
    return word.value


def request(columns):
    """Raises Refused (9) unless a request for that many columns is legal."""
    if not 0 <= columns < 1 << 32:
        raise Refused(Reason.COLUMNS)
    _check(_c.staplehorn_request(columns))


def _fragment(function, matrix, **numbers):
    """The two numbers that a function of fragments gives for two."""
    if matrix not in MATRICES:
        raise Refused(Reason.FRAGMENT)
    out = (ctypes.c_uint32 * 2)()
    _check(function(MATRICES[matrix], *[_number(v, 32, n, Reason.FRAGMENT) for n, v in numbers.items()], out))
    return out


def fragment_place(matrix, thread, element):
    """Where a thread's element of a matrix of mma.m16n8k16 stands: 'A' or 'B' of f16, 'C' of f16 or f32; D has the layout of C. All
    numbers count from 0. Raises Refused (22) for another matrix, a thread over 31, or an element over 7 ('A') or 3."""
    return Place(*_fragment(_c.staplehorn_fragment_place, matrix, thread=thread, element=element))


def fragment_holder(matrix, row, column):
    """Who holds the element of a row and a column of a matrix: the reverse of fragment_place. Raises Refused (22) for another matrix, a
    row over 15, or a column over 15 ('A') or 7."""
    return Holder(*_fragment(_c.staplehorn_fragment_holder, matrix, row=row, column=column))
