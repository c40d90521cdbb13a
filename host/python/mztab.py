"""The verified reader of mzTab 1.0 files, for Python.

    import mztab
    data = open("yeast.mztab", "rb").read()
    for fault in mztab.judge(data):
        print(fault.line, fault.cell, fault.rule, fault.first)
    print(mztab.cell(data, mztab.PROTEIN, 1, 2, stand_in=b"-"))
    print(mztab.reading(data, mztab.PROTEIN, 2, 5).value)
    print(mztab.rows(data, mztab.PROTEIN))

of one line, judged under the whole file, which is all that the edit of one cell of a row can change

    print(mztab.judge_line(data, 8))

a copy with null in the empty cells where it may stand, and what was changed

    copy, changes = mztab.mend(data)

and of an accepted file, with study variables, a fee in cents over them

    data = open("fee.mztab", "rb").read()
    print(mztab.split_fee(100_000, mztab.weights(data)))

and what accepted files count up to, over a month, which is kept as a record of 70 bytes

    month = mztab.Tally()
    for data in files:
        month = mztab.add_tallies(month, mztab.tally(data))
    record = mztab.write_tally(month)
    print(mztab.read_tally(record).psms)

It needs the standard library alone, and target/libmztab.so, which ./build makes; MZTAB_LIBRARY names it where it stands elsewhere. Files are bytes of
at most 16,777,216. Calls may run at the same time: no call keeps what it is lent, and the interpreter's lock is free while one runs.
"""

import ctypes
import operator
import os
import pathlib
from typing import List, NamedTuple, Optional, Sequence, Union

LIMIT = 16_777_216
PROTEIN, PEPTIDE, PSM, SMALL_MOLECULE = 1, 2, 3, 4
# The largest fee and the largest sum, in cents; a weight is below WEIGHT_LIMIT; there are study variables 1 to 64.
FEE_LIMIT = 100_000_000_000
WEIGHT_LIMIT = 16_777_216
STUDY_VARIABLES = 64
# The bytes of a tally's record.
RECORD = 70

_U32_MAX = 0xFFFFFFFF
_U64_MAX = 0xFFFFFFFFFFFFFFFF
# The first list has room for so many breaks; only a file with more is judged twice.
_FIRST_LIST = 4096
# What stands in a mended cell.
_NULL = b"null"


class Refusal(Exception):
    """There is no answer; `number` is that of the kind of refusal, and says why."""

    number = 0


class TooLong(Refusal):
    """The file is longer than 16,777,216 bytes."""

    number = 1


class NoSection(Refusal):
    """The section is not 1 to 4."""

    number = 2


class NoRow(Refusal):
    """There is no such row, or no such line."""

    number = 3


class NoCell(Refusal):
    """The row has no such cell."""

    number = 4


class NoRoom(Refusal):
    """The copy would be longer than 16,777,216 bytes."""

    number = 5


class NotAccepted(Refusal):
    """The file breaks a rule: `judge` says which, and where."""

    number = 7


class BelowZero(Refusal):
    """A count of PSMs, of distinct or of unique peptides is below zero."""

    number = 12


class Past64Bits(Refusal):
    """A sum of two totals is over 64 bits."""

    number = 13


class NotARecord(Refusal):
    """The bytes are not the record of a tally."""

    number = 14


class NotAsMany(Refusal):
    """The weights are not 1 to 64."""

    number = 15


class TooLarge(Refusal):
    """The fee or the sum is over 100,000,000,000 cents, or a weight is not below 16,777,216."""

    number = 16


class AllZero(Refusal):
    """Every weight is zero: there is nothing to split by."""

    number = 17


class Break(NamedTuple):
    """A place where a file breaks a rule, 1 to 24. Lines and cells count from 1; cell 1 is the line code. Rules 21 and 22 are reported at the line after
    the last, and their cell is a number that stands for the key that is absent: docs/rules.md has it. All others, 23 and 24 too, are reported at a cell.

    `first` says where that which comes again stands first: of rule 6 the line of the earliest metadata line of three cells with the same key, of rule 9 the
    line of the earliest header of the same section, of rule 13 the cell of the first equal name in this header. It is 0 where there is none: for all other
    rules, since neither lines nor cells count from 0.
    """

    line: int
    cell: int
    rule: int
    first: int


class Change(NamedTuple):
    """A cell that was empty and holds `null` in the copy. It has the same line and cell in both."""

    line: int
    cell: int


class Mended(NamedTuple):
    """A mended copy of a file, and all that was changed in it, by line, then cell."""

    copy: bytes
    changes: List[Change]


class Reading(NamedTuple):
    """What a cell reads as, and where it stands.

    `case` is one of "missing", "whole", "decimal", "infinite", "not a number", "long decimal", "text". `value` is an int for a whole, a float for a
    decimal, an infinite and a not a number, else None. Of a decimal `numerals` and `power` are exact: its value is numerals times 10 to the power, as a
    fraction fractions.Fraction(numerals) * fractions.Fraction(10) ** power, and `value` is the nearest float. The power is the exponent less the places
    after the dot: `12.50` has 1250 and -2, `1.2E-5` has 12 and -6. A decimal is long with over 15 digits before its exponent, or a power not -22 to 22.
    """

    line: int
    cell: int
    case: str
    value: Union[int, float, None]
    numerals: Optional[int] = None
    power: Optional[int] = None


class Tally(NamedTuple):
    """What a file, or several, count up to: eight totals of 64 bits. Without numbers it is the tally of nothing.

    `psms`, `distinct` and `unique` are the sums of the cells under `num_psms_ms_run[n]`, `num_peptides_distinct_ms_run[n]` and
    `num_peptides_unique_ms_run[n]`, over protein rows and runs: three counters, none of which is to be added to another. Then follow the rows of each
    section, and `missing`, how many of those cells are `null`: they add nothing to the sums. `+` is `add_tallies`.
    """

    psms: int = 0
    distinct: int = 0
    unique: int = 0
    protein_rows: int = 0
    peptide_rows: int = 0
    psm_rows: int = 0
    small_molecule_rows: int = 0
    missing: int = 0

    # Without it two tallies would make one tuple of sixteen numbers.
    def __add__(self, other: "Tally") -> "Tally":
        return add_tallies(self, other)


_CASES = ("missing", "whole", "decimal", "infinite", "not a number", "long decimal", "text")
_KINDS = (TooLong, NoSection, NoRow, NoCell, NoRoom, NotAccepted, BelowZero, Past64Bits, NotARecord, NotAsMany, TooLarge, AllZero)
_REFUSALS = {kind.number: kind for kind in _KINDS}
# As many places as a tally has totals.
_Totals = ctypes.c_uint64 * len(Tally._fields)


def _load():
    """The shared library, with the types of crates/capi/mztab.h."""
    usual = pathlib.Path(__file__).resolve().parents[2] / "target" / "libmztab.so"
    path = os.environ.get("MZTAB_LIBRARY") or str(usual)
    try:
        library = ctypes.CDLL(path)
    except OSError as error:
        raise ImportError(f"{path} cannot be loaded ({error}): run ./build, or name the library in MZTAB_LIBRARY") from error
    try:
        _typed(library)
    except AttributeError as error:
        raise ImportError(f"{path} is of an earlier version ({error}): run ./build") from error
    if not _has_firsts(library):
        raise ImportError(f"{path} is of an earlier version (its breaks have three numbers): run ./build")
    return library


def _typed(library):
    """The library with the types of its calls."""
    size, u32, u64 = ctypes.c_size_t, ctypes.c_uint32, ctypes.c_uint64
    u32_place, totals = ctypes.POINTER(u32), ctypes.POINTER(u64)
    file, asked = [ctypes.c_char_p, size], [u32, u32, u32]
    library.mztab_cell.argtypes = file + asked + [u32_place, ctypes.POINTER(size)]
    library.mztab_cell.restype = size
    library.mztab_cell_or.argtypes = file + asked + file + [u32_place, ctypes.POINTER(size), u32_place]
    library.mztab_cell_or.restype = size
    library.mztab_reading.argtypes = (
        file + asked + [u32_place] * 3 + [ctypes.POINTER(kind) for kind in (ctypes.c_int64, ctypes.c_int32, ctypes.c_double)]
    )
    library.mztab_reading.restype = u32
    library.mztab_judge.argtypes = file + [u32_place, size, u32_place]
    library.mztab_judge.restype = u32
    library.mztab_judge_line.argtypes = file + [u32, u32_place, size, u32_place]
    library.mztab_judge_line.restype = u32
    library.mztab_mend.argtypes = file + [ctypes.POINTER(ctypes.c_char), size, u32_place, size, u32_place, u32_place]
    library.mztab_mend.restype = size
    library.mztab_rows.argtypes = file + [u32, u32_place]
    library.mztab_rows.restype = u32
    library.mztab_weights.argtypes = file + [u32_place, size, u32_place]
    library.mztab_weights.restype = None
    library.mztab_tally.argtypes = file + [totals, u32_place]
    library.mztab_tally.restype = None
    library.mztab_tally_add.argtypes = [totals, totals, totals, u32_place]
    library.mztab_tally_add.restype = None
    library.mztab_tally_write.argtypes = [totals, ctypes.POINTER(ctypes.c_char), size, u32_place]
    library.mztab_tally_write.restype = size
    library.mztab_tally_read.argtypes = file + [totals, u32_place]
    library.mztab_tally_read.restype = None
    library.mztab_add_cents.argtypes = [u64, u64, u32_place]
    library.mztab_add_cents.restype = u64
    library.mztab_split_fee.argtypes = [u64, u32_place, size, ctypes.POINTER(u64), size, u32_place]
    library.mztab_split_fee.restype = None
    return library


def _has_firsts(library) -> bool:
    """Whether a break has four numbers, by the first of a file of no bytes. Where it has three, the fourth place stays as it was."""
    places, number = (ctypes.c_uint32 * 4)(*[77] * 4), ctypes.c_uint32()
    library.mztab_judge(b"", 0, places, 4, number)
    return list(places) == [21, 1, 1, 0]


_library = _load()


def _bytes(data) -> bytes:
    """The file as bytes that do not change during a call."""
    if isinstance(data, str):
        raise TypeError("a file is bytes: open it with mode 'rb'")
    return bytes(data)


def _asked(*numbers: int):
    """Section, row and column as the library takes them. A larger number than it takes names nothing, and so does its largest."""
    return [_whole("sections, rows and columns", number, _U32_MAX) for number in numbers]


def _whole(what: str, number: int, most: int) -> int:
    """A number as the library takes it. One that is larger than it takes is refused as its largest is."""
    number = operator.index(number)
    if number < 0:
        raise ValueError(f"{what} are not negative")
    return min(number, most)


def _refuse(number: int) -> None:
    if number:
        kind = _REFUSALS[number]
        raise kind(kind.__doc__)


def count(data: bytes) -> int:
    """How many breaks the file has, 0 for an accepted one. Raises TooLong."""
    return _judge(_bytes(data), 0)[0]


def judge(data: bytes, most: Optional[int] = None) -> List[Break]:
    """The breaks of a file, none for an accepted one: all of them, or the first `most`. By line, then cell, then rule. Raises TooLong."""
    data = _bytes(data)
    return _listed(lambda room: _judge(data, room), most)


def judge_line(data: bytes, line: int, most: Optional[int] = None) -> List[Break]:
    """The breaks of one line, judged under the whole file: all of them, or the first `most`. By cell, then rule.

    They are those that `judge` reports on that line. Lines are 1 to N: what rules 21 and 22 report stands on line N + 1, which is none. Where bytes other
    than tab, CR and LF take the place of one cell of a row, from cell 2 on, the breaks on all other lines, line N + 1 included, stay the same. Raises
    TooLong, NoRow, in this order.
    """
    data, line = _bytes(data), _whole("lines", line, _U32_MAX)
    return _listed(lambda room: _judge_line(data, line, room), most)


def _listed(judge_with, most: Optional[int]) -> List[Break]:
    """The first breaks, all or `most`, of a call that answers their count and a list with room for some; a longer list is made only where it is needed."""
    room = _FIRST_LIST if most is None else min(most, _FIRST_LIST)
    found, places = judge_with(room)
    wanted = found if most is None else min(most, found)
    if wanted > room:
        found, places = judge_with(wanted)
    return [Break(places[k + 1], places[k + 2], places[k], places[k + 3]) for k in range(0, 4 * wanted, 4)]


def _judge(data: bytes, room: int):
    """The count of all breaks, and a list with room for some of them."""
    return _filled(room, lambda places, number: _library.mztab_judge(data, len(data), places, 4 * room, number))


def _judge_line(data: bytes, line: int, room: int):
    """The same of one line."""
    return _filled(room, lambda places, number: _library.mztab_judge_line(data, len(data), line, places, 4 * room, number))


def _filled(room: int, call):
    """What a judging call answers, and the list that it fills."""
    # A list of no length would have no address of its own, so one place more is made than is lent.
    places, number = (ctypes.c_uint32 * (4 * room + 1))(), ctypes.c_uint32()
    found = call(places, number)
    _refuse(number.value)
    return found, places


def mend(data: bytes) -> Mended:
    """A copy with `null` in every cell that breaks rule 19, an empty cell of a row, and line and cell of each change.

    The columns where `null` may not stand, protein `accession`, peptide and PSM `sequence`, and `PSM_ID`, stay as they are, and so does every other byte.
    The file need not be accepted. The copy's breaks are those of the file without the mended ones; so mending it again changes nothing. Raises TooLong,
    NoRoom, in this order.
    """
    data = _bytes(data)
    most = _most_changes(data)
    room = min(len(data) + len(_NULL) * most, LIMIT)
    # One byte and one place more are made than are lent, as for a list of breaks.
    copy, places = (ctypes.c_char * (room + 1))(), (ctypes.c_uint32 * (2 * most + 1))()
    number, found = ctypes.c_uint32(), ctypes.c_uint32()
    length = _library.mztab_mend(data, len(data), copy, room, places, 2 * most, number, found)
    _refuse(number.value)
    return Mended(ctypes.string_at(copy, length), [Change(places[k], places[k + 1]) for k in range(0, 2 * found.value, 2)])


def _most_changes(data: bytes) -> int:
    """No more cells than this can be mended. One that is stands between a tab and the next tab, or the line's end; and the copy is within the limit.

    Among tabs side by side there are at most twice as many such cells as pairs. To count them takes little time, and so one call is enough.
    """
    empty = 2 * data.count(b"\t\t") + data.count(b"\t\n") + data.count(b"\t\r\n") + data.endswith(b"\t")
    return min(empty, max(LIMIT - len(data), 0) // len(_NULL))


def cell(data: bytes, section: int, row: int, column: int, stand_in: Optional[bytes] = None) -> bytes:
    """A cell as the bytes that stand there, or the stand-in where it is `null` and one is given.

    Row 0 is the section's first header, row r its r-th row. Column c is cell c + 1 of the line; column 0 is refused. Raises TooLong, NoSection,
    NoRow, NoCell, in this order.
    """
    data, asked = _bytes(data), _asked(section, row, column)
    number, length, stood_in = ctypes.c_uint32(), ctypes.c_size_t(), ctypes.c_uint32()
    if stand_in is None:
        start = _library.mztab_cell(data, len(data), *asked, number, length)
    else:
        stand_in = _bytes(stand_in)
        start = _library.mztab_cell_or(data, len(data), *asked, stand_in, len(stand_in), number, length, stood_in)
    _refuse(number.value)
    of = stand_in if stood_in.value else data
    return of[start : start + length.value]


def reading(data: bytes, section: int, row: int, column: int) -> Reading:
    """What a cell, found as by `cell`, reads as. Raises as `cell` does."""
    data = _bytes(data)
    number, line, at = (ctypes.c_uint32() for _ in range(3))
    whole, power, decimal = ctypes.c_int64(), ctypes.c_int32(), ctypes.c_double()
    case = _library.mztab_reading(data, len(data), *_asked(section, row, column), number, line, at, whole, power, decimal)
    _refuse(number.value)
    word = _CASES[case]
    if word == "whole":
        return Reading(line.value, at.value, word, whole.value)
    if word == "decimal":
        return Reading(line.value, at.value, word, decimal.value, whole.value, power.value)
    value = {"infinite": float("inf"), "not a number": float("nan")}.get(word)
    return Reading(line.value, at.value, word, value)


def rows(data: bytes, section: int) -> int:
    """How many rows a section has, whatever breaks the file has: `cell` knows row r exactly for r up to it. Raises TooLong, NoSection."""
    data = _bytes(data)
    number = ctypes.c_uint32()
    found = _library.mztab_rows(data, len(data), *_asked(section), number)
    _refuse(number.value)
    return found


def weights(data: bytes) -> List[int]:
    """The weights of the 64 study variables of an accepted file.

    Place i - 1 has the number of protein rows whose cell under `protein_abundance_study_variable[i]` is not `null`, 0 where the header has no such
    column. Raises TooLong, NotAccepted.
    """
    data = _bytes(data)
    places, number = (ctypes.c_uint32 * STUDY_VARIABLES)(), ctypes.c_uint32()
    _library.mztab_weights(data, len(data), places, STUDY_VARIABLES, number)
    _refuse(number.value)
    return list(places)


def split_fee(fee: int, weights: Sequence[int]) -> List[int]:
    """The shares of a fee in cents, one for each weight; they add up to the fee.

    A share is the proportion rounded down; the cents left over go one each to the largest remainders, the lower number first among equals. Raises
    NotAsMany, TooLarge, AllZero, in this order.
    """
    fee = _whole("amounts", fee, _U64_MAX)
    lent = [_whole("weights", weight, _U32_MAX) for weight in weights]
    # One place more is made than is lent, as for a list of breaks.
    length = len(lent)
    places, shares = (ctypes.c_uint32 * (length + 1))(*lent), (ctypes.c_uint64 * (length + 1))()
    number = ctypes.c_uint32()
    _library.mztab_split_fee(fee, places, length, shares, length, number)
    _refuse(number.value)
    return shares[:length]


def add_cents(a: int, b: int) -> int:
    """The sum of two amounts in cents. Raises TooLarge where it is over 100,000,000,000."""
    number = ctypes.c_uint32()
    found = _library.mztab_add_cents(_whole("amounts", a, _U64_MAX), _whole("amounts", b, _U64_MAX), number)
    _refuse(number.value)
    return found


def tally(data: bytes) -> Tally:
    """The tally of an accepted file. Raises TooLong, NotAccepted, BelowZero, in this order."""
    data = _bytes(data)
    return _tallied(lambda totals, number: _library.mztab_tally(data, len(data), totals, number))


def add_tallies(a: Tally, b: Tally) -> Tally:
    """The sum of two tallies, total by total. Raises Past64Bits where one of the sums is 2 to the power of 64, or more."""
    a, b = _totals(a), _totals(b)
    return _tallied(lambda totals, number: _library.mztab_tally_add(a, b, totals, number))


def write_tally(tally: Tally) -> bytes:
    """The record of a tally, 70 bytes: the length of the rest in four, the kind 1 in two, and the totals in eight each, lowest bytes first."""
    record, number = (ctypes.c_char * RECORD)(), ctypes.c_uint32()
    length = _library.mztab_tally_write(_totals(tally), record, RECORD, number)
    _refuse(number.value)
    return record.raw[:length]


def read_tally(data: bytes) -> Tally:
    """The tally that a record holds. Raises NotARecord where the bytes are none."""
    data = _bytes(data)
    return _tallied(lambda totals, number: _library.mztab_tally_read(data, len(data), totals, number))


def _tallied(call) -> Tally:
    """The tally that a call writes."""
    totals, number = _Totals(), ctypes.c_uint32()
    call(totals, number)
    _refuse(number.value)
    return Tally(*totals)


def _totals(tally: Tally):
    """The totals of a tally as the library takes them. One that it cannot hold is no total, and is not made to fit."""
    if not isinstance(tally, Tally):
        raise TypeError("a tally is a Tally, as tally and read_tally give it")
    totals = [operator.index(total) for total in tally]
    if min(totals) < 0:
        raise ValueError("totals are not negative")
    if max(totals) > _U64_MAX:
        raise OverflowError("totals are at most 18,446,744,073,709,551,615")
    return _Totals(*totals)
