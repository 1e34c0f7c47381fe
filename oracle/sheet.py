"""Reading a sheet (paper 01, 'Sheet layout' and 'Refusal numbers').

A polynomial, an odd and an even formula are laid out alike (request M-100). A
blank formula is refused by 14, which counts among 1 to 8 (M-106).
"""

from struct import unpack_from

from formulas import (
    FRACTION, POLYNOMIALS, RATIONAL, SHAPES, Formula, counts_in_range,
    record_length, verdict, word_count)
from refusal import Refused

START = 0x0001
END = 0xFFFF
MOST_FORMULAS = 64


def kind_of(record):
    return unpack_from("<H", record, 4)[0]


def record_at(data, place, base=0):
    """The whole record at a place of the data: 1, then 2, then 1.

    Its refusals, as all below, count their places from `base` bytes earlier.
    """
    left = len(data) - place
    if left < 4:
        raise Refused(1, base + place)
    length = unpack_from("<I", data, place)[0]
    if not 8 <= length <= 120:
        raise Refused(2, base + place)
    if left < length:
        raise Refused(1, base + place)
    return data[place:place + length]


def count_in(record, place):
    """The count of a start or end record, whose exact length is 8 (2)."""
    if len(record) != 8:
        raise Refused(2, place)
    return unpack_from("<H", record, 6)[0]


def formula_in(record, place):
    """The formula in a record of a formula kind; 2 if its length is not exact.

    A record too short for its own counts, or with a count out of range, has
    not the length of its kind and counts either.
    """
    kind = kind_of(record)
    head = SHAPES[kind].head
    if len(record) < head:
        raise Refused(2, place)
    number, lo, hi = unpack_from("<Hii", record, 6)
    p = q = mode = 0
    if kind in POLYNOMIALS:
        p = (len(record) - head) // 4
    elif kind == RATIONAL:
        p, q = unpack_from("<HH", record, 16)
    elif kind == FRACTION:
        mode, p = unpack_from("<HH", record, 16)
    if not counts_in_range(kind, p, q):
        raise Refused(2, place)
    if len(record) != record_length(kind, p, q):
        raise Refused(2, place)
    words = unpack_from(f"<{word_count(kind, p, q)}i", record, head)
    return Formula(kind, number, lo, hi, p, q, mode, words)


def next_formula(record, place, before, most):
    """The formula in a record after those `before`, at most `most` in all.

    The order is: exact length (2), one too many (4), number (5), 6, 14, 7 or
    8.
    """
    formula = formula_in(record, place)
    if len(before) == most:
        raise Refused(4, place)
    if before and formula.number <= before[-1].number:
        raise Refused(5, place)
    refused = verdict(formula)
    if refused:
        raise Refused(refused, place)
    return formula


def read(sheet):
    """All formulas of a sheet in order; refuses by 1 to 9."""
    start = record_at(sheet, 0)
    if kind_of(start) != START:
        raise Refused(3, 0)
    count = count_in(start, 0)
    if not 1 <= count <= MOST_FORMULAS:
        raise Refused(4, 0)
    formulas = []
    place = len(start)
    while True:
        record = record_at(sheet, place)
        if kind_of(record) == END:
            break
        if kind_of(record) not in SHAPES:
            raise Refused(3, place)
        formulas.append(next_formula(record, place, formulas, count))
        place += len(record)
    if count_in(record, place) != count or len(formulas) != count:
        raise Refused(4, place)
    place += len(record)
    if place != len(sheet):
        raise Refused(9, place)
    return formulas


def read_run(run, base):
    """All formulas of a run of records with no start and end around them.

    The run begins `base` bytes into the sheet that is being made of it.
    """
    formulas = []
    place = 0
    while place < len(run):
        record = record_at(run, place, base)
        if kind_of(record) not in SHAPES:
            raise Refused(3, base + place)
        formulas.append(
            next_formula(record, base + place, formulas, MOST_FORMULAS))
        place += len(record)
    return formulas


def formula_count(sheet):
    return len(read(sheet))


def formula_of(sheet, number):
    """The formula of a number asked: 1 to 9, then 11."""
    for formula in read(sheet):
        if formula.number == number:
            return formula
    raise Refused(11)
