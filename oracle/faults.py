"""Faults to be put into sheets and runs, one or two at a time.

A fault is a pair: the refusal it is aimed at, and what it does to a draft.
The oracle, not this table, says which refusal a spoilt sheet really gets.
"""

from itertools import combinations
from struct import unpack_from

from formulas import (
    FRACTION, POLYNOMIAL, POLYNOMIALS, RATIONAL, SHAPES, decisive_count)
from makers import framed, records_of, with_field
from number import M, NO_WORD
from sheet import END, START

# Where the fields of a record are; a start or end record has a count where a
# formula record has its number.
LENGTH_AT, KIND_AT, NUMBER_AT, COUNT_AT, LO_AT, HI_AT = 0, 4, 6, 6, 8, 12
FIRST_COUNT_AT, SECOND_COUNT_AT = 16, 18  # p and q, or mode and depth


class Draft:
    """The records of a sheet or run, and the one that faults are aimed at."""

    def __init__(self, records, at):
        self.records = list(records)
        self.at = at

    @property
    def record(self):
        return self.records[self.at]

    @record.setter
    def record(self, record):
        self.records[self.at] = record


def spoilt(records, *aimed):
    """The bytes with faults put in: pairs of a record's index and its faults.

    Of faults at one record, those that the reader looks for first come last
    in the tables below, so that none is undone by another.
    """
    draft = Draft(records, 0)
    for at, faults in aimed:
        draft.at = at
        for _, spoil in faults:
            spoil(draft)
    return b"".join(draft.records)


def one_or_two(faults):
    """Every fault alone, and every two aimed at different refusals."""
    for fault in faults:
        yield [fault]
    for pair in combinations(faults, 2):
        if pair[0][0] != pair[1][0]:
            yield list(pair)


def breaks_off(kept):
    """The bytes stop inside the record (-1: just before its last byte)."""
    def spoil(draft):
        draft.record = draft.record[:kept]
        del draft.records[draft.at + 1:]
    return spoil


def field(at, form, value):
    def spoil(draft):
        draft.record = with_field(draft.record, at, form, value)
    return spoil


def resized(change):
    """The record made longer or shorter, with the length it then has."""
    def spoil(draft):
        length = len(draft.record) + change
        record = (draft.record + bytes(max(change, 0)))[:length]
        draft.record = with_field(record, LENGTH_AT, "I", length)
    return spoil


def not_above_before(less):
    """The number of the record before (the first one's own), less 0 or 1."""
    def spoil(draft):
        before = draft.records[max(draft.at - 1, 0)]
        number, = unpack_from("<H", before, NUMBER_AT)
        number = max(number - less, 0)
        draft.record = with_field(draft.record, NUMBER_AT, "H", number)
    return spoil


def one_too_many(draft):
    """The start counts only the formulas before the one aimed at."""
    draft.records[0] = with_field(
        draft.records[0], COUNT_AT, "H", draft.at - 1)


def too_few(draft):
    """The formula before the end record is missing."""
    del draft.records[draft.at - 1]
    draft.at -= 1


def lo_above_hi(draft):
    field(LO_AT, "i", M)(draft)
    field(HI_AT, "i", -M)(draft)


def words_at(head, *words):
    """Coefficients from the first on; the last of these words is put into all
    that are left."""
    def spoil(draft):
        places = range(head, len(draft.record) - 3, 4)
        for i, at in enumerate(places):
            field(at, "i", words[min(i, len(words) - 1)])(draft)
    return spoil


def widest(kind, *words):
    """The widest interval, and these coefficients."""
    def spoil(draft):
        field(LO_AT, "i", -M)(draft)
        field(HI_AT, "i", M)(draft)
        words_at(SHAPES[kind].head, *words)(draft)
    return spoil


def after_the_end(draft):
    draft.records.append(b"\x00")


BROKEN = [
    (2, resized(1)), (2, resized(4)), (2, resized(8)),
    (2, field(LENGTH_AT, "I", 7)), (2, field(LENGTH_AT, "I", 121)),
    (1, breaks_off(0)), (1, breaks_off(3)), (1, breaks_off(5)),
    (1, breaks_off(-1))]

START_FAULTS = [
    (4, field(COUNT_AT, "H", 0)), (4, field(COUNT_AT, "H", 1)),
    (4, field(COUNT_AT, "H", 65)), (4, field(COUNT_AT, "H", 65535)),
    (3, field(KIND_AT, "H", 0x0002)), (3, field(KIND_AT, "H", POLYNOMIAL)),
    (3, field(KIND_AT, "H", END)), *BROKEN]

END_FAULTS = [
    (9, after_the_end), (4, too_few), (4, field(COUNT_AT, "H", 0)),
    (4, field(COUNT_AT, "H", 2)), (4, field(COUNT_AT, "H", 4)),
    (3, field(KIND_AT, "H", 0xFFFE)), (3, field(KIND_AT, "H", START)), *BROKEN]


def own_faults(kind, p):
    """Faults of one formula kind; a rational's p says where its divisor is."""
    head = SHAPES[kind].head
    if kind in POLYNOMIALS:
        s_alone = [] if kind == POLYNOMIAL else [(7, widest(kind, 1, 0))]
        return [(7, widest(kind, M)), *s_alone,
                (6, field(head, "i", NO_WORD)), (2, resized(-4 * p)),
                (2, resized(4 * (17 - p)))]
    if kind == RATIONAL:
        return [(7, widest(kind, M)), (8, field(head + 4 * p, "i", 0)),
                (6, field(head + 4 * p + 4, "i", NO_WORD)),
                (2, field(FIRST_COUNT_AT, "H", 13)),
                (2, field(SECOND_COUNT_AT, "H", 0))]
    if kind == FRACTION:
        return [(7, widest(kind, M)), (8, field(head + 8, "i", 0)),  # b1
                (8, field(head + 8 * p, "i", 0)),  # the innermost b
                (6, field(FIRST_COUNT_AT, "H", 3)),
                (2, field(SECOND_COUNT_AT, "H", 0)),
                (2, field(SECOND_COUNT_AT, "H", 13))]
    return [(6, field(LO_AT, "i", -1))]


def run_faults(kind, p):
    """Faults at a formula record of a run."""
    return own_faults(kind, p) + [
        (6, lo_above_hi), (6, field(LO_AT, "i", NO_WORD)),
        (6, field(HI_AT, "i", NO_WORD)), (5, not_above_before(0)),
        (5, not_above_before(1)), (3, field(KIND_AT, "H", 0x0016)),
        (3, field(KIND_AT, "H", START)), *BROKEN]


def formula_faults(kind, p):
    """Faults at a formula record of a sheet."""
    return [(9, after_the_end), (4, one_too_many)] + run_faults(kind, p)


def made_blank(kind, p):
    """The words that must not all be 0 are 0 (request M-106)."""
    def spoil(draft):
        for i in range(decisive_count(kind, p)):
            field(SHAPES[kind].head + 4 * i, "i", 0)(draft)
    return spoil


def beside_a_blank(kind, p, faults):
    """Each fault in a record that is blank as well, put in before or after, so
    that it does not undo that."""
    blank = 14, made_blank(kind, p)
    for fault in faults:
        yield [fault, blank] if fault[0] in (7, 8) else [blank, fault]


def each_fault(formulas):
    """A sheet of these formulas for each fault at each record."""
    records = framed(records_of(formulas))
    tables = [START_FAULTS, *(formula_faults(formula.kind, formula.p)
                              for formula in formulas), END_FAULTS]
    for at, table in enumerate(tables):
        for fault in table:
            yield spoilt(records, (at, [fault]))
