"""The record writer and the sheet writer (paper 01, 'Refusal numbers').

Both take the buffer as it is beforehand and give the length written and the
buffer as it is afterwards; bytes beyond the written ones stay.
"""

from struct import pack

from formulas import (
    FRACTION, RATIONAL, ROOT, SHAPES, counts_in_range, verdict, word_count)
from refusal import Refused
from sheet import END, START, read_run


def own_fields(fields):
    """The fields that the kind has; the others are ignored and become 0."""
    kind = fields.kind
    p = 0 if kind == ROOT else fields.p
    q = fields.q if kind == RATIONAL else 0
    mode = fields.mode if kind == FRACTION else 0
    words = tuple(fields.words[:word_count(kind, p, q)])
    return fields._replace(p=p, q=q, mode=mode, words=words)


def record_of(formula):
    """The bytes of a formula's record ('Sheet layout')."""
    kind, number, lo, hi, p, q, mode, words = formula
    record = pack("<HHii", kind, number, lo, hi)
    if kind == RATIONAL:
        record += pack("<HH", p, q)
    elif kind == FRACTION:
        record += pack("<HH", mode, p)
    record += pack(f"<{len(words)}i", *words)
    return pack("<I", 4 + len(record)) + record


def start_or_end(kind, count):
    return pack("<IHH", 8, kind, count)


def put(output, buffer):
    """Puts the output at the front of the buffer, or refuses by 12."""
    if len(buffer) < len(output):
        raise Refused(12)
    return len(output), output + buffer[len(output):]


def write_record(fields, buffer):
    """3, then 2, 6, 14, 7 or 8, then 12, all at place 0."""
    if fields.kind not in SHAPES:
        raise Refused(3)
    formula = own_fields(fields)
    if not counts_in_range(formula.kind, formula.p, formula.q):
        raise Refused(2)
    refused = verdict(formula)
    if refused:
        raise Refused(refused)
    return put(record_of(formula), buffer)


def write_sheet(run, buffer):
    """4 for an empty run, the run's own refusals in its records, then 12."""
    if not run:
        raise Refused(4)
    count = len(read_run(run, base=8))
    sheet = start_or_end(START, count) + run + start_or_end(END, count)
    return put(sheet, buffer)
