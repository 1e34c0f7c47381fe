"""What becomes of the ready sheets when a bit is turned, or zeros stand in place
of the tail or of a formula's coefficients: for docs/FORMAT.md, by the second
program."""

import functools
import sys
from pathlib import Path

ROOT = Path(__file__).resolve().parent.parent
sys.path.append(str(ROOT / "oracle"))

from formulas import SHAPES
from refusal import Refused
from sheet import kind_of, read, record_at


def refusal_of(content):
    try:
        read(content)
        return 0
    except Refused as refusal:
        return refusal.number


def coefficient_ranges(content):
    """The places of each formula's coefficients, where it has some."""
    place = 0
    while place < len(content):
        record = record_at(content, place)
        shape = SHAPES.get(kind_of(record))
        if shape and len(record) > shape.head:
            yield range(place + shape.head, place + len(record))
        place += len(record)


def turned_bits(content):
    """Each place, eight times, and the refusal after a bit there is turned."""
    for i in range(8 * len(content)):
        turned = bytearray(content)
        turned[i // 8] ^= 1 << i % 8
        yield i // 8, refusal_of(bytes(turned))


def zeroed(content, places):
    changed = bytearray(content)
    changed[places.start:places.stop] = bytes(len(places))
    return bytes(changed)


def zeroed_tails(content):
    """The refusal of each zeroed tail that changes a byte."""
    for kept in range(len(content)):
        other = zeroed(content, range(kept, len(content)))
        if other != content:
            yield refusal_of(other)


@functools.lru_cache(maxsize=None)
def found():
    """The sheets but all.sheet, which has the others' formulas over again."""
    bits, inner, tails, blanked = [], [], [], []
    for path in sorted((ROOT / "sheets").glob("*.sheet")):
        if path.stem == "all":
            continue
        content = path.read_bytes()
        ranges = list(coefficient_ranges(content))
        coefficients = set().union(*ranges)
        for place, refused in turned_bits(content):
            bits.append(refused)
            if place in coefficients:
                inner.append(refused)
        tails.extend(zeroed_tails(content))
        blanked.extend(refusal_of(zeroed(content, places))
                       for places in ranges)
    return {
        "one bit turned": f"{bits.count(0)} of {len(bits)} accepted",
        "one bit of a coefficient turned":
            f"{inner.count(0)} of {len(inner)} accepted",
        "tail zeroed": f"{tails.count(0)} of {len(tails)} accepted, "
                       f"{tails.count(14)} refused by 14, "
                       f"{tails.count(8)} by 8",
        "a formula's coefficients zeroed":
            f"{blanked.count(0)} of {len(blanked)} accepted, "
            f"{blanked.count(14)} refused by 14"}
