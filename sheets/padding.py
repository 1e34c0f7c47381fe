"""Odd and even formulas as polynomials, padded with a 0 for each power that
they have not."""

from typing import NamedTuple

from errors import measure
from formulas import EVEN, ODD, POLYNOMIAL
from refusal import Refused
from sheet_bytes import record_of


class Padded(NamedTuple):
    """What a formula would be as a padded polynomial."""

    length: int  # of its record, in bytes
    error: float  # the largest over the arguments asked, in steps


def is_odd_or_even(printed):
    return printed.formula.kind in (ODD, EVEN)


def padded(formula):
    """The polynomial of an odd or even formula."""
    lowest = 1 if formula.kind == ODD else 0
    words = [0] * (2 * formula.p - 1 + lowest)
    words[lowest::2] = formula.words
    return formula._replace(
        kind=POLYNOMIAL, p=len(words), words=tuple(words))


def measure_padded(printed, count):
    """The padded form over `count` arguments; None where no record has it."""
    polynomial = padded(printed.formula)
    try:
        length = len(record_of(polynomial))
    except Refused:
        return None
    errors = measure(printed._replace(formula=polynomial), count)
    return Padded(length, errors.answer)
