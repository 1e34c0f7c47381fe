"""The door for doubles (paper 01, 'Doubles at the desk').

A double is its 64-bit pattern: 1 sign bit, 11 exponent bits, 52 fraction bits.
The number of steps (request M-103) and the mark (M-105) are given beside it,
as in evaluation; the mark counts the argument's own rounding too.
"""

from typing import NamedTuple

from evaluation import answer_inside
from number import Marked, nearest
from refusal import Refused
from sheet import formula_of

FRACTION_BITS = 52
BIAS = 1023
NOT_FINITE = 0x7FF  # the exponent of infinities and of what is not a number


class Shown(NamedTuple):
    """An answer as the door gives it."""

    pattern: int
    steps: int
    exact: bool


def word_of(pattern):
    """The exact value times 2^24, rounded as a product is; 13 if not finite.

    The whole number may be no word; then it lies outside every interval (10).
    """
    negative = pattern >> 63
    exponent = pattern >> FRACTION_BITS & 0x7FF
    digits = pattern & (1 << FRACTION_BITS) - 1
    if exponent == NOT_FINITE:
        raise Refused(13)
    if exponent != 0:
        digits |= 1 << FRACTION_BITS
    if negative:
        digits = -digits
    power = max(exponent, 1) - BIAS - FRACTION_BITS + 24
    if power >= 0:
        return Marked(digits << power, True)
    return nearest(digits, 1 << -power)


def pattern_of(n, power=-24):
    """The pattern of n * 2^power, exact; zero is plus zero.

    n has at most 53 binary digits, and a value other than 0 is a normal one.
    """
    if n == 0:
        return 0
    size = abs(n).bit_length()
    exponent = size - 1 + power + BIAS
    digits = abs(n) << (FRACTION_BITS + 1 - size)
    fraction = digits - (1 << FRACTION_BITS)
    return (n < 0) << 63 | exponent << FRACTION_BITS | fraction


def evaluate_double(sheet, number, pattern):
    """1 to 9, then 11, then 13, then 10."""
    formula = formula_of(sheet, number)
    argument = word_of(pattern)
    worked = answer_inside(formula, argument.number).counting(argument)
    return Shown(pattern_of(worked.word), worked.steps, worked.exact)


def interval(sheet, number):
    """A formula's low and high end as doubles; refuses as the reader does."""
    formula = formula_of(sheet, number)
    return pattern_of(formula.lo), pattern_of(formula.hi)
