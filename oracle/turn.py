"""Sine and cosine from an angle (request M-102).

An angle is a whole number from 0 to 2^32 - 1, and stands for that many of the
2^32 parts of a turn.
"""

from formulas import ODD, answer
from number import ONE, nearest
from refusal import Refused
from sheet import formula_of

TURN = 1 << 32
HALF_TURN = 1 << 31
QUARTER = 1 << 30


def wrapped(sum_of_angles):
    """Sums of angles wrap."""
    return sum_of_angles % TURN


def quarter_and_rest(angle):
    """The quarter that the two top bits name, and f, the other 30 bits."""
    return angle >> 30, angle & QUARTER - 1


def argument_at(quarter, f):
    """f / 2^6 rounded as products are; in quarters 1 and 3 f is taken from
    2^30 first, so at their beginning the argument is one."""
    return nearest(QUARTER - f if quarter in (1, 3) else f, 1 << 6)


def fit_formula(sheet, number):
    """1 to 9, then 11, then 15 for a formula that is not odd or whose interval
    does not hold 0 to one, both ends inside."""
    formula = formula_of(sheet, number)
    if formula.kind != ODD or formula.lo > 0 or formula.hi < ONE:
        raise Refused(15)
    return formula


def sine(sheet, number, angle):
    """The odd formula's answer, its word negated in quarters 2 and 3. The
    argument lies in the interval, so every angle is answered; no odd formula
    takes steps. The mark counts the argument's own rounding (request M-105).
    """
    formula = fit_formula(sheet, number)
    quarter, f = quarter_and_rest(angle)
    argument = argument_at(quarter, f)
    found = answer(formula, argument.number).counting(argument)
    return found._replace(word=-found.word) if quarter in (2, 3) else found


def cosine(sheet, number, angle):
    """The sine of the angle plus a quarter."""
    return sine(sheet, number, wrapped(angle + QUARTER))
