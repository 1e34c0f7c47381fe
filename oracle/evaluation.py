"""Evaluation on words (paper 01, 'Refusal numbers and their order').

The answer is a word, with its number of steps (request M-103) and its mark
(M-105) beside it.
"""

from formulas import answer
from refusal import Refused
from sheet import formula_of


def answer_inside(formula, argument):
    """The answer, or 10 for an argument outside lo..hi."""
    if not formula.lo <= argument <= formula.hi:
        raise Refused(10)
    return answer(formula, argument)


def evaluate(sheet, number, argument):
    """1 to 9, then 11, then 10; lo and hi are words, so no other gets in."""
    return answer_inside(formula_of(sheet, number), argument)
