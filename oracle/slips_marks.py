"""Marks with a slip in each, which the vectors of groups_marks.py have to show
(request M-105).

A slip is a function that says, of a question that is answered, whether the
answer is exact.
"""

from fractions import Fraction
from struct import calcsize, unpack_from
from typing import NamedTuple

import slow
from formulas import EVEN, FRACTION, ODD, POLYNOMIAL, RATIONAL, ROOT, Formula
from questions import COSINE, DOUBLE, EVALUATE, SINE
from sheet import formula_of
from slow import STEPS, is_whole


class Answered(NamedTuple):
    """A question that is answered, and its mark."""

    question: int
    formula: Formula
    argument: Fraction  # in steps, before it is rounded
    x: int  # and after
    taken: list  # every product and quotient that counts
    mark: bool


# How each question begins: a number and what the argument is worked from.
ARGUMENTS = {
    EVALUATE: ("<Hi", Fraction),
    DOUBLE: ("<HQ", lambda pattern: slow.value(pattern) * STEPS),
    SINE: ("<HI", slow.under_sine),
    COSINE: ("<HI", slow.under_cosine)}


def taken_up(question, content, answer):
    form, argument_of = ARGUMENTS[question]
    number, given = unpack_from(form, content)
    formula = formula_of(content[calcsize(form):], number)
    argument = argument_of(given)
    x = slow.nearest(argument)
    return Answered(question, formula, argument, x, slow.taken(formula, x),
                    answer[-2:] == b"\1\0")


def answered(vectors):
    """Those vectors that have a mark and are not refused."""
    return [taken_up(question, content, answer)
            for question, content, answer in vectors
            if question in ARGUMENTS and answer[0] == 0]


def changed(cases, mark, count=sum):
    """How many marks a slip changes; or, counted by `any`, whether it changes
    one."""
    return count(mark(case) != case.mark for case in cases)


# What makes up a mark: the argument's own rounding, a root's square, and every
# product and quotient.


def own(case):
    return is_whole(case.argument)


def of_root(case):
    return case.formula.kind != ROOT or slow.exact(case.formula, case.x)


def is_exact(n):
    return is_whole(n.exact)


def of_taken(which=lambda case: case.taken, judged=is_exact):
    """A mark for which `which` says what counts, and `judged` what is exact.
    """
    def mark(case):
        return own(case) and of_root(case) and all(map(judged, which(case)))
    return mark


as_it_is = of_taken()


def without(*parts, kinds=(POLYNOMIAL, RATIONAL, FRACTION, ODD, EVEN),
            modes=(0, 1, 2)):
    """Some parts do not count in some kinds and modes."""
    def which(case):
        left_out = case.formula.kind in kinds and case.formula.mode in modes
        return [n for n in case.taken if not left_out or n.part not in parts]
    return of_taken(which)


def square_counted(kind, mode=0):
    """The square counts in a kind and mode, be it used or not."""
    def which(case):
        if (case.formula.kind, case.formula.mode) == (kind, mode):
            return [slow.square_taken(case.x), *case.taken]
        return case.taken
    return of_taken(which)


def beside_the_square(case):
    """What s is multiplied by, where it is used."""
    beside = [n.a for n in case.taken
              if n.part in ("product", "term's product")]
    return beside[:-1] if case.formula.mode == 2 else beside


def square_by_values(case):
    """The square does not count where it is multiplied by 0 alone."""
    if any(beside_the_square(case)):
        return case.taken
    return [n for n in case.taken if n.part != "square"]


def inner_terms(case):
    """All but the outermost term of a fraction."""
    return case.taken[:-2] if case.formula.kind == FRACTION else case.taken


def outermost_term(case):
    """The square and the outermost term of a fraction."""
    if case.formula.kind != FRACTION:
        return case.taken
    square = [n for n in case.taken if n.part == "square"]
    return [*square, *case.taken[-2:]]


# How a product or a quotient is judged.


def products(judged):
    """Products alone are judged in another way, by their parts of a step."""
    def either(n):
        return is_exact(n) if "quotient" in n.part else judged(abs(n.a * n.b))
    return of_taken(judged=either)


def quotients(judged):
    """Quotients alone are, by their two numbers."""
    def either(n):
        return judged(n) if "quotient" in n.part else is_exact(n)
    return of_taken(judged=either)


def rounded(n):
    return slow.nearest(n.exact)


# Roots.


def roots(judged):
    """Roots alone are judged in another way, by the argument and the root."""
    def mark(case):
        if case.formula.kind != ROOT:
            return case.mark
        return own(case) and judged(case.x, slow.root(case.x))
    return mark


def numbers_agree(x, r):
    return x == 0 or slow.numbers_of_heron(x)[-1] == r


# The argument's own rounding.


def arguments(questions, judged):
    """It is judged in another way in some questions."""
    def mark(case):
        if case.question not in questions:
            return case.mark
        return judged(case) and slow.exact(case.formula, case.x)
    return mark


def uses_argument(formula):
    """By the rule's shape."""
    return formula.kind in (FRACTION, ROOT, ODD) or max(
        formula.p, formula.q) > 1


SINES = SINE, COSINE
EVERY = EVALUATE, DOUBLE, SINE, COSINE

SLIPS = {
    "always exact": lambda case: True,
    "always rounded": lambda case: False,
    "the first product or quotient alone": of_taken(
        lambda case: case.taken[:1]),
    "the last product or quotient alone": of_taken(
        lambda case: case.taken[-1:]),
    "all but the first product or quotient": of_taken(
        lambda case: case.taken[1:]),
    "all but the last product or quotient": of_taken(
        lambda case: case.taken[:-1]),
    "two roundings taken as none": lambda case: (
        own(case) and of_root(case)
        and sum(not is_exact(n) for n in case.taken) % 2 == 0),
    "exact where the answer is the exact value": lambda case: (
        own(case) and slow.is_the_value(
            case.formula, case.x, slow.word(case.formula, case.x))),
    "by the argument's lowest 12 bits alone": lambda case: (
        own(case) and case.x % 4096 == 0),
    "a tie taken as exact": of_taken(judged=lambda n: is_whole(2 * n.exact)),
    "what is rounded to 0 taken as exact": of_taken(
        judged=lambda n: is_exact(n) or rounded(n) == 0),
    "what is rounded downward taken as exact": of_taken(
        judged=lambda n: rounded(n) <= n.exact),
    "what is rounded upward taken as exact": of_taken(
        judged=lambda n: rounded(n) >= n.exact),
    # Squares.
    "every square left out": without("square"),
    "an odd formula's square left out": without("square", kinds=(ODD,)),
    "an even formula's square left out": without("square", kinds=(EVEN,)),
    "mode 1's square left out": without("square", modes=(1,)),
    "mode 2's square left out": without("square", modes=(2,)),
    "an odd formula's unused square counted": square_counted(ODD),
    "an even formula's unused square counted": square_counted(EVEN),
    "mode 2's unused square counted": square_counted(FRACTION, 2),
    "a square counted in mode 0": square_counted(FRACTION, 0),
    "a square beside coefficients of 0 left out": of_taken(square_by_values),
    # Other parts.
    "a polynomial's products left out": without("product",
                                                kinds=(POLYNOMIAL,)),
    "an odd formula's walk left out": without("product", kinds=(ODD,)),
    "an odd formula's last product left out": without("last product"),
    "an even formula's walk left out": without("product", kinds=(EVEN,)),
    "a numerator's products left out": without("product", kinds=(RATIONAL,)),
    "a divisor's products left out": without("divisor's product"),
    "a rational's quotient left out": without("quotient"),
    "a fraction's products left out": without("term's product"),
    "a fraction's quotients left out": without("term's quotient"),
    "a fraction's inner terms left out": of_taken(outermost_term),
    "a fraction's outermost term left out": of_taken(inner_terms),
    # Products and quotients.
    "every quotient left out": quotients(lambda n: True),
    "a quotient's rest looked for before the scaling": quotients(
        lambda n: n.a % n.b == 0),
    "a quotient by a number below 0 never exact": quotients(
        lambda n: is_exact(n) and n.b > 0),
    "a quotient by a number below 0 always exact": quotients(
        lambda n: is_exact(n) or n.b < 0),
    "a quotient of a number below 0 never exact": quotients(
        lambda n: is_exact(n) and n.a >= 0),
    "a product's lowest 16 bits alone": products(
        lambda parts: parts % 2**16 == 0),
    "a product's bits 16 to 23 alone": products(
        lambda parts: parts >> 16 & 0xFF == 0),
    "a product's lowest 23 bits": products(lambda parts: parts % 2**23 == 0),
    "a product's lowest 25 bits": products(lambda parts: parts % 2**25 == 0),
    "a product's lowest 24 bits with the half added": products(
        lambda parts: (parts + 2**23) % 2**24 == 0),
    # Roots.
    "a root always exact": roots(lambda x, r: True),
    "a root never exact": roots(lambda x, r: False),
    "a root exact at 0 only": roots(lambda x, r: x == 0),
    "a root not exact at 0": roots(lambda x, r: x != 0 and r * r == x * STEPS),
    "a root exact where two numbers of Heron's rule agree": roots(
        numbers_agree),
    "a root exact where the last division leaves no rest": roots(
        lambda x, r: x == 0 or x * STEPS % r == 0),
    "a root exact where its square is the argument": roots(
        lambda x, r: r * r == x),
    # The argument's own rounding.
    "every argument's rounding left out": arguments(EVERY, lambda case: True),
    "the door's rounding left out": arguments((DOUBLE,), lambda case: True),
    "the sine's and the cosine's rounding left out": arguments(
        SINES, lambda case: True),
    "the sine's rounding left out": arguments((SINE,), lambda case: True),
    "the cosine's rounding left out": arguments((COSINE,), lambda case: True),
    "the door's rounding alone": lambda case: (
        own(case) if case.question == DOUBLE else case.mark),
    "the sine's and the cosine's rounding alone": lambda case: (
        own(case) if case.question in SINES else case.mark),
    "the door's left out where the argument is not used": arguments(
        (DOUBLE,), lambda case: own(case) or not uses_argument(case.formula)),
    "the door's left out where the argument becomes 0": arguments(
        (DOUBLE,), lambda case: own(case) or case.x == 0),
    "the door's left out for subnormal doubles": arguments(
        (DOUBLE,), lambda case: own(case) or abs(case.argument) < Fraction(
            STEPS, 2**1022)),
    "the door's left out below 0": arguments(
        (DOUBLE,), lambda case: own(case) or case.argument < 0),
    "ties at the door taken as exact": arguments(
        (DOUBLE,), lambda case: is_whole(2 * case.argument)),
    "ties of angles taken as exact": arguments(
        SINES, lambda case: is_whole(2 * case.argument)),
    "an angle's lowest 7 bits looked at": arguments(
        SINES, lambda case: is_whole(case.argument / 2)),
    "an angle's lowest 4 bits looked at": arguments(
        SINES, lambda case: is_whole(4 * case.argument)),
    "rounded where the sine is negated": lambda case: (
        case.mark and (case.question not in SINES or case.argument >= 0)),
}
