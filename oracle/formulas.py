"""The six formula kinds: their shape, their answer and their admission; and
which formulas are blank.

Paper 01, 'Formula kinds', 'Admission' and the table of 'Sheet layout'; the odd
and the even polynomial are of request M-100, the steps of M-103, the mark of
M-105, blank formulas of M-106.
"""

from typing import NamedTuple

from number import (
    M, Marked, bound_product, bound_quotient, is_word, product, quotient, root)

POLYNOMIAL = 0x0010
RATIONAL = 0x0011
FRACTION = 0x0012
ROOT = 0x0013
ODD = 0x0014
EVEN = 0x0015

POLYNOMIALS = POLYNOMIAL, ODD, EVEN  # laid out alike


class Formula(NamedTuple):
    """A formula's fields; one that the kind has not is 0.

    p is the count of a polynomial (odd and even included), the count of a
    rational's numerator or the depth of a fraction; q is the count of a
    rational's divisor. The words are the coefficients in stored order.
    """

    kind: int
    number: int
    lo: int
    hi: int
    p: int
    q: int
    mode: int
    words: tuple


class Shape(NamedTuple):
    """A row of the table of 'Sheet layout'."""

    head: int  # bytes before the first coefficient
    p: range  # what p may be
    q: range  # what q may be


ABSENT = range(0, 1)
AS_THE_POLYNOMIAL = Shape(16, range(1, 17), ABSENT)

SHAPES = {
    POLYNOMIAL: AS_THE_POLYNOMIAL,
    RATIONAL: Shape(20, range(1, 13), range(1, 13)),
    FRACTION: Shape(20, range(1, 13), ABSENT),
    ROOT: Shape(16, ABSENT, ABSENT),
    ODD: AS_THE_POLYNOMIAL,
    EVEN: AS_THE_POLYNOMIAL,
}


def counts_in_range(kind, p, q):
    return p in SHAPES[kind].p and q in SHAPES[kind].q


def word_count(kind, p, q):
    """How many coefficients a formula of these counts stores."""
    return 2 * p + 1 if kind == FRACTION else p + q


def record_length(kind, p, q):
    return SHAPES[kind].head + 4 * word_count(kind, p, q)


def values_are_good(formula):
    """Refusal 6 is given where this does not hold."""
    return (
        all(is_word(n) for n in (formula.lo, formula.hi, *formula.words))
        and formula.lo <= formula.hi
        and formula.mode <= 2
        and (formula.kind != ROOT or formula.lo >= 0)
    )


def decisive_count(kind, p):
    """How many words, from the first on, must not all be 0: a polynomial's
    coefficients, a rational's numerator, b0 and a1 of a fraction; a root has
    none."""
    return 2 if kind == FRACTION else p


def is_blank(formula):
    """Refusal 14 is given where this holds (request M-106). A root is never
    blank."""
    count = decisive_count(formula.kind, formula.p)
    return formula.kind != ROOT and not any(formula.words[:count])


# Answers ('Formula kinds'). Every number on the way has a mark: it is exact
# where no product or quotient that it was worked from was rounded. So s counts
# where the answer is worked from it, whatever it is multiplied by, and nowhere
# else.


class Worked(NamedTuple):
    """An answer as it was worked out."""

    word: int
    steps: int  # of Heron's rule; 0 for every kind but the root
    exact: bool  # or else rounded

    def counting(self, argument):
        """The same, with a rounding of its argument counted too."""
        return self._replace(exact=self.exact and argument.exact)


def unrounded(word):
    """A word that is stored or given."""
    return Marked(word, True)


def times(a, b):
    number, exact = product(a.number, b.number)
    return Marked(number, exact and a.exact and b.exact)


def over(a, d):
    number, exact = quotient(a.number, d.number)
    return Marked(number, exact and a.exact and d.exact)


def plus(word, n):
    """A sum is never rounded."""
    return Marked(word + n.number, n.exact)


def polynomial(words, x):
    """The walk over the coefficients; an odd or even formula takes it at s."""
    running = unrounded(words[-1])
    for c in reversed(words[:-1]):
        running = plus(c, times(running, x))
    return running


def factor(mode, j, x, s):
    """v_j of a fraction: x or s. Admission asks it for the bound of v_j."""
    return x if mode == 0 or (mode == 2 and j == 1) else s


def fraction(words, depth, mode, x):
    """The words are b0, a1, b1, a2, ...: b_j is words[2j], a_j words[2j-1]."""
    s = times(x, x)
    t = unrounded(words[2 * depth])
    for j in range(depth, 0, -1):
        a, b = unrounded(words[2 * j - 1]), words[2 * j - 2]
        t = plus(b, over(times(a, factor(mode, j, x, s)), t))
    return t


def without_steps(formula, x):
    """The answer word of a formula of any kind but the root, marked."""
    words, p = formula.words, formula.p
    if formula.kind == POLYNOMIAL:
        return polynomial(words, x)
    if formula.kind == RATIONAL:
        return over(polynomial(words[:p], x), polynomial(words[p:], x))
    if formula.kind == FRACTION:
        return fraction(words, p, formula.mode, x)
    even = polynomial(words, times(x, x))
    return times(even, x) if formula.kind == ODD else even


def answer(formula, x):
    """The answer of an admitted formula for a word x of its interval."""
    if formula.kind == ROOT:
        return Worked(*root(x))
    word, exact = without_steps(formula, unrounded(x))
    return Worked(word, 0, exact)


# Admission: each function gives 0, or the refusal 7 or 8 that it meets first.


def bounds(words, a):
    """The bounds B_0 to B_n of a polynomial where |x| is at most a."""
    upward = [abs(words[-1])]
    for c in reversed(words[:-1]):
        upward.append(abs(c) + bound_product(upward[-1], a))
    return upward[::-1]


def polynomial_admission(words, a):
    return 7 if max(bounds(words, a)) > M else 0


def rational_admission(numerator, divisor, a):
    if polynomial_admission(numerator, a) or polynomial_admission(divisor, a):
        return 7
    least = abs(divisor[0])
    if len(divisor) > 1:
        least -= bound_product(bounds(divisor, a)[1], a)
    if least < 1:
        return 8
    return 7 if bound_quotient(bounds(numerator, a)[0], least) > M else 0


def fraction_admission(words, depth, mode, a):
    s = bound_product(a, a)
    if mode != 0 and s > M:
        return 7
    least = abs(words[2 * depth])
    if least < 1:
        return 8
    for j in range(depth, 0, -1):
        g = bound_product(abs(words[2 * j - 1]), factor(mode, j, a, s))
        if g > M:
            return 7
        q = bound_quotient(g, least)
        b = abs(words[2 * j - 2])
        if b + q > M:
            return 7
        least = b - q
        if j > 1 and least < 1:
            return 8
    return 0


def odd_or_even_admission(kind, words, a):
    """S is formed for one coefficient too, though the answer has no use of s;
    the last bound product is the odd formula's alone."""
    s = bound_product(a, a)
    if s > M or polynomial_admission(words, s):
        return 7
    last = bound_product(bounds(words, s)[0], a)
    return 7 if kind == ODD and last > M else 0


def admission(formula):
    words, p = formula.words, formula.p
    a = max(abs(formula.lo), abs(formula.hi))
    if formula.kind == POLYNOMIAL:
        return polynomial_admission(words, a)
    if formula.kind == RATIONAL:
        return rational_admission(words[:p], words[p:], a)
    if formula.kind == FRACTION:
        return fraction_admission(words, p, formula.mode, a)
    if formula.kind == ROOT:
        return 0
    return odd_or_even_admission(formula.kind, words, a)


def verdict(formula):
    """0, or the refusal of a formula whose counts are in range: 6, then 14,
    then 7 or 8."""
    if not values_are_good(formula):
        return 6
    return 14 if is_blank(formula) else admission(formula)
