"""Slow, obvious definitions for the self-test, in exact fractions.

Each follows a sentence of the paper, or of a request, word by word and shares
no arithmetic with the modules it is compared with.
"""

from fractions import Fraction
from math import isqrt
from typing import NamedTuple

from formulas import (
    EVEN, FRACTION, ODD, POLYNOMIAL, POLYNOMIALS, RATIONAL, ROOT)

STEPS = 2**24
LARGEST = 2**31 - 1


def downward(value):
    """The largest whole number not above the value, which is 'the whole part'
    of one not below 0."""
    return value.numerator // value.denominator


def nearest(value):
    """'Rounded to the nearest whole number'; of two equally near, the one that
    is further from zero ('a tie goes away from zero')."""
    below = downward(value)
    above = below + 1
    down, up = value - below, above - value
    if down == up:
        return max(below, above, key=abs)
    return below if down < up else above


def upward(value):
    """'The same with rounding up instead.'"""
    below = downward(value)
    return below if below == value else below + 1


def is_whole(value):
    """There is nothing to round."""
    return downward(value) == value


def product(a, b):
    return nearest(Fraction(a * b, STEPS))


def quotient(a, d):
    return nearest(Fraction(a * STEPS, d))


def bound_product(a, b):
    return upward(Fraction(a * b, STEPS))


def bound_quotient(a, d):
    return upward(Fraction(a * STEPS, d))


# The product from halves (request M-104). A half is a digit of base 65536, and
# numbers are worked as on paper, their digits from the lowest on.

HALF = 2**16


def small_product(a, b):
    """'Multiplies 16 by 16 bits only.'"""
    assert 0 <= a < HALF and 0 <= b < HALF
    return a * b


def lower_half(n):
    return n & HALF - 1


def upper_half(n):
    return n >> 16


def carried(columns):
    """A digit for each column, and what is above it carried to the next; no
    column has more than 32 bits, and nothing is carried out of the last."""
    digits = []
    carry = 0
    for column in columns:
        n = column + carry
        assert 0 <= n < 2**32
        digits.append(lower_half(n))
        carry = upper_half(n)
    assert carry == 0
    return digits


def long_product(a, b):
    """The four digits of the product of two sizes of at most 32 bits."""
    a0, a1, b0, b1 = lower_half(a), upper_half(a), lower_half(b), upper_half(b)
    low, high = small_product(a0, b0), small_product(a1, b1)
    first, second = small_product(a1, b0), small_product(a0, b1)
    return carried((
        lower_half(low),
        upper_half(low) + lower_half(first) + lower_half(second),
        upper_half(first) + upper_half(second) + lower_half(high),
        upper_half(high)))


def in_steps(digits, *added):
    """The digits, with others added to the lowest of them, as whole steps: the
    24 bits below a step are cut off."""
    more = *added, *[0] * (4 - len(added))
    _, d1, d2, d3 = carried(map(sum, zip(digits, more)))
    return d3 << 24 | d2 << 8 | d1 >> 8


def product_from_halves(a, b):
    """Of the sizes, with half a step (2^23) added; the sign comes last."""
    size = in_steps(long_product(abs(a), abs(b)), 0, 2**7)
    return -size if (a < 0) != (b < 0) else size


def exact_from_halves(a, b):
    """The 24 bits below a step are all 0."""
    d0, d1, _, _ = long_product(abs(a), abs(b))
    return d0 == 0 and d1 & 2**8 - 1 == 0


def bound_product_from_halves(a, b):
    """With a step less one part (2^24 - 1) added."""
    return in_steps(long_product(a, b), 2**16 - 1, 2**8 - 1)


def root(x):
    """'The largest whole r with r² not above x·2^24.'"""
    return isqrt(x * STEPS)


def numbers_of_heron(x):
    """Every number w for x, above 0: 2 to the power b/2 rounded up, then the
    new number of each step, 'until the new number is not below the old'."""
    v = x * STEPS
    w = [2 ** upward(Fraction(len(f"{v:b}"), 2))]
    while len(w) == 1 or w[-1] < w[-2]:
        taken = downward(Fraction(v, w[-1]))
        w.append(downward(Fraction(w[-1] + taken, 2)))
    return w


def steps_of_heron(formula, x):
    """One for every number but the first; 0 for x = 0 and for other kinds."""
    if formula.kind != ROOT or x == 0:
        return 0
    return len(numbers_of_heron(x)) - 1


def walk(c, x):
    """Every product and running word of a polynomial, the answer last."""
    if len(c) == 1:
        return [c[0]]
    met = walk(c[1:], x)
    taken = product(met[-1], x)
    return [*met, taken, c[0] + taken]


def polynomial(c, x):
    return walk(c, x)[-1]


def numbers_met(formula, x):
    """All that a polynomial meets on its way, with an odd or even one's s at
    the beginning and an odd one's last product at the end."""
    if formula.kind == POLYNOMIAL:
        return walk(formula.words, x)
    s = product(x, x)
    met = [s, *walk(formula.words, s)]
    return [*met, product(met[-1], x)] if formula.kind == ODD else met


def fraction(b_and_a, v):
    """b0, a1, b1, ... with v1, v2, ...; the rest is a fraction of its own."""
    if not v:
        return b_and_a[0]
    b, a, *rest = b_and_a
    return b + quotient(product(a, v[0]), fraction(rest, v[1:]))


def factors(mode, depth, x, s):
    return {0: [x] * depth, 1: [s] * depth, 2: [x] + [s] * (depth - 1)}[mode]


def word(formula, x):
    words, p = formula.words, formula.p
    if formula.kind in POLYNOMIALS:
        return numbers_met(formula, x)[-1]
    if formula.kind == RATIONAL:
        return quotient(polynomial(words[:p], x), polynomial(words[p:], x))
    if formula.kind == FRACTION:
        return fraction(words, factors(formula.mode, p, x, product(x, x)))
    return root(x)


# The mark (request M-105).


class Taken(NamedTuple):
    """A product or quotient in an evaluation: its part there, the two numbers
    it is taken of, and what it is before it is rounded."""

    part: str
    a: int
    b: int
    exact: Fraction


def product_taken(part, a, b):
    return Taken(part, a, b, Fraction(a * b, STEPS))


def quotient_taken(part, a, d):
    return Taken(part, a, d, Fraction(a * STEPS, d))


def taken_in_walk(part, c, x):
    """Every running word but the last is multiplied by x."""
    return [product_taken(part, running, x) for running in walk(c, x)[:-1:2]]


def taken_in_fraction(b_and_a, v):
    """A product and a quotient for each term, the innermost first."""
    if not v:
        return []
    b, a, *rest = b_and_a
    return [*taken_in_fraction(rest, v[1:]),
            product_taken("term's product", a, v[0]),
            quotient_taken("term's quotient", product(a, v[0]),
                           fraction(rest, v[1:]))]


def uses_square(formula):
    """'An s that the answer never uses': by the rule's shape alone."""
    if formula.kind == FRACTION:
        return formula.mode == 1 or formula.mode == 2 and formula.p > 1
    return formula.kind in (ODD, EVEN) and formula.p > 1


def square_taken(x):
    return product_taken("square", x, x)


def taken_from_square(formula, x):
    """All that comes after s in an odd or even formula."""
    s = product(x, x)
    walked = taken_in_walk("product", formula.words, s)
    last = product_taken("last product", polynomial(formula.words, s), x)
    return [*walked, last] if formula.kind == ODD else walked


def taken(formula, x):
    """Every product and quotient that counts, the first of them first; of a
    root there is none."""
    words, p = formula.words, formula.p
    square = [square_taken(x)] if uses_square(formula) else []
    if formula.kind == POLYNOMIAL:
        return taken_in_walk("product", words, x)
    if formula.kind == RATIONAL:
        n, d = polynomial(words[:p], x), polynomial(words[p:], x)
        return [*taken_in_walk("product", words[:p], x),
                *taken_in_walk("divisor's product", words[p:], x),
                quotient_taken("quotient", n, d)]
    if formula.kind == FRACTION:
        v = factors(formula.mode, p, x, product(x, x))
        return [*square, *taken_in_fraction(words, v)]
    if formula.kind == ROOT:
        return []
    return [*square, *taken_from_square(formula, x)]


def exact(formula, x):
    """'No product or quotient in it was rounded'; 'a root is exact when its
    square is the scaled argument'."""
    if formula.kind == ROOT:
        return root(x)**2 == x * STEPS
    return all(is_whole(n.exact) for n in taken(formula, x))


def answer(formula, x):
    """The word, with the number of steps and the mark beside it."""
    return word(formula, x), steps_of_heron(formula, x), exact(formula, x)


def answer_near(formula, argument):
    """The answer at the word nearest to an argument of any exact number of
    steps; that rounding is added to the mark."""
    *found, mark = answer(formula, nearest(argument))
    return *found, mark and is_whole(argument)


def in_quarters(angle):
    """The exact part of a turn that an angle is, in quarters: 0 to below 4."""
    return 4 * Fraction(angle, 2**32)


def under_sine(angle):
    """The argument, in steps: it goes from 0 to one in a quarter, in two more
    to minus one, and in the last to 0."""
    turned = in_quarters(angle)
    if 1 < turned <= 3:
        turned = 2 - turned
    elif turned > 3:
        turned -= 4
    return turned * STEPS


def under_cosine(angle):
    """The argument, in steps: it is one at 0, and less by as many quarters as
    the angle is away from 0, on whichever side is nearer."""
    turned = in_quarters(angle)
    return (1 - min(turned, 4 - turned)) * STEPS


def sine(formula, angle):
    """The odd formula answers with its sign."""
    return answer_near(formula, under_sine(angle))


def cosine(formula, angle):
    return answer_near(formula, under_cosine(angle))


# Values that nothing is rounded in. An argument, like a value, is in steps,
# and need not be whole.


def exact_polynomial(c, in_ones):
    return sum(c_k * in_ones**k for k, c_k in enumerate(c))


def exact_fraction(b_and_a, v):
    """The v are in ones."""
    if not v:
        return Fraction(b_and_a[0])
    b, a, *rest = b_and_a
    return b + a * v[0] * STEPS / exact_fraction(rest, v[1:])


def exact_value(formula, x):
    """The value of a formula of any kind but the root."""
    words, p, in_ones = formula.words, formula.p, Fraction(x) / STEPS
    if formula.kind == POLYNOMIAL:
        return exact_polynomial(words, in_ones)
    if formula.kind == RATIONAL:
        return (exact_polynomial(words[:p], in_ones) * STEPS
                / exact_polynomial(words[p:], in_ones))
    if formula.kind == FRACTION:
        return exact_fraction(
            words, factors(formula.mode, p, in_ones, in_ones**2))
    even = exact_polynomial(words, in_ones**2)
    return even * in_ones if formula.kind == ODD else even


def is_the_value(formula, x, found):
    """A root's value is the number whose square is the scaled argument."""
    if formula.kind == ROOT:
        return found**2 == x * STEPS
    return found == exact_value(formula, x)


def exact_and_distance(c, x):
    """A polynomial's exact value at a word x, in steps, and how far from it
    the answer may lie: half of 1 + |x| + ... + |x|^(n-1), x in ones."""
    in_ones = Fraction(x, STEPS)
    distance = sum(abs(in_ones)**k for k in range(len(c) - 1)) / Fraction(2)
    return exact_polynomial(c, in_ones), distance


def near_enough(formula, x, found):
    """Demand 3's distance; an odd or even formula's is said at the rounded s,
    and an odd one's is |x| times that, plus one half, of x times the value."""
    at = x if formula.kind == POLYNOMIAL else product(x, x)
    value_there, distance = exact_and_distance(formula.words, at)
    if formula.kind == ODD:
        in_ones = Fraction(x, STEPS)
        value_there *= in_ones
        distance = abs(in_ones) * distance + Fraction(1, 2)
    return abs(found - value_there) <= distance


class Left(Exception):
    """'Above M gives 7.'"""


class Zero(Exception):
    """'Below 1 gives 8.'"""


def inside(bound):
    if bound > LARGEST:
        raise Left
    return bound


def above_zero(least):
    if least < 1:
        raise Zero
    return least


def bound(c, a):
    """B_0 of the coefficients, every B on the way held inside."""
    if len(c) == 1:
        return inside(abs(c[0]))
    return inside(abs(c[0]) + bound_product(bound(c[1:], a), a))


def admit_fraction(b_and_a, v):
    """The least that |b0| leaves; every L inside it is held above zero."""
    if not v:
        return abs(b_and_a[0])
    b, a, *rest = b_and_a
    least = above_zero(admit_fraction(rest, v[1:]))
    q = bound_quotient(inside(bound_product(abs(a), v[0])), least)
    inside(abs(b) + q)
    return abs(b) - q


def admit(formula):
    words, p = formula.words, formula.p
    a = max(abs(formula.lo), abs(formula.hi))
    if formula.kind == POLYNOMIAL:
        bound(words, a)
    elif formula.kind == RATIONAL:
        numerator, divisor = bound(words[:p], a), words[p:]
        bound(divisor, a)
        taken = 0
        if len(divisor) > 1:
            taken = bound_product(bound(divisor[1:], a), a)
        inside(bound_quotient(numerator, above_zero(abs(divisor[0]) - taken)))
    elif formula.kind == FRACTION:
        s = bound_product(a, a)
        if formula.mode > 0:
            inside(s)
        admit_fraction(words, factors(formula.mode, p, a, s))
    elif formula.kind == EVEN:
        bound(words, inside(bound_product(a, a)))
    elif formula.kind == ODD:
        b_0 = bound(words, inside(bound_product(a, a)))
        inside(bound_product(b_0, a))


def admission(formula):
    try:
        admit(formula)
    except Left:
        return 7
    except Zero:
        return 8
    return 0


# Blank formulas (request M-106).


def is_bad(formula):
    """'A stored value is no word, lo above hi, mode above 2, or a root with lo
    below 0.'"""
    return (-2**31 in (formula.lo, formula.hi, *formula.words)
            or formula.lo > formula.hi
            or formula.mode not in (0, 1, 2)
            or formula.kind == ROOT and formula.lo < 0)


def is_blank(formula):
    """'A polynomial (odd and even included) whose coefficients are all zero, a
    rational whose numerator is all zero, or a fraction with b0 and a1 both
    zero.'"""
    if formula.kind in POLYNOMIALS:
        return set(formula.words) == {0}
    if formula.kind == RATIONAL:
        return set(formula.words[:-formula.q]) == {0}
    if formula.kind == FRACTION:
        b0, a1, *_ = formula.words
        return b0 == 0 and a1 == 0
    return False


def verdict(formula):
    """'14, directly after 6.'"""
    if is_bad(formula):
        return 6
    return 14 if is_blank(formula) else admission(formula)


def value(pattern):
    """The exact value of a finite double, from sign, exponent and fraction."""
    bits = f"{pattern:064b}"
    sign, exponent, digits = bits[0], int(bits[1:12], 2), int(bits[12:], 2)
    if exponent == 0:
        size = Fraction(digits, 2**1074)
    else:
        size = (1 + Fraction(digits, 2**52)) * Fraction(2) ** (exponent - 1023)
    return -size if sign == "1" else size
