"""Makers of words, formulas, angles and sheets for the vectors, from a
random.Random; arguments of roots, drawn or found; factors at the seams of
their halves; formulas of which it is known what is rounded; formulas that are
blank, or nearly so.

Only whole-number draws are used (getrandbits, randrange, choice).
"""

from struct import pack
from typing import NamedTuple

from formulas import (
    EVEN, FRACTION, ODD, POLYNOMIAL, RATIONAL, ROOT, SHAPES, Formula, answer,
    bounds, decisive_count, factor, is_blank, polynomial, unrounded, verdict,
    word_count)
from number import (
    M, ONE, bound_product, bound_quotient, product, quotient, root)
from sheet import END, START
from turn import QUARTER, wrapped
from writing import record_of, start_or_end

KINDS = tuple(SHAPES)
MODES = {kind: range(3) if kind == FRACTION else range(1) for kind in KINDS}
KINDS_AND_MODES = tuple(
    (kind, mode) for kind, modes in MODES.items() for mode in modes)
EDGES = (0, 1, -1, 2, ONE // 2, -ONE // 2, ONE, -ONE, ONE - 1, ONE + 1, M - 1,
         1 - M, M, -M)


def signed(rng, n):
    return rng.choice((n, -n))


def size(rng, most=M):
    """A whole number from 0 to `most`, of any count of digits alike."""
    return min(rng.getrandbits(rng.randrange(32)), most)


def word(rng):
    if rng.randrange(8) == 0:
        return rng.choice(EDGES)
    return signed(rng, size(rng))


def near_one(rng):
    """A word between -4 and 4, as most printed coefficients are."""
    return rng.randrange(-4 * ONE, 4 * ONE + 1)


def largest(formula):
    """A of Admission."""
    return max(abs(formula.lo), abs(formula.hi))


def interval(rng, kind):
    style = rng.randrange(4)
    if style == 0:
        lo, hi = -ONE, ONE
    elif style == 1:
        lo = hi = word(rng)
    else:
        lo, hi = sorted((word(rng), word(rng)))
    return (min(abs(lo), abs(hi)), abs(hi)) if kind == ROOT else (lo, hi)


def fraction_words(rng, depth, mode, a):
    """b0, a1, b1, ... that Admission takes where |x| is at most a."""
    s = bound_product(a, a)
    least = 1 + size(rng, M - 1)
    words = [signed(rng, least)]
    for j in range(depth, 0, -1):
        v = factor(mode, j, a, s)
        upper = abs(word(rng))
        while bound_quotient(bound_product(upper, v), least) >= M // 2:
            upper //= 2
        q = bound_quotient(bound_product(upper, v), least)
        least = 1 + size(rng, M - 2 * q - 1)
        words += [signed(rng, upper), signed(rng, q + least)]
    return tuple(reversed(words))


def every_shape():
    """Every kind with every count, depth and mode that it may have."""
    for kind, shape in SHAPES.items():
        for p in shape.p:
            for q in shape.q:
                for mode in MODES[kind]:
                    yield {"kind": kind, "p": p, "q": q, "mode": mode}


def good_formula(rng, kind, number=1, p=None, q=None, mode=None):
    """An accepted formula. A count or mode not given is drawn, and one that
    the kind has not is 0."""
    shape = SHAPES[kind]
    if p not in shape.p:
        p = rng.choice(shape.p)
    if q not in shape.q:
        q = rng.choice(shape.q)
    if mode not in MODES[kind]:
        mode = rng.choice(MODES[kind])
    while True:
        lo, hi = interval(rng, kind)
        if kind == FRACTION:
            words = fraction_words(rng, p, mode, max(abs(lo), abs(hi)))
        else:
            draw = rng.choice((word, near_one))
            words = tuple(draw(rng) for _ in range(word_count(kind, p, q)))
        formula = Formula(kind, number, lo, hi, p, q, mode, words)
        if verdict(formula) == 0:
            return formula


def most_below(upper):
    """The largest |c0| that Admission takes below the coefficients of a good
    polynomial, odd or even formula; below 0 if it takes none."""
    a = largest(upper)
    at = a if upper.kind == POLYNOMIAL else bound_product(a, a)
    most = M * ONE // a if upper.kind == ODD and a > ONE else M
    return most - bound_product(bounds(upper.words, at)[0], at)


def full_polynomial(rng, kind):
    """An accepted one of the three kinds, no coefficient below 0, whose c0
    could not be a step larger."""
    while True:
        upper = good_formula(rng, kind, p=1 + rng.randrange(15))
        words = most_below(upper), *map(abs, upper.words)
        if words[0] >= 0:
            return upper._replace(p=len(words), words=words)


# Odd and even formulas, and formulas that meet ties (request M-101).


class Form(NamedTuple):
    """A kind, the powers that each of its polynomials has (1 the odd ones, 0
    the even ones, None all) and a mode; in mode 2, b0 is 0."""

    kind: int
    powers: tuple = (None, None)
    mode: int = 0


# In these, in turn, the answer at -x is the negated one at x, the same, or
# neither. None has an odd divisor: Admission takes none, as its d0 is 0.
ODD_FORMS = (Form(ODD), Form(POLYNOMIAL, (1, None)), Form(RATIONAL, (1, 0)),
             Form(FRACTION, mode=2))
EVEN_FORMS = (Form(EVEN), Form(POLYNOMIAL, (0, None)), Form(RATIONAL, (0, 0)),
              Form(FRACTION, mode=1))
OTHER_FORMS = Form(POLYNOMIAL), Form(RATIONAL), Form(FRACTION)


def thinned(words, powers):
    """The coefficients of some powers; the others are 0."""
    return tuple(c if powers in (None, k % 2) else 0
                 for k, c in enumerate(words))


def formula_of_form(rng, kind, powers, mode):
    """A formula about 0, of a form, that is not blank; accepted unless its
    divisor is odd, since zeros put in make no bound larger."""
    while True:
        drawn = good_formula(rng, kind, mode=mode)
        a, p = largest(drawn), drawn.p
        words = thinned(drawn.words[:p], powers[0])
        words += thinned(drawn.words[p:], powers[1])
        if mode == 2:
            words = 0, *words[1:]
        formula = drawn._replace(lo=-a, hi=a, words=words)
        if not is_blank(formula):
            return formula


def twos(n):
    """How many times 2 divides n, which is not 0."""
    return (n & -n).bit_length() - 1


def tied_factor(rng, x):
    """A word whose product with x is a tie; x is no multiple of one."""
    return signed(rng, 2 * rng.randrange(8) + 1 << 23 - twos(x))


def tied_divisor(rng, n):
    """A number by which n has a tie as its quotient; n is not 0."""
    return signed(rng, 1 << 25 + twos(n))


def few_places(rng):
    """1 to 12 binary places, mostly few."""
    return rng.choice((1, 1, 2, 3, 4 + rng.randrange(9)))


def word_of_places(rng, places, less=0):
    """A word of so many binary places, at least 1, between 0 and 2, or 2 to a
    power that is less by some."""
    return 2 * rng.randrange(1 << places - less) + 1 << 24 - places


def tied_argument(rng):
    """A word between 0 and 2 of 1 to 12 binary places, mostly few, so that s
    is exact and, like x, no multiple of one."""
    return word_of_places(rng, few_places(rng))


def tied_walk(rng, count, x, powers=None):
    """Coefficients that make every product of the walk at x a tie, or, with
    some powers alone, every second one and others now and then."""
    words = []
    running = 0
    for k in reversed(range(count)):
        taken = product(running, x).number
        running = tied_factor(rng, x) if powers in (None, k % 2) else taken
        words.append(running - taken)
    return tuple(reversed(words))


def walked(words, x):
    """The word that the walk over the coefficients gives at a word x."""
    return polynomial(words, unrounded(x)).number


def aimed(words, x, value):
    """The coefficients with another c0, so that the answer at x is `value`."""
    return words[0] + value - walked(words, x), *words[1:]


def tied_polynomial(rng, kind, count, powers, x):
    """Coefficients of one of the three kinds with ties in the walk, and with
    one as an odd formula's last product."""
    if kind == POLYNOMIAL:
        return tied_walk(rng, count, x, powers)
    s = product(x, x).number
    words = tied_walk(rng, count, s)
    return aimed(words, s, tied_factor(rng, x)) if kind == ODD else words


def tied_rational(rng, p, q, powers, x):
    """Numerator and divisor with ties in both walks, and with one as their
    quotient."""
    numerator = tied_walk(rng, p, x, powers[0])
    divisor = tied_walk(rng, q, x, powers[1])
    n = walked(numerator, x) or 1
    return numerator + aimed(divisor, x, tied_divisor(rng, n))


def tied_fraction(rng, depth, mode, x):
    """b0, a1, b1, ... that make every product and every quotient at x a tie;
    b0 is 0."""
    s = product(x, x).number
    words = []
    q = 0
    for j in range(depth, 0, -1):
        v = factor(mode, j, x, s)
        a = tied_factor(rng, v)
        g = product(a, v).number
        t = tied_divisor(rng, g)
        words += [t - q, a]
        q = quotient(g, t).number
    return 0, *reversed(words)


def tied_formula(rng, kind, powers=(None, None), mode=0):
    """An accepted formula of a form on -x to x that meets ties at x, and, if
    it is odd or even, at -x."""
    shape = SHAPES[kind]
    while True:
        x, p, q = tied_argument(rng), rng.choice(shape.p), rng.choice(shape.q)
        if kind == FRACTION:
            words = tied_fraction(rng, p, mode, x)
        elif kind == RATIONAL:
            words = tied_rational(rng, p, q, powers, x)
        else:
            words = tied_polynomial(rng, kind, p, powers[0], x)
        formula = Formula(kind, 1, -x, x, p, q, mode, words)
        if verdict(formula) == 0:
            return formula


# Formulas for sine and cosine, and angles (request M-102).

# At each quarter's beginning, and about it: single parts, ties of f / 2^6 and
# next to them, and a whole step.
EDGE_ANGLES = tuple(
    wrapped(quarter * QUARTER + parts) for quarter in range(4)
    for parts in (-96, -64, -33, -32, -31, -1, 0, 1, 31, 32, 33, 64, 96))


def quarter_formula(rng, kind=ODD, number=1, p=None):
    """An accepted formula whose interval holds 0 to one, often just. It is
    narrowed from another, which makes no bound larger."""
    while True:
        drawn = good_formula(rng, kind, number, p)
        a = largest(drawn)
        if a >= ONE:
            below = 0 if kind == ROOT else rng.choice((0, 0, 1, ONE, a))
            hi = rng.choice((ONE, ONE, min(ONE + 1, a), a))
            return drawn._replace(lo=-below, hi=hi)


def full_quarter_formula(rng):
    """An odd formula on 0 to one whose answer at one is M, or nearly."""
    while True:
        drawn = full_polynomial(rng, ODD)
        if largest(drawn) == ONE:
            return drawn._replace(lo=0, hi=ONE)


def tied_quarter_formula(rng):
    """An odd formula that meets ties at an argument between 0 and one, and
    that argument."""
    while True:
        tied = tied_formula(rng, ODD)
        formula = tied._replace(lo=rng.choice((0, -ONE)), hi=ONE)
        if tied.hi < ONE and verdict(formula) == 0:
            return formula, tied.hi


def angle_in(rng, quarter):
    return quarter * QUARTER + rng.getrandbits(30)


def tied_angle_in(rng, quarter):
    """An angle whose f / 2^6 is a tie."""
    return quarter * QUARTER + 64 * rng.getrandbits(24) + 32


# Arguments of roots, and the steps that they take (request M-103).

# The smallest and the largest argument of each number of steps, and all those
# of 7, found by trying every word above 0. None takes 1 step or more than 7.
FIRST_AND_LAST = {
    2: (16769025, 1073741823), 3: (3, 1073741808), 4: (2, 1071968237),
    5: (1, M), 6: (4097, 2147476560), 7: (67108868, 1212153873)}
SEVEN_STEPS = (
    67108868, 268435464, 268435472, 268435480, 1073741840, 1073741856,
    1073741872, 1073741888, 1073741904, 1073741920, 1107558335, 1107558465,
    1141899231, 1141899297, 1212153839, 1212153873)


def steps_to(x):
    """The number of steps that the root of x takes."""
    return root(x)[1]


def word_of_digits(rng, digits):
    """A word above 0 of so many binary digits."""
    return 1 << digits - 1 | rng.getrandbits(digits - 1)


def change_of_steps(rng, digits):
    """A word of so many binary digits, at least 2, and the next one, which
    take different numbers of steps."""
    lower = upper = 0
    while steps_to(lower) == steps_to(upper):
        lower, upper = sorted(word_of_digits(rng, digits) for _ in range(2))
    while upper - lower > 1:
        between = (lower + upper) // 2
        if steps_to(between) == steps_to(lower):
            lower = between
        else:
            upper = between
    return lower, upper


def below_square(n, twos, c):
    """The x whose v is less than the square of n * 2^(23 - twos) + j by j * j
    only, where j is c * 2^twos."""
    return (n * n << 22 - 2 * twos) + n * c


# All words above 0 whose v is a square less one, where Heron's rule would
# swing between two numbers.
SQUARES_LESS_ONE = tuple(
    below_square(n, 0, c) for n in range(1, 23) for c in (-1, 1))


# Numbers at the seams of their halves, and the carries between halves (request
# M-104).

EVERY_CARRY = tuple((first, second, last) for first in (0, 1)
                    for second in (0, 1) for last in (0, 1))
SEAMS = (0, 1, 0x7FFF, 0x8000, 0x8001, 0xFFFE, 0xFFFF, 0x10000, 0x10001,
         0x18000, 0x1FFFF, 0x20000, ONE - 1, ONE, ONE + 1, 0x7FFEFFFF,
         0x7FFF0000, 0x7FFF8001, M - 1, M)


def most_beside(c):
    """The largest word whose bound product with c, not below 0, is a word."""
    return min(M * ONE // c, M) if c > 0 else M


def lower_half(rng):
    """An edge of the halves, or any half."""
    return rng.choice((0, 1, 0x7FFF, 0x8000, 0xFFFF, rng.getrandbits(16)))


def halves_together(rng):
    """Two sizes above 0 with both halves, whose bound product is a word."""
    digits = 1 + rng.randrange(15)
    others = 1 + rng.randrange(min(23 - digits, 15))
    a = word_of_digits(rng, digits) << 16 | lower_half(rng)
    b = word_of_digits(rng, others) << 16 | lower_half(rng)
    return a, min(b, most_beside(a))


def carries(a, b):
    """What is carried in a long multiplication of sizes by halves: when the
    first middle product and when the second is added to the lower halves'
    product, and into the highest half. Each is 0 or 1."""
    a0, a1, b0, b1 = a & 0xFFFF, a >> 16, b & 0xFFFF, b >> 16
    first = (a1 * b0 & 0xFFFF) + (a0 * b0 >> 16)
    second = (a0 * b1 & 0xFFFF) + (first & 0xFFFF)
    return first >> 16, second >> 16, (a * b >> 48) - (a1 * b1 >> 16)


def halves_that_carry(rng, wanted):
    """Two sizes as above whose carries are the wanted ones."""
    while True:
        a, b = halves_together(rng)
        if carries(a, b) == wanted:
            return a, b


def leaving(rng, rest, bits=24):
    """Two sizes, one of them odd, whose product has `rest` as its lowest bits,
    and whose bound product is a word."""
    while True:
        x = size(rng, ONE) | 1
        c = rest * pow(x, -1, 1 << bits) % (1 << bits)
        c += size(rng, max(most_beside(x) - c, 0) >> bits) << bits
        if c <= most_beside(x):
            return rng.choice(((c, x), (x, c)))


# Formulas of which it is known what is rounded (request M-105). Below,
# `rounds` says of each product and quotient of an answer but s, in their
# order, whether it is rounded or exact.


def places(n):
    """How many binary places a word other than 0 has, in ones."""
    return max(24 - twos(n), 0)


def marked_factor(rng, v, rounded):
    """A word between -2 and 2 whose product with v, no multiple of one, is not
    0 and is rounded or exact."""
    while True:
        a = rng.getrandbits(rng.randrange(26 - places(v))) + 1 << places(v)
        if rounded:
            a -= 1 + rng.randrange((1 << places(v)) - 1)
        if product(a, v).number != 0:
            return signed(rng, a)


def marked_divisor(rng, n, rounded):
    """A word by which n, not 0, has a quotient that is rounded or exact: an
    odd number below 32 times a power of two."""
    while True:
        d = signed(rng, 2 * rng.randrange(16) + 1 << 21 + rng.randrange(6))
        if (n * ONE % d != 0) == rounded:
            return d


def marked_walk(rng, x, rounds):
    """Coefficients whose walk at x takes such products."""
    words = []
    taken = 0
    for rounded in rounds:
        running = marked_factor(rng, x, rounded)
        words.append(running - taken)
        taken = product(running, x).number
    words.append(signed(rng, size(rng, 2 * ONE)))
    return tuple(reversed(words))


def marked_rational(rng, p, x, rounds):
    """Numerator and divisor: both walks, then the quotient."""
    *walks, last = rounds
    n = signed(rng, word_of_digits(rng, 1 + rng.randrange(25)))
    numerator = marked_walk(rng, x, walks[:p - 1])
    divisor = marked_walk(rng, x, walks[p - 1:])
    return (*aimed(numerator, x, n),
            *aimed(divisor, x, marked_divisor(rng, n, last)))


def marked_term(rng, v, inner, of_product, of_quotient):
    """a, t and the quotient of a fraction's term, which is below a quarter; t
    is so far above the quotient inside it that Admission takes it."""
    while True:
        a = marked_factor(rng, v, of_product)
        g = product(a, v).number
        t = marked_divisor(rng, g, of_quotient)
        q = quotient(g, t).number
        if abs(t) > 8 * abs(inner) and abs(q) < ONE // 4:
            return a, t, q


def marked_fraction(rng, depth, mode, x, rounds):
    """b0, a1, b1, ...: a product and a quotient for each term, the innermost
    first; x is below a quarter."""
    s = product(x, x).number
    words = []
    q = 0
    for j, *both in zip(range(depth, 0, -1), rounds[::2], rounds[1::2]):
        inner = q
        a, t, q = marked_term(rng, factor(mode, j, x, s), inner, *both)
        words += [t - inner, a]
    return signed(rng, size(rng, 2 * ONE)), *reversed(words)


def marked_words(rng, kind, mode, p, x, rounds):
    """Coefficients of any kind but the root."""
    s = product(x, x).number
    if kind == POLYNOMIAL:
        return marked_walk(rng, x, rounds)
    if kind == RATIONAL:
        return marked_rational(rng, p, x, rounds)
    if kind == FRACTION:
        return marked_fraction(rng, p, mode, x, rounds)
    if kind == EVEN:
        return marked_walk(rng, s, rounds)
    *walk, last = rounds
    return aimed(marked_walk(rng, s, walk), s, marked_factor(rng, x, last))


def roundings(kind, p, q):
    """How many products and quotients an answer takes, s apart."""
    return {POLYNOMIAL: p - 1, EVEN: p - 1, ODD: p, RATIONAL: p + q - 1,
            FRACTION: 2 * p}[kind]


def marked_argument(rng, square, less=0):
    """A word between 0 and 2, or 2 to a power that is less by some, whose
    square is rounded or exact; neither is a multiple of one."""
    while True:
        few, many = min(few_places(rng) + less, 12), 13 + rng.randrange(12)
        x = word_of_places(rng, many if square else few, less)
        if product(x, x).number % ONE != 0:
            return x


def marked_formula(rng, kind, mode, p, q, square, rounds):
    """An accepted formula on -x to x whose products and quotients at x are as
    said, and so is the square of x, whether the answer uses it or not."""
    while True:
        less = 3 if kind == FRACTION else rng.randrange(4)
        x = marked_argument(rng, square, less)
        words = marked_words(rng, kind, mode, p, x, rounds)
        formula = Formula(kind, 1, -x, x, p, q, mode, words)
        if verdict(formula) == 0:
            return formula


def marked_quarter_formula(rng, p, square, rounds):
    """An odd formula for sine and cosine, and the argument between 0 and one
    at which its products are as said."""
    while True:
        drawn = marked_formula(rng, ODD, 0, p, 0, square, rounds)
        formula = drawn._replace(lo=rng.choice((0, -ONE)), hi=ONE)
        if drawn.hi < ONE and verdict(formula) == 0:
            return formula, drawn.hi


def few_digits(rng):
    """A word between -4 and 4 of at most 4 binary digits, zeros after them."""
    return signed(rng, rng.randrange(16) << rng.randrange(23))


def plain_formula(rng, kind, mode, p, q):
    """An accepted formula of such words, and with an end of few places."""
    while True:
        words = tuple(few_digits(rng) for _ in range(word_count(kind, p, q)))
        x = word_of_places(rng, few_places(rng))
        lo = 0 if kind == ROOT else -x
        formula = Formula(kind, 1, lo, x, p, q, mode, words)
        if verdict(formula) == 0:
            return formula


# Formulas on -x to x that give the exact value at x, though there are
# roundings on the way.


def over_itself(rng, rounds):
    """A rational of a polynomial over itself, or over it negated: one, or
    minus one."""
    while True:
        x = marked_argument(rng, square=False)
        words = marked_walk(rng, x, rounds)
        sign = signed(rng, 1)
        formula = Formula(RATIONAL, 1, -x, x, len(words), len(words), 0,
                          (*words, *(sign * c for c in words)))
        if verdict(formula) == 0:
            return formula


def over_its_product(rng, mode):
    """A fraction of one term, b1 a k-th of the exact product of a1 and v, in
    ones. It gives k more than b0 where the quotient is rounded to k again."""
    while True:
        x = marked_argument(rng, square=False)
        v = factor(mode, 1, x, product(x, x).number)
        a, k = 1 + rng.randrange(200), 1 + rng.randrange(9)
        b0 = signed(rng, size(rng, ONE))
        formula = Formula(FRACTION, 1, -x, x, 1, 0, mode, (b0, a, a * v // k))
        if (a * v % k == 0 and a * v % ONE != 0 and verdict(formula) == 0
                and answer(formula, x).word == b0 + k):
            return formula


def about_its_turn(rng, kind):
    """An even formula c0 + c1 s + c2 s^2 near where it turns, so that it has
    no use of how s is rounded; or an odd one. x is an odd number of 2^11 steps
    and s, near one, a quarter of its square, so never whole. c2 is 4 k, and c1
    makes c1 + c2 s the whole number -4 k."""
    k = signed(rng, 1 + rng.randrange(3))
    side = 8193 + 2 * rng.randrange(-300, 300)
    even = rng.randrange(-2048, 2048) << 13
    words = (even + k * side**2, -k * (4 * ONE + side**2), 4 * k * ONE)
    return Formula(kind, 1, -(side << 11), side << 11, 3, 0, 0, words)


# Blank formulas, and nearly blank ones (request M-106).

# Sizes of which one byte alone is not 0.
SPARSE = (1, 0x80, 0x100, 0x8000, 0x10000, 0x800000, ONE, 0x40000000,
          0x7F000000)


def blanked(formula):
    """The formula made blank, and a root as it is. Zeros put in make no bound
    larger, and no divisor nearer to 0."""
    count = decisive_count(formula.kind, formula.p)
    return formula._replace(words=(0,) * count + formula.words[count:])


def with_word(formula, i, value):
    """The formula with one of its words replaced."""
    words = formula.words
    return formula._replace(words=(*words[:i], value, *words[i + 1:]))


def blank_formula(rng, kind, number=1, p=None, q=None, mode=None):
    """A formula, not a root, that is accepted but for its being blank."""
    return blanked(good_formula(rng, kind, number, p, q, mode))


def nearly_blank(rng, kind, i, value, number=1, p=None, q=None, mode=None):
    """An accepted formula that would be blank, but for its i-th word."""
    while True:
        formula = with_word(
            blank_formula(rng, kind, number, p, q, mode), i, value)
        if verdict(formula) == 0:
            return formula


def good_formulas(rng, count):
    """Accepted formulas of any kinds, with strictly rising numbers."""
    numbers = set()
    while len(numbers) < count:
        numbers.add(rng.choice((rng.randrange(100), rng.randrange(65536))))
    return [good_formula(rng, rng.choice(KINDS), number)
            for number in sorted(numbers)]


def records_of(formulas):
    """The formulas' records; like all below, of good formulas and of bad."""
    return [record_of(formula) for formula in formulas]


def framed(records):
    """The records of a sheet: these, with a start and an end around them."""
    count = len(records)
    return [start_or_end(START, count), *records, start_or_end(END, count)]


def run_of(formulas):
    return b"".join(records_of(formulas))


def sheet_of(formulas):
    return b"".join(framed(records_of(formulas)))


def arguments(rng, formula):
    """lo, hi, two between, and the argument just outside each end."""
    lo, hi = formula.lo, formula.hi
    inside = [lo, hi, rng.randrange(lo, hi + 1), rng.randrange(lo, hi + 1)]
    return inside + [lo - 1] + ([hi + 1] if hi < M else [])


def with_field(record, at, form, value):
    """The record with one little-endian field replaced."""
    field = pack("<" + form, value)
    return record[:at] + field + record[at + len(field):]
