"""Groups of vectors aimed at products built from halves (request M-104)."""

from by_hand import HALVES, HALVES_ADMISSIONS, WIDEST
from door import pattern_of
from formulas import (
    EVEN, FRACTION, ODD, POLYNOMIAL, RATIONAL, SHAPES, Formula, verdict,
    word_count)
from groups_numbers import fraction, judged, polynomial, rational, times
from groups_writers import needed
from makers import (
    EVERY_CARRY, MODES, SEAMS, arguments, halves_that_carry, halves_together,
    largest, leaving, lower_half, most_beside, sheet_of, signed, size,
    word_of_digits)
from number import M, ONE, bound_product
from questions import (
    ask_cosine, ask_count, ask_double, ask_evaluate, ask_record, ask_sheet,
    ask_sine)
from turn import QUARTER, wrapped
from writing import record_of


def products_by_hand(rng):
    """The cases worked out by hand."""
    for formula, argument, _ in HALVES:
        yield ask_evaluate(sheet_of([formula]), 1, argument)
        yield ask_double(sheet_of([formula]), 1, pattern_of(argument))
    for formula, _ in HALVES_ADMISSIONS:
        yield from judged(rng, formula)
        yield ask_record(formula, needed(formula))


# Answers.


def products_of(rng, c, x):
    """The product of c, of either sign, and x, and that of it and -x."""
    sheet = sheet_of([times(signed(rng, c), x)])
    for argument in (x, -x):
        yield ask_evaluate(sheet, 1, argument)


def products_at_seams(rng):
    """Every two numbers at the seams of their halves, but those whose product
    may be no word."""
    for c in SEAMS:
        for x in SEAMS:
            if x <= most_beside(c):
                yield from products_of(rng, c, x)


def products_that_carry(rng):
    """Every carry alone, every two at once and all three, and none."""
    for wanted in EVERY_CARRY * 8:
        yield from products_of(rng, *halves_that_carry(rng, wanted))


def products_without_a_part(rng):
    """Numbers that lack the lower half, the upper half or neither: one of the
    middle products is 0 and the other not, or both are, or none."""
    for _ in range(12):
        a, b = halves_together(rng)
        upper_a, upper_b = a & 0x7FFF0000, b & 0x7FFF0000
        for c, x in ((upper_a, b), (upper_a, b & 0xFFFF), (a & 0xFFFF, b),
                     (upper_a, upper_b)):
            yield from products_of(rng, c, x)
            yield from products_of(rng, x, c)


def ties_across_halves(rng):
    """Ties of numbers with both halves, or with a lower half of 0, and the
    products of their neighbours."""
    for twos in (*range(8, 16), *range(24)) * 2:
        c = 2 * word_of_digits(rng, 1 + rng.randrange(14)) + 1 << twos
        x = 2 * word_of_digits(rng, 1 + rng.randrange(14)) + 1 << 23 - twos
        if c <= M and x <= most_beside(c):
            yield from products_of(rng, c, x)
            yield from products_of(rng, c, x - 1)


# What a product has below a whole step, in digits of base 65536: nothing, the
# lowest digit alone, the higher one alone; about a half; nearly a step.
RESTS = (0, 1, 0xFFFF, 0x10000, 0x10001, 0x7F0000, 0x7F8000, 0x7FFFFF,
         0x800000, 0x800001, 0x80FFFF, 0xFF0000, 0xFFFFFF)


def products_about_halves_of_steps(rng):
    """Products that are about a whole step or about a tie, some as near as can
    be."""
    for rest in RESTS * 8:
        yield from products_of(rng, *leaving(rng, rest))


def carried_up(rng):
    """Two sizes whose product has its lower 32 bits nearly full, so that half
    a step more is carried out of them, or just not."""
    rest = 0xFF800000 | rng.getrandbits(23)
    return leaving(rng, rng.choice((rest, 0xFF7FFFFF, 0xFF800000)), 32)


def carried_twice(rng):
    """Two sizes whose product is just below a multiple of 2^48, so that half a
    step more is carried into the highest digit."""
    times = 1 + rng.randrange(63)
    x = rng.randrange(times << 17, 1 << 23) + 1
    c = ((times << 48) - 1) // x
    return rng.choice(((c, x), (x, c)))


def products_carried_up(rng):
    """Products that are rounded across the seam of two digits."""
    for _ in range(30):
        for pair in (carried_up(rng), carried_twice(rng)):
            yield from products_of(rng, *pair)


def largest_products(rng):
    """Products near M, with c0 making up what lacks: answers of M, of -M and
    next to them."""
    for _ in range(25):
        x = word_of_digits(rng, 24 + rng.randrange(8))
        c = most_beside(x) - size(rng, 255)
        least = bound_product(c, x)
        for c, x in ((c, x), (x, c)):
            c0 = M - least - rng.randrange(2)
            for sign in (1, -1):
                formula = polynomial((sign * max(c0, 0), c), -x, x)
                yield ask_evaluate(sheet_of([formula]), 1, sign * x)


# Squares, and products one after another.


def sides(rng):
    """Arguments whose S is a word: at the seams, and any with both halves."""
    yield from (x for x in SEAMS if x <= WIDEST)
    yield from (WIDEST - 1, WIDEST)
    for digits in (*range(1, 12), *range(5, 12)):
        x = word_of_digits(rng, digits) << 16 | lower_half(rng)
        yield min(x, WIDEST)


def squares_of_halves(rng):
    """s itself, as an even formula gives it, and s times a number with both
    halves in an even and an odd formula."""
    for x in sides(rng):
        s = bound_product(x, x)
        c = signed(rng, min(halves_together(rng)[0], most_beside(s)))
        for formula in (polynomial((0, ONE), -x, x, EVEN),
                        polynomial((0, c), -x, x, EVEN),
                        polynomial((0, c // 12), -x, x, ODD)):
            for argument in (x, -x):
                yield ask_evaluate(sheet_of([formula]), 1, argument)


def seam_word(rng):
    """A word at a seam or next to it, or any with both halves."""
    near = rng.choice(SEAMS) + rng.randrange(-1, 2)
    drawn = word_of_digits(rng, 1 + rng.randrange(11)) << 16 | lower_half(rng)
    return signed(rng, min(rng.choice((near, drawn)), M))


def formula_at_seams(rng, kind, mode):
    """An accepted formula, all its words and ends as above."""
    while True:
        p = 1 + rng.randrange(4)
        q = rng.choice(SHAPES[kind].q[:3])
        lo, hi = sorted((seam_word(rng), seam_word(rng)))
        words = tuple(seam_word(rng) for _ in range(word_count(kind, p, q)))
        formula = Formula(kind, 1, lo, hi, p, q, mode, words)
        if verdict(formula) == 0:
            return formula


def formulas_at_seams(rng):
    """Formulas of every kind but the root: products one after another, at the
    ends, between them and just outside, in words and as doubles."""
    for kind in (POLYNOMIAL, RATIONAL, FRACTION, ODD, EVEN) * 3:
        for mode in MODES[kind]:
            formula = formula_at_seams(rng, kind, mode)
            sheet = sheet_of([formula])
            for argument in arguments(rng, formula):
                yield ask_evaluate(sheet, 1, argument)
                yield ask_double(sheet, 1, pattern_of(argument))


def turns_at_seams(rng):
    """Sines and cosines whose argument is at a seam."""
    for c in SEAMS * 2:
        words = signed(rng, c), signed(rng, min(size(rng, ONE), M - c))
        sheet = sheet_of([polynomial(words, 0, ONE, ODD)])
        f = 64 * rng.choice([x for x in SEAMS if x <= ONE])
        angle = rng.choice((f, 2 * QUARTER - f, 2 * QUARTER + f, -f))
        yield ask_sine(sheet, 1, wrapped(angle))
        yield ask_cosine(sheet, 1, wrapped(angle - QUARTER))


# Admission: a bound product decides by one step. Each function gives formulas
# whose A is a, no word below 0, that meet the bound product of c and a: one
# that is just accepted, and one that is just refused.


def at_most(bound):
    """What may be added to a bound, and what is one step too much."""
    return [n for n in (M - bound, M - bound + 1) if 0 <= n <= M]


def as_polynomial(c, a):
    """B_0 is M, or one step above it (7)."""
    return [polynomial((n, c), 0, a) for n in at_most(bound_product(c, a))]


def as_numerator(c, a):
    """The same, in the numerator of a rational."""
    return [rational((n, c), (ONE,), 0, a)
            for n in at_most(bound_product(c, a))]


def as_divisor(c, a):
    """L is 1 or 0 (8), unless the divisor's B_0 is above M (7)."""
    taken = bound_product(c, a)
    return [rational((1,), (d, c), 0, a)
            for d in (taken + 1, taken) if d <= M]


def as_term(c, a):
    """b0 plus Q is M, or one step above it (7); b1 is one, so Q is G."""
    return [fraction((n, c, ONE), 0, 0, a)
            for n in at_most(bound_product(c, a))]


def as_inner_term(c, a):
    """L is 1 or 0 (8) in a fraction of depth 2, or b1 plus Q above M (7)."""
    q = bound_product(c, a)
    return [fraction((1, 0, b, c, ONE), 0, 0, a)
            for b in (q + 1, q) if b <= M]


DECIDED = as_polynomial, as_numerator, as_divisor, as_term, as_inner_term


def with_signs(rng, formula):
    """The formula with any signs, and with any ends that have the same A."""
    a = largest(formula)
    lo, hi = rng.choice(((-a, a), (0, a), (-a, 0), (a, a), (-a, -a)))
    words = tuple(signed(rng, n) for n in formula.words)
    return formula._replace(lo=lo, hi=hi, words=words)


def put(rng, formula):
    """The formula, put to the reader, to evaluation at an end or to one of the
    writers."""
    formula = with_signs(rng, formula)
    sheet, room = sheet_of([formula]), needed(formula)
    return rng.choice((
        ask_count(sheet), ask_evaluate(sheet, 1, formula.lo),
        ask_evaluate(sheet, 1, formula.hi), ask_record(formula, room),
        ask_sheet(record_of(formula), room + 16)))


def limits_at_seams(rng):
    """Every two numbers at the seams as a coefficient and A: decided by one
    step, or far above M (7)."""
    for c in SEAMS:
        for a in SEAMS:
            formulas = rng.choice(DECIDED)(c, a)
            for formula in formulas or [polynomial((0, c), 0, a)]:
                yield put(rng, formula)


def limits_that_carry(rng):
    """Every carry, in every kind's bound product."""
    for wanted in EVERY_CARRY:
        for decided in DECIDED:
            for formula in decided(*halves_that_carry(rng, wanted)):
                yield put(rng, formula)


def limits_about_steps(rng):
    """Bound products that are exact, and that are above a whole step by their
    lowest digit alone or by the higher one alone."""
    for rest in RESTS * 2:
        for decided in DECIDED:
            for formula in decided(*leaving(rng, rest)):
                yield put(rng, formula)


def limits_carried_up(rng):
    """Bound products that are rounded up across the seam of two digits."""
    for decided in DECIDED * 5:
        for pair in (carried_up(rng), carried_twice(rng)):
            for formula in decided(*pair):
                yield put(rng, formula)


def limits_far_above(rng):
    """Bound products of any size above M (7), whatever their lower 32 bits
    are, in every kind; S among them."""
    for _ in range(16):
        c = word_of_digits(rng, 26 + rng.randrange(6))
        a = rng.randrange(most_beside(c) + 1, M + 1)
        side = rng.randrange(WIDEST + 1, M + 1)
        for formula in (polynomial((0, c), 0, a),
                        rational((0, c), (ONE,), 0, a),
                        rational((1,), (M, c), 0, a),
                        fraction((0, c, ONE), 0, 0, a),
                        polynomial((1,), 0, side, rng.choice((ODD, EVEN))),
                        fraction((0, 1, ONE), 1 + rng.randrange(2), 0, side)):
            yield put(rng, formula)


def limits_of_squares(rng):
    """S decides by one step: in an even formula, and in modes 1 and 2 of a
    fraction; in an odd formula the last bound product does."""
    for a in sides(rng):
        s = bound_product(a, a)
        for n in at_most(s):
            yield put(rng, polynomial((n, ONE), 0, a, EVEN))
            yield put(rng, fraction((n, ONE, ONE), 1, 0, a))
        for b in (s, s + 1):
            if b + s <= M:
                yield put(rng, fraction((1, 0, b, ONE, ONE), 2, 0, a))
        c = most_beside(a)
        for n in (c, c + 1):
            if n <= M:
                yield put(rng, polynomial((n,), 0, a, ODD))


GROUPS = (
    products_by_hand, products_at_seams, products_that_carry,
    products_without_a_part, ties_across_halves,
    products_about_halves_of_steps, products_carried_up, largest_products,
    squares_of_halves, formulas_at_seams, turns_at_seams, limits_at_seams,
    limits_that_carry, limits_about_steps, limits_carried_up,
    limits_far_above, limits_of_squares)
