"""Groups of vectors aimed at the arithmetic, admission and the door."""

from math import isqrt

from by_hand import (
    ADMISSIONS, ANSWERS, LISTED, ODD_AND_EVEN_ADMISSIONS, ODD_AND_EVEN_ANSWERS,
    REFUSED, TIES, WIDEST)
from door import pattern_of
from formulas import (
    EVEN, FRACTION, ODD, POLYNOMIAL, POLYNOMIALS, RATIONAL, ROOT, Formula,
    bounds, factor, verdict)
from makers import (
    EVEN_FORMS, KINDS, ODD_FORMS, OTHER_FORMS, arguments, formula_of_form,
    full_polynomial, good_formula, largest, most_below, near_one, sheet_of,
    signed, size, tied_factor, tied_formula, word)
from number import M, NO_WORD, ONE, bound_product, bound_quotient, product
from questions import (
    ask_count, ask_double, ask_evaluate, ask_formula, ask_interval)


def polynomial(words, lo, hi, kind=POLYNOMIAL):
    return Formula(kind, 1, lo, hi, len(words), 0, 0, tuple(words))


def rational(numerator, divisor, lo, hi):
    return Formula(RATIONAL, 1, lo, hi, len(numerator), len(divisor), 0,
                   (*numerator, *divisor))


def fraction(words, mode, lo, hi):
    return Formula(FRACTION, 1, lo, hi, len(words) // 2, 0, mode, tuple(words))


def times(c, x):
    """The product of c and the argument, on -x to x, and a step more where c
    is 0: no formula is blank."""
    return polynomial((0 if c else 1, c), -x, x)


def judged(rng, formula):
    """The count, and an answer at a place of the interval, mostly an end."""
    sheet = sheet_of([formula])
    yield ask_count(sheet)
    yield ask_evaluate(sheet, formula.number, rng.choice(
        (formula.lo, formula.hi, rng.randrange(formula.lo, formula.hi + 1))))


def checked_by_hand(rng):
    """The rows of the paper's table, its listing program's sheets, and the
    cases of odd and even formulas and of ties."""
    for formula, argument, _ in (*ANSWERS, *ODD_AND_EVEN_ANSWERS, *TIES):
        yield ask_evaluate(sheet_of([formula]), 1, argument)
        yield ask_double(sheet_of([formula]), 1, pattern_of(argument))
    for formula, _ in (*ADMISSIONS, *ODD_AND_EVEN_ADMISSIONS):
        yield from judged(rng, formula)
    yield ask_count(LISTED)
    yield ask_formula(LISTED, 1)
    yield ask_interval(LISTED, 1)
    for sheet, _, _ in REFUSED:
        yield ask_count(sheet)


# Admission.


def at_the_limit(rng, upper, below=0):
    """The coefficients of `upper` and one more below them, which Admission
    just takes, or which is one step too large (7); then zeros below it."""
    most = most_below(upper)
    for c in (most, most + 1):
        if 0 <= c <= M:
            words = [0] * below + [signed(rng, c), *upper.words]
            yield polynomial(words, upper.lo, upper.hi, upper.kind)


def polynomial_limits(rng):
    """One bound B_k of a polynomial is exactly M, or one step above it (7);
    the coefficients below it are 0. Of an odd or even formula it is formed
    with S, and an odd one's last bound product may meet M first."""
    for kind in (POLYNOMIAL,) * 250 + (ODD, EVEN) * 60:
        upper = good_formula(rng, kind, p=1 + rng.randrange(8))
        below = rng.randrange(8) if largest(upper) <= ONE else 0
        for formula in at_the_limit(rng, upper, below):
            yield from judged(rng, formula)


def last_products(rng):
    """The last bound product of an odd formula at M and above it (7), where
    every B is below M; an even formula of the same words has none."""
    for _ in range(40):
        a = ONE + size(rng, WIDEST - ONE)
        lo, hi = rng.choice(((-a, a), (-a, 0), (0, a), (a, a)))
        words = [rng.randrange(-1000, 1000)
                 for _ in range(1 + rng.randrange(2))]
        for odd in at_the_limit(rng, polynomial(words, lo, hi, ODD)):
            yield from judged(rng, odd)
            yield from judged(rng, odd._replace(kind=EVEN))


def squares_alone(rng):
    """S at its largest and above M (7), for one coefficient and for more, at
    either end or both; a polynomial does not form it. With one coefficient of
    0 the formula is blank (14), whatever S is."""
    a = WIDEST
    for lo, hi in ((-a, a), (-a, 0), (0, a), (a, a), (-a - 1, 0), (0, a + 1),
                   (-a - 1, a), (a + 1, a + 1), (-M, M), (0, M)):
        for words in ((0,), (1,), (M,), (0, 1), (4, ONE), (5, ONE)):
            for kind in POLYNOMIALS:
                yield from judged(rng, polynomial(words, lo, hi, kind))


def values_between_the_ends(rng):
    """Small at lo and hi, too large between by the bounds, or nearly so."""
    for scale in range(100, 140):
        c = scale * ONE // 2
        for words in ((c, 0, -c), (0, c, 0, -c), (c, -c, -c, c)):
            for kind in POLYNOMIALS:
                yield from judged(rng, polynomial(words, -ONE, ONE, kind))


def rational_limits(rng):
    """L of a rational at 2, 1, 0 and -1 (8), under numerators at the bound
    quotient's limit, one step above it (7) and beyond their own bounds (7).
    Where L is below 1 that limit is 0, and the formula blank (14)."""
    for _ in range(60):
        upper = good_formula(rng, POLYNOMIAL, p=1 + rng.randrange(6))
        lo, hi, a = upper.lo, upper.hi, largest(upper)
        taken = bound_product(bounds(upper.words, a)[0], a)
        for least in (2, 1, 0, -1):
            if 0 <= taken + least <= M:
                divisor = (signed(rng, taken + least), *upper.words)
                limit = M * max(least, 0) // ONE
                for n in ((limit,), (limit + 1,), (M, M), (0, 1)):
                    yield from judged(rng, rational(n, divisor, lo, hi))


def quotient_limits(rng):
    """The bound quotient of a rational exactly at the limit and one numerator
    step above it (7), for divisors of every size and sign."""
    for _ in range(150):
        d = signed(rng, 1 + size(rng, 2 * ONE))
        limit = M * abs(d) // ONE
        lo, hi = sorted((near_one(rng), near_one(rng)))
        for n in (limit - 1, limit, limit + 1):
            if 0 <= n <= M:
                yield from judged(
                    rng, rational((signed(rng, n),), (d,), lo, hi))


def seven_and_eight_in_rationals(rng):
    """The divisor's bound above M (7) where L is large, where L is not above
    0 (8), and where the numerator's bound is above M too."""
    for a in (0, 1, ONE // 2, ONE, ONE + 1, M):
        for d0 in (0, 1, M // 2, M):
            for d1 in (0, 1, M // 2, M):
                for n in ((1,), (M,), (M, 1), (1, M)):
                    yield from judged(
                        rng, rational(n, (-d0, d1), -a, a))


def odd_divisors(rng):
    """Rationals with an odd divisor, whose d0 is 0 (8), under odd numerators
    and even ones."""
    for powers in ((0, 1), (1, 1)) * 10:
        yield from judged(rng, formula_of_form(rng, RATIONAL, powers, 0))


def quotient_bounds(formula):
    """Q of a good fraction for each j, the innermost first."""
    words, a = formula.words, largest(formula)
    s = bound_product(a, a)
    least = abs(words[2 * formula.p])
    for j in range(formula.p, 0, -1):
        v = factor(formula.mode, j, a, s)
        q = bound_quotient(bound_product(abs(words[2 * j - 1]), v), least)
        yield j, q
        least = abs(words[2 * j - 2]) - q


def fraction_limits(rng):
    """At every j of good fractions: |b| - Q at 2, 1 and 0 (8 for j above 1),
    |b| + Q at M and one step above it (7); the terms outside it as they were
    or without effect."""
    for depth in (1, 2, 3, 4, 7, 12):
        for mode in range(3):
            formula = good_formula(rng, FRACTION, p=depth, mode=mode)
            for j, q in quotient_bounds(formula):
                for b in (q, q + 1, q + 2, M - q, M - q + 1):
                    if b <= M:
                        words = list(formula.words)
                        words[2 * j - 2] = signed(rng, b)
                        changed = formula._replace(words=tuple(words))
                        yield ask_count(sheet_of([changed]))
                        words[:2 * j - 2] = [1, 0] * (j - 1)
                        changed = formula._replace(words=tuple(words))
                        yield from judged(rng, changed)


def products_in_fractions(rng):
    """G of a fraction at M and one coefficient step above it (7), at each j,
    with every b large; and the same with the innermost b 0 (8 or 7)."""
    for mode in range(3):
        for a in (ONE, ONE + 1, 2 * ONE, 3 * ONE + 7):
            s = bound_product(a, a)
            for depth in (1, 2, 3):
                for j in range(1, depth + 1):
                    limit = M * ONE // factor(mode, j, a, s)
                    for coefficient in (limit, limit + 1):
                        words = [M // 2, 1] * depth + [M]
                        words[2 * j - 1] = min(coefficient, M)
                        yield from judged(rng, fraction(words, mode, -a, a))
                        words[-1] = 0
                        yield from judged(rng, fraction(words, mode, -a, a))


def squares_in_fractions(rng):
    """S at its largest and above M (7), which mode 0 does not form; with the
    innermost b 0 as well (8 only where S has not given 7)."""
    a = WIDEST
    for lo, hi in ((-a, a), (-a - 1, 0), (0, a + 1), (0, a), (-M, M), (-M, 0)):
        for mode in range(3):
            for depth in (1, 2):
                for inner in (0, 1, -ONE):
                    for upper in (0, 1):
                        words = [ONE, upper] * depth + [inner]
                        yield from judged(rng, fraction(words, mode, lo, hi))


# Arithmetic.


def at_both_signs(formula, x):
    """The answers at x and -x, and one step from each towards 0."""
    sheet = sheet_of([formula])
    for argument in (x, -x, x - 1, 1 - x):
        yield ask_evaluate(sheet, 1, argument)


def product_ties(rng):
    """Products of both signs that are ties, or one step beside a tie; some of
    them again as an odd formula's last product."""
    for _ in range(300):
        twos = rng.randrange(24)
        c = signed(rng, 2 * size(rng, 1 << 8) + 1 << twos)
        x = 2 * size(rng, 1 << 10) + 1 << 23 - twos
        if abs(c) <= M and x < M and abs(c * x) <= M * ONE:
            yield from at_both_signs(polynomial((0, c), -x, x), x)
            if x <= WIDEST and rng.randrange(6) == 0:
                yield from at_both_signs(polynomial((c,), -x, x, ODD), x)


def ties_with_squares(rng):
    """Products with s that are ties. (s itself is never one: no square is an
    odd number times 2^23.)"""
    for _ in range(50):
        x = 2 + size(rng, 4 * ONE)
        s = product(x, x).number
        if s % ONE != 0:
            c = tied_factor(rng, s)
            for kind in (ODD, EVEN):
                yield from at_both_signs(polynomial((0, c), -x, x, kind), x)


def rounded_squares(rng):
    """Arguments on both sides of where s takes its next step. It is rounded
    before it is used, as a factor far above one shows."""
    for steps in (0, 1, 2, 3, *(size(rng, ONE) for _ in range(20))):
        x = isqrt((2 * steps + 1) * ONE // 2) + 1
        for kind in (ODD, EVEN):
            yield from at_both_signs(
                polynomial((0, 100 * ONE), -x, x, kind), x)


def quotient_ties(rng):
    """Quotients of all four pairs of signs that are ties, or beside a tie."""
    for _ in range(120):
        twos = 25 + rng.randrange(6)
        odd = 2 * size(rng, (M >> twos) - 1 >> 1) + 1
        d = odd << twos
        n = odd * (2 * size(rng, 1 << 12) + 1) << twos - 25
        for numerator in (n, -n, n + 1, 1 - n):
            for divisor in (d, -d):
                if abs(numerator) <= M:
                    formula = rational((numerator,), (divisor,), 0, 0)
                    yield ask_evaluate(sheet_of([formula]), 1, 0)


def ties_at_several_steps(rng):
    """Odd formulas, even ones and others of every form but the root, where
    ties are met one after another: in a polynomial's walk, in an odd one's
    last product, in a rational's quotient, at every depth of a fraction, with
    divisors of both signs."""
    for form in (*ODD_FORMS, *EVEN_FORMS, *OTHER_FORMS) * 30:
        formula = tied_formula(rng, *form)
        yield from at_both_signs(formula, formula.hi)


def powers_of_two(rng):
    """Coefficients of a few steps, all powers of two, over 2 or -2 in a
    rational and a fraction, at halves, quarters and eighths: ties, and a
    fraction's inner terms that move a divisor a little off."""
    for _ in range(30):
        words = [signed(rng, 1 << rng.randrange(4))
                 for _ in range(1 + rng.randrange(6))]
        two = signed(rng, 2 * ONE)
        terms = [n for c in words for n in (c, two)]
        x = rng.choice((1, 3)) << 21 + rng.randrange(3)
        for formula in (
                *(polynomial(words, -x, x, kind) for kind in POLYNOMIALS),
                rational(words, (two,), -x, x),
                *(fraction([0, *terms], mode, -x, x) for mode in range(3))):
            yield from at_both_signs(formula, x)


def opposite_arguments(rng):
    """Odd and even formulas of every form at x and -x, anywhere."""
    for form in (*ODD_FORMS, *EVEN_FORMS) * 20:
        formula = formula_of_form(rng, *form)
        sheet = sheet_of([formula])
        for x in (formula.hi, rng.randrange(formula.hi + 1)):
            yield ask_evaluate(sheet, 1, x)
            yield ask_evaluate(sheet, 1, -x)


def quotients(rng):
    """Quotients of an argument by words of every size and of both signs."""
    for _ in range(120):
        d = signed(rng, 1 + size(rng, M - 1))
        a = min(M * abs(d) // ONE, M)
        sheet = sheet_of([rational((0, ONE), (d,), -a, a)])
        for _ in range(4):
            yield ask_evaluate(sheet, 1, signed(rng, size(rng, a)))


def roots(rng):
    """Roots of squares, of one less and of one more; of 0 and of the largest
    word; of any word not below 0."""
    sheet = sheet_of([Formula(ROOT, 1, 0, M, 0, 0, 0, ())])
    sides = [0, 1, 2, 3, 4095, 4096, 4097, 32768, 46339, 46340]
    sides += [rng.randrange(46341) for _ in range(100)]
    for side in sides:
        for x in (side * side - 1, side * side, side * side + 1):
            yield ask_evaluate(sheet, 1, x)
    for x in (M, M - 1, ONE, ONE - 1, ONE + 1, 2 * ONE, NO_WORD):
        yield ask_evaluate(sheet, 1, x)
    for _ in range(200):
        yield ask_evaluate(sheet, 1, size(rng))
    for lo, hi in ((0, 0), (1, 1), (M, M), (-1, 0), (-1, -1), (0, M), (-M, M)):
        root = Formula(ROOT, 1, lo, hi, 0, 0, 0, ())
        yield from judged(rng, root)


def fractions(rng):
    """Continued fractions of each depth and mode at arguments of all sizes,
    with coefficients of all sizes and with a tangent's."""
    for depth in range(1, 13):
        for mode in range(3):
            drawn = good_formula(rng, FRACTION, p=depth, mode=mode)
            words = [0, ONE, ONE]
            for j in range(2, depth + 1):
                words += [-ONE, (2 * j - 1) * ONE]
            for formula in (drawn, fraction(words, mode, -ONE // 4, ONE // 4)):
                sheet = sheet_of([formula])
                for argument in arguments(rng, formula):
                    yield ask_evaluate(sheet, 1, argument)


def long_polynomials(rng):
    """Polynomials, odd and even ones and rationals with coefficients near one,
    where every rounding on the way counts."""
    for kind in (POLYNOMIAL,) * 80 + (ODD, EVEN) * 40:
        words = [near_one(rng) for _ in range(2 + rng.randrange(15))]
        sheet = sheet_of([polynomial(words, -ONE, ONE, kind)])
        for _ in range(3):
            yield ask_evaluate(sheet, 1, rng.randrange(-ONE, ONE + 1))
    for _ in range(80):
        n = [near_one(rng) for _ in range(1 + rng.randrange(12))]
        d = [near_one(rng) >> k + 2 for k in range(1 + rng.randrange(12))]
        d[0] = signed(rng, 2 * ONE + size(rng, ONE))
        sheet = sheet_of([rational(n, d, -ONE // 2, ONE // 2)])
        for _ in range(3):
            yield ask_evaluate(sheet, 1, rng.randrange(-ONE // 2, ONE // 2))


def full_polynomials(rng):
    """Polynomials, odd and even ones with no room left below M, where answers
    are largest."""
    for kind in POLYNOMIALS * 25:
        formula = full_polynomial(rng, kind)
        sheet = sheet_of([formula])
        for argument in (formula.lo, formula.hi):
            yield ask_evaluate(sheet, 1, argument)


def odd_and_even_arguments(rng):
    """Odd and even formulas of every count, about 0: both ends, 0, the same
    argument with either sign and just outside, in words and as doubles."""
    for kind in (ODD, EVEN):
        for count in range(1, 17):
            drawn = good_formula(rng, kind, p=count)
            a = largest(drawn)
            x = rng.randrange(a + 1)
            sheet = sheet_of([drawn._replace(lo=-a, hi=a)])
            yield ask_interval(sheet, 1)
            for argument in (-a - 1, -a, -x, 0, x, a, a + 1):
                yield ask_evaluate(sheet, 1, argument)
                yield ask_double(sheet, 1, pattern_of(argument))


def the_same_under_three_kinds(rng):
    """The same fields as a polynomial, an odd and an even formula: each has
    its own admission and its own answer."""
    for _ in range(30):
        drawn = good_formula(rng, POLYNOMIAL, p=1 + rng.randrange(4))
        argument = rng.randrange(drawn.lo, drawn.hi + 1)
        for kind in POLYNOMIALS:
            sheet = sheet_of([drawn._replace(kind=kind)])
            yield ask_formula(sheet, 1)
            yield ask_evaluate(sheet, 1, argument)


# The door.

IDENTITY = polynomial((0, ONE), -M, M)
MINUS_ZERO = 1 << 63
INFINITY = 0x7FF << 52


def both_signs(pattern):
    return pattern, pattern | MINUS_ZERO


def doubles_at_steps(rng):
    """Doubles that are exact steps, ties, and next to a tie, each with either
    sign: the identity shows the word that it becomes."""
    sheet = sheet_of([IDENTITY])
    for n in (*range(10), *(abs(word(rng)) for _ in range(140))):
        tie = pattern_of(2 * n + 1, -25)
        for pattern in (pattern_of(n), tie - 1, tie, tie + 1):
            for either in both_signs(pattern):
                yield ask_double(sheet, 1, either)


def half_steps_about(sheet, end):
    """Doubles half a step to either side of an interval's end, and next to
    those."""
    for half in (2 * end - 1, 2 * end + 1):
        pattern = pattern_of(half, -25)
        for near in (pattern - 1, pattern, pattern + 1):
            yield ask_double(sheet, 1, near)


def doubles_at_the_ends(rng):
    """Doubles at each end of an interval, half a step inside and outside it,
    and next to those."""
    for kind in (POLYNOMIAL, ROOT) * 20 + (ODD, EVEN) * 2:
        formula = good_formula(rng, kind, p=1)
        for formula in (formula, IDENTITY._replace(
                lo=formula.lo, hi=formula.hi)):
            sheet = sheet_of([formula])
            yield ask_interval(sheet, 1)
            for end in (formula.lo, formula.hi):
                yield ask_double(sheet, 1, pattern_of(end))
                yield from half_steps_about(sheet, end)


def half_steps_at_the_ends(rng):
    """Half steps about ends of either sign, at 0 and next to it, and where the
    words end, for every kind."""
    for lo, hi in ((4, 9), (-9, -4), (-9, 9), (0, 0), (0, 1), (-1, 0), (1, 1),
                   (-1, -1), (-M, M), (1 - M, M - 1), (M, M), (-M, -M)):
        for formula in (polynomial((0, ONE), lo, hi),
                        rational((0, ONE), (ONE,), lo, hi),
                        fraction((0, ONE, ONE), 0, lo, hi),
                        Formula(ROOT, 1, lo, hi, 0, 0, 0, ()),
                        polynomial((ONE,), lo, hi, ODD),
                        polynomial((0, ONE), lo, hi, EVEN)):
            if verdict(formula) == 0:
                for end in sorted({lo, hi}):
                    yield from half_steps_about(sheet_of([formula]), end)


def half_steps_through_formulas(rng):
    """Formulas that meet ties, at doubles that are ties themselves: half a
    step from x and from -x, towards 0 and away from it (10)."""
    for form in (*ODD_FORMS, *EVEN_FORMS, *OTHER_FORMS) * 10:
        formula = tied_formula(rng, *form)
        sheet = sheet_of([formula])
        for half in (2 * formula.hi - 1, 2 * formula.hi + 1):
            for either in both_signs(pattern_of(half, -25)):
                yield ask_double(sheet, 1, either)


def special_doubles(rng):
    """Zeros, subnormals, the least and greatest normal doubles, infinities and
    what is not a number, quiet and signalling, of both signs; with the number
    there and not there, and with a sheet that is refused."""
    patterns = (
        0, 1, 2, 1 << 51, (1 << 52) - 1, 1 << 52, (1 << 52) + 1,
        INFINITY - 1, INFINITY - (1 << 52), INFINITY, INFINITY + 1,
        INFINITY + (1 << 51) - 1, INFINITY + (1 << 51),
        INFINITY + (1 << 51) + 1, INFINITY + (1 << 52) - 1)
    narrow = IDENTITY._replace(lo=1, hi=ONE)
    constant = polynomial((-ONE,), -1, 0)
    odd = polynomial((ONE,), -ONE, ONE, ODD)
    even = polynomial((0, ONE), -ONE, ONE, EVEN)
    for formula in (IDENTITY, narrow, constant, odd, even):
        sheet = sheet_of([formula])
        for pattern in patterns:
            for either in both_signs(pattern):
                yield ask_double(sheet, 1, either)
                yield ask_double(sheet, 2, either)
                yield ask_double(sheet[:-1], 1, either)


def largest_doubles(rng):
    """Doubles about 2^31 steps, about the largest word, and far beyond."""
    sheet = sheet_of([IDENTITY])
    for halves in (1 << 32, (1 << 32) - 1, (1 << 32) - 2, (1 << 32) - 3,
                   (1 << 32) + 1, 1 << 33):
        pattern = pattern_of(halves, -25)
        for near in (pattern - 1, pattern, pattern + 1):
            for either in both_signs(near):
                yield ask_double(sheet, 1, either)
    for power in range(-80, 80):
        for either in both_signs(pattern_of(1, power)):
            yield ask_double(sheet, 1, either)


def random_doubles(rng):
    """Any patterns at all, and patterns whose value is about a word's."""
    sheet = sheet_of([IDENTITY])
    for _ in range(300):
        yield ask_double(sheet, 1, rng.getrandbits(64))
        exponent = 1023 - 27 + rng.randrange(36)
        pattern = exponent << 52 | rng.getrandbits(52)
        yield ask_double(sheet, 1, rng.choice(both_signs(pattern)))


def doubles_through_formulas(rng):
    """Answers as doubles, of every kind, with plus zero among them."""
    for kind in KINDS * 20:
        formula = good_formula(rng, kind)
        sheet = sheet_of([formula])
        yield ask_interval(sheet, 1)
        for argument in arguments(rng, formula):
            yield ask_double(sheet, 1, pattern_of(argument))
    for kind in POLYNOMIALS:
        for words in ((0, 0, 1), (0, 0, -1), (0, 1), (0, -1)):
            sheet = sheet_of([polynomial(words, -ONE // 4, ONE // 4, kind)])
            for argument in (-ONE // 4, -1, 0, 1, ONE // 4):
                yield ask_double(sheet, 1, pattern_of(argument))


GROUPS = (
    checked_by_hand, polynomial_limits, last_products, squares_alone,
    values_between_the_ends, rational_limits, quotient_limits,
    seven_and_eight_in_rationals, odd_divisors, fraction_limits,
    products_in_fractions, squares_in_fractions, product_ties,
    ties_with_squares, rounded_squares, quotient_ties, ties_at_several_steps,
    powers_of_two, opposite_arguments, quotients, roots, fractions,
    long_polynomials, full_polynomials, odd_and_even_arguments,
    the_same_under_three_kinds, doubles_at_steps, doubles_at_the_ends,
    half_steps_at_the_ends, half_steps_through_formulas, special_doubles,
    largest_doubles, random_doubles, doubles_through_formulas)
