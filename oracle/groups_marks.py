"""Groups of vectors aimed at the mark, exact or rounded (request M-105)."""

from by_hand import (
    ANY_ROOT, ARGUMENT, COSINE_MARKS, DOUBLE_MARKS, MARKS, SINE_MARKS, WIDEST)
from door import pattern_of
from faults import each_fault
from formulas import EVEN, FRACTION, ODD, POLYNOMIAL, RATIONAL, ROOT, SHAPES
from groups_halves import RESTS
from groups_numbers import (
    INFINITY, MINUS_ZERO, both_signs, fraction, polynomial, rational, times)
from groups_roots import ANY_ROOT_SHEET, about, both
from makers import (
    KINDS_AND_MODES, MODES, SQUARES_LESS_ONE, about_its_turn, few_places,
    good_formulas, leaving, marked_argument, marked_formula,
    marked_quarter_formula, over_its_product, over_itself, plain_formula,
    quarter_formula, roundings, sheet_of, signed, size, word_of_digits,
    word_of_places)
from number import M, NO_WORD, ONE
from questions import ask_cosine, ask_double, ask_evaluate, ask_sine
from turn import HALF_TURN, QUARTER, wrapped

FORMS = tuple(form for form in KINDS_AND_MODES if form[0] != ROOT)
FRACTIONS = tuple((FRACTION, mode) for mode in MODES[FRACTION])
FORMS_WITH_SQUARES = (ODD, 0), (EVEN, 0), *FRACTIONS[1:]


def marks_by_hand(rng):
    """The cases worked out by hand."""
    for formula, argument, _, _ in MARKS:
        yield from both(sheet_of([formula]), 1, argument)
    for ask, cases in ((ask_double, DOUBLE_MARKS), (ask_sine, SINE_MARKS),
                       (ask_cosine, COSINE_MARKS)):
        for formula, given, _, _ in cases:
            yield ask(sheet_of([formula]), 1, given)


# What is rounded on the way. Each formula is asked for its answer at the end
# where it is known, in words and as a double, and at the other end.


def at_its_ends(formula):
    sheet = sheet_of([formula])
    yield from both(sheet, 1, formula.hi)
    yield ask_evaluate(sheet, 1, formula.lo)


def counts(rng, kind, least, most):
    """Every count or depth of a kind between two, and a divisor's count."""
    for p in SHAPES[kind].p[least - 1:most]:
        yield p, rng.choice(SHAPES[kind].q[:4])


def alone(i, count):
    """One of so many is rounded."""
    return [k == i for k in range(count)]


def all_but(i, count):
    return [k != i for k in range(count)]


def exact_formula(rng, kind, mode, p, q, square=False):
    """A formula that rounds nothing, but for the square."""
    return marked_formula(rng, kind, mode, p, q, square,
                          [False] * roundings(kind, p, q))


def none_rounded(rng):
    """Formulas of every form and of every count or depth, all exact; more of
    the fractions, which are seldom exact elsewhere."""
    for kind, mode in (*FORMS, *FRACTIONS):
        for p, q in counts(rng, kind, 1, 16):
            yield from at_its_ends(exact_formula(rng, kind, mode, p, q))


def each_in_turn(rng, forms, least, most, plan, more=0):
    """What is rounded is planned about each product and quotient in turn."""
    for kind, mode in forms:
        for p, q in counts(rng, kind, least, most):
            count = roundings(kind, p, q)
            for i in range(count + more):
                yield from at_its_ends(marked_formula(
                    rng, kind, mode, p, q, False, plan(i, count)))


def one_rounded(rng):
    """One product or quotient is rounded, each in turn: the first, those in
    the middle, the last; and then none. More of the rationals, which have two
    walks."""
    forms = *FORMS, *[(RATIONAL, 0)] * 2
    return each_in_turn(rng, forms, 1, 4, alone, more=1)


def one_of_many_rounded(rng):
    """The first, the last or one in the middle, of the most there can be."""
    for kind, mode in FORMS:
        p, q = SHAPES[kind].p[-1], rng.choice(SHAPES[kind].q[-3:])
        count = roundings(kind, p, q)
        for i in (0, rng.randrange(1, count - 1), count - 1):
            formula = marked_formula(rng, kind, mode, p, q, False,
                                     alone(i, count))
            yield from at_its_ends(formula)


def all_but_one_rounded(rng):
    """Every product and quotient is rounded but one, each in turn."""
    return each_in_turn(rng, FORMS, 2, 3, all_but)


def any_rounded(rng):
    """Any of them, the square too, and mostly few."""
    for kind, mode in FORMS:
        for p, q in counts(rng, kind, 1, 12):
            rounds = [rng.randrange(4) == 0
                      for _ in range(roundings(kind, p, q))]
            square = rng.randrange(3) == 0
            formula = marked_formula(rng, kind, mode, p, q, square, rounds)
            yield from at_its_ends(formula)


# Squares.


def only_the_square_rounded(rng):
    """s is rounded and nothing else; of one coefficient or of depth 1 it may
    be that it is not used."""
    for kind, mode in FORMS_WITH_SQUARES * 3:
        for p, q in counts(rng, kind, 1, 5):
            yield from at_its_ends(
                exact_formula(rng, kind, mode, p, q, square=True))


def unused_squares(rng):
    """The square of x would be rounded, but the answer does not use it; all
    else is exact, or one of the others is rounded."""
    for kind, mode, most in ((ODD, 0, 1), (EVEN, 0, 1), (FRACTION, 2, 1),
                             (FRACTION, 0, 4), (POLYNOMIAL, 0, 4),
                             (RATIONAL, 0, 4)):
        for p, q in [*counts(rng, kind, 1, most)] * (6 // most):
            count = roundings(kind, p, q)
            for rounds in ([False] * count, alone(count - 1, count)):
                formula = marked_formula(rng, kind, mode, p, q, True, rounds)
                yield from at_its_ends(formula)


def squares_beside_zeros(rng):
    """Every coefficient beside s is 0, and s is rounded or exact; the formula
    of one coefficient fewer, or of depth 1, in mode 2, has no use of it."""
    for square in (True, False) * 5:
        x = marked_argument(rng, square, less=2)
        c = signed(rng, 1 + rng.randrange(8) << 24 - rng.randrange(3))
        zeros = (0,) * rng.randrange(3)
        for formula in (
                polynomial((c, 0, *zeros), -x, x, EVEN),
                polynomial((c, 0, *zeros), -x, x, ODD),
                polynomial((c, *zeros), -x, x, rng.choice((ODD, EVEN))),
                fraction((c, 0, ONE), 1, -x, x),
                fraction((c, 0, ONE, 0, -ONE), 1, -x, x),
                fraction((0, c, ONE), 2, -x, x),
                fraction((0, c, ONE, 0, 2 * ONE), 2, -x, x)):
            yield from at_its_ends(formula)


def exact_squares(rng):
    """Arguments about those whose square is exact: multiples of 4096 steps. s
    itself, and one, where it counts or does not."""
    for _ in range(12):
        x = 4096 * word_of_digits(rng, 1 + rng.randrange(12))
        for words, kind in (((0, ONE), EVEN), ((ONE, 0), EVEN), ((ONE,), EVEN),
                            ((ONE, 0), ODD), ((ONE,), ODD)):
            sheet = sheet_of([polynomial(words, -2 * ONE, 2 * ONE, kind)])
            for argument in (x - 1, x, -x, x + 2048):
                yield ask_evaluate(sheet, 1, argument)


# Roundings that cancel.


def cancelled_roundings(rng):
    """The answer is the exact value, and yet rounded on the way."""
    for _ in range(12):
        count = 2 + rng.randrange(3)
        yield from at_its_ends(over_itself(
            rng, alone(rng.randrange(count), count)))
        for mode in MODES[FRACTION]:
            yield from at_its_ends(over_its_product(rng, mode))
        for kind in (ODD, EVEN):
            yield from at_its_ends(about_its_turn(rng, kind))


# Words of few digits.


def plain_arguments(rng, formula):
    """Both ends, 0, and words between them of few places and of many."""
    x = formula.hi
    inside = {x, formula.lo, 0, x // 2, x // 4 * 3, rng.randrange(x)}
    inside.add(min(word_of_places(rng, few_places(rng)), x))
    return sorted(inside)


def plain_formulas(rng):
    """Formulas of every form whose words have few digits, at arguments of few
    places: many are exact, by no one's design."""
    for kind, mode in KINDS_AND_MODES * 6:
        p = rng.choice(SHAPES[kind].p[:4])
        formula = plain_formula(rng, kind, mode, p,
                                rng.choice(SHAPES[kind].q[:2]))
        sheet = sheet_of([formula])
        for argument in plain_arguments(rng, formula):
            yield rng.choice((
                ask_evaluate(sheet, 1, argument),
                ask_double(sheet, 1, pattern_of(argument))))


# Single products and quotients.


def rests_of_products(rng):
    """Products that have a given rest below a whole step: nothing, one bit of
    any place, or another; as a polynomial's and as an odd formula's last."""
    bits = (1 << bit for bit in range(24))
    for rest in (0,) * 24 + (*bits, *RESTS):
        c, x = leaving(rng, rest)
        formula = times(signed(rng, c), x)
        if x <= WIDEST and rng.randrange(2) and c != 0:
            formula = polynomial((signed(rng, c),), -x, x, ODD)
        for argument in (x, -x):
            yield ask_evaluate(sheet_of([formula]), 1, argument)


def all_signs(n, d):
    """The quotient of n by d, and those of them negated."""
    for numerator in (n, -n):
        for divisor in (d, -d):
            yield ask_evaluate(
                sheet_of([rational((numerator,), (divisor,), 0, 0)]), 1, 0)


def exact_quotients(rng):
    """Quotients of every size that are exact, of which the divisor divides the
    numerator itself or only the scaled one; and with the numerator a step
    more."""
    for _ in range(20):
        d = word_of_digits(rng, 1 + rng.randrange(10))
        times = word_of_digits(rng, 1 + rng.randrange(21))
        scaled = d << 24 - rng.randrange(10)
        for n, by in ((d * times, scaled), (d * times + 1, scaled),
                      (times, 1 << rng.randrange(18, 30))):
            if by <= M and n * ONE // by < M:
                yield from all_signs(n, by)


def quotients_next_to_exact(rng):
    """Quotients that are a single part of the divisor above or below a whole
    number."""
    for _ in range(20):
        d = size(rng) | 1
        n = pow(ONE, -1, d) if d > 1 else 0
        for numerator in (n, d - n):
            yield from all_signs(numerator, d)


# Roots.


def marks_of_roots(rng):
    """Squares of every size and the arguments next to them; squares less one;
    any arguments."""
    sides = {n for digits in range(16) for n in about(1 << digits)}
    sides |= {rng.randrange(46341) for _ in range(30)} | {46339, 46340}
    for side in sorted(sides):
        for x in about(side * side):
            yield ask_evaluate(ANY_ROOT_SHEET, 1, x)
        yield ask_double(ANY_ROOT_SHEET, 1, pattern_of(side * side))
    for x in (*SQUARES_LESS_ONE, *(size(rng) for _ in range(40))):
        yield ask_evaluate(ANY_ROOT_SHEET, 1, x)


# The door.


def doubles_about(x):
    """The double that a word is, and others that are rounded to it: the next
    ones, and a little less than half a step to either side."""
    pattern = pattern_of(x)
    return (pattern, pattern - 1, pattern + 1,
            pattern_of(256 * x - 127, -32), pattern_of(256 * x + 127, -32))


def doubles_rounded_and_not(rng):
    """Exact formulas of every form, and some with one rounding, at doubles
    that need no rounding and at others that become the same word."""
    for kind, mode in FORMS * 3:
        p, q = rng.choice([*counts(rng, kind, 1, 4)])
        count = roundings(kind, p, q)
        for rounds in ([False] * count, alone(rng.randrange(4), count)):
            formula = marked_formula(rng, kind, mode, p, q, False, rounds)
            for pattern in doubles_about(formula.hi):
                yield ask_double(sheet_of([formula]), 1, pattern)


def doubles_under_roots(rng):
    """Roots of squares, at doubles that are the square and that become it."""
    for _ in range(25):
        side = word_of_digits(rng, 1 + rng.randrange(15))
        for pattern in doubles_about(side * side):
            yield ask_double(ANY_ROOT_SHEET, 1, pattern)


# 0, the least and greatest subnormal double, the least normal, one of a place
# below half a step, just less than half a step, half a step, and a step.
SMALL_DOUBLES = (0, 1, (1 << 52) - 1, 1 << 52, pattern_of(1, -40),
                 pattern_of(1, -25) - 1, pattern_of(1, -25), pattern_of(1))


def doubles_about_0(rng):
    """Formulas of every form, a constant among them, at doubles of both signs
    that become 0 or a step."""
    for formula in (polynomial((0, ONE), -1, 1), polynomial((ONE,), -1, 1),
                    polynomial((0, ONE), -1, 1, EVEN),
                    polynomial((ONE,), -1, 1, EVEN),
                    polynomial((ONE,), -1, 1, ODD),
                    polynomial((ONE, ONE), -1, 1, ODD),
                    rational((0, ONE), (-ONE,), -1, 1),
                    rational((3,), (ONE,), -1, 1), ANY_ROOT,
                    *(fraction((3, ONE, ONE), mode, -1, 1)
                      for mode in MODES[FRACTION])):
        for pattern in SMALL_DOUBLES:
            for either in both_signs(pattern):
                yield ask_double(sheet_of([formula]), 1, either)


def unused_doubles(rng):
    """Formulas that have no use of their argument, at one that is rounded and
    at one that is not."""
    for _ in range(12):
        x = word_of_digits(rng, 2 + rng.randrange(24))
        c = signed(rng, size(rng) or 1)
        for formula in (polynomial((c,), -x, x), polynomial((c,), -x, x, EVEN),
                        rational((c,), (-ONE,), -x, x)):
            for pattern in doubles_about(x)[:3]:
                yield ask_double(sheet_of([formula]), 1, pattern)


# Sines and cosines.


def angles_of(f):
    """The angles, one of each quarter, whose argument is f / 2^6, but for the
    sign."""
    return [wrapped(angle) for angle in (f, HALF_TURN - f, HALF_TURN + f, -f)]


def sine_and_cosine(sheet, angle):
    """The cosine a quarter earlier, where it is the same."""
    yield ask_sine(sheet, 1, angle)
    yield ask_cosine(sheet, 1, wrapped(angle - QUARTER))


def turns_rounded_and_not(rng):
    """Odd formulas that are exact, or have one rounding, the square's or a
    product's, at angles of every quarter that need no rounding, and at some
    that become the same argument."""
    for p in (1, 2, 3, 4, 5, 6):
        for square, i in ((False, p), (False, p), (True, p), (False, 0),
                          (False, p - 1)):
            formula, x = marked_quarter_formula(rng, p, square, alone(i, p))
            sheet = sheet_of([formula])
            for angle in angles_of(64 * x):
                yield from sine_and_cosine(sheet, angle)
            for f in (64 * x - 1 - rng.randrange(32),
                      64 * x + 1 + rng.randrange(31)):
                yield from sine_and_cosine(sheet, rng.choice(angles_of(f)))


def every_rest_of_an_angle(rng):
    """Angles of every quarter with every rest of 64, and some with none, where
    the argument itself is the answer."""
    sheet = sheet_of([ARGUMENT])
    for rest in range(64):
        f = 64 * rng.getrandbits(24)
        for angle in (*angles_of(f + rest), *angles_of(f)[rest % 2::2]):
            yield rng.choice((ask_sine, ask_cosine))(sheet, 1, angle)


# Several formulas, and refusals.


def formula_at_a_half(rng):
    """A formula that may be exact at 1/2, or not."""
    c0, c = size(rng, ONE), 1 << rng.randrange(4)
    return rng.choice((
        polynomial((c0, c), -ONE, ONE, rng.choice((POLYNOMIAL, EVEN))),
        polynomial((c0 & -2, 8 * c), -ONE, ONE, ODD),
        rational((c0, c), (signed(rng, 1 + rng.randrange(4)) * ONE,), 0, ONE),
        ANY_ROOT._replace(lo=ONE // 2)))


def several_marks(rng):
    """Every formula of sheets of 5, at the same argument."""
    for _ in range(15):
        formulas = [formula_at_a_half(rng)._replace(number=formula.number)
                    for formula in good_formulas(rng, 5)]
        for formula in formulas:
            yield from both(sheet_of(formulas), formula.number, ONE // 2)


def marks_refused(rng):
    """An exact formula with an argument outside (10), a number that is not
    there (11), a double that is not finite (13), or of another kind than odd
    (15): every value is 0."""
    for kind, mode in FORMS * 2:
        p, q = rng.choice([*counts(rng, kind, 1, 4)])
        formula = exact_formula(rng, kind, mode, p, q)
        sheet, x = sheet_of([formula]), formula.hi
        for number, argument in ((1, x + 1), (1, -x - 1), (2, x), (0, x),
                                 (1, NO_WORD)):
            yield from both(sheet, number, argument)
        for pattern in (INFINITY, INFINITY | 1 << 51 | MINUS_ZERO):
            yield ask_double(sheet, 1, pattern)
        for number in (1, 2):
            yield ask_sine(sheet, number, 64 * x)
            yield ask_cosine(sheet, number, 64 * x)


def faults_under_marks(rng):
    """One fault at any record of a sheet (1 to 9) of formulas that would be
    exact."""
    formulas = [rational((0, ONE), (ONE, 0), 0, ONE)._replace(number=10),
                quarter_formula(rng, ODD, 20, 1),
                ANY_ROOT._replace(number=30)]
    for sheet in each_fault(formulas):
        yield rng.choice([*both(sheet, rng.choice((10, 30)), ONE)])
        yield rng.choice((ask_sine, ask_cosine))(sheet, 20, 0)


GROUPS = (
    marks_by_hand, none_rounded, one_rounded, one_of_many_rounded,
    all_but_one_rounded, any_rounded, only_the_square_rounded, unused_squares,
    squares_beside_zeros, exact_squares, cancelled_roundings, plain_formulas,
    rests_of_products, exact_quotients, quotients_next_to_exact,
    marks_of_roots, doubles_rounded_and_not, doubles_under_roots,
    doubles_about_0, unused_doubles, turns_rounded_and_not,
    every_rest_of_an_angle, several_marks, marks_refused, faults_under_marks)
