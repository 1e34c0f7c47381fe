"""Groups of vectors aimed at roots and the steps that they take (request
M-103)."""

from by_hand import ANY_ROOT, ROOTS
from door import pattern_of
from faults import each_fault
from formulas import EVEN, FRACTION, ODD, POLYNOMIAL, RATIONAL, ROOT
from groups_numbers import INFINITY, MINUS_ZERO, both_signs
from makers import (
    FIRST_AND_LAST, SEVEN_STEPS, SQUARES_LESS_ONE, arguments, below_square,
    change_of_steps, good_formula, good_formulas, quarter_formula, sheet_of,
    size, word_of_digits)
from number import M, NO_WORD, ONE
from questions import (
    ask_cosine, ask_double, ask_evaluate, ask_interval, ask_sine)

ANY_ROOT_SHEET = sheet_of([ANY_ROOT])


def both(sheet, number, argument):
    """The answer on words, and by the double of the same value."""
    yield ask_evaluate(sheet, number, argument)
    yield ask_double(sheet, number, pattern_of(argument))


def root_of(x):
    """The root of x; below 0 there is none (10)."""
    return both(ANY_ROOT_SHEET, 1, x)


def about(x):
    """x, and the arguments next to it that are words."""
    return (n for n in (x - 1, x, x + 1) if n <= M)


def roots_by_hand(rng):
    """The cases worked out by hand; minus zero."""
    for x, _, _ in ROOTS:
        yield from root_of(x)
    yield ask_double(ANY_ROOT_SHEET, 1, MINUS_ZERO)


# Arguments.


def fewest_and_most_steps(rng):
    """The smallest and the largest argument of each number of steps and all
    arguments of 7, and those next to them."""
    ends = (x for pair in FIRST_AND_LAST.values() for x in pair)
    for end in sorted({*ends, *SEVEN_STEPS}):
        for x in about(end):
            yield from root_of(x)


def squares_less_one(rng):
    """Every argument whose v is a square less one, and those next to it."""
    for square_less_one in SQUARES_LESS_ONE:
        for x in about(square_less_one):
            yield from root_of(x)


def squares_less_a_little(rng):
    """Arguments whose v is less than a square by a small square."""
    for n in range(1, 23):
        for c in (2, 3, 4, 5, 6, -2, -3, -4, -5, -6):
            yield ask_evaluate(ANY_ROOT_SHEET, 1, below_square(n, 0, c))
    for twos in range(1, 12):
        for _ in range(15):
            n = word_of_digits(rng, 1 + rng.randrange(5 + twos))
            x = below_square(n, twos, rng.choice((1, 3, -1, -3)))
            if 0 < x <= M:
                yield ask_evaluate(ANY_ROOT_SHEET, 1, x)


def roots_about_squares(rng):
    """Squares, one less and one more, of sides of every size, powers of two
    among them: where x is a square, so is v."""
    sides = {n for digits in range(16) for n in about(1 << digits)}
    sides |= {word_of_digits(rng, 1 + rng.randrange(15)) for _ in range(30)}
    sides |= {46339, 46340}  # the largest
    for side in sorted(sides):
        for x in about(side * side):
            yield from root_of(x)


def next_to_squares(rng):
    """The arguments on both sides of where the root takes its next value, for
    roots of every size."""
    for digits in range(13, 29):
        for _ in range(8):
            r = word_of_digits(rng, digits)
            x = r * r // ONE
            if x < M:
                yield ask_evaluate(ANY_ROOT_SHEET, 1, x)
                yield ask_evaluate(ANY_ROOT_SHEET, 1, x + 1)


def roots_about_powers_of_two(rng):
    """Arguments about each power of two, where v has a binary digit more; at
    every second of them the first w is doubled."""
    for digits in range(32):
        for less in (2, 1, 0, -1, -2):
            x = (1 << digits) - less
            if 0 <= x <= M:
                yield from root_of(x)


def smallest_roots(rng):
    """Every argument from 0 to 256."""
    for x in range(257):
        yield ask_evaluate(ANY_ROOT_SHEET, 1, x)


def roots_of_every_size(rng):
    """Any arguments of every count of binary digits but the smallest."""
    for digits in range(5, 32):
        for _ in range(12):
            yield from root_of(word_of_digits(rng, digits))


def where_steps_change(rng):
    """Neighbours of every count of binary digits but the smallest that take
    different numbers of steps; the doubles between them, which are rounded
    first."""
    for digits in range(8, 32):
        for _ in range(6):
            lower, upper = change_of_steps(rng, digits)
            yield from root_of(lower)
            yield from root_of(upper)
            tie = pattern_of(lower + upper, -25)
            for near in (tie - 1, tie, tie + 1):
                yield ask_double(ANY_ROOT_SHEET, 1, near)


# Intervals and refusals: when refused, the steps are 0 too.


def intervals_of_roots(rng):
    """Roots on any interval, of one argument now and then: its ends, arguments
    between them and just outside (10), far outside (10) and what is no word
    (10)."""
    for _ in range(50):
        lo, hi = sorted((size(rng), size(rng)))
        formula = ANY_ROOT._replace(lo=lo, hi=rng.choice((lo, hi, hi, hi)))
        sheet = sheet_of([formula])
        yield ask_interval(sheet, 1)
        asked = {*arguments(rng, formula), 0, M, -formula.hi}
        for argument in sorted(asked):
            yield from both(sheet, 1, argument)
        yield ask_evaluate(sheet, 1, NO_WORD)


def numbers_of_roots(rng):
    """Roots on sheets of several, each with its own interval, at an argument
    that one of them holds (10 in some others); a number not there (11)."""
    for count in (1, 2, 3, 5) * 6:
        formulas = [good_formula(rng, ROOT, formula.number)
                    for formula in good_formulas(rng, count)]
        sheet = sheet_of(formulas)
        x = rng.choice(formulas).hi
        absent = (formulas[-1].number + 1) % 65536
        for number in (*(formula.number for formula in formulas), absent):
            yield from both(sheet, number, x)


def doubles_not_finite(rng):
    """Infinities and what is not a number (13), put to a root; with a number
    that is not there (11) and with a sheet that breaks off (1) as well."""
    for pattern in (INFINITY, INFINITY | 1, INFINITY | 1 << 51):
        for either in both_signs(pattern):
            yield ask_double(ANY_ROOT_SHEET, 1, either)
            yield ask_double(ANY_ROOT_SHEET, 2, either)
            yield ask_double(ANY_ROOT_SHEET[:-1], 1, either)


def faults_about_roots(rng):
    """One fault at any record of a sheet (1 to 9), where the root asked for
    would take steps: before that root, in it or after it."""
    formulas = [good_formula(rng, RATIONAL, 10, p=2, q=2),
                ANY_ROOT._replace(number=20),
                good_formula(rng, ODD, 30, p=3)]
    for sheet in each_fault(formulas):
        yield from both(sheet, 20, word_of_digits(rng, 31))


# Where no steps are taken.


def roots_and_other_kinds(rng):
    """A formula of each other kind between two roots, at the same arguments:
    it takes no steps, and they take none at 0 only."""
    for kind in (POLYNOMIAL, RATIONAL, FRACTION, ODD, EVEN) * 8:
        sheet = sheet_of([quarter_formula(rng, ROOT, 1),
                          quarter_formula(rng, kind, 2),
                          quarter_formula(rng, ROOT, 3)])
        for x in (0, rng.randrange(1, ONE + 1)):
            for number in (1, 2, 3):
                yield from both(sheet, number, x)


def turns_beside_roots(rng):
    """Sines and cosines, which take no steps, from sheets that have roots; of
    the roots themselves they are refused (15)."""
    for _ in range(20):
        sheet = sheet_of([quarter_formula(rng, ROOT, 1),
                          quarter_formula(rng, ODD, 2),
                          quarter_formula(rng, ROOT, 3)])
        for number in (1, 2, 2, 3):
            yield ask_sine(sheet, number, rng.getrandbits(32))
            yield ask_cosine(sheet, number, rng.getrandbits(32))


GROUPS = (
    roots_by_hand, fewest_and_most_steps, squares_less_one,
    squares_less_a_little, roots_about_squares, next_to_squares,
    roots_about_powers_of_two, smallest_roots, roots_of_every_size,
    where_steps_change, intervals_of_roots, numbers_of_roots,
    doubles_not_finite, faults_about_roots, roots_and_other_kinds,
    turns_beside_roots)
