"""The oracle's self-test: python3 oracle/check.py

The last line says 'N passed, M failed'; the exit status is 0 if M is 0.
"""

import lzma
import sys
from fractions import Fraction
from pathlib import Path
from random import Random

import check_blanks
import check_marks
import groups_halves
import slow
from by_hand import (
    ADMISSIONS, ANSWERS, ANY_ROOT, COSINES, FIT, HALVES, HALVES_ADMISSIONS,
    LISTED, ODD_AND_EVEN_ADMISSIONS, ODD_AND_EVEN_ANSWERS, REFUSED, ROOTS,
    SERIES, SINES, TIES, UNFIT)
from door import evaluate_double, interval, pattern_of, word_of
from evaluation import evaluate
from formulas import (
    EVEN, FRACTION, ODD, POLYNOMIAL, POLYNOMIALS, RATIONAL, ROOT, Formula,
    admission, answer)
from makers import (
    EDGE_ANGLES, EVEN_FORMS, EVERY_CARRY, FIRST_AND_LAST, KINDS, ODD_FORMS,
    OTHER_FORMS, SEAMS, SEVEN_STEPS, SQUARES_LESS_ONE, angle_in, arguments,
    carries, change_of_steps, formula_of_form, full_polynomial,
    full_quarter_formula, good_formula, good_formulas, halves_that_carry,
    largest, leaving, quarter_formula, sheet_of, signed, size, steps_to,
    tied_angle_in, tied_divisor, tied_formula, tied_quarter_formula,
    with_field, word, word_of_digits)
from number import (
    M, NO_WORD, ONE, bound_product, bound_quotient, is_word, nearest, product,
    quotient, root)
from questions import (
    COSINE, COUNT, DOUBLE, EVALUATE, FORMULA, INTERVAL, RECORD, SHEET, SINE,
    answer_to, ask_cosine, ask_double, ask_evaluate, ask_record, ask_sheet,
    ask_sine, buffer_beforehand, unpacked_fields)
from refusal import Refused
from sheet import END, START, formula_count, formula_of, read, read_run
from slips_halves import (
    SLIPS, Way, changed, is_in_bounds, is_in_products)
from turn import HALF_TURN, QUARTER, cosine, sine, wrapped
from vectors import taken_apart, vectors_of
from writing import record_of, start_or_end, write_record, write_sheet

INFINITY = 0x7FF << 52
MINUS = 1 << 63


class Tally:
    """Counts what is as expected and tells what is not."""

    def __init__(self):
        self.passed = 0
        self.failed = 0

    def same(self, what, found, expected):
        if found == expected:
            self.passed += 1
        else:
            self.failed += 1
            print(f"{what}: found {found}, expected {expected}")


def outcome(question, *given):
    """What a function answers, or its refusal's number and place."""
    try:
        return question(*given)
    except Refused as refusal:
        return refused(refusal.number, refusal.place)


def refused(number, place=0):
    return "refused", number, place


def check_by_hand(tally, rng):
    """Every row of 'Checked by hand', P or not, the listing's sheets, and the
    cases of odd and even formulas, of ties and of products from halves."""
    for formula, argument, expected in (*ANSWERS, *ODD_AND_EVEN_ANSWERS,
                                        *TIES, *HALVES):
        sheet = sheet_of([formula])
        tally.same("by hand", evaluate(sheet, 1, argument).word, expected)
        tally.same("by hand, in doubles",
                   evaluate_double(sheet, 1, pattern_of(argument)).pattern,
                   pattern_of(expected))
    for formula, expected in (*ADMISSIONS, *ODD_AND_EVEN_ADMISSIONS,
                              *HALVES_ADMISSIONS):
        tally.same("by hand, admission",
                   outcome(formula_count, sheet_of([formula])),
                   refused(expected, 8) if expected else 1)
    for sheet, number, place in REFUSED:
        tally.same("listing", outcome(formula_count, sheet),
                   refused(number, place))
    tally.same("listing", read(LISTED),
               [Formula(ROOT, 1, 0, 33554432, 0, 0, 0, ())])


def ratios(rng):
    """Two numbers whose ratio is to be rounded, and two where it is a tie."""
    d = word(rng) or 1
    yield word(rng), d
    yield (2 * word(rng) + 1) * d, 2 * d


def factors(rng):
    """Two words, two whose product is a tie, and two where it is exact."""
    twos = rng.randrange(24)
    yield word(rng), word(rng)
    for more in (23, 24):
        yield (signed(rng, 2 * size(rng, 99) + 1 << twos),
               signed(rng, 2 * size(rng, 99) + 1 << more - twos))


def dividends_and_divisors(rng):
    """Two words, two numbers whose quotient is a tie, and two where it is
    exact."""
    n = signed(rng, 1 + size(rng, 99))
    yield word(rng), word(rng) or 1
    yield n, tied_divisor(rng, n)
    yield n * (2 * size(rng, 99) + 1), n << rng.randrange(24)


def negated(marked):
    return marked._replace(number=-marked.number)


def check_rounding(tally, rng):
    """Rounding, products and quotients, with their marks: against slow
    definitions, and odd in each of the two numbers."""
    for operation, definition, pairs in (
            (nearest, Fraction, ratios),
            (product, lambda a, b: slow.product_taken("", a, b).exact,
             factors),
            (quotient, lambda a, d: slow.quotient_taken("", a, d).exact,
             dividends_and_divisors)):
        for _ in range(2000):
            for a, b in pairs(rng):
                what = f"{operation.__name__} of {a} and {b}"
                found = operation(a, b)
                exact = definition(a, b)
                tally.same(what, found,
                           (slow.nearest(exact), slow.is_whole(exact)))
                tally.same(f"{what}, odd in the first", operation(-a, b),
                           negated(found))
                tally.same(f"{what}, odd in the second", operation(a, -b),
                           negated(found))


def check_rounding_by_hand(tally, rng):
    """Products and quotients with their marks, case by case."""
    # 8388608 is one half, so n times it is n/2.
    for a, b, *expected in (
            (1, 8388608, 1, False), (-1, 8388608, -1, False),
            (-1, 8388607, 0, False), (-1, 8388609, -1, False),
            (3, -8388608, -2, False), (-3, -8388608, 2, False),
            (4, -8388608, -2, True), (0, 8388607, 0, True),
            (M, ONE, M, True), (M, M, 274877906688, False)):
        tally.same(f"product {a} {b}", [*product(a, b)], expected)
    # 1 << 25 is two, so n over it is n/2.
    for a, d, *expected in (
            (1, 1 << 25, 1, False), (-1, 1 << 25, -1, False),
            (1, -(1 << 25), -1, False), (-1, -(1 << 25), 1, False),
            (-1, (1 << 25) + 1, 0, False), (-1, (1 << 25) - 1, -1, False),
            (-3, 1 << 25, -2, False), (-4, 1 << 25, -2, True),
            (-4, -(1 << 25), 2, True), (1, -(1 << 24), -1, True),
            (1, -1, -ONE, True), (0, -3, 0, True),
            (ONE, -3 * ONE, -5592405, False)):
        tally.same(f"quotient {a} {d}", [*quotient(a, d)], expected)


def check_bounds(tally, rng):
    """Bounds against slow definitions."""
    for _ in range(4000):
        a, b, d = abs(word(rng)), abs(word(rng)), abs(word(rng)) or 1
        tally.same(f"bound product {a} {b}", bound_product(a, b),
                   slow.bound_product(a, b))
        tally.same(f"bound quotient {a} {d}", bound_quotient(a, d),
                   slow.bound_quotient(a, d))


def sizes_to_multiply(rng):
    """Two sizes at the seams of their halves, with every carry, with a product
    about a step or about a tie, and any two."""
    yield from ((a, b) for a in SEAMS for b in SEAMS)
    for wanted in EVERY_CARRY * 20:
        yield halves_that_carry(rng, wanted)
    for _ in range(300):
        yield leaving(rng, rng.choice((0, 1, ONE // 2, ONE - 1))
                      + rng.randrange(-1, 2) & ONE - 1)
        yield leaving(rng, -rng.randrange(1 << 24) & (1 << 32) - 1, 32)
        yield abs(word(rng)), abs(word(rng))
        yield rng.randrange(M + 1), rng.randrange(M + 1)


def check_halves(tally, rng):
    """Products, with their marks, and bound products from halves are the plain
    ones, whatever the signs; every carry is met, and none above 1."""
    met = set()
    for a, b in sizes_to_multiply(rng):
        what = f"from halves, {a} and {b}"
        met.add(carries(a, b))
        tally.same(what, slow.bound_product_from_halves(a, b),
                   bound_product(a, b))
        tally.same(what, slow.product_from_halves(a, b), slow.product(a, b))
        for c, x in ((a, b), (a, -b), (-a, b), (-a, -b)):
            tally.same(what, product(c, x), (slow.product_from_halves(c, x),
                                             slow.exact_from_halves(c, x)))
    tally.same("every carry", met, {*EVERY_CARRY})


def check_slips(tally, rng):
    """Formulas worked by products from halves have the same answers and the
    same admission. With a slip in the product, or in the bound product alone,
    an answer of those vectors is another one."""
    vectors = vectors_of(groups_halves.GROUPS)
    for other, other_bound in (
            (slow.product_from_halves, slow.bound_product_from_halves),
            (Way().product, Way().bound_product)):
        tally.same("answers from halves",
                   changed(vectors, other, other_bound), 0)
    backwards = vectors[::-1]  # those for bound products come last
    for slip, replaced in SLIPS.items():
        way = Way(**replaced)
        if is_in_products(slip):
            tally.same(f"{slip}, in products",
                       changed(vectors, other=way.product, count=any), True)
        if is_in_bounds(slip):
            tally.same(f"{slip}, in bound products",
                       changed(backwards, other_bound=way.bound_product,
                               count=any), True)


def check_roots_by_hand(tally, rng):
    """The cases of roots, each with its steps."""
    sheet = sheet_of([ANY_ROOT])
    for x, expected, steps in ROOTS:
        tally.same(f"root {x} by hand", evaluate(sheet, 1, x)[:2],
                   (expected, steps))
        tally.same(f"root {x} by hand, in doubles",
                   evaluate_double(sheet, 1, pattern_of(x))[:2],
                   (pattern_of(expected), steps))


def roots_to_take(rng):
    """Arguments above 0: all small ones, those about powers of two, squares
    and what is next to them, where steps change, and any."""
    yield from range(1, 4500)
    yield from (*SEVEN_STEPS, *SQUARES_LESS_ONE, M)
    for digits in range(13, 32):
        power = 1 << digits - 1
        yield from (power - 1, power, power + 1)
        for _ in range(60):
            yield word_of_digits(rng, digits)
        for _ in range(10):
            yield from change_of_steps(rng, digits)
    for _ in range(1000):
        side = rng.randrange(68, 46341)
        yield from (side * side - 1, side * side, side * side + 1)


def check_roots(tally, rng):
    """Roots, their steps and their marks against slow definitions. The first
    number is above the exact root, and at most twice it. The numbers fall to
    the root, and from there the rule would go on to the root again, or, where
    v is a square less one, to one more."""
    for x in roots_to_take(rng):
        v = x * ONE
        r, steps, exact = root(x)
        *above, last, new = slow.numbers_of_heron(x)
        tally.same(f"root {x}", r, slow.root(x))
        tally.same(f"root {x} is the largest", r * r <= v < (r + 1) ** 2, True)
        tally.same(f"steps to the root {x}", steps, len(above) + 1)
        tally.same(f"mark of the root {x}", exact, r * r == v)
        tally.same(f"first number for {x}", v < above[0] ** 2 <= 4 * v, True)
        tally.same(f"numbers {above} for {x} fall to the root", [*above, last],
                   sorted({*above, r}, reverse=True))
        tally.same(f"number after the root {x}", new - r,
                   1 if (r + 1) ** 2 - v == 1 else 0)


def check_steps(tally, rng):
    """Every number of steps from 2 to 7 is met, and no other but 0 for x = 0.
    The first and the last argument of each number take it, and none of the
    2000 beyond them does."""
    tally.same("0 has no steps", root(0), (0, 0, True))
    tally.same("numbers of steps", {*map(steps_to, roots_to_take(rng))},
               {*FIRST_AND_LAST})
    for steps, (first, last) in FIRST_AND_LAST.items():
        tally.same(f"first and last of {steps} steps",
                   (steps_to(first), steps_to(last)), (steps, steps))
        for x in (*range(max(first - 2000, 1), first),
                  *range(last + 1, min(last + 2000, M) + 1)):
            tally.same(f"{x} has not {steps} steps", steps_to(x) != steps,
                       True)
    for x in SEVEN_STEPS:
        tally.same(f"steps to the root {x}", steps_to(x), 7)


def check_most_steps(tally, rng):
    """No argument takes more than 7 steps, so none more than 8. The first
    number is at most twice the exact root of v. A step from 1 + e times that
    root leads to 1 + e * e / (2 + 2 * e) times it, and whole parts only make
    it less. The exact root is below 2^28, so there comes a number less than
    one above it; if that is not yet the whole root, the next one is, and the
    step after it is the last."""
    e = Fraction(1)
    steps = 0
    while e * 2**28 >= 1:
        e = e * e / (2 + 2 * e)
        steps += 1
    tally.same("the most steps", steps + 2, 7)


def check_formulas(tally, rng):
    """Answers, with their steps and marks, and admission against slow
    definitions, some with ties; an admitted formula's answers are words, and
    its divisors never 0."""
    for formula in (*(good_formula(rng, kind) for kind in KINDS * 300),
                    *(tied_formula(rng, *form) for form in OTHER_FORMS * 30)):
        tally.same(f"admission of {formula}", slow.admission(formula), 0)
        for argument in arguments(rng, formula)[:4]:
            found = answer(formula, argument)
            tally.same(f"{formula} at {argument}", found,
                       slow.answer(formula, argument))
            tally.same(f"{found} is a word", is_word(found.word), True)
        changed = list(formula.words)
        for _ in range(3 if changed else 0):
            changed[rng.randrange(len(changed))] = word(rng)
            for spoilt in (formula._replace(words=tuple(changed)),
                           formula._replace(hi=M - size(rng))):
                tally.same(f"admission of {spoilt}", admission(spoilt),
                           slow.admission(spoilt))


def check_polynomials(tally, rng):
    """Admitted polynomials, odd and even ones among them, some with no room
    left below M, some with ties: all that they meet on the way is a word, and
    the answer lies within demand 3's distance."""
    for kind in POLYNOMIALS * 300:
        drawn = rng.choice(
            (good_formula, full_polynomial, tied_formula))(rng, kind)
        a = largest(drawn)
        formula = drawn._replace(lo=-a, hi=a)
        sheet = sheet_of([formula])
        for argument in (a, -a, 0, rng.randrange(-a, a + 1)):
            found = evaluate(sheet, 1, argument).word
            met = slow.numbers_met(formula, argument)
            tally.same(f"{met} are words", all(map(is_word, met)), True)
            tally.same(f"{formula} at {argument} is near {found}",
                       slow.near_enough(formula, argument, found), True)


def check_opposite_arguments(tally, rng):
    """An odd formula at -x gives the negated answer and an even one the same,
    where both arguments lie in the interval, with the same mark; answers
    against the slow definitions. A rational with an odd divisor, whose d0 is
    0, is refused."""
    for sign, forms in ((-1, ODD_FORMS), (1, EVEN_FORMS)):
        for form in forms * 60:
            formula = rng.choice((formula_of_form, tied_formula))(rng, *form)
            for x in (formula.hi, rng.randrange(formula.hi + 1)):
                sheet = sheet_of([rng.choice((
                    formula, formula._replace(lo=-x),
                    formula._replace(hi=x)))])
                found = evaluate(sheet, 1, x)
                opposite = sign * found.word
                tally.same(f"{formula} at {x}", found, slow.answer(formula, x))
                tally.same(f"{formula} at {-x}", evaluate(sheet, 1, -x),
                           (opposite, 0, found.exact))
                tally.same(f"{formula} at {-x}, in doubles",
                           evaluate_double(sheet, 1, pattern_of(-x)),
                           (pattern_of(opposite), 0, found.exact))
    for powers in ((0, 1), (1, 1)) * 50:
        formula = formula_of_form(rng, RATIONAL, powers, 0)
        tally.same(f"admission of {formula}",
                   (admission(formula), slow.admission(formula)), (8, 8))


def check_turns_by_hand(tally, rng):
    """The cases of sine and cosine, and the formulas that they take or refuse
    by 15, whatever the angle."""
    for question, cases in ((sine, SINES), (cosine, COSINES)):
        for formula, angle, expected in cases:
            tally.same(f"{question.__name__} of {angle:08x} by hand",
                       question(sheet_of([formula]), 1, angle)[:2],
                       (expected, 0))
    for formulas, expected in ((FIT, 0), (UNFIT, 15)):
        for formula in formulas:
            sheet = sheet_of([formula])
            for angle in EDGE_ANGLES:
                for ask in (ask_sine, ask_cosine):
                    tally.same(f"{formula} at {angle:08x}",
                               answer_to(*ask(sheet, 1, angle))[0], expected)


def formulas_to_turn(rng):
    """Fit formulas: a sine's, some with ties, some with no room below M."""
    yield SERIES
    for _ in range(25):
        yield quarter_formula(rng)
        yield full_quarter_formula(rng)
        yield tied_quarter_formula(rng)[0]


def angles_to_turn(rng):
    """Edges, and in each quarter a tie and any angle."""
    return (*(rng.choice(EDGE_ANGLES) for _ in range(6)),
            *(draw(rng, quarter) for quarter in range(4)
              for draw in (tied_angle_in, angle_in)))


def check_turns(tally, rng):
    """Sine and cosine, with no steps and their marks, against slow
    definitions; they are words."""
    for formula in formulas_to_turn(rng):
        sheet = sheet_of([formula])
        for angle in angles_to_turn(rng):
            for question, definition in ((sine, slow.sine),
                                         (cosine, slow.cosine)):
                found = question(sheet, 1, angle)
                tally.same(f"{question.__name__} of {formula} at {angle:08x}",
                           found, definition(formula, angle))
                tally.same(f"{found} is a word", is_word(found.word), True)


def sine_and_cosine(sheet, angle):
    """Their words."""
    return sine(sheet, 1, angle).word, cosine(sheet, 1, angle).word


def check_mirrored_angles(tally, rng):
    """Half a turn more negates both sine and cosine; half a turn minus the
    angle keeps the sine, and the angle negated the cosine, and each negates
    the other. At 0 the sine is 0, at a quarter the formula's answer at one."""
    for formula in formulas_to_turn(rng):
        sheet = sheet_of([formula])
        for angle in (0, QUARTER, HALF_TURN, *angles_to_turn(rng)):
            found = sine_and_cosine(sheet, angle)
            for mirrored, signs in ((angle + HALF_TURN, (-1, -1)),
                                    (HALF_TURN - angle, (1, -1)),
                                    (-angle, (-1, 1))):
                image = wrapped(mirrored)
                tally.same(f"{formula} at {angle:08x} and {image:08x}",
                           sine_and_cosine(sheet, image),
                           (signs[0] * found[0], signs[1] * found[1]))
        at_one = evaluate(sheet, 1, ONE).word
        for quarter, expected in enumerate((0, at_one, 0, -at_one)):
            angle = quarter * QUARTER
            tally.same(f"sine of {formula} at {angle:08x}",
                       sine(sheet, 1, angle).word, expected)
            tally.same(f"cosine of {formula} a quarter earlier",
                       cosine(sheet, 1, wrapped(angle - QUARTER)).word,
                       expected)


def check_a_sine(tally, rng):
    """Of the sine's own series, the squares of sine and cosine make one, but
    for a few steps, and the sine is one half at a twelfth of a turn."""
    sheet = sheet_of([SERIES])
    for angle in (*EDGE_ANGLES, *(rng.getrandbits(32) for _ in range(500))):
        s, c = sine_and_cosine(sheet, angle)
        tally.same(f"squares at {angle:08x}, {s} and {c}",
                   abs(slow.product(s, s) + slow.product(c, c) - ONE) <= 8,
                   True)
    twelfth = (1 << 32) // 12
    tally.same("sine at a twelfth",
               abs(sine(sheet, 1, twelfth).word - ONE // 2) <= 4, True)


def check_doubles(tally, rng):
    """Patterns, with the marks of their rounding, against the value worked out
    from their bits in fractions; a negated double is taken as the negated
    word."""
    for _ in range(3000):
        near = 1023 - 30 + rng.randrange(40) << 52 | rng.getrandbits(52)
        tie = pattern_of(2 * word(rng) + 1, -25)
        for pattern in (near, near | MINUS, tie, tie + 1, tie - 1,
                        rng.getrandbits(64)):
            expected = refused(13)
            if pattern & INFINITY != INFINITY:
                exact = slow.value(pattern) * ONE
                expected = slow.nearest(exact), slow.is_whole(exact)
                tally.same(f"double {pattern:016x} negated",
                           word_of(pattern ^ MINUS), negated(word_of(pattern)))
            tally.same(f"double {pattern:016x}", outcome(word_of, pattern),
                       expected)
        n = word(rng)
        tally.same(f"double of {n}", slow.value(pattern_of(n)),
                   Fraction(n, ONE))
        tally.same(f"double of {n} and back", word_of(pattern_of(n)),
                   (n, True))
    for n, pattern in ((0, 0), (ONE, 0x3FF0000000000000),
                       (-2 * ONE, 0xC000000000000000),
                       (1, 0x3E70000000000000), (M, 0x405FFFFFFFC00000)):
        tally.same(f"double of {n}", pattern_of(n), pattern)
    # 0x3E6 << 52 is half a step, and 0x3E78 << 48 is 3/2 steps.
    for pattern, n in (
            (0, 0), (1, 0), (1 << 52, 0), (0x3E5FFFFFFFFFFFFF, 0),
            (0x3E60000000000000, 1), (0x3E77FFFFFFFFFFFF, 1),
            (0x3E78000000000000, 2)):
        tally.same(f"double {pattern:016x}", word_of(pattern).number, n)
        tally.same(f"double {pattern | MINUS:016x}",
                   word_of(pattern | MINUS).number, -n)


# Records for the cases below.


def framing(kind, count, length=8):
    return with_field(start_or_end(kind, count), 0, "I", length)


def root_record(number, lo=0, hi=1):
    return record_of(Formula(ROOT, number, lo, hi, 0, 0, 0, ()))


def polynomial_record(number, words, lo=-1, hi=1, kind=POLYNOMIAL):
    return record_of(Formula(kind, number, lo, hi, 0, 0, 0, words))


def rational_record(number, p, q, words, lo=-1, hi=1):
    return record_of(Formula(RATIONAL, number, lo, hi, p, q, 0, words))


def fraction_record(number, mode, depth, words, lo=-1, hi=1):
    return record_of(Formula(FRACTION, number, lo, hi, depth, 0, mode, words))


def cut_record(record, length):
    return with_field(record[:length], 0, "I", length)


def refused_by_frames():
    """Sheets with a start, a kind, a length or a count of coefficients at
    fault, each with the refusal's number and place."""
    one, end = framing(START, 1), framing(END, 1)
    good = root_record(5)
    ratio = rational_record(5, 1, 1, (1, 1))
    return (
        # The start record.
        (bytes(3), 1, 0), (bytes(4), 2, 0), (framing(START, 0, 7), 2, 0),
        (framing(START, 0, 121), 2, 0), (framing(START, 0, 120), 1, 0),
        (framing(END, 0, 9) + b"\0", 3, 0), (end, 3, 0), (good, 3, 0),
        (framing(START, 0, 9) + b"\0", 2, 0), (framing(START, 0), 4, 0),
        (framing(START, 65), 4, 0), (one, 1, 8),
        # 1 and 2 before 3, and 3 before the exact length.
        (one + framing(START, 1, 7), 2, 8),
        (one + framing(START, 1, 9), 1, 8),
        (one + framing(START, 1, 9) + b"\0", 3, 8),
        (one + framing(0x0016, 1), 3, 8),
        # The exact length and counts.
        *((one + cut_record(ratio, n) + end, 2, 8) for n in range(8, 28)),
        *((one + polynomial_record(5, (1,) * m, kind=kind) + end, 2, 8)
          for kind in POLYNOMIALS for m in (0, 17, 26)),
        *((one + cut_record(polynomial_record(5, (1, 1), kind=kind), n)
           + end, 2, 8)
          for kind in POLYNOMIALS for n in (8, 16, 19, 21, 23)),
        (one + rational_record(5, 0, 2, (1, 1)) + end, 2, 8),
        (one + rational_record(5, 13, 1, (1,) * 14) + end, 2, 8),
        (one + fraction_record(5, 3, 0, (1,)) + end, 2, 8),
        (one + fraction_record(5, 0, 13, (1,) * 25) + end, 2, 8))


def refused_by_values():
    """Sheets with an order, an end or a value at fault, each with the
    refusal's number and place."""
    one, end = framing(START, 1), framing(END, 1)
    two = framing(START, 2)
    good = root_record(5)
    ratio = rational_record(5, 1, 1, (1, 1))
    return (
        # A formula too many: after 2, before 5 and 6.
        (one + good + root_record(5, NO_WORD) + end, 4, 24),
        (one + good + cut_record(ratio, 24) + end, 2, 24),
        # The end record: too early, another count, bytes after it.
        (two + good + framing(END, 2), 4, 24),
        (two + good + framing(END, 2, 9) + b"\0", 2, 24),
        (one + good + framing(END, 2), 4, 24),
        (one + good + framing(END, 2) + b"\0", 4, 24),
        (one + good + end + b"\0", 9, 32),
        (one + good + end + one, 9, 32),
        # 5 before 6, 6 before 7 and 8.
        (two + good + root_record(5, -1) + framing(END, 2), 5, 24),
        (two + good + root_record(4, -1) + framing(END, 2), 5, 24),
        (two + good + root_record(6, -1) + framing(END, 2), 6, 24),
        (one + root_record(5, 2, 1) + end, 6, 8),
        (one + fraction_record(5, 3, 1, (0, 0, 0)) + end, 6, 8),
        *((one + polynomial_record(5, (M, NO_WORD), -M, M, kind) + end,
           6, 8) for kind in POLYNOMIALS),
        # 7 and 8 as Admission meets them.
        *((one + polynomial_record(5, (M, 1), kind=kind) + end, 7, 8)
          for kind in POLYNOMIALS),
        (one + rational_record(5, 2, 1, (M, 1, 0)) + end, 7, 8),
        (one + rational_record(5, 1, 2, (1, M, 1)) + end, 7, 8),
        (one + rational_record(5, 1, 2, (128, 1, 1)) + end, 8, 8),
        (one + rational_record(5, 1, 2, (128, 2, 1)) + end, 7, 8),
        (one + fraction_record(5, 1, 1, (1, 0, 0), -M, M) + end, 7, 8),
        (one + fraction_record(5, 2, 1, (1, 0, 1), -M, M) + end, 7, 8),
        (one + fraction_record(5, 0, 1, (0, M, 0), -M, M) + end, 8, 8),
        (one + fraction_record(5, 0, 1, (0, M, 1), -M, M) + end, 7, 8))


def check_order(tally, rng):
    """The reader's refusals and their order, case by case."""
    for sheet, number, place in (*refused_by_frames(), *refused_by_values()):
        tally.same(f"sheet {sheet.hex()}", outcome(formula_count, sheet),
                   refused(number, place))
    one, end = framing(START, 1), framing(END, 1)
    for sheet in (one + root_record(0) + end, one + root_record(65535) + end,
                  *(one + polynomial_record(5, (1,) * m, kind=kind) + end
                    for kind in POLYNOMIALS for m in (1, 16)),
                  one + rational_record(5, 1, 2, (127, 2, 1)) + end,
                  one + fraction_record(5, 0, 1, (1, 0, 1), -M, M) + end):
        tally.same(f"sheet {sheet.hex()}", outcome(formula_count, sheet), 1)
    most = framing(START, 64) + b"".join(map(root_record, range(64)))
    end = framing(END, 64)
    tally.same("64 formulas", outcome(formula_count, most + end), 64)
    tally.same("65 formulas",
               outcome(formula_count, most + root_record(64) + end),
               refused(4, 8 + 64 * 16))


def check_questions(tally, rng):
    """11, 13 and 10, and a sheet's own refusal before them."""
    sheet = framing(START, 1) + root_record(5, 4, 9) + framing(END, 1)
    broken = sheet[:-1]
    for argument in (NO_WORD, -1, 3, 10, M):
        tally.same("outside", outcome(evaluate, sheet, 5, argument),
                   refused(10))
        tally.same("absent", outcome(evaluate, sheet, 4, argument),
                   refused(11))
        tally.same("broken", outcome(evaluate, broken, 4, argument),
                   refused(1, 24))
    for argument in (INFINITY, INFINITY | 1, INFINITY | MINUS, 2**64 - 1):
        tally.same("not finite", outcome(evaluate_double, sheet, 5, argument),
                   refused(13))
        tally.same("absent", outcome(evaluate_double, sheet, 4, argument),
                   refused(11))
        tally.same("broken", outcome(evaluate_double, broken, 4, argument),
                   refused(1, 24))
    tally.same("interval", outcome(interval, sheet, 5),
               (pattern_of(4), pattern_of(9)))
    tally.same("interval", outcome(interval, sheet, 4), refused(11))
    tally.same("formula", outcome(formula_of, sheet, 4), refused(11))
    tally.same("formula", outcome(formula_of, broken, 5), refused(1, 24))


def check_values_as_bytes(tally, rng):
    """The steps after the word and after the pattern, then the mark; all are 0
    when refused. For 9 it is 16384 (9216), 12800 (11796), 12298 (12278),
    12288 (12288), 12288, and exact; for 8 it is 16384 (8192), 12288 (10922),
    11605 (11565), 11585 (11585), 11585, and rounded. A double a little above
    9 is rounded to it."""
    sheet = framing(START, 1) + root_record(5, 4, 9) + framing(END, 1)
    for question, expected in (
            (ask_evaluate(sheet, 5, 9), "00 00000000 00300000 0400 0100"),
            (ask_evaluate(sheet, 5, 8), "00 00000000 412D0000 0400 0000"),
            (ask_evaluate(sheet, 5, 10), "0A 00000000 00000000 0000 0000"),
            (ask_evaluate(sheet, 4, 9), "0B 00000000 00000000 0000 0000"),
            (ask_evaluate(sheet[:-1], 5, 9), "01 18000000 00000000 0000 0000"),
            (ask_double(sheet, 5, pattern_of(9)),
             "00 00000000 000000000000483F 0400 0100"),
            (ask_double(sheet, 5, pattern_of(9) + 1),
             "00 00000000 000000000000483F 0400 0000"),
            (ask_double(sheet, 5, pattern_of(10)),
             "0A 00000000 0000000000000000 0000 0000"),
            (ask_double(sheet, 5, INFINITY),
             "0D 00000000 0000000000000000 0000 0000")):
        tally.same("values as bytes", answer_to(*question),
                   bytes.fromhex(expected))


def check_order_of_15(tally, rng):
    """15 after 11, and 11 after a sheet's own refusals, for every angle; a
    formula is judged only when it is asked for."""
    unfit = polynomial_record(5, (ONE,), 0, ONE - 1, ODD)
    other = polynomial_record(6, (0, ONE), 0, ONE)
    fit = polynomial_record(7, (ONE,), 0, ONE, ODD)
    three, end = framing(START, 3), framing(END, 3)
    sheet = three + unfit + other + fit + end
    unread = three + unfit + other + cut_record(fit, 19) + end
    for angle in EDGE_ANGLES:
        for question in (sine, cosine):
            for given, number, expected in (
                    (sheet, 5, refused(15)), (sheet, 6, refused(15)),
                    (sheet, 4, refused(11)), (sheet, 8, refused(11)),
                    (unread, 5, refused(2, 52)), (unread, 4, refused(2, 52)),
                    (sheet[:-1], 5, refused(1, 72)),
                    (sheet[:-1], 8, refused(1, 72)),
                    (sheet + b"\0", 6, refused(9, 80)),
                    (sheet + b"\0", 7, refused(9, 80)),
                    (b"", 5, refused(1, 0))):
                tally.same(f"{question.__name__} {number} at {angle:08x}",
                           outcome(question, given, number, angle), expected)
        for ask, question in ((ask_sine, sine), (ask_cosine, cosine)):
            word, _, exact = question(sheet, 7, angle)
            tally.same("answered", answer_to(*ask(sheet, 7, angle)),
                       bytes(5) + word.to_bytes(4, "little", signed=True)
                       + bytes((0, 0, exact, 0)))
            tally.same("refused", answer_to(*ask(sheet, 5, angle)),
                       b"\x0f" + bytes(12))


def check_ends(tally, rng):
    """Doubles of half steps at an interval's ends, and the doubles next to
    them towards 0: rounding comes first. The formula is x itself."""
    for lo, hi, halves, towards_0, tie in (
            # The two words that the doubles become; None is outside. 7/2 is a
            # tie and becomes 4, 19/2 becomes 10, and so on.
            (4, 9, 7, None, 4), (4, 9, 19, 9, None),
            (-9, -4, -7, None, -4), (-9, -4, -19, -9, None),
            (0, 0, 1, 0, None), (0, 0, -1, 0, None),
            (-9, 0, 1, 0, None), (0, 9, -1, 0, None),
            (1, 9, 1, None, 1), (-9, -1, -1, None, -1),
            # M - 1/2 becomes M, and M + 1/2 becomes M + 1, no word.
            (M, M, 2 * M - 1, None, M), (-M, -M, 1 - 2 * M, None, -M),
            (-M, M, 2 * M + 1, M, None), (-M, M, -2 * M - 1, -M, None)):
        sheet = (framing(START, 1) + polynomial_record(5, (0, ONE), lo, hi)
                 + framing(END, 1))
        pattern = pattern_of(halves, -25)
        for near, n in ((pattern - 1, towards_0), (pattern, tie)):
            tally.same(f"{halves} halves, ends {lo} and {hi}",
                       outcome(evaluate_double, sheet, 5, near),
                       refused(10) if n is None
                       else (pattern_of(n), 0, False))
        tally.same("far beyond",
                   outcome(evaluate_double, sheet, 5, INFINITY - 1),
                   refused(10))


def check_round_trips(tally, rng):
    """Reading undoes writing, and writing undoes reading."""
    for count in (1, 2, 3, 5, 64) * 30:
        formulas = good_formulas(rng, count)
        run = b""
        for formula in formulas:
            room = rng.randrange(120, 130)
            length, buffer = write_record(formula, buffer_beforehand(room))
            tally.same("the rest stays", buffer[length:],
                       buffer_beforehand(room)[length:])
            run += buffer[:length]
        room = len(run) + 16 + rng.randrange(3)
        length, buffer = write_sheet(run, buffer_beforehand(room))
        sheet = buffer[:length]
        tally.same("length", length, len(run) + 16)
        tally.same("the rest stays", buffer[length:],
                   buffer_beforehand(room)[length:])
        tally.same("reading undoes writing", read(sheet), formulas)
        tally.same("writing undoes reading", sheet_of(read(sheet)), sheet)
        formula = rng.choice(formulas)
        tally.same("asked", formula_of(sheet, formula.number), formula)


def check_record_writer(tally, rng):
    """Its refusals and their order, and the buffer when refused."""
    good = good_formula(rng, RATIONAL, p=2, q=2)
    long_words = good.words + (NO_WORD,) * 28
    for fields, room, number in (
            (good._replace(kind=START, p=0, lo=NO_WORD), 0, 3),
            (good._replace(p=0, lo=NO_WORD), 0, 2),
            (good._replace(p=13, lo=NO_WORD), 0, 2),
            (good._replace(q=65535, lo=NO_WORD), 0, 2),
            (good._replace(lo=M, hi=-M), 0, 6),
            (good._replace(lo=0, hi=0, words=(1, 1, 0, 1)), 0, 8),
            (good._replace(lo=-M, hi=M, words=(M, M, 0, 1)), 0, 7),
            (good, 35, 12), (good, 36, 0),
            (good._replace(mode=9, words=long_words), 36, 0),
            (good._replace(kind=0x0016, p=0), 0, 3),
            *((good._replace(kind=kind, p=p, lo=NO_WORD), 0, 2)
              for kind in POLYNOMIALS for p in (0, 17)),
            (good._replace(kind=ODD, lo=M, hi=-M), 0, 6),
            (good._replace(kind=EVEN, lo=0, hi=M, words=(1, 0)), 0, 7),
            (good._replace(kind=ODD, lo=0, hi=2 * ONE, words=(M, 0)), 0, 7)):
        found = answer_to(*ask_record(fields, room))
        expected = number, bytes(4), 4 * b"\0" + buffer_beforehand(room)
        if number == 0:
            expected = 0, bytes(4), b"\x24\0\0\0" + record_of(good)
        tally.same("record writer", (found[0], found[1:5], found[5:]),
                   expected)


def check_sheet_writer(tally, rng):
    """Its refusals and their order, and the buffer when refused."""
    first = root_record(1)
    most = b"".join(map(root_record, range(64)))
    for run, room, number, place in (
            (b"", 0, 4, 0), (b"\0", 0, 1, 8), (first + bytes(3), 0, 1, 24),
            (first + bytes(4), 0, 2, 24), (first + first[:7], 0, 1, 24),
            (first + first[:15], 0, 1, 24), (first + first, 0, 5, 24),
            (framing(START, 1, 9) + b"\0", 0, 3, 8),
            (framing(END, 1), 0, 3, 8),
            (framing(START, 1) + first + framing(END, 1), 90, 3, 8),
            (first + root_record(2, -1), 0, 6, 24), (first, 31, 12, 0),
            (most + first[:3], 9, 1, 8 + 64 * 16),
            (most + root_record(64), 0, 4, 8 + 64 * 16),
            (most + root_record(3, -1), 0, 4, 8 + 64 * 16),
            (most + cut_record(root_record(64), 15), 0, 2, 8 + 64 * 16),
            (most + framing(END, 1), 0, 3, 8 + 64 * 16)):
        found = answer_to(*ask_sheet(run, room))
        expected = bytes([number]) + place.to_bytes(4, "little") + bytes(4)
        tally.same(f"sheet writer {number} {place}", found,
                   expected + buffer_beforehand(room))


# The bytes of a question about a sheet that come before the sheet.
BEFORE_THE_SHEET = {COUNT: 0, FORMULA: 2, EVALUATE: 6, DOUBLE: 10, INTERVAL: 2,
                    SINE: 6, COSINE: 6}


def kinds_asked(question, content):
    """The kinds of the formulas that a question is about which is accepted, or
    refused by 15."""
    if question == RECORD:
        return {unpacked_fields(content).kind}
    if question == SHEET:
        return {formula.kind for formula in read_run(content[2:], 8)}
    sheet = content[BEFORE_THE_SHEET[question]:]
    if question == COUNT:
        return {formula.kind for formula in read(sheet)}
    return {formula_of(sheet, int.from_bytes(content[:2], "little")).kind}


# Where an answer has its steps; the mark is its last two bytes.
STEPS_AT = {EVALUATE: 9, DOUBLE: 13, SINE: 9, COSINE: 9}

# What the vectors have to meet: in each question, the refusals; the kinds that
# are accepted (0) or refused by 15; the steps and the marks, beside a refusal
# (True) and not.
SHEETS = *range(10), 14
REFUSALS_MET = {
    COUNT: {*SHEETS}, FORMULA: {*SHEETS, 11}, EVALUATE: {*SHEETS, 10, 11},
    DOUBLE: {*SHEETS, 10, 11, 13}, INTERVAL: {*SHEETS, 11},
    RECORD: {0, 2, 3, 6, 7, 8, 12, 14}, SHEET: {*range(9), 12, 14},
    SINE: {*SHEETS, 11, 15}, COSINE: {*SHEETS, 11, 15}}
KINDS_MET = {*((question, 0, kind) for question in range(1, 8)
               for kind in KINDS),
             *((question, 15, kind) for question in (SINE, COSINE)
               for kind in KINDS), (SINE, 0, ODD), (COSINE, 0, ODD)}
STEPS_MET = {*((question, False, taken) for question in (EVALUATE, DOUBLE)
               for taken in FIRST_AND_LAST),
             *((question, was_refused, 0) for question in STEPS_AT
               for was_refused in (False, True))}
MARKS_MET = {(question, was_refused, mark) for question in STEPS_AT
             for was_refused, mark in ((False, b"\1\0"), (False, b"\0\0"),
                                       (True, b"\0\0"))}


def check_vectors(tally, rng):
    """The committed vectors are this oracle's answers, and every refusal that
    a question has is among them, every kind accepted or refused by 15, every
    number of steps, and both marks."""
    packed = Path(__file__).with_name("vectors.xz").read_bytes()
    refusals = {question: set() for question in REFUSALS_MET}
    kinds, steps, marks = set(), set(), set()
    count = 0
    for question, content, found in taken_apart(lzma.decompress(packed)):
        tally.same(f"vector {count}", found, answer_to(question, content))
        refusals[question].add(found[0])
        if found[0] in (0, 15):
            kinds |= {(question, found[0], kind)
                      for kind in kinds_asked(question, content)}
        if question in STEPS_AT:
            was_refused = found[0] != 0
            steps.add((question, was_refused, found[STEPS_AT[question]]))
            marks.add((question, was_refused, found[-2:]))
        count += 1
    tally.same("at least 10,000 vectors", count >= 10000, True)
    tally.same("every refusal", refusals, REFUSALS_MET)
    tally.same("every kind in every question", kinds, KINDS_MET)
    tally.same("every number of steps", steps, STEPS_MET)
    tally.same("both marks", marks, MARKS_MET)


CHECKS = (check_by_hand, check_rounding, check_rounding_by_hand,
          check_bounds, check_halves, check_slips, check_roots_by_hand,
          check_roots, check_steps, check_most_steps, check_formulas,
          check_polynomials, check_opposite_arguments, check_turns_by_hand,
          check_turns, check_mirrored_angles, check_a_sine, check_doubles,
          check_order, check_questions, check_values_as_bytes,
          check_order_of_15, check_ends, check_round_trips,
          check_record_writer, check_sheet_writer, *check_marks.CHECKS,
          *check_blanks.CHECKS, check_vectors)


def main():
    tally = Tally()
    for check in CHECKS:
        before = tally.passed
        check(tally, Random(check.__name__))
        print(f"{check.__name__}: {tally.passed - before}")
    print(f"{tally.passed} passed, {tally.failed} failed")
    return 0 if tally.failed == 0 else 1


if __name__ == "__main__":
    sys.exit(main())
