"""The self-test's checks of the mark, exact or rounded (request M-105)."""

from collections import Counter

import groups_marks
import slow
from by_hand import COSINE_MARKS, DOUBLE_MARKS, MARKS, SINE_MARKS
from door import evaluate_double, pattern_of
from evaluation import evaluate
from formulas import EVEN, FRACTION, ODD, POLYNOMIAL, ROOT, SHAPES, answer
from makers import (
    KINDS_AND_MODES, MODES, about_its_turn, angle_in, good_formula,
    marked_formula, marked_quarter_formula, over_its_product, over_itself,
    plain_formula, quarter_formula, roundings, sheet_of)
from number import ONE, product
from questions import COSINE, DOUBLE, EVALUATE, SINE
from slips_marks import SLIPS, answered, as_it_is, changed
from turn import HALF_TURN, cosine, sine, wrapped
from vectors import vectors_of

BOTH_MARKS = False, True


def check_marks_by_hand(tally, rng):
    """Every case of a mark, on words, by doubles and by angles."""
    for formula, x, word, exact in MARKS:
        found = evaluate(sheet_of([formula]), 1, x)
        tally.same(f"mark of {formula} at {x} by hand",
                   (found.word, found.exact), (word, exact))
    for formula, pattern, word, exact in (
            *((formula, pattern_of(x), *rest) for formula, x, *rest in MARKS),
            *DOUBLE_MARKS):
        found = evaluate_double(sheet_of([formula]), 1, pattern)
        tally.same(f"mark of {formula} at {pattern:016x} by hand",
                   (found.pattern, found.exact), (pattern_of(word), exact))
    for question, cases in ((sine, SINE_MARKS), (cosine, COSINE_MARKS)):
        for formula, angle, word, exact in cases:
            found = question(sheet_of([formula]), 1, angle)
            tally.same(f"mark of {question.__name__} {angle:08x} by hand",
                       (found.word, found.exact), (word, exact))


def drawn_rounds(rng, count):
    """What is to be rounded: nothing, one of them, or any."""
    one = rng.randrange(count + 1)
    return rng.choice(([False] * count, [k == one for k in range(count)],
                       [rng.randrange(2) == 1 for _ in range(count)]))


def drawn_counts(rng, kind):
    """A count or depth, often of 1 or 2, and a divisor's count."""
    p, q = SHAPES[kind].p, SHAPES[kind].q
    return rng.choice((*p[:2], rng.choice(p))), rng.choice(q)


def check_makers_of_marks(tally, rng):
    """Formulas are made that round what they should: by the slow definition,
    every product and quotient at their end is rounded or exact as it was to
    be, and so is the square, of which it is known whether it is used."""
    for kind, mode in groups_marks.FORMS * 20:
        p, q = drawn_counts(rng, kind)
        rounds = drawn_rounds(rng, roundings(kind, p, q))
        square = rng.randrange(2) == 1
        formula = marked_formula(rng, kind, mode, p, q, square, rounds)
        x = formula.hi
        expected = [square, *rounds] if slow.uses_square(formula) else rounds
        tally.same(f"roundings of {formula}",
                   [not slow.is_whole(n.exact)
                    for n in slow.taken(formula, x)], expected)
        tally.same(f"square of {x}", product(x, x).exact, not square)
        tally.same(f"mark of {formula}", answer(formula, x).exact,
                   not any(expected))


def formulas_to_mark(rng):
    """Formulas of every kind and mode: of which it is known what is rounded,
    of few digits, and any."""
    for kind, mode in KINDS_AND_MODES * 25:
        p, q = drawn_counts(rng, kind)
        yield good_formula(rng, kind, mode=mode)
        yield plain_formula(rng, kind, mode, min(p, 4), min(q, 2))
        if kind != ROOT:
            rounds = drawn_rounds(rng, roundings(kind, p, q))
            square = rng.randrange(4) == 0
            yield marked_formula(rng, kind, mode, p, q, square, rounds)


def arguments_to_mark(rng, formula):
    """Both ends, any argument, and one of few places or, for a root, a square:
    all of them inside."""
    lo, hi = formula.lo, formula.hi
    few = rng.randrange(256) << rng.randrange(18)
    square = rng.randrange(4096)**2
    return [x for x in (lo, hi, rng.randrange(lo, hi + 1), 0, few, -few,
                        square) if lo <= x <= hi]


def check_exact_answers(tally, rng):
    """Marks against the slow definition. An exact answer is the formula's own
    value at x, an odd or even one's at the exact square; an exact root's
    square is the scaled argument. Of polynomials and roots none other is: what
    is once rounded has a part of a step that no further product takes away.
    Where s is used, its being exact needs x to be a multiple of 4096 steps."""
    met = set()
    for formula in formulas_to_mark(rng):
        for x in arguments_to_mark(rng, formula):
            what = f"{formula} at {x}"
            found = answer(formula, x)
            tally.same(what, found, slow.answer(formula, x))
            is_the_value = slow.is_the_value(formula, x, found.word)
            if found.exact:
                tally.same(f"{what} is exact", is_the_value, True)
                tally.same(f"{what} has an exact square", x % 4096 == 0
                           or not slow.uses_square(formula), True)
            if formula.kind in (POLYNOMIAL, ROOT):
                tally.same(f"mark of {what}", found.exact, is_the_value)
            met.add((formula.kind, formula.mode, found.exact))
    tally.same("both marks of every kind and mode", met,
               {(*form, exact) for form in KINDS_AND_MODES
                for exact in BOTH_MARKS})


def check_unused_squares(tally, rng):
    """At depth 1 mode 2 is as mode 0, with the same mark. An even formula of
    one coefficient is exact, and an odd one has the mark of its product."""
    for _ in range(300):
        fraction = good_formula(rng, FRACTION, p=1, mode=2)
        odd = good_formula(rng, ODD, p=1)
        for x in arguments_to_mark(rng, fraction):
            tally.same(f"{fraction} at {x}", answer(fraction, x),
                       answer(fraction._replace(mode=0), x))
        for x in arguments_to_mark(rng, odd):
            word, exact = product(odd.words[0], x)
            tally.same(f"{odd} at {x}", answer(odd, x), (word, 0, exact))
            even = odd._replace(kind=EVEN)
            tally.same(f"{even} at {x}", answer(even, x),
                       (even.words[0], 0, True))


def check_cancelled_roundings(tally, rng):
    """There are roundings that leave the exact value as the answer."""
    for _ in range(40):
        for formula in (
                over_itself(rng, [True] * (1 + rng.randrange(3))),
                *(over_its_product(rng, mode) for mode in MODES[FRACTION]),
                *(about_its_turn(rng, kind)
                  for kind in (ODD, EVEN))):
            found = evaluate(sheet_of([formula]), 1, formula.hi)
            tally.same(f"{formula} is the exact value", slow.is_the_value(
                formula, formula.hi, found.word), True)
            tally.same(f"{formula} is rounded", found.exact, False)


def doubles_inside(rng, formula):
    """Doubles that become an argument inside: its own, the next ones, and any
    within half a step."""
    for x in arguments_to_mark(rng, formula):
        pattern = pattern_of(x)
        yield from (pattern, pattern + 1)
        if x != 0:
            yield pattern - 1
        parts = rng.randrange(1 - (1 << 19), 1 << 19)
        yield pattern_of((x << 20) + parts, -44)


def check_exact_doubles(tally, rng):
    """The door against the slow definition, its own rounding added. An exact
    answer is the formula's value at the double's own exact value."""
    met = set()
    for formula in formulas_to_mark(rng):
        sheet = sheet_of([formula])
        for pattern in doubles_inside(rng, formula):
            what = f"{formula} at {pattern:016x}"
            argument = slow.value(pattern) * ONE
            word, steps, exact = slow.answer_near(formula, argument)
            tally.same(what, evaluate_double(sheet, 1, pattern),
                       (pattern_of(word), steps, exact))
            if exact:
                tally.same(f"{what} is exact",
                           slow.is_the_value(formula, argument, word), True)
            met.add((formula.kind, formula.mode, exact,
                     slow.is_whole(argument)))
    tally.same("both marks, and both of the argument", met,
               {(*form, *marks) for form in KINDS_AND_MODES
                for marks in ((True, True), (False, True), (False, False))})


def turns_to_mark(rng):
    """Formulas for sine and cosine, with angles: those whose argument is one
    at which it is known what is rounded, others near them, and any."""
    for _ in range(60):
        p = 1 + rng.randrange(6)
        formula, x = marked_quarter_formula(
            rng, p, rng.randrange(4) == 0, drawn_rounds(rng, p))
        for f in (64 * x, 64 * x + rng.randrange(-32, 32)):
            yield formula, wrapped(rng.choice((f, HALF_TURN + f)))
            yield formula, wrapped(rng.choice((-f, HALF_TURN - f)))
        yield quarter_formula(rng), angle_in(rng, rng.randrange(4))


def check_exact_turns(tally, rng):
    """Sine and cosine against the slow definition. The argument of an exact
    one is the angle's own part of a quarter, and its answer the formula's
    value there. Mirrored angles have the same mark."""
    met = set()
    for formula, angle in turns_to_mark(rng):
        sheet = sheet_of([formula])
        for question, under, mirrored in (
                (sine, slow.under_sine, HALF_TURN - angle),
                (cosine, slow.under_cosine, -angle)):
            what = f"{question.__name__} of {formula} at {angle:08x}"
            found = question(sheet, 1, angle)
            argument = under(angle)
            tally.same(what, found, slow.answer_near(formula, argument))
            if found.exact:
                tally.same(f"{what} is exact", slow.is_whole(argument)
                           and slow.is_the_value(formula, argument,
                                                 found.word), True)
            for other in (mirrored, angle + HALF_TURN):
                tally.same(f"{what}, mirrored", question(
                    sheet, 1, wrapped(other)).exact, found.exact)
            met.add((question, found.exact, slow.is_whole(argument)))
    tally.same("both marks, and both of the argument", met,
               {(question, *marks) for question in (sine, cosine)
                for marks in ((True, True), (False, True), (False, False))})


def check_slips_of_marks(tally, rng):
    """The marks of the vectors aimed at them are those of the slow definition;
    with a slip, one of them is another. Both marks are there often, in every
    question and in every kind and mode."""
    cases = answered(vectors_of(groups_marks.GROUPS))
    tally.same("marks of vectors", changed(cases, as_it_is), 0)
    for slip, mark in SLIPS.items():
        tally.same(slip, changed(cases, mark, count=any), True)
    often = Counter((case.question, case.formula.kind, case.formula.mode,
                     case.mark) for case in cases)
    tally.same("both marks often", {
        case for case, count in often.items() if count >= 40},
        {*((question, *form, mark) for question in (EVALUATE, DOUBLE)
           for form in KINDS_AND_MODES for mark in BOTH_MARKS),
         *((question, ODD, 0, mark) for question in (SINE, COSINE)
           for mark in BOTH_MARKS)})


CHECKS = (check_marks_by_hand, check_makers_of_marks, check_exact_answers,
          check_unused_squares, check_cancelled_roundings,
          check_exact_doubles, check_exact_turns, check_slips_of_marks)
