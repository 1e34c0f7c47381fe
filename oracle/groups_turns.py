"""Groups of vectors aimed at sine and cosine (request M-102)."""

from by_hand import ARGUMENT, COSINES, FIT, SERIES, SINES, UNFIT
from faults import each_fault
from formulas import (
    EVEN, FRACTION, ODD, POLYNOMIAL, POLYNOMIALS, RATIONAL, ROOT)
from makers import (
    EDGE_ANGLES, ODD_FORMS, angle_in, formula_of_form, full_quarter_formula,
    good_formula, good_formulas, largest, quarter_formula, sheet_of,
    tied_angle_in, tied_quarter_formula)
from number import ONE
from questions import ask_cosine, ask_sine
from turn import HALF_TURN, QUARTER, wrapped

QUARTERS = range(4)


def both(sheet, number, angle):
    """The sine and the cosine."""
    yield ask_sine(sheet, number, angle)
    yield ask_cosine(sheet, number, angle)


def any_angle(rng):
    """An edge, a tie, or any angle of any quarter."""
    quarter = rng.choice(QUARTERS)
    return rng.choice((rng.choice(EDGE_ANGLES), tied_angle_in(rng, quarter),
                       angle_in(rng, quarter)))


def turns_by_hand(rng):
    """The cases worked out by hand; formulas that are taken and formulas that
    are not (15), each with its own number and with another (11)."""
    for ask, cases in ((ask_sine, SINES), (ask_cosine, COSINES)):
        for formula, angle, _ in cases:
            yield ask(sheet_of([formula]), 1, angle)
    for formula in (*FIT, *UNFIT):
        sheet = sheet_of([formula])
        for number in (1, 2):
            yield from both(sheet, number, any_angle(rng))


# Angles.


def angles_at_the_edges(rng):
    """Every quarter's beginning and the angles about it, with the argument
    itself as the answer, and with others."""
    for formula in (ARGUMENT, SERIES, full_quarter_formula(rng),
                    *(quarter_formula(rng) for _ in range(4))):
        sheet = sheet_of([formula])
        for angle in EDGE_ANGLES:
            yield from both(sheet, 1, angle)


def ties_of_angles(rng):
    """Ties of f / 2^6 in every quarter, and the angles next to them."""
    for formula in (*(ARGUMENT, SERIES) * 3,
                    *(quarter_formula(rng) for _ in range(10))):
        sheet = sheet_of([formula])
        for quarter in QUARTERS:
            tie = tied_angle_in(rng, quarter)
            for angle in (tie - 1, tie, tie + 1):
                yield from both(sheet, 1, angle)


def angles_anywhere(rng):
    """Odd formulas of every count at angles of every quarter."""
    for count in range(1, 17):
        for _ in range(3):
            sheet = sheet_of([quarter_formula(rng, p=count)])
            for quarter in QUARTERS:
                yield from both(sheet, 1, angle_in(rng, quarter))


def opposite_angles(rng):
    """An angle and the three that it is mirrored to: half a turn more, half a
    turn minus it, and it negated."""
    for _ in range(40):
        sheet = sheet_of([quarter_formula(rng)])
        angle = any_angle(rng)
        for image in (angle, angle + HALF_TURN, HALF_TURN - angle, -angle):
            yield from both(sheet, 1, wrapped(image))


def angles_at_ties_of_formulas(rng):
    """Angles of every quarter whose argument is one at which the odd formula
    meets ties, one of them by a tie of their own, and a step away from it."""
    for _ in range(20):
        formula, x = tied_quarter_formula(rng)
        sheet = sheet_of([formula])
        for f in (64 * x, 64 * x - 32, 64 * x - 33):
            for angle in (f, HALF_TURN - f, HALF_TURN + f, -f):
                yield ask_sine(sheet, 1, wrapped(angle))
                yield ask_cosine(sheet, 1, wrapped(angle - QUARTER))


def largest_turns(rng):
    """Odd formulas with no room left below M, at one and next to it, where
    answers are largest, and anywhere."""
    for _ in range(12):
        sheet = sheet_of([full_quarter_formula(rng)])
        for angle in (0, QUARTER, QUARTER + 33, HALF_TURN, 3 * QUARTER,
                      3 * QUARTER - 33, any_angle(rng)):
            yield from both(sheet, 1, angle)


# Refusals.


def ends_about_0_and_one(rng):
    """Odd formulas whose interval holds 0 to one, just or with more, and those
    where it ends a step short of either (15), whatever the angle."""
    for _ in range(20):
        formula = quarter_formula(rng, p=1 + rng.randrange(4))
        for lo in (-ONE, -1, 0, 1):
            for hi in (ONE - 1, ONE, ONE + 1):
                sheet = sheet_of([formula._replace(lo=lo, hi=hi)])
                yield from both(sheet, 1, any_angle(rng))


def intervals_anywhere(rng):
    """Odd formulas on any interval: many have one that is unfit (15)."""
    for _ in range(60):
        formula = good_formula(rng, ODD)
        yield from both(sheet_of([formula]), 1, any_angle(rng))


def other_kinds(rng):
    """Formulas of every other kind that hold 0 to one (15), with a number that
    is not there (11) now and then."""
    for kind in (POLYNOMIAL, RATIONAL, FRACTION, ROOT, EVEN) * 12:
        sheet = sheet_of([quarter_formula(rng, kind, 7)])
        number = rng.choice((7, 7, 7, 6, 8))
        yield from both(sheet, number, any_angle(rng))


def odd_by_coefficients_only(rng):
    """Formulas of other kinds that give odd answers (15)."""
    for form in ODD_FORMS[1:] * 60:
        formula = formula_of_form(rng, *form)
        if largest(formula) >= ONE:
            yield from both(sheet_of([formula]), 1, any_angle(rng))


def turns_under_three_kinds(rng):
    """The same fields as a polynomial (15), an odd formula (taken, or refused
    by Admission) and an even one (15, or refused by Admission)."""
    for _ in range(20):
        drawn = quarter_formula(rng, POLYNOMIAL)
        angle = any_angle(rng)
        for kind in POLYNOMIALS:
            yield from both(sheet_of([drawn._replace(kind=kind)]), 1, angle)


def mixed_formulas(rng, count):
    """Accepted formulas with rising numbers, half of them odd and fit."""
    return [quarter_formula(rng, ODD, formula.number)
            if rng.randrange(2) else formula
            for formula in good_formulas(rng, count)]


def several_formulas(rng):
    """Every formula of sheets of 2 to 5, fit and unfit (15), and a number that
    is not there (11)."""
    for count in (2, 3, 4, 5) * 9:
        formulas = mixed_formulas(rng, count)
        sheet = sheet_of(formulas)
        absent = (formulas[rng.randrange(count)].number + 1) % 65536
        for number in (*(formula.number for formula in formulas), absent):
            yield from both(sheet, number, any_angle(rng))


def many_formulas(rng):
    """Some formulas of sheets of 20 to 64, and a number that is not there."""
    for count in (20, 40, 63, 64):
        formulas = mixed_formulas(rng, count)
        sheet = sheet_of(formulas)
        chosen = formulas[0], formulas[-1], rng.choice(formulas)
        absent = (formulas[-1].number + 1) % 65536
        for number in (*(formula.number for formula in chosen), absent):
            yield from both(sheet, number, any_angle(rng))


def numbers_of_turns(rng):
    """Numbers 0 to 65535, there and not there."""
    edges = 0, 1, 255, 256, 32767, 32768, 65534, 65535
    for there in edges:
        sheet = sheet_of([quarter_formula(rng, ODD, there, p=1)])
        for number in edges:
            yield from both(sheet, number, any_angle(rng))


def faults_under_turns(rng):
    """One fault at any record of a sheet, with the numbers of a fit formula,
    of unfit ones (15) and one not there (11): the sheet's refusal is first."""
    formulas = [good_formula(rng, ROOT, 10), quarter_formula(rng, ODD, 20, 3),
                good_formula(rng, RATIONAL, 30, p=2, q=2)]
    for sheet in each_fault(formulas):
        for number in (20, rng.choice((10, 30, 40))):
            yield from both(sheet, number, any_angle(rng))


def sheets_to_damage(rng):
    """Short accepted sheets: a fit formula alone, and after another."""
    for before in ([], [good_formula(rng, EVEN, 4, p=1)]):
        yield sheet_of([*before, quarter_formula(rng, ODD, 5, p=2)])


def damaged_under_turns(rng):
    """Accepted sheets cut to every shorter length, and with one byte changed,
    which may change the number (11), the kind or the interval (15)."""
    for sheet in sheets_to_damage(rng):
        for place in range(len(sheet)):
            byte = bytes([sheet[place] ^ 1 << rng.randrange(8)])
            for damaged in (sheet[:place],
                            sheet[:place] + byte + sheet[place + 1:]):
                yield from both(damaged, 5, any_angle(rng))


GROUPS = (
    turns_by_hand, angles_at_the_edges, ties_of_angles, angles_anywhere,
    opposite_angles, angles_at_ties_of_formulas, largest_turns,
    ends_about_0_and_one, intervals_anywhere, other_kinds,
    odd_by_coefficients_only, turns_under_three_kinds, several_formulas,
    many_formulas, numbers_of_turns, faults_under_turns, damaged_under_turns)
