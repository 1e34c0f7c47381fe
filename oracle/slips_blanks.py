"""Checks for blank formulas with a slip in each, which the vectors of
groups_blanks.py have to show (request M-106).

A slip is what is replaced: functions of modules, each by another.
"""

from contextlib import contextmanager

import door
import evaluation
import formulas
import questions
import sheet
import turn
import writing
from formulas import (
    EVEN, FRACTION, ODD, POLYNOMIAL, POLYNOMIALS, RATIONAL, ROOT, SHAPES,
    admission, answer, is_blank, values_are_good, verdict)
from refusal import Refused
from sheet import formula_in, formula_of, next_formula, read
from slips_halves import is_changed
from writing import own_fields, write_record, write_sheet


@contextmanager
def worked_by(replaced):
    """The functions of a slip stand in place of those that they replace."""
    kept = {place: getattr(*place) for place in replaced}
    try:
        for (module, name), other in replaced.items():
            setattr(module, name, other)
        yield
    finally:
        for (module, name), own in kept.items():
            setattr(module, name, own)


def changed(vectors, replaced, count=sum):
    """How many vectors a slip changes; or, counted by `any`, whether it
    changes one."""
    with worked_by(replaced):
        return count(map(is_changed, vectors))


# Which formulas are blank.


def blank_where(judged):
    """Another rule for every kind but the root."""
    return {(formulas, "is_blank"):
            lambda formula: formula.kind != ROOT and judged(formula)}


def kinds_judged(kinds, judged):
    """Another rule for some kinds."""
    return {(formulas, "is_blank"):
            lambda formula: (judged if formula.kind in kinds
                             else is_blank)(formula)}


def never(formula):
    return False


def decisive(formula):
    """The words that must not all be 0."""
    count = formulas.decisive_count(formula.kind, formula.p)
    return formula.words[:count]


def none_of(chosen):
    """Blank where none of the words is other than 0 that `chosen` gives."""
    return lambda formula: not any(chosen(formula))


def seen_as(look):
    """Every word that counts is looked at in another way."""
    return blank_where(none_of(lambda formula: map(look, decisive(formula))))


def byte(i):
    """The i-th byte of a word's four, the lowest first."""
    return lambda n: n >> 8 * i & 0xFF


def word_numbers(*numbers):
    """Some words of a fraction alone: b0 is 0, a1 is 1, b1 is 2, ..."""
    return kinds_judged((FRACTION,), none_of(
        lambda formula: [formula.words[i] for i in numbers]))


def numerators(chosen):
    """Of a rational, other words than the numerator's."""
    return kinds_judged((RATIONAL,), none_of(
        lambda formula: chosen(formula.words, formula.p)))


def numerator_or_divisor(formula):
    words, p = formula.words, formula.p
    return not any(words[:p]) or not any(words[p:])


def answers_0_at_its_ends(formula):
    """By its answers, where it is admitted; else by its words."""
    if not values_are_good(formula) or admission(formula):
        return is_blank(formula)
    return not (answer(formula, formula.lo).word
                or answer(formula, formula.hi).word)


def in_modes(*modes):
    """Blank fractions are looked for in some modes alone."""
    return kinds_judged((FRACTION,), lambda formula: (
        formula.mode in modes and is_blank(formula)))


# The turn of 14 among a record's refusals.


def verdict_by(other):
    """Another verdict, of the reader and of both writers."""
    return {(sheet, "verdict"): other, (writing, "verdict"): other}


def without_14(formula):
    return admission(formula) if values_are_good(formula) else 6


def after(*refusals):
    """14 after some refusals of 7 and 8, before all others of them."""
    def other(formula):
        earlier = without_14(formula)
        return earlier if earlier in refusals else verdict(formula)
    return verdict_by(other)


def after_7_and_8(formula):
    return without_14(formula) or (14 if is_blank(formula) else 0)


def before_6(formula):
    return 14 if is_blank(formula) else without_14(formula)


def in_place_of_14(number):
    """Another refusal, in the same turn."""
    def other(formula):
        found = verdict(formula)
        return number if found == 14 else found
    return verdict_by(other)


def blank_before_number(record, place, before, most):
    """14 before 5, after 4."""
    formula = formula_in(record, place)
    if len(before) != most and values_are_good(formula) and is_blank(formula):
        raise Refused(14, place)
    return next_formula(record, place, before, most)


def blank_before_count(record, place, before, most):
    """14 before 4, after 2."""
    formula = formula_in(record, place)
    if values_are_good(formula) and is_blank(formula):
        raise Refused(14, place)
    return next_formula(record, place, before, most)


# Where in a sheet 14 is looked for, and its place.


def when_refused_by_14(question, otherwise):
    """What is answered or refused where the question is refused by 14."""
    def asked(*given):
        try:
            return question(*given)
        except Refused as refusal:
            if refusal.number != 14:
                raise
            return otherwise(refusal.place, *given)
    return asked


def placed(change):
    """A refusal by 14 at another place."""
    def otherwise(place, *given):
        raise Refused(14, change(place, *given))
    return otherwise


def let_pass(question):
    """The same question, with no formula taken as blank."""
    def otherwise(place, *given):
        with worked_by({(formulas, "is_blank"): never}):
            return question(*given)
    return otherwise


def place_in_sheets(change):
    return {(sheet, "next_formula"):
            when_refused_by_14(next_formula, placed(change))}


def records_looked_at(chosen):
    """14 is looked for in some records alone."""
    def other(record, place, before, most):
        if chosen(before, most):
            return next_formula(record, place, before, most)
        with worked_by({(formulas, "is_blank"): never}):
            return next_formula(record, place, before, most)
    return {(sheet, "next_formula"): other}


def all_read_first(data):
    """14 after 9: when the whole sheet has been read."""
    with worked_by({(formulas, "is_blank"): never}):
        found = read(data)
    place = 8
    for formula in found:
        if is_blank(formula):
            raise Refused(14, place)
        place += formulas.record_length(formula.kind, formula.p, formula.q)
    return found


def asked_for_alone(data, number):
    """14 after 11: the formula of the number asked for is looked at alone."""
    with worked_by({(formulas, "is_blank"): never}):
        formula = formula_of(data, number)
    if is_blank(formula):
        raise Refused(14)
    return formula


def passed_by(*names):
    """Some questions take blank formulas."""
    return {(questions, name): when_refused_by_14(
        getattr(questions, name), let_pass(getattr(questions, name)))
        for name in names}


# The writers.


def record_after_12(place, fields, buffer):
    """14 after 12 in the record writer."""
    let_pass(write_record)(place, fields, buffer)
    raise Refused(14)


def sheet_after_12(place, run, buffer):
    """14 after 12 in the sheet writer."""
    let_pass(write_sheet)(place, run, buffer)
    raise Refused(14, place)


def all_fields_looked_at(fields, buffer):
    """The record writer looks at words past the last as well."""
    def other(formula):
        return is_blank(formula) and not any(fields.words)
    with worked_by(blank_where(other)):
        return write_record(fields, buffer)


def one_more_looked_at(fields, buffer):
    """The record writer looks at one word past a polynomial's last."""
    def other(formula):
        return is_blank(formula) and not any(fields.words[:formula.p + 1])
    with worked_by(kinds_judged(POLYNOMIALS, other)):
        return write_record(fields, buffer)


def fields_before_counts(fields, buffer):
    """14 before 2 in the record writer."""
    if fields.kind in SHAPES:
        formula = own_fields(fields)
        if values_are_good(formula) and is_blank(formula):
            raise Refused(14)
    return write_record(fields, buffer)


def records_written(other):
    return {(questions, "write_record"): other}


def sheets_written(other):
    return {(questions, "write_sheet"): other}


def writing_record(otherwise):
    return records_written(when_refused_by_14(write_record, otherwise))


def writing_sheet(otherwise):
    return sheets_written(when_refused_by_14(write_sheet, otherwise))


SLIPS = {
    "no formula blank": blank_where(never),
    # Which formulas.
    "the first word alone": blank_where(none_of(lambda f: f.words[:1])),
    "the last word that counts alone": blank_where(none_of(
        lambda f: decisive(f)[-1:])),
    "all but the first": blank_where(none_of(lambda f: decisive(f)[1:])),
    "all but the last": blank_where(none_of(
        lambda f: decisive(f)[:-1] or decisive(f))),
    "one of 0 enough": blank_where(lambda f: 0 in decisive(f)),
    "a sum of 0 enough": blank_where(lambda f: sum(decisive(f)) == 0),
    "all alike enough": blank_where(lambda f: len({*decisive(f)}) == 1),
    "one word too many looked at": blank_where(none_of(
        lambda f: f.words[:len(decisive(f)) + 1])),
    "every word looked at": blank_where(none_of(lambda f: f.words)),
    "blank by its answers at lo and hi": blank_where(answers_0_at_its_ends),
    "blank where lo and hi are 0": blank_where(
        lambda f: is_blank(f) or f.lo == f.hi == 0),
    "blank only where the interval holds 0": blank_where(
        lambda f: is_blank(f) and f.lo <= 0 <= f.hi),
    "polynomials left out": kinds_judged((POLYNOMIAL,), never),
    "odd formulas left out": kinds_judged((ODD,), never),
    "even formulas left out": kinds_judged((EVEN,), never),
    "rationals left out": kinds_judged((RATIONAL,), never),
    "fractions left out": kinds_judged((FRACTION,), never),
    "polynomials of one coefficient left out": kinds_judged(
        POLYNOMIALS, lambda f: f.p > 1 and is_blank(f)),
    "polynomials of one coefficient alone": kinds_judged(
        POLYNOMIALS, lambda f: f.p == 1 and is_blank(f)),
    "an odd formula's first coefficient alone": kinds_judged(
        (ODD,), none_of(lambda f: f.words[:1])),
    "an even formula's first coefficient alone": kinds_judged(
        (EVEN,), none_of(lambda f: f.words[:1])),
    "polynomials looked at as fractions": kinds_judged(
        POLYNOMIALS, none_of(lambda f: f.words[:2])),
    "constants taken as blank": kinds_judged(
        POLYNOMIALS, lambda f: is_blank(f) or f.p > 1 and not any(
            f.words[1:])),
    "the divisor in place of the numerator": numerators(
        lambda words, p: words[p:]),
    "numerator and divisor both": numerators(lambda words, p: words),
    "numerator or divisor": kinds_judged((RATIONAL,), numerator_or_divisor),
    "the numerator's first alone": numerators(lambda words, p: words[:1]),
    "the numerator's last alone": numerators(lambda words, p: words[p - 1:p]),
    "the numerator by the divisor's count": kinds_judged(
        (RATIONAL,), none_of(lambda f: f.words[:f.q])),
    "numerator and d0": numerators(lambda words, p: words[:p + 1]),
    "b0 alone": word_numbers(0),
    "a1 alone": word_numbers(1),
    "b1 alone": word_numbers(2),
    "b0 and b1": word_numbers(0, 2),
    "a1 and b1": word_numbers(1, 2),
    "b0, a1 and b1": word_numbers(0, 1, 2),
    "all words of a fraction": kinds_judged(
        (FRACTION,), none_of(lambda f: f.words)),
    "every b of a fraction": kinds_judged(
        (FRACTION,), none_of(lambda f: f.words[::2])),
    "every a of a fraction": kinds_judged(
        (FRACTION,), none_of(lambda f: f.words[1::2])),
    "b0 and every a": kinds_judged(
        (FRACTION,), none_of(lambda f: (f.words[0], *f.words[1::2]))),
    "b0 and the innermost a": kinds_judged(
        (FRACTION,), none_of(lambda f: (f.words[0], f.words[-2]))),
    "b0 or a1": kinds_judged((FRACTION,), lambda f: 0 in f.words[:2]),
    "a fraction's first words by its depth": kinds_judged(
        (FRACTION,), none_of(lambda f: f.words[:f.p])),
    "fractions of depth 1 alone": kinds_judged(
        (FRACTION,), lambda f: f.p == 1 and is_blank(f)),
    "mode 0 left out": in_modes(1, 2),
    "mode 1 left out": in_modes(0, 2),
    "mode 2 left out": in_modes(0, 1),
    "a root on 0 to 0 blank": kinds_judged(
        (ROOT,), lambda f: f.lo == f.hi == 0),
    "every root blank": kinds_judged((ROOT,), lambda f: True),
    # How a word is looked at.
    "a word's lowest byte alone": seen_as(byte(0)),
    "a word's second byte alone": seen_as(byte(1)),
    "a word's third byte alone": seen_as(byte(2)),
    "a word's highest byte alone": seen_as(byte(3)),
    "a word's lower half alone": seen_as(lambda n: n & 0xFFFF),
    "a word's upper half alone": seen_as(lambda n: n >> 16 & 0xFFFF),
    "a word's lower three bytes": seen_as(lambda n: n & 0xFFFFFF),
    "a word's upper three bytes": seen_as(lambda n: n >> 8 & 0xFFFFFF),
    "a word's whole ones alone": seen_as(lambda n: abs(n) >> 24),
    "words below 0 taken as 0": seen_as(lambda n: max(n, 0)),
    "words above 0 taken as 0": seen_as(lambda n: min(n, 0)),
    "a word of one step taken as 0": seen_as(lambda n: n if n != 1 else 0),
    "a word of minus one step taken as 0": seen_as(
        lambda n: n if n != -1 else 0),
    # The turn.
    "14 after 7 and 8": verdict_by(after_7_and_8),
    "14 after 7": after(7),
    "14 after 8": after(8),
    "14 before 6": verdict_by(before_6),
    "14 before 5": {(sheet, "next_formula"): blank_before_number},
    "14 before 4": {(sheet, "next_formula"): blank_before_count},
    "14 after 9": {(sheet, "read"): all_read_first},
    "14 after 11": {(module, "formula_of"): asked_for_alone
                    for module in (questions, evaluation, door, turn)},
    "6 in place of 14": in_place_of_14(6),
    "7 in place of 14": in_place_of_14(7),
    "8 in place of 14": in_place_of_14(8),
    # The place, and the records.
    "place 0 in sheets": place_in_sheets(lambda place, *given: 0),
    "place 8 in sheets": place_in_sheets(lambda place, *given: 8),
    "the place of the first word that counts": place_in_sheets(
        lambda place, record, *given:
        place + SHAPES[sheet.kind_of(record)].head),
    "the place after the record": place_in_sheets(
        lambda place, record, *given: place + len(record)),
    "the first record alone": records_looked_at(
        lambda before, most: not before),
    "all but the first record": records_looked_at(
        lambda before, most: bool(before)),
    "the last record alone": records_looked_at(
        lambda before, most: len(before) == most - 1),
    "all but the last record": records_looked_at(
        lambda before, most: len(before) != most - 1),
    # The questions.
    "not refused by the count": passed_by("formula_count"),
    "not refused for the formula of a number": passed_by("formula_of"),
    "not refused by evaluation": passed_by("evaluate"),
    "not refused by the door": passed_by("evaluate_double"),
    "not refused for the interval": passed_by("interval"),
    "not refused by the sine": passed_by("sine"),
    "not refused by the cosine": passed_by("cosine"),
    "not refused by the record writer": passed_by("write_record"),
    "not refused by the sheet writer": passed_by("write_sheet"),
    "not refused by either writer": passed_by("write_record", "write_sheet"),
    "14 after 12 in the record writer": writing_record(record_after_12),
    "14 after 12 in the sheet writer": writing_sheet(sheet_after_12),
    "14 before 2 in the record writer": records_written(fields_before_counts),
    "place 8 in the record writer": writing_record(
        placed(lambda place, *given: 8)),
    "place 0 in the sheet writer": writing_sheet(
        placed(lambda place, *given: 0)),
    "places from the run in the sheet writer": writing_sheet(
        placed(lambda place, *given: place - 8)),
    "words past the last looked at": records_written(all_fields_looked_at),
    "one word past a polynomial's last looked at": records_written(
        one_more_looked_at),
}
