"""The self-test's checks of blank formulas (request M-106)."""

from collections import Counter

import groups_blanks
import slow
from by_hand import (
    ADMISSIONS, ANSWERS, BLANK_BYTES, BLANK_FIELDS, BLANK_SHEETS, BLANK_TURNS,
    BLANKS)
from formulas import (
    FRACTION, RATIONAL, ROOT, SHAPES, admission, answer, is_blank, verdict)
from groups_blanks import FORMS, decisive, each_about, sparse
from makers import (
    KINDS, arguments, blank_formula, blanked, good_formula, good_formulas,
    nearly_blank, run_of, sheet_of, with_word, word)
from number import M, NO_WORD
from questions import (
    answer_to, ask_cosine, ask_count, ask_record, ask_sheet, ask_sine,
    values_when_refused)
from slips_blanks import SLIPS, changed
from turn import QUARTER
from vectors import vectors_of
from writing import record_of

EVERY_QUESTION = range(1, 10)


def judged(question):
    """The refusal, or 0, and its place; when refused, every value has to be 0
    and a buffer as it was."""
    found = answer_to(*question)
    if found[0] != 0 and found[5:] != values_when_refused(*question):
        return "refused", "with values"
    return found[0], int.from_bytes(found[1:5], "little")


def check_blanks_by_hand(tally, rng):
    """Every case of a blank formula or a nearly blank one: by the reader and
    by both writers, and by sine and cosine. No case of the paper is blank."""
    for formula, expected in BLANKS:
        place = 8 if expected else 0
        record = record_of(formula)
        for question, at in ((ask_count(sheet_of([formula])), place),
                             (ask_record(formula, len(record)), 0),
                             (ask_sheet(record, len(record) + 16), place)):
            tally.same(f"{formula} by hand, question {question[0]}",
                       judged(question), (expected, at))
    for fields, expected in BLANK_FIELDS:
        tally.same(f"{fields} by hand", judged(ask_record(fields, 120)),
                   (expected, 0))
    for formulas, *expected in BLANK_SHEETS:
        for question in (ask_count(sheet_of(formulas)),
                         ask_sheet(run_of(formulas), 200)):
            tally.same(f"{formulas} by hand", [*judged(question)], expected)
    for sheet, *expected in BLANK_BYTES:
        tally.same(f"{sheet.hex()} by hand", [*judged(ask_count(sheet))],
                   expected)
    for formula, number, expected in BLANK_TURNS:
        for angle in (0, 1, QUARTER, 2 * QUARTER, 3 * QUARTER + 7):
            for ask in (ask_sine, ask_cosine):
                question = ask(sheet_of([formula]), number, angle)
                tally.same(f"{formula} by hand, turned", judged(question),
                           (expected, 8 if expected == 14 else 0))
    for formula, *_ in (*ANSWERS, *ADMISSIONS):
        tally.same(f"{formula} of the paper", slow.is_blank(formula), False)


def by_its_bytes(formula):
    """Whether a record's bytes that hold the words that count are all 0."""
    record = record_of(formula)
    if formula.kind == RATIONAL:
        return not any(record[20:20 + 4 * formula.p])
    if formula.kind == FRACTION:
        return not any(record[20:28])
    return formula.kind != ROOT and not any(record[16:])


def formulas_to_judge(rng):
    """Formulas of every form: good, blank, nearly blank, with zeros anywhere;
    the same with any interval, with a word that may be none, with a mode that
    is none."""
    for kind, mode in (*FORMS, (ROOT, 0)) * 40:
        good = good_formula(rng, kind, mode=mode)
        zeros = good._replace(words=tuple(
            c * rng.randrange(2) for c in good.words))
        drawn = [good, blanked(good), zeros]
        if kind != ROOT:
            i = rng.choice(decisive(kind, good.p))
            drawn.append(with_word(blanked(good), i, sparse(rng)))
        for formula in drawn:
            yield formula
            yield formula._replace(lo=rng.choice((NO_WORD, -M, word(rng))),
                                   hi=rng.choice((NO_WORD, M, word(rng))))
            if kind != ROOT:
                i = rng.randrange(len(formula.words))
                yield with_word(formula, i, rng.choice((NO_WORD, 0, M)))
            if kind == FRACTION:
                yield formula._replace(mode=3)


def check_blank_rule(tally, rng):
    """The rule against the slow definition and against the record's bytes; the
    turn of 14 too. Every kind meets every refusal that it can, and none."""
    met = set()
    for formula in formulas_to_judge(rng):
        blank, found = slow.is_blank(formula), slow.verdict(formula)
        tally.same(f"is {formula} blank", is_blank(formula), blank)
        tally.same(f"bytes of {formula}", by_its_bytes(formula), blank)
        tally.same(f"verdict of {formula}", verdict(formula), found)
        met.add((formula.kind, found))
    tally.same("every refusal of every kind", met, {
        (kind, refusal) for kind in KINDS for refusal in (0, 6, 7, 8, 14)
        if refusal in (0, 6) or kind != ROOT and refusal != 8
        or kind in (RATIONAL, FRACTION)})


def check_makers_of_blanks(tally, rng):
    """Blank formulas that are refused by nothing but 14, and that would give 0
    at every argument; nearly blank ones that are accepted, with one word that
    counts."""
    for kind, mode in FORMS * 25:
        blank = blank_formula(rng, kind, mode=mode)
        tally.same(f"{blank} is blank", (verdict(blank), admission(blank)),
                   (14, 0))
        for x in arguments(rng, blank)[:4]:
            tally.same(f"{blank} at {x}", answer(blank, x).word, 0)
        p = rng.choice(SHAPES[kind].p)
        i, value = rng.choice(decisive(kind, p)), sparse(rng)
        near = nearly_blank(rng, kind, i, value, p=p, mode=mode)
        tally.same(f"{near} is not blank", verdict(near), 0)
        tally.same(f"words of {near}",
                   {k: near.words[k] for k in decisive(kind, p)
                    if near.words[k] != 0}, {i: value})


def check_places_of_blanks(tally, rng):
    """In sheets of 1 to 5 formulas, with a blank one at every place, and more
    of them after it: every question is refused by 14 at its record, whatever
    number and argument are asked for; the sheet writer likewise."""
    for count in (1, 2, 3, 4, 5) * 4:
        for at in range(count):
            formulas = good_formulas(rng, count)
            for k in (at, rng.randrange(at, count)):
                kind, mode = rng.choice(FORMS)
                formulas[k] = blank_formula(rng, kind, formulas[k].number,
                                            mode=mode)
            expected = 14, 8 + len(run_of(formulas[:at]))
            for number in (*(f.number for f in formulas), 40000):
                for question in each_about(rng, sheet_of(formulas), number,
                                           word(rng)):
                    tally.same(f"{formulas}, question {question[0]}",
                               judged(question), expected)
            for room in (0, 1000):
                tally.same(f"run of {formulas}", judged(ask_sheet(
                    run_of(formulas), room)), expected)
            tally.same(f"record of {formulas[at]}",
                       judged(ask_record(formulas[at], rng.randrange(120))),
                       (14, 0))


def check_slips_of_blanks(tally, rng):
    """The answers of the vectors aimed at blank formulas are this oracle's;
    with a slip, one of them is another. 14 is there often in every question,
    and so are answers that are not refused."""
    vectors = vectors_of(groups_blanks.GROUPS)
    tally.same("blanks in vectors", changed(vectors, {}), 0)
    for slip, replaced in SLIPS.items():
        tally.same(slip, changed(vectors, replaced, count=any), True)
    tally.same("and as it was", changed(vectors, {}), 0)
    often = Counter((question, found[0]) for question, _, found in vectors)
    for refusal in (0, 14):
        tally.same(f"{refusal} often", {
            question for question in EVERY_QUESTION
            if often[question, refusal] >= 40}, {*EVERY_QUESTION})


CHECKS = (check_blanks_by_hand, check_blank_rule, check_makers_of_blanks,
          check_places_of_blanks, check_slips_of_blanks)
