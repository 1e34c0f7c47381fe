"""The check of the ready sheets: their bytes, their answers, their tables."""

from errors import arguments, rounding_is_small
from evaluation import answer_inside, evaluate
from folder import content_at, list_of
from number import ONE
from padding import is_odd_or_even
from refusal import Refused
from sheet import MOST_FORMULAS, read
from sheet_bytes import formulas_by_sheet, sheet_of, sheets_of
from table import (
    COMPARED, HEADING, MEASURED, compared_cells, made_part, measured_cells,
    stored_cells)

# Cases that paper 01 has worked by hand: number, argument, answer.
BY_HAND = [
    (103, 0, ONE),
    (103, ONE, 45538158),
    (103, -ONE, 6181080),
    (161, 0, 0),
    (161, 1, 4096),
    (161, 33554432, 23726566),
]


class Tally:
    """Counts what holds and tells what does not."""

    def __init__(self):
        self.passed = 0
        self.failed = 0

    def hold(self, what, holds):
        if holds:
            self.passed += 1
        else:
            self.failed += 1
            print(f"does not hold: {what}")


def asked(sheet, number, argument):
    """The answer word, or the refusal in words."""
    try:
        return evaluate(sheet, number, argument).word
    except Refused as refusal:
        return str(refusal)


def check_files(tally, folder, list_name, all_printed):
    """The files in the folder, byte by byte."""
    sheets = sheets_of(all_printed)
    found = {path.name: path.read_bytes() for path in folder.glob("*.sheet")}
    tally.hold("no sheet too many", set(found) <= set(sheets))
    for name, sheet in sheets.items():
        tally.hold(f"{name}: as made", found.get(name) == sheet)
    tally.hold(f"{list_name}: as made",
               content_at(folder / list_name) == list_of(sheets))


def check_answers(tally, all_printed):
    """What is read back from the sheets, and what they answer."""
    for name, formulas in formulas_by_sheet(all_printed).items():
        sheet = sheet_of(formulas)
        tally.hold(f"{name}: as read", read(sheet) == formulas)
        for formula in formulas:
            number, lo, hi = formula.number, formula.lo, formula.hi
            for x in arguments(lo, hi, 5):
                tally.hold(f"{name} {number}: answer at {x}",
                           asked(sheet, number, x)
                           == answer_inside(formula, x).word)
            for x in lo - 1, hi + 1:
                tally.hold(f"{name} {number}: refused at {x}",
                           asked(sheet, number, x) == "refused 10 at 0")
    first = sheet_of([p.formula for p in all_printed[:MOST_FORMULAS]])
    for number, argument, answer in BY_HAND:
        tally.hold(f"{number}: by hand at {argument}",
                   asked(first, number, argument) == answer)


def not_above(cell, stored):
    """Whether an error is not above the stored one; a dash is no error."""
    if "–" in (cell, stored):
        return cell == stored
    return float(cell) <= float(stored)


def check_measured(tally, all_printed, all_errors, all_stored):
    for printed, errors, stored in zip(all_printed, all_errors, all_stored):
        number = printed.formula.number
        bound, own, kept, answer = measured_cells(errors)
        tally.hold(f"{number}: bound", bound == stored[0])
        tally.hold(f"{number}: own error", not_above(own, stored[1]))
        tally.hold(f"{number}: bound kept", kept in (stored[2], "yes"))
        tally.hold(f"{number}: error", not_above(answer, stored[3]))


def check_compared(tally, all_printed, all_padded, all_stored):
    for printed, padded, stored in zip(all_printed, all_padded, all_stored):
        number = printed.formula.number
        error, *lengths = compared_cells(printed, padded)
        tally.hold(f"{number}: padded error", not_above(error, stored[0]))
        tally.hold(f"{number}: bytes", lengths == stored[1:])


def check_tables(tally, page, all_printed, all_errors, all_padded):
    """README.md against formulas.txt, its errors against these."""
    _, heading, part = page.decode("utf-8", "replace").partition(HEADING)
    measured = stored_cells(MEASURED, part)
    compared = stored_cells(COMPARED, part)
    tally.hold("README.md: a row for each formula",
               len(measured) == len(all_printed))
    tally.hold("README.md: a row for each odd or even formula",
               len(compared) == len(all_padded))
    tally.hold("README.md: as made",
               heading + part == made_part(all_printed, measured, compared))
    check_measured(tally, all_printed, all_errors, measured)
    check_compared(tally, filter(is_odd_or_even, all_printed), all_padded,
                   compared)


def check_rounding(tally, all_printed, count):
    """The answers of polynomials, odd and even ones too, against the print."""
    for printed in all_printed:
        if printed.kind in ("polynomial", "odd", "even"):
            tally.hold(f"{printed.formula.number}: rounding",
                       rounding_is_small(printed, count))
