"""The sheets that a text gives, in bytes, by the writers of oracle/."""

from printed import EVERYTHING
from sheet import MOST_FORMULAS
from writing import write_record, write_sheet

LONGEST_RECORD = 120


def record_of(formula):
    length, buffer = write_record(formula, bytes(LONGEST_RECORD))
    return buffer[:length]


def sheet_of(formulas):
    run = b"".join(record_of(formula) for formula in formulas)
    _, sheet = write_sheet(run, bytes(len(run) + 16))
    return sheet


def formulas_by_sheet(all_printed):
    """The formulas of each sheet, by its name.

    A text of more than one sheet gives one more, with the first formulas of
    all: as many as a sheet holds.
    """
    by_sheet = {}
    for printed in all_printed:
        by_sheet.setdefault(printed.sheet, []).append(printed.formula)
    if len(by_sheet) > 1:
        by_sheet[EVERYTHING] = [
            printed.formula for printed in all_printed[:MOST_FORMULAS]]
    return by_sheet


def sheets_of(all_printed):
    """The bytes of each sheet, by the name of its file."""
    return {f"{name}.sheet": sheet_of(formulas)
            for name, formulas in formulas_by_sheet(all_printed).items()}
