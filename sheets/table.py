"""The part of README.md that is made: two tables of formulas, and remarks."""

import re
from math import ceil

from padding import is_odd_or_even
from sheet_bytes import record_of

HEADING = "## The formulas\n"  # that of the part
COLUMNS = [
    "sheet", "no.", "function", "kind", "interval", "source",
    "printed bound", "own error", "bound kept", "measured error"]
MEASURED = re.compile(  # the last four of them
    r" \| (\S+) \| ([0-9]+\.[0-9]+) \| (yes|no|–) \| ([0-9]+\.[0-9]+) \|$",
    re.MULTILINE)

COMPARED_COLUMNS = [
    "no.", "function", "kind", "terms", "measured error", "padded error",
    "bytes", "padded bytes"]
COMPARED = re.compile(  # the last three of them
    r" \| ([0-9]+\.[0-9]+|–) \| ([0-9]+) \| ([0-9]+|–) \|$", re.MULTILINE)


def rounded_up(steps):
    return f"{ceil(steps * 100) / 100:.2f}"


def measured_cells(errors):
    """Bound, own error, whether the bound is kept, measured error."""
    own, answer = rounded_up(errors.own), rounded_up(errors.answer)
    if errors.bound is None:
        return ["–", own, "–", answer]
    bound = f"{errors.bound:{'.2f' if errors.bound >= 0.01 else '.2g'}}"
    return [bound, own, "no" if errors.bound_missed else "yes", answer]


def compared_cells(printed, padded):
    """Padded error, bytes, padded bytes."""
    length = str(len(record_of(printed.formula)))
    if padded is None:
        return ["–", length, "–"]
    return [rounded_up(padded.error), length, str(padded.length)]


def printed_cells(printed):
    formula, kind = printed.formula, printed.kind
    if kind == "fraction":
        kind += f", mode {formula.mode}"
    return [printed.sheet, str(formula.number), printed.function, kind,
            printed.interval, printed.source]


def row(cells):
    return "| " + " | ".join(cells) + " |\n"


def head(columns):
    return row(columns) + "|---" * len(columns) + "|\n"


def comparison(all_printed, all_cells, all_compared):
    """The second table, where there is an odd or even formula."""
    if not all_compared:
        return ""
    measured = [(printed, cells[-1])
                for printed, cells in zip(all_printed, all_cells)
                if is_odd_or_even(printed)]
    text = "\nOdd and even formulas, and what they would be if padded:\n\n"
    text += head(COMPARED_COLUMNS)
    for (printed, error), cells in zip(measured, all_compared):
        formula = printed.formula
        text += row([str(formula.number), printed.function, printed.kind,
                     str(formula.p), error, *cells])
    return text


def made_part(all_printed, all_cells, all_compared):
    """The part from its heading on."""
    text = HEADING + "\n" + head(COLUMNS)
    for printed, cells in zip(all_printed, all_cells):
        text += row(printed_cells(printed) + cells)
    text += comparison(all_printed, all_cells, all_compared)
    text += "\nRemarks:\n\n"
    for printed in all_printed:
        if printed.remark:
            text += f"- {printed.formula.number}: {printed.remark}\n"
    return text


def stored_cells(pattern, written):
    """The cells that a pattern finds in a written part, row by row."""
    return [list(cells) for cells in pattern.findall(written)]


def page_with_tables(page, all_printed, all_errors, all_padded):
    """The page, in bytes, with this part made anew."""
    prose, _, _ = page.partition(HEADING.encode())
    part = made_part(
        all_printed, [measured_cells(errors) for errors in all_errors],
        [compared_cells(printed, padded) for printed, padded
         in zip(filter(is_odd_or_even, all_printed), all_padded)])
    return prose + part.encode()
