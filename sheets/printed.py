"""Reads a text of formulas, whose form README.md tells, and makes words of it.
"""

import re
from collections import Counter
from fractions import Fraction
from typing import NamedTuple

from formulas import (
    EVEN, FRACTION, ODD, POLYNOMIAL, RATIONAL, ROOT, SHAPES, Formula, verdict)
from functions import FUNCTIONS
from paragraphs import Fault, read_paragraphs, shown
from sheet import MOST_FORMULAS
from typed import ends, exact, nearest_word, numbers
from width import BLANK, refusal_told


class Kind(NamedTuple):
    """What a text says of a kind."""

    code: int
    told: str  # as a fault names it
    parts: list  # the lines that hold the numbers, in stored order


KINDS = {
    "polynomial": Kind(POLYNOMIAL, "a polynomial", ["coefficients"]),
    "odd": Kind(ODD, "an odd formula", ["coefficients"]),
    "even": Kind(EVEN, "an even formula", ["coefficients"]),
    "rational": Kind(RATIONAL, "a rational", ["numerator", "divisor"]),
    "fraction": Kind(FRACTION, "a fraction", ["coefficients"]),
    "root": Kind(ROOT, "a root", []),
}

EVERY_FORMULA = ["sheet", "number", "kind", "interval"]
SOME_KINDS = ["coefficients", "numerator", "divisor", "mode"]
EVERYTHING = "all"  # the sheet that holds the formulas of all the others
MOST_NUMBER = 65535


class Printed(NamedTuple):
    """A formula as the book prints it, and the words that it becomes."""

    sheet: str
    function: str  # empty if it is not told
    kind: str
    interval: str
    source: str
    remark: str
    parts: list  # the printed numbers, a list of exact ones for each part
    bound: Fraction  # the printed error bound, or None
    relative: bool  # whether the bound is relative
    formula: Formula
    lines: dict  # the line of each name


# One field.


def text_of(field):
    return field.text


def sheet_of(field):
    name = field.text
    if not re.fullmatch("[A-Za-z0-9][A-Za-z0-9_-]{0,63}", name):
        raise Fault(field.line, f"{shown(name)} cannot name a sheet: a name "
                    "has 1 to 64 letters, digits, - and _, no slash, blank or "
                    "point, and starts with a letter or digit")
    if name == EVERYTHING:
        raise Fault(field.line, f"{shown(name)} is the sheet of all formulas: "
                    "give the formula's own sheet another name")
    return name


def whole_of(field, most):
    if not re.fullmatch("[0-9]{1,9}", field.text) or int(field.text) > most:
        raise Fault(field.line,
                    f"{shown(field.text)} is no whole number from 0 to {most}")
    return int(field.text)


def number_of(field):
    return whole_of(field, MOST_NUMBER)


def mode_of(field):
    return whole_of(field, 2)


def kind_of(field):
    if field.text not in KINDS:
        raise Fault(field.line, f"unknown kind {shown(field.text)}: the kinds "
                    f"are {', '.join(KINDS)}")
    return field.text


def function_of(field):
    if field.text not in FUNCTIONS:
        raise Fault(field.line, f"unknown function {shown(field.text)}: leave "
                    "the line out, if it is none of "
                    f"{', '.join(FUNCTIONS)}")
    return field.text


def bound_of(field):
    """The bound, and whether it is relative."""
    text, _, sort = field.text.partition(" relative")
    bound = exact(text, field.line)
    if sort or not 0 < bound < 128:
        raise Fault(field.line, f"{shown(field.text)} is no bound: a number "
                    "above 0 and below 128, with 'relative' after it or not")
    return bound, text != field.text


def part_of(field):
    """The exact numbers of a part, and their words."""
    found = numbers(field)
    return ([number.value for number in found],
            [nearest_word(number) for number in found])


READERS = {
    "sheet": sheet_of, "number": number_of, "function": function_of,
    "kind": kind_of, "mode": mode_of, "interval": ends,
    "coefficients": part_of, "numerator": part_of, "divisor": part_of,
    "source": text_of, "bound": bound_of, "remark": text_of,
}


# One formula.


def name_faults(paragraph, kind, also_needed):
    """The names that are missing, and those that the kind has not."""
    fields = paragraph.fields
    own = list(KINDS[kind].parts) if kind else []
    if kind == "fraction":
        own.append("mode")
    missing = [name for name in EVERY_FORMULA + own + also_needed
               if name not in fields]
    if missing:
        yield Fault(paragraph.line, f"missing: {', '.join(missing)} (an empty "
                    "line ends a formula)")
    for name in SOME_KINDS:
        if kind and name in fields and name not in own:
            yield Fault(fields[name].line,
                        f"{KINDS[kind].told} has no {name}")


def counts_of(kind, fields, parts):
    """p and q of a formula, where they are in range."""
    counts = [len(words) for _, words in parts]
    code, told, names = KINDS[kind]
    shape = SHAPES[code]
    if kind == "fraction":
        depth, rest = divmod(counts[0] - 1, 2)
        if rest or depth not in shape.p:
            raise Fault(fields["coefficients"].line, "a fraction has b0, then "
                        "a pair of a and b for each depth, to a depth of "
                        f"{shape.p[0]} to {shape.p[-1]}; numbers here: "
                        f"{counts[0]}")
        return depth, 0
    for name, count, allowed in zip(names, counts, (shape.p, shape.q)):
        if count not in allowed:
            raise Fault(fields[name].line, f"the line {name} of {told} has "
                        f"{allowed[0]} to {allowed[-1]} numbers; numbers "
                        f"here: {count}")
    return (counts + [0, 0])[:2]


def formula_of(kind, fields, read):
    """The formula in words, where a sheet would be accepted with it."""
    parts = [read[name] for name in KINDS[kind].parts]
    p, q = counts_of(kind, fields, parts)
    words = tuple(word for _, words in parts for word in words)
    formula = Formula(KINDS[kind].code, read["number"], *read["interval"],
                      p, q, read.get("mode", 0), words)
    if kind == "root" and formula.lo < 0:
        raise Fault(fields["interval"].line, "a root has no argument below 0")
    refused = verdict(formula)
    if refused:
        name = KINDS[kind].parts[0] if refused == BLANK else "interval"
        raise Fault(fields[name].line, refusal_told(refused, formula))
    return formula


def printed_of(paragraph, also_needed, faults):
    """The formula of a paragraph, or None where it is at fault."""
    before = len(faults)
    fields = paragraph.fields
    read = {name: faults.attempt(READERS[name], field)
            for name, field in fields.items()}
    kind = read.get("kind")
    faults.extend(name_faults(paragraph, kind, also_needed))
    if len(faults) > before:
        return None
    formula = faults.attempt(formula_of, kind, fields, read)
    if formula is None:
        return None
    return Printed(
        read["sheet"], read.get("function", ""), kind, fields["interval"].text,
        read.get("source", ""), read.get("remark", ""),
        [read[name][0] for name in KINDS[kind].parts],
        *read.get("bound", (None, False)), formula,
        {name: field.line for name, field in fields.items()})


# The whole text.


def order_faults(all_printed):
    """Numbers that do not rise, and formulas that a sheet has no room for."""
    last, held = -1, Counter()
    for printed in all_printed:
        number, sheet = printed.formula.number, printed.sheet
        if number <= last:
            yield Fault(printed.lines["number"], f"number {number} is not "
                        f"above {last}, that of the formula before")
        last = number
        held[sheet] += 1
        if held[sheet] > MOST_FORMULAS:
            yield Fault(printed.lines["sheet"], f"formula {held[sheet]} of "
                        f"sheet {sheet}: a sheet holds {MOST_FORMULAS}")


def read_formulas(text, also_needed, faults):
    """All formulas of a text that are not at fault, in its order."""
    before = len(faults)
    found = [printed_of(paragraph, also_needed, faults)
             for paragraph in read_paragraphs(text, faults)]
    all_printed = [printed for printed in found if printed]
    faults.extend(order_faults(all_printed))
    if not all_printed and len(faults) == before:
        faults.append(Fault(1, "no formula stands in this text"))
    return all_printed
