"""The form of a text of formulas: paragraphs of named lines.

Every part of the text is kept with the line that it stands on, so that a fault
can be told with its line.
"""

from bisect import bisect_right
from codecs import BOM_UTF8
from itertools import accumulate
from typing import NamedTuple

NAMES = [
    "sheet", "number", "function", "kind", "mode", "interval", "coefficients",
    "numerator", "divisor", "source", "bound", "remark"]


class Fault(Exception):
    """Something wrong in a text: the line, and what it is."""

    def __init__(self, line, what):
        super().__init__(line, what)
        self.line = line
        self.what = what


class Faults(list):
    """The faults found so far."""

    def attempt(self, function, *arguments):
        """What the function gives, or None where it finds a fault."""
        try:
            return function(*arguments)
        except Fault as fault:
            self.append(fault)
            return None


class Field:
    """The text after a name, and the lines that it stands on."""

    def __init__(self, pieces):
        """Each piece is the number of a line and what stands on it."""
        self.line = pieces[0][0]  # that of the name
        self.lines = [line for line, text in pieces if text]
        texts = [text for _, text in pieces if text]
        self.starts = list(accumulate((len(text) + 1 for text in texts),
                                      initial=0))
        self.text = " ".join(texts)

    def line_at(self, offset):
        """The line of the character at this offset of the text."""
        return self.lines[bisect_right(self.starts, offset) - 1]


class Paragraph(NamedTuple):
    """One formula's fields, by their names."""

    line: int  # the first
    fields: dict


def shown(text):
    """A piece of a text as a fault shows it: quoted, on one line, not long."""
    return repr(text if len(text) <= 40 else text[:37] + "...")


def decoded(content):
    """The text of a file's bytes, its lines ended by line feeds."""
    content = content.removeprefix(BOM_UTF8)
    try:
        text = content.decode("utf-8")
    except UnicodeDecodeError as error:
        line = content.count(b"\n", 0, error.start) + 1
        raise Fault(line, "this is no UTF-8: save the text as UTF-8") from None
    return text.replace("\r\n", "\n").replace("\r", "\n")


def runs_of_lines(text, faults):
    """The lines of each paragraph, with their numbers."""
    run = []
    for number, line in enumerate(text.split("\n"), 1):
        if line.startswith("#"):
            continue
        if line.strip():
            run.append((number, line))
            continue
        if line:
            faults.append(Fault(
                number, "blanks on an empty line: take them away"))
        if run:
            yield run
        run = []
    if run:
        yield run


def go_on(pieces, number, text):
    """Takes an indented line to what stands above it."""
    name = text.partition(":")[0].strip()
    if pieces is None or (":" in text and name.lower() in NAMES):
        raise Fault(number, "a blank before a name: only a line that goes on "
                    f"from the one above is indented, not {shown(text)}")
    pieces.append((number, text))


def named(number, line, found):
    """The name at the start of a line, and its text."""
    name, colon, text = line.partition(":")
    if not colon:
        raise Fault(number, f"no name and colon before {shown(line)}; a line "
                    "that goes on from the one above is indented")
    if name not in NAMES:
        raise Fault(number, f"unknown name {shown(name)}: the names are "
                    + ", ".join(NAMES))
    if name in found:
        raise Fault(number, f"{name} twice in a formula, first in line "
                    f"{found[name][0][0]}; an empty line parts two formulas")
    return name, text.strip()


def fields_of(run, faults):
    """The fields of a paragraph's lines, by their names."""
    found, pieces = {}, None
    for number, line in run:
        if line[0].isspace():
            faults.attempt(go_on, pieces, number, line.strip())
            continue
        pieces = []  # after a faulty line, for what goes on from it
        right = faults.attempt(named, number, line, found)
        if right:
            name, text = right
            pieces.append((number, text))
            found[name] = pieces
    fields = {name: Field(pieces) for name, pieces in found.items()}
    for name, field in fields.items():
        if not field.text:
            faults.append(Fault(field.line, f"nothing stands after {name}"))
    return fields


def read_paragraphs(text, faults):
    """The paragraphs that are right in form."""
    paragraphs = []
    for run in runs_of_lines(text, faults):
        before = len(faults)
        fields = fields_of(run, faults)
        if len(faults) == before:
            paragraphs.append(Paragraph(run[0][0], fields))
    return paragraphs
