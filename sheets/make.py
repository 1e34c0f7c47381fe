#!/usr/bin/env python3
"""Makes formula sheets from a text of formulas.

    make.py                      the ready sheets and the tables in README.md,
                                 from formulas.txt, all beside this program
    make.py TEXT --out FOLDER    the sheets of a text of your own
    make.py --out FOLDER         the ready sheets, in another folder
    make.py --check              compares the ready sheets with their text

README.md tells how a formula is typed in. A text with faults makes nothing:
each is told in a line, 'TEXT:LINE: what'. No file is removed, and none is
replaced that is not as this program made it; it knows its own by a list beside
them, TEXT.sha256, which 'sha256sum -c' reads too.

The status is 0 if everything was made or holds, 1 if not, 2 for a wrong call.
"""

import sys
from argparse import SUPPRESS, ArgumentParser, RawDescriptionHelpFormatter
from pathlib import Path

HERE = Path(__file__).resolve().parent
sys.path.insert(1, str(HERE.parent / "oracle"))

from errors import NoValue, measure
from folder import Taken, left_over, put_sheets
from padding import is_odd_or_even, measure_padded
from paragraphs import Fault, Faults, decoded
from printed import EVERYTHING, read_formulas
from ready import (
    Tally, check_answers, check_files, check_rounding, check_tables)
from sheet import MOST_FORMULAS
from sheet_bytes import sheets_of
from table import page_with_tables, rounded_up

README = HERE / "README.md"
READY = HERE / "formulas.txt"
READY_HAVE = ["function", "source"]  # other texts may leave them out
DENSE = 20001  # arguments of an error in README.md
SAMPLE = 2001  # of any other error; all of them are among the dense ones


class Wrong(Exception):
    """What keeps something from being made, in lines."""


def errors_of(printed, count):
    """The measured errors, or None where the function is not told."""
    if not printed.function:
        return None
    try:
        return measure(printed, count)
    except NoValue as why:
        raise Fault(printed.lines["interval"], str(why)) from None


def formulas_in(path, name, needed, count):
    """The formulas of a text and their errors over `count` arguments."""
    try:
        content = path.read_bytes()
    except OSError as error:
        raise Wrong(f"{name}: cannot be read: {error.strerror}") from None
    faults = Faults()
    text = faults.attempt(decoded, content)
    all_printed = [] if faults else read_formulas(text, needed, faults)
    all_errors = [faults.attempt(errors_of, printed, count)
                  for printed in all_printed]
    faults.sort(key=lambda fault: fault.line)
    if faults:
        raise Wrong(*(f"{name}:{fault.line}: {fault.what}"
                      for fault in faults))
    return all_printed, all_errors


def written(folder, list_name, sheets, more):
    """Writes what is not yet in the folder; gives the sheets among it."""
    try:
        folder.mkdir(parents=True, exist_ok=True)
        return put_sheets(folder, list_name, sheets, more)
    except Taken as taken:
        raise Wrong(*(
            f"{path}: this program did not make it, or it was changed since: "
            "move it away, or name another folder by --out"
            for path in taken.paths)) from None
    except OSError as error:
        raise Wrong(f"{folder}: cannot be written: {error.strerror}") from None


def tell(folder, sheets, all_printed, all_errors):
    """What else to know, and a line for each formula as it was understood."""
    for name in left_over(folder, sheets):
        print(f"{folder / name}: not of this text; left as it is",
              file=sys.stderr)
    if f"{EVERYTHING}.sheet" in sheets and len(all_printed) > MOST_FORMULAS:
        print(f"{EVERYTHING}.sheet: only the first {MOST_FORMULAS} formulas",
              file=sys.stderr)
    for printed, errors in zip(all_printed, all_errors):
        line = (f"{printed.sheet}.sheet {printed.formula.number}: "
                f"{printed.kind} on {printed.interval}")
        if printed.parts:
            counts = [str(len(part)) for part in printed.parts]
            line += f", numbers {' and '.join(counts)}"
        if errors:
            line += (f", off {printed.function} by "
                     f"{rounded_up(errors.answer)} steps")
        print(line)


def make(path, folder, all_printed, all_errors, more):
    """Makes a text's sheets in a folder, and puts more files beside them."""
    sheets = sheets_of(all_printed)
    new = written(folder, f"{path.stem}.sha256", sheets, more)
    tell(folder, sheets, all_printed, all_errors)
    print(f"sheets {len(sheets)}, of which {len(new)} new or changed")
    return 0


def make_own(path, name, folder):
    return make(path, folder, *formulas_in(path, name, [], SAMPLE), {})


def ready_formulas(count):
    """The ready formulas, their errors, and the odd and even ones padded."""
    all_printed, all_errors = formulas_in(READY, READY.name, READY_HAVE, count)
    all_padded = [measure_padded(printed, count)
                  for printed in filter(is_odd_or_even, all_printed)]
    return all_printed, all_errors, all_padded


def make_ready():
    all_printed, all_errors, all_padded = ready_formulas(DENSE)
    page = page_with_tables(
        README.read_bytes(), all_printed, all_errors, all_padded)
    return make(READY, HERE, all_printed, all_errors, {README.name: page})


def check_ready():
    """Makes the ready sheets anew and compares; a last line has the counts."""
    all_printed, all_errors, all_padded = ready_formulas(SAMPLE)
    tally = Tally()
    check_files(tally, HERE, f"{READY.stem}.sha256", all_printed)
    check_answers(tally, all_printed)
    check_tables(
        tally, README.read_bytes(), all_printed, all_errors, all_padded)
    check_rounding(tally, all_printed, SAMPLE)
    print(f"{tally.passed} passed, {tally.failed} failed")
    return 1 if tally.failed else 0


def call_of(words):
    """The words of the call; a wrong one ends here with status 2."""
    parser = ArgumentParser(
        prog="make.py", usage="make.py [TEXT] [--out FOLDER] | --check",
        description=__doc__, formatter_class=RawDescriptionHelpFormatter,
        allow_abbrev=False)
    parser.add_argument("text", nargs="?", help=SUPPRESS)
    parser.add_argument("--out", help=SUPPRESS)
    parser.add_argument("--check", action="store_true", help=SUPPRESS)
    call = parser.parse_args(words)
    if call.check and (call.text is not None or call.out is not None):
        parser.error("--check stands alone")
    if call.out == "":
        parser.error("--out names no folder")
    if call.text is not None and call.out is None:
        parser.error("a text of your own needs --out FOLDER")
    return call


def run(call):
    if call.check:
        return check_ready()
    if call.out is None:
        return make_ready()
    if call.text is None:
        return make_own(READY, READY.name, Path(call.out))
    return make_own(Path(call.text), call.text, Path(call.out))


def main(words):
    call = call_of(words)
    try:
        status = run(call)
        print(end="", flush=True)
        return status
    except Wrong as wrong:
        lines = wrong.args
    except OSError as error:
        lines = [f"{error.filename or 'standard output'}: {error.strerror}"]
        sys.stdout = None  # so that the end of Python does not try again
    except KeyboardInterrupt:
        return 130
    print(*lines, sep="\n", file=sys.stderr)
    return 1


if __name__ == "__main__":
    sys.exit(main(sys.argv[1:]))
