"""Holds the words for the refusals against each other.

    python3 tests/words.py MESSAGES

MESSAGES has a line for each number from 0 on, as vp_message gives it: what is
wrong, a full stop, and what to do. The header says what is wrong beside each
constant, and sheets/make.py beside those that it gives; the README's table
says both. Prints each difference; the status is 0 where there is none.
"""

import re
import sys
from pathlib import Path

sys.path += ["sheets", "oracle"]

from width import WHY

PAPER = range(1, 14)  # the refusals of document 01
LIKE_A_WRONG_FORMULA = range(3, 9)

differences = []


def hold(right, what):
    if not right:
        differences.append(what)


def constants(header):
    """{number: (name, comment)} of the header's list of refusals."""
    part = header[header.index("/* The refusals"):header.index("/* The kinds")]
    found = re.findall(r"#define (VP_\w+) (\d+) +/\*(.*?)\*/", part, re.S)
    return {int(number): (name, " ".join(comment.split()))
            for name, number, comment in found}


def rows(readme):
    """{number: (what is wrong, what to do)} of the README's table."""
    found = re.findall(r"^\| (\d+) \| (.*?) \| (.*?) \|$", readme, re.M)
    return {int(number): (wrong, do) for number, wrong, do in found}


def main():
    messages = Path(sys.argv[1]).read_text().splitlines()
    readme = Path("README.md").read_text(encoding="utf-8")
    named = constants(Path("include/valvepigeon.h").read_text())
    table = rows(readme)
    unknown = messages[-1]

    hold(set(named) >= set(PAPER), f"the header has the refusals {sorted(named)}")
    hold(set(named) == set(table), f"the README has the refusals {sorted(table)}")
    hold(len({name for name, _ in named.values()}) == len(named), "a name for each")
    for number, message in enumerate(messages):
        if number not in named:
            other = number == 0 or message == unknown
            hold(other and message, f"{number} is no refusal, and has: {message}")
            continue
        wrong, do = message.split(". ", 1)
        hold(named[number][1] == wrong, f"the header at {number}: {named[number][1]}")
        _, damaged, advice = do.partition(" Where the sheet was good before")
        hold(table.get(number) == (wrong, do.removesuffix(damaged + advice)),
             f"the README at {number}: {table.get(number)}")
        hold(bool(damaged) == (number in LIKE_A_WRONG_FORMULA)
             and (damaged + advice).strip() in readme,
             f"what {number} says of damage, or the README below its table")
        hold(WHY.get(number, wrong) == wrong,
             f"sheets/width.py at {number}: {WHY.get(number)}")


main()
print(*differences, sep="\n", end="\n" * bool(differences))
sys.exit(bool(differences))
