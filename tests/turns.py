"""Holds the README's table of errors of sine and cosine against the command.

    python3 tests/turns.py

Run it from the repository's root. Prints each row that does not hold, then
'N passed, M failed'; the status is 0 where all hold.
"""

import re
import subprocess
import sys
from math import ceil, pi, sin
from pathlib import Path
from random import Random

SHEET = "sheets/sine-quarter.sheet"
NUMBERS = ["11", "12", "13", "14"]
ONE, QUARTER, TURN = 2 ** 24, 2 ** 30, 2 ** 32
DRAWN = 1500  # angles of each sort
ROW = re.compile(
    r"^\| (\d+), \d+ terms \|" + r" ([0-9.]+) \| (0x[0-9a-f]+) \|" * 2 + "$",
    re.MULTILINE)

draw = Random(102)


def true_sine(angle):
    """In steps, by way of the first quarter."""
    quarter, f = divmod(angle % TURN, QUARTER)
    value = sin(pi / 2 * (QUARTER - f if quarter % 2 else f) / QUARTER) * ONE
    return -value if quarter >= 2 else value


def errors(verb, number, angles):
    said = subprocess.run(
        ["./valvepigeon", verb, SHEET, number, "--words", *map(str, angles)],
        check=True, stdout=subprocess.PIPE).stdout.split()
    assert len(said) == len(angles)
    more = QUARTER if verb == "cosine" else 0
    return [abs(int(word) - true_sine(angle + more))
            for word, angle in zip(said, angles)]


def rounded_up(error):
    return f"{ceil(100 * error) / 100:.2f}"


def row_holds(number, at_argument, middle, at_angle, angle):
    """Whether each thing that a row says holds, by its name."""
    named = [int(middle, 16), int(angle, 16)]
    worst = [rounded_up(error) for error in errors("sine", number, named)]
    yield "the worst argument", named[0] % 64 == 0
    yield "the worst errors", worst == [at_argument, at_angle]
    arguments = [64 * draw.randrange(TURN // 64) for _ in range(DRAWN)]
    angles = [draw.randrange(TURN) for _ in range(DRAWN)]
    for verb in "sine", "cosine":
        yield (f"{verb} at arguments",
               max(errors(verb, number, arguments)) <= float(at_argument))
        yield (f"{verb} at angles",
               max(errors(verb, number, angles)) <= float(at_angle))


def main():
    rows = ROW.findall(Path("README.md").read_text(encoding="utf-8"))
    held = {"a row for each formula": [row[0] for row in rows] == NUMBERS}
    for row in rows:
        for what, holds in row_holds(*row):
            held[f"formula {row[0]}, {what}"] = holds
    for what, holds in held.items():
        if not holds:
            print(f"FAILED: README.md: {what}")
    failed = list(held.values()).count(False)
    print(f"{len(held) - failed} passed, {failed} failed")
    return 1 if failed else 0


if __name__ == "__main__":
    sys.exit(main())
