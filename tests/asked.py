"""Makes questions for `valvepigeon ask`, and what it has to print for each.

    python3 tests/asked.py FOLDER

writes for each case NAME.args, a word of the call a line, and NAME.out. The
answers are the second program's; a decimal is rounded, and a word is shown as
a decimal, by exact fractions here. The answer to a decimal that had to be
rounded is rounded too, whatever the second program says of the word.
"""

import sys
from fractions import Fraction
from itertools import product
from math import floor
from pathlib import Path

ROOT = Path(__file__).resolve().parent.parent
sys.path.append(str(ROOT / "oracle"))

from evaluation import evaluate
from formulas import EVEN, FRACTION, ODD, POLYNOMIALS, RATIONAL
from listings import (
    NAMES, ODD_AND_EVEN, fraction, polynomial, rational, root, sheet)
from number import M, ONE
from refusal import Refused
from sheet import formula_of, read

HALF_STEP = Fraction(1, 2 * ONE)
OPTIONS = WORDS, STEPS, EXACT = "--words", "--steps", "--exact"
EVERY_WAY = [[option for option, given in zip(OPTIONS, way) if given]
             for way in product((False, True), repeat=len(OPTIONS))]


def decimal(value):
    """A fraction whose denominator is a power of two, without end zeros."""
    digits = str(abs(value) * 10 ** 30 // 1).rjust(31, "0")
    text = (digits[:-30] + "." + digits[-30:]).rstrip("0").rstrip(".")
    return "-" * (value < 0) + text


def shown(word, as_words):
    return str(word) if as_words else decimal(Fraction(word, ONE))


def word_of(text):
    if text.endswith("w"):
        return int(text[:-1])
    value = Fraction(text)
    size = floor(abs(value) * ONE + Fraction(1, 2))  # a tie: away from zero
    return -size if value < 0 else size


def exactly(text):
    """Whether a text is a whole number of steps."""
    return text.endswith("w") or (Fraction(text) * ONE).denominator == 1


def mark(exact):
    return "exact" if exact else "rounded"


def answered(content, number, text, options):
    try:
        answer = evaluate(content, number, word_of(text))
    except Refused as refusal:
        return str(refusal)
    line = shown(answer.word, WORDS in options)
    if STEPS in options:
        line += f" {answer.steps}"
    if EXACT in options:
        line += " " + mark(answer.exact and exactly(text))
    return line


def fields(formula, as_words):
    """What is printed of a formula that is asked nothing."""
    f = formula
    if f.kind in POLYNOMIALS:
        counts = [f"coefficients {f.p}"]
        names = [f"c{i}" for i in range(f.p)]
    elif f.kind == RATIONAL:
        counts = [f"coefficients {f.p} over {f.q}"]
        names = [f"n{i}" for i in range(f.p)] + [f"d{i}" for i in range(f.q)]
    elif f.kind == FRACTION:
        counts = [f"mode {f.mode}", f"depth {f.p}"]
        names = ["b0"] + [f"{x}{i}" for i in range(1, f.p + 1) for x in "ab"]
    else:
        counts = names = []
    assert len(names) == len(f.words)
    ends = f"{shown(f.lo, as_words)} {shown(f.hi, as_words)}"
    return [f"number {f.number}", f"kind {NAMES[f.kind]}",
            f"interval {ends}", *counts,
            *(f"{name} {shown(word, as_words)}"
              for name, word in zip(names, f.words))]


# The formula x on all words, which gives back what its argument was taken for.
ITSELF = sheet(polynomial(1, -M, M, 0, ONE))

TYPED = [
    "0", "-0", "+0.0", "1", "-1", "+1", "0.5", ".5", "5.", "-.25", "00127",
    "0.1", "-0.1", "3.14159265358979", "127.99999994", "-127.99999994",
    "0w", "-0w", "1w", "-1w", "+7w", "2147483647w", "-2147483647w",
    # beyond the words, each way
    "2147483648w", "-2147483648w", "99999999999999999999999w", "128", "-128",
    "127.99999998", "4294967296", "99999999999999999999999999.5",
] + [
    # one half step and its odd multiples, up to those on either side of the
    # largest word, exactly, and just beside them
    sign + decimal(multiple * HALF_STEP) + tail
    for multiple in (1, 3, 2 * ONE + 1, 2 * M - 1, 2 * M + 1)
    for sign in ("", "-") for tail in ("", "0", "0" * 40 + "1")
] + [
    # whole numbers of steps, and more in a place far behind
    sign + text + tail
    for text in ("0.0", "0.5", "7.000000059604644775390625")
    for sign in ("", "-")
    for tail in ["", *("0" * zeros + "1" for zeros in (0, 8, 31, 32, 60))]
] + ["0.0000000298023223876953124999999", "-0.0000000298023223876953124999999"]

# A root of every word that has one, and words that lie beside powers of two,
# where the most and the fewest steps are taken, the 7 of 67108868 among them.
ROOTS = sheet(root(1, 0, M))
ROOTED = [f"{2 ** power + i}w" for power in range(31) for i in range(-8, 9)]

# Formulas of each kind, with and without a use of the argument's square, and
# arguments of which some leave nothing to round, and some are rounded.
MARKED = sheet(
    polynomial(1, -ONE, ONE, 0, 1), polynomial(2, -ONE, ONE, 9),
    rational(3, -ONE, ONE, [0, ONE], [2 * ONE]),
    rational(4, -ONE, ONE, [ONE, 1], [ONE, 1]),
    fraction(5, -ONE, ONE, 0, 0, ONE, 2 * ONE),
    fraction(6, -ONE, ONE, 1, 0, ONE, ONE),
    fraction(7, -ONE, ONE, 2, 0, ONE, ONE),
    fraction(8, -ONE, ONE, 2, 0, ONE, ONE, 0, ONE),
    polynomial(9, -ONE, ONE, ONE, kind=ODD),
    polynomial(10, -ONE, ONE, ONE, 0, kind=ODD),
    polynomial(11, -ONE, ONE, 9, kind=EVEN),
    polynomial(12, -ONE, ONE, 9, 0, kind=EVEN),
    root(13, 0, ONE))
ARGUMENTS = ["0", "1", "-1", "0.5", "-.5", "0.25", "0.1", "-0.1"] + [
    f"{n}w" for n in (1, 2, 3, 4, 4096, 4097, -1, -2, -3, -4096, -4097)]


def about(f, path):
    """Questions about a formula of a sheet: its ends, what lies beside them, by
    a step and by half of one, its middle and a half of each side; and its
    fields."""
    middle = (f.lo + f.hi) // 2
    asked = [f"{w}w" for w in (f.lo, f.hi, middle, f.lo // 2, f.hi // 2,
                               f.lo - 1, f.hi + 1)]
    asked += [decimal(Fraction(f.hi, ONE)),
              decimal(Fraction(f.lo, ONE) - HALF_STEP),
              decimal(Fraction(f.hi, ONE) + HALF_STEP)]
    for options in EVERY_WAY:
        yield str(f.number), path, f.number, asked, options
    for options in [], [WORDS]:
        yield f"{f.number}-fields", path, f.number, [], options


def cases(folder):
    """Name, sheet, number, arguments and options of each."""
    itself, roots = folder / "it self.sheet", folder / "roots.sheet"
    marked = folder / "marked.sheet"
    itself.write_bytes(ITSELF)
    roots.write_bytes(ROOTS)
    marked.write_bytes(MARKED)
    for options in EVERY_WAY:
        yield "typed", itself, 1, TYPED, options
        yield "rooted", roots, 1, ROOTED, options
    for f in read(MARKED):
        yield f"marked-{f.number}", marked, f.number, ARGUMENTS, [EXACT]
    ready = ROOT / "sheets" / "all.sheet"
    seen = set()
    for f in read(ready.read_bytes()):
        if (f.kind, f.mode) not in seen:
            yield from about(f, ready)
        seen.add((f.kind, f.mode))
    made = folder / "odd-and-even.sheet"
    made.write_bytes(ODD_AND_EVEN)
    for f in read(ODD_AND_EVEN):
        yield from about(f, made)


def main():
    folder = Path(sys.argv[1])
    for name, path, number, asked, options in cases(folder):
        content = path.read_bytes()
        if asked:
            lines = [answered(content, number, a, options) for a in asked]
            told = {line.split()[-1] for line in lines}
            assert not name.startswith("marked") or {"exact", "rounded"} <= told
        else:
            lines = fields(formula_of(content, number), WORDS in options)
        words = [str(path), str(number), *asked, *options]
        name += "".join(options)
        (folder / f"{name}.args").write_text("\n".join(words) + "\n")
        (folder / f"{name}.out").write_text("\n".join(lines) + "\n")


if __name__ == "__main__":
    main()
