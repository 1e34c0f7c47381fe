"""Makes angles as they are typed, and what the command has to make of them.

    python3 tests/angles.py FOLDER

writes 'texts', an angle a line, and 'taken', the part of a turn that each is,
and whether exactly, or 'none'; and for each case of `sine` and `cosine`
NAME.args, a word of the call a line, and NAME.out. Angles are taken by exact
fractions here; sines and cosines are the second program's, but rounded too
where an angle had to be.
"""

import sys
from fractions import Fraction
from math import floor
from pathlib import Path
from random import Random

from asked import EXACT, ROOT, WORDS, mark, shown
from formulas import ODD, Formula
from makers import sheet_of
from number import ONE
from turn import TURN, cosine, sine

UNITS = {"deg": 360, "t": 1}  # how many are a turn
DRAWN = 100  # of each sort
FEW = 200  # angles that every ready formula is asked

NO_ANGLES = [
    "", "-", "+", ".", "deg", "t", ".deg", "-t", "+.t", "30 deg", " 30deg",
    "30deg ", "30degs", "30Deg", "30DEG", "0.5T", "30d", "30\u00b0", "1e3deg",
    "1,5deg", "0x10t", "0x10deg", "--5deg", "+-5deg", "1.2.3t", "1.5", "0.5",
    "1.", "-1", "+1", "-0", "1w", "nan", "inf", "0x", "0X10", "0xg", "0x1 ",
    "0x-1", "x10", "4294967296", "18446744073709551616", "9" * 40,
    "0x100000000", "0x10000000000000000", "0x" + "f" * 40]

WHOLE = {
    "0": 0, "1": 1, "4294967295": TURN - 1, "0x0": 0, "0xffffffff": TURN - 1,
    "0xFFFFFFFF": TURN - 1, "0xAbC": 0xABC, "010": 10, "0" * 40 + "7": 7,
    "0x" + "0" * 40 + "7": 7}

TYPED = [
    "0deg", "-0deg", "+0.0t", "30deg", "-12.5deg", "+45deg", ".5deg", "5.deg",
    "0.125t", "-1.25t", ".5t", "-.25t", "1.t", "360deg", "-360deg", "720.5deg",
    "359.99999999deg", "359.9999999999deg", "-359.9999999999deg",
    "0.9999999999999t", "1t", "-1t", "00000.25t", "9" * 50 + ".75t",
    "-" + "9" * 50 + ".125deg", "0.0000000149011611938476562500t"] + [
    # whole numbers of 64 parts, and more in a place far behind
    sign + text + "0" * zeros + "1" + unit
    for text, unit in (("0.125", "t"), ("45.0", "deg"), ("0.0", "t"))
    for sign in ("", "-") for zeros in (12, 29, 30, 31, 32, 60)]


def fraction_of(text):
    """The exact number of turns."""
    unit = "deg" if text.endswith("deg") else "t"
    return Fraction(text[:-len(unit)]) / UNITS[unit]


def taken(text):
    """The part of a turn: the size is rounded, a tie up, then the sign comes."""
    turns = fraction_of(text)
    size = floor(abs(turns) * TURN + Fraction(1, 2))
    return (-size if turns < 0 else size) % TURN


def exactly(text):
    """Whether a text is a whole number of parts."""
    return text in WHOLE or (fraction_of(text) * TURN).denominator == 1


def decimal(value, places):
    """The size of a fraction to so many places, cut off behind them."""
    digits = str(floor(abs(value) * 10 ** places)).rjust(places + 1, "0")
    return digits[:-places] + "." + digits[-places:]


def ties(draw):
    """Half a part more than a whole number of them, exactly, and just beside.

    A tie in turns has 33 decimal places. Every other tie lies where the
    argument of a sine changes too, so that the command shows how it went.
    """
    for unit, per in UNITS.items():
        for i in range(DRAWN):
            part = draw.randrange(TURN)
            if i % 2:
                part = part // 64 * 64 + 31
            tie = Fraction(2 * part + 1, 2 * TURN)
            tie += draw.choice((0, 0, 1, 7, 10 ** 30))
            sign = draw.choice(("", "-", "+"))
            exact = decimal(tie * per, 33)
            assert Fraction(exact) == tie * per
            below = decimal(tie * per - Fraction(1, 10 ** 60), 60)
            for text in exact, exact + "0" * 40 + "1", below:
                yield sign + text + unit


def any_digits(draw):
    for unit in UNITS:
        for _ in range(DRAWN):
            whole, behind = (
                "".join(draw.choices("0123456789", k=draw.randrange(most)))
                for most in (45, 60))
            sign = draw.choice(("", "-", "+"))
            yield sign + (whole or "0") + "." + behind + unit


def cases(folder, angles):
    """Function, sheet, number, angles and options."""
    itself = folder / "it self.sheet"  # x, which shows its argument
    itself.write_bytes(sheet_of([Formula(ODD, 1, 0, ONE, 1, 0, 0, (ONE,))]))
    ready = ROOT / "sheets" / "sine-quarter.sheet"
    for function in sine, cosine:
        for number, options in ((11, []), (12, [WORDS]), (13, [EXACT]),
                                (14, [EXACT, WORDS])):
            yield function, ready, number, angles[:FEW], options
        yield function, itself, 1, angles, [WORDS, EXACT]


def answered(function, content, number, text, part, options):
    answer = function(content, number, part)
    line = shown(answer.word, WORDS in options)
    if EXACT in options:
        line += " " + mark(answer.exact and exactly(text))
    return line


def put(path, lines):
    path.write_text("".join(f"{line}\n" for line in lines), encoding="utf-8")


def main():
    folder = Path(sys.argv[1])
    draw = Random(102)
    turns = TYPED + list(ties(draw)) + list(any_digits(draw))
    parts = dict(WHOLE, **{text: taken(text) for text in turns})
    put(folder / "texts", [*parts, *NO_ANGLES])
    put(folder / "taken",
        [f"{part} {mark(exactly(text))}" for text, part in parts.items()]
        + ["none"] * len(NO_ANGLES))
    for function, sheet, number, asked, options in cases(folder, list(parts)):
        content = sheet.read_bytes()
        verb = function.__name__
        put(folder / f"{verb}-{number}.args",
            [verb, sheet, number, *asked, *options])
        put(folder / f"{verb}-{number}.out",
            [answered(function, content, number, text, parts[text], options)
             for text in asked])


main()
