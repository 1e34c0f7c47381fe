"""Makes inputs for the listing program, and what it has to print for each.

    python3 tests/listings.py FOLDER

writes NAME.in and NAME.out for each case. The listing is worked out here from
paper 01 and requests M-100 and M-106, over the second program's reader; the
program under test has no part in it. Records and sheets are put together by the
paper's layout, for other tests too.
"""

import sys
from pathlib import Path
from struct import pack

ROOT = Path(__file__).resolve().parent.parent
sys.path.append(str(ROOT / "oracle"))

from formulas import EVEN, FRACTION, ODD, POLYNOMIAL, RATIONAL
from formulas import ROOT as SQUARE_ROOT
from number import M, ONE
from refusal import Refused
from sheet import read

MOST_BYTES = 8192
NAMES = {POLYNOMIAL: "polynomial", RATIONAL: "rational",
         FRACTION: "fraction", SQUARE_ROOT: "root", ODD: "odd", EVEN: "even"}


def listing(content):
    if len(content) > MOST_BYTES:
        return "too long\n"
    try:
        formulas = read(content)
    except Refused as refusal:
        return f"{refusal}\n"
    lines = [f"formulas {len(formulas)}\n"]
    for f in formulas:
        lines.append(f"{f.number} {NAMES[f.kind]} {f.lo} {f.hi}\n")
    return "".join(lines)


def record(kind, number, lo, hi, rest=b""):
    return pack("<IHHii", 16 + len(rest), kind, number, lo, hi) + rest


def start(count):
    return pack("<IHH", 8, 0x0001, count)


def end(count):
    return pack("<IHH", 8, 0xFFFF, count)


def sheet(*records):
    return start(len(records)) + b"".join(records) + end(len(records))


def polynomial(number, lo, hi, *words, kind=POLYNOMIAL):
    """An odd or even one is laid out alike."""
    return record(kind, number, lo, hi, pack(f"<{len(words)}i", *words))


def root(number, lo, hi):
    return record(SQUARE_ROOT, number, lo, hi)


def rational(number, lo, hi, above, below):
    counts = pack("<HH", len(above), len(below))
    words = pack(f"<{len(above) + len(below)}i", *above, *below)
    return record(RATIONAL, number, lo, hi, counts + words)


def fraction(number, lo, hi, mode, *words):
    """Its words are b0, then a and b for each depth."""
    head = pack("<HH", mode, len(words) // 2)
    return record(FRACTION, number, lo, hi,
                  head + pack(f"<{len(words)}i", *words))


# One input for each refusal of a sheet; the number is checked when it is made.
REFUSED = {
    1: start(1) + root(1, 0, 1)[:15],
    2: start(1) + root(1, 0, 1) + b"\0" * 8,
    3: start(1) + start(1) + end(1),
    4: start(2) + root(1, 0, 1) + end(2),
    5: sheet(root(7, 0, 1), root(7, 0, 1)),
    6: sheet(root(1, -1, 1)),
    7: sheet(polynomial(1, 0, 1, M, 1)),
    8: sheet(rational(1, -ONE, ONE, [ONE], [ONE, ONE])),
    9: sheet(root(1, 0, 1)) + b"\0",
    14: sheet(root(1, 0, 1), polynomial(2, 0, 1, 0)),
}

EXTREMES = sheet(
    polynomial(0, -M, M, 1), polynomial(1, -M, -M, -M), root(2, M, M),
    polynomial(9, -1, 0, 1), polynomial(10, -10, 10, -1),
    root(65534, 0, 0), root(65535, 0, M))

# Odd and even formulas at their limits. S is a word up to this end: its square
# is not above 2^24 times M, that of the next is. M is the largest coefficient
# of an odd formula on -1 to 1.
WIDEST = 189812531
SIXTEEN = [ONE // n for n in range(1, 17)]
ODD_AND_EVEN = sheet(
    polynomial(3, -WIDEST, WIDEST, 1, kind=ODD),
    polynomial(4, -WIDEST, WIDEST, 1, kind=EVEN),
    polynomial(5, -ONE, ONE, *SIXTEEN, kind=ODD),
    polynomial(6, -ONE, ONE, *SIXTEEN, kind=EVEN),
    polynomial(7, -ONE, ONE, M, kind=ODD))
BEYOND = {
    "odd-too-wide": sheet(polynomial(3, 0, WIDEST + 1, 1, kind=ODD)),
    "even-too-wide": sheet(polynomial(4, 0, WIDEST + 1, 1, kind=EVEN)),
    "odd-too-large": sheet(polynomial(7, 0, ONE + 1, M, kind=ODD)),
}

# Blank formulas of each kind, of which some would be refused by 7 or 8 too, and
# a sheet of such as are nearly blank.
BLANK = {
    "blank-polynomial": sheet(polynomial(1, -ONE, ONE, *[0] * 16)),
    "blank-odd": sheet(polynomial(1, 0, WIDEST + 1, 0, kind=ODD)),
    "blank-even": sheet(polynomial(1, 0, 0, 0, 0, kind=EVEN)),
    "blank-rational": sheet(rational(1, -ONE, ONE, [0, 0], [ONE])),
    "blank-over-zero": sheet(rational(1, -ONE, ONE, [0], [0])),
    "blank-fraction":
        sheet(fraction(1, -ONE, ONE, 2, 0, 0, ONE, -ONE, 3 * ONE)),
    "blank-before-zero": sheet(fraction(1, -ONE, ONE, 0, 0, 0, 0)),
}
NEARLY_BLANK = sheet(
    polynomial(1, -ONE, ONE, *[0] * 15, 1), polynomial(2, -ONE, ONE, -1, 0),
    polynomial(3, -ONE, ONE, 0, -1, kind=ODD),
    polynomial(4, -ONE, ONE, 0, 1, kind=EVEN),
    rational(5, -ONE, ONE, [0, 1], [ONE]), rational(6, 0, 0, [-1, 0], [ONE]),
    fraction(7, -ONE, ONE, 0, 1, 0, ONE), fraction(8, 0, 0, 1, 0, -1, ONE),
    root(9, 0, 0))


def cases():
    for number, content in REFUSED.items():
        assert listing(content).startswith(f"refused {number} at "), number
        yield f"refused-{number}", content
    for name, content in BEYOND.items():
        assert listing(content) == "refused 7 at 8\n", name
        yield name, content
    for name, content in BLANK.items():
        assert listing(content) == "refused 14 at 8\n", name
        yield name, content
    assert listing(NEARLY_BLANK).startswith("formulas 9\n")
    yield "nearly-blank", NEARLY_BLANK
    yield "odd-and-even", ODD_AND_EVEN
    yield "extremes", EXTREMES
    full = sheet(*(root(n, 0, n) for n in range(64)))
    yield "sixty-four", full
    yield "sixty-five", start(64) + full[8:-8] + root(64, 0, 0) + end(64)
    yield "exactly-8192", full + bytes(MOST_BYTES - len(full))
    yield "zeros-8192", bytes(MOST_BYTES)
    yield "8193", full + bytes(MOST_BYTES + 1 - len(full))
    yield "long", bytes(100000)
    for path in sorted((ROOT / "sheets").glob("*.sheet")):
        content = path.read_bytes()
        assert listing(content).startswith("formulas "), path.name
        yield path.stem, content


def main():
    folder = Path(sys.argv[1])
    for name, content in cases():
        (folder / f"{name}.in").write_bytes(content)
        (folder / f"{name}.out").write_text(listing(content))


if __name__ == "__main__":
    main()
