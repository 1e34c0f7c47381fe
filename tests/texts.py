"""What sheets/make.py says of a text, and the sheets that it makes of one.

The lines, words and bytes that are expected here were worked out by hand from
paper 01, requests M-100 and M-106 and sheets/README.md. The last line is 'N
passed, M failed'.
"""

import io
import sys
from contextlib import redirect_stderr, redirect_stdout
from pathlib import Path
from tempfile import TemporaryDirectory

ROOT = Path(__file__).resolve().parent.parent
sys.path.insert(0, str(ROOT / "sheets"))

import make
from listings import EVEN, ODD, fraction, polynomial, rational, root, sheet
from padding import measure_padded
from paragraphs import Faults
from printed import read_formulas
from ready import Tally
from sheet import read
from table import compared_cells

GOOD = """\
# One formula of each kind, in two sheets.
sheet: desk
number: 7
kind: polynomial
interval: [-1, 1]
coefficients: 1, 1,
  1/2

sheet: desk
number: 8
kind: fraction
mode: 2
interval: [-1, 1]
coefficients: 0, 1, 1, -1, 3

sheet: other
number: 9
kind: rational
interval: [-1, 1]
numerator: 12, 6, 1
divisor: 12, -6, 1
bound: 1e-2 relative

sheet: other
number: 10
kind: root
interval: [0, 2]

sheet: other
number: 11
kind: odd
interval: [-1, 1]
coefficients: 1, -1/6

sheet: other
number: 12
kind: even
interval: [-1, 1]
coefficients: 1, -0.5, 0.041 666 67
"""

GONE = None  # for a line that is taken away

# A line of GOOD, what stands there instead, the line of the fault, its words.
FAULTS = [
    # Numbers.
    (6, "coefficients: 1 1,", 6, "a comma is missing in '1 1'"),
    (7, "  1 1/2", 7, "a comma is missing in '1 1/2'"),
    (6, "coefficients: 1, 1", 6, "a comma is missing in '1 1/2'"),
    (7, "  0.5 0.25", 7, "a comma is missing in '0.5 0.25'"),
    (7, "  0.12 5", 7, "a comma is missing in '0.12 5'"),
    (7, "  0.125 1234", 7, "a comma is missing in '0.125 1234'"),
    (7, "  0,5", 7, "a comma between two digits, '0,5'"),
    (6, "coefficients: 1,1,", 6, "a comma between two digits, '1,1'"),
    (7, "  1/2,", 7, "a number is missing beside a comma"),
    (7, "  , 1/2", 7, "a number is missing beside a comma"),
    (7, "  1O", 7, "a letter in the number '1O'"),
    (7, "  0x10", 7, "a letter in the number '0x10'"),
    (7, "  pi", 7, "a letter in the number 'pi'"),
    (7, "  1e9999", 7, "a letter in the number '1e9999'"),
    (7, "  1_0", 7, "'1_0' is no number"),
    (7, "  \u22120.5", 7, "'\u22120.5' is no number"),
    (7, "  0.5.5", 7, "'0.5.5' is no number"),
    (7, "  .", 7, "'.' is no number"),
    (7, "  1/0", 7, "'1/0' divides by 0"),
    (7, "  0." + "3" * 5000, 7, "more than 200 characters"),
    (7, "  128", 7, "'128' is no word"),
    (7, "  -127.99999998", 7, "'-127.99999998' is no word"),
    (7, "  1e999", 7, "'1e999' is no word"),
    (22, "bound: 0", 22, "'0' is no bound"),
    (22, "bound: 1e999", 22, "'1e999' is no bound"),
    (22, "bound: 1e-2 relative to x", 22, "is no bound"),
    (22, "bound: 1e-2 relativ", 22, "a letter in the number"),
    # Counts.
    (6, "coefficients: " + "1, " * 16, 6, "numbers here: 17"),
    (20, "numerator: 1" + ", 0" * 12, 20, "numbers here: 13"),
    (21, "divisor: 1" + ", 0" * 12, 21, "numbers here: 13"),
    (14, "coefficients: 0, 1, 1, -1", 14, "numbers here: 4"),
    (14, "coefficients: 0", 14, "numbers here: 1"),
    (14, "coefficients: 0" + ", 1" * 26, 14, "numbers here: 27"),
    (33, "coefficients: 1" + ", 0" * 16, 33, "numbers here: 17"),
    (39, "coefficients: 1" + ", 0" * 16, 39, "numbers here: 17"),
    # Names.
    (3, "nummer: 7", 3, "unknown name 'nummer'"),
    (3, "Number: 7", 3, "unknown name 'Number'"),
    (3, "number : 7", 3, "unknown name 'number '"),
    (3, "number 7", 3, "no name and colon before 'number 7'"),
    (3, "number: 7\nnumber: 8", 4,
     "number twice in a formula, first in line 3"),
    (3, " number: 7", 3, "a blank before a name"),
    (3, "\tnumber: 7", 3, "a blank before a name"),
    (9, "  sheet: desk", 9, "a blank before a name"),
    (8, "  ", 8, "blanks on an empty line"),
    (8, "\t", 8, "blanks on an empty line"),
    (6, "source: a book,", 2, "missing: coefficients"),
    (3, GONE, 2, "missing: number"),
    (5, GONE, 2, "missing: interval"),
    (11, GONE, 9, "missing: kind"),
    (14, GONE, 9, "missing: coefficients"),
    (20, GONE, 16, "missing: numerator"),
    (33, GONE, 29, "missing: coefficients"),
    (39, GONE, 35, "missing: coefficients"),
    (12, GONE, 9, "missing: mode"),
    (4, "kind: polynomial\nmode: 0", 5, "a polynomial has no mode"),
    (26, "kind: root\nmode: 0", 27, "a root has no mode"),
    (31, "kind: odd\nmode: 0", 32, "an odd formula has no mode"),
    (37, "kind: even\nmode: 0", 38, "an even formula has no mode"),
    (26, "kind: root\ncoefficients: 1", 27, "a root has no coefficients"),
    (21, "divisor: 1\ncoefficients: 1", 22, "a rational has no coefficients"),
    (3, "number:", 3, "nothing stands after number"),
    # What stands after them.
    (2, "sheet: a/b", 2, "'a/b' cannot name a sheet"),
    (2, "sheet: ..", 2, "'..' cannot name a sheet"),
    (2, "sheet: my desk", 2, "'my desk' cannot name a sheet"),
    (2, "sheet: desk.sheet", 2, "'desk.sheet' cannot name a sheet"),
    (2, "sheet: -desk", 2, "'-desk' cannot name a sheet"),
    (2, "sheet: " + "d" * 65, 2, "cannot name a sheet"),
    (2, "sheet: all", 2, "'all' is the sheet of all formulas"),
    (4, "kind: polynom", 4, "unknown kind 'polynom'"),
    (4, "kind: polynomial\nfunction: sin", 5, "unknown function 'sin'"),
    (12, "mode: 3", 12, "'3' is no whole number from 0 to 2"),
    (3, "number: 65536", 3, "'65536' is no whole number from 0 to 65535"),
    (3, "number: -1", 3, "'-1' is no whole number"),
    (3, "number: " + "1" * 5000, 3, "is no whole number"),
    (3, "number: \u0667", 3, "'\u0667' is no whole number"),
    (10, "number: 6", 10, "number 6 is not above 7"),
    (10, "number: 7", 10, "number 7 is not above 7"),
    (17, "number: 8", 17, "number 8 is not above 8"),
    # Intervals.
    (5, "interval: -1, 1", 5, "'-1, 1' is no interval"),
    (5, "interval: [-1, 1", 5, "'[-1, 1' is no interval"),
    (5, "interval: [-1 1]", 5, "'[-1 1]' is no interval"),
    (5, "interval: [-0,5, 1]", 5, "'[-0,5, 1]' is no interval"),
    (5, "interval: [-1, 1] choosen", 5, "is no interval"),
    (5, "interval: [-1, x]", 5, "a letter in the number 'x'"),
    (5, "interval: [-1, pi/0]", 5, "'pi/0' divides by 0"),
    (5, "interval: [-1, 1/0]", 5, "'1/0' divides by 0"),
    (5, "interval: [, 1]", 5, "a number is missing"),
    (5, "interval: [1, -1]", 5, "the low end '1' is above the high end '-1'"),
    (5, "interval: (0, 0.00000001)", 5, "no word lies in"),
    (5, "interval: [1, 1)", 5, "no word lies in"),
    (5, "interval: [0, 128]", 5, "the end '128' is no word"),
    (5, "interval: [-41 pi, 0]", 5, "the end '-41 pi' is no word"),
    (27, "interval: [-0.5, 2]", 27, "a root has no argument below 0"),
    (27, "interval: [0, 2]\nfunction: arcsin x", 27,
     "arcsin x has no value at 1.0009"),
]


# Texts with other faults than one in one line: the lines and words expected.
MORE_FAULTS = [
    (b"", [(1, "no formula stands in this text")]),
    (b"\n# nothing but this\n\n", [(1, "no formula stands in this text")]),
    (GOOD.replace("other", "\udcff", 1).encode(errors="surrogateescape"),
     [(16, "this is no UTF-8")]),
    (GOOD.encode("utf-16"), [(1, "this is no UTF-8")]),
    (GOOD.replace("\n\nsheet: other\nnumber: 10", "\nsheet: x\nnumber: 10")
     .encode(),
     [(23, "sheet twice"), (24, "number twice"), (25, "kind twice"),
      (26, "interval twice")]),
    (GOOD.replace("1/2", "1/0").replace("[0, 2]", "[2, 0]")
     .replace("mode: 2", "mode: 9").encode(),
     [(7, "divides by 0"), (12, "'9' is no"), (27, "the low end '2'")]),
    ("\n".join(f"sheet: full\nnumber: {n}\nkind: root\ninterval: [0, 1]\n"
               for n in range(66)).encode(),
     [(5 * 64 + 1, "formula 65 of sheet full"),
      (5 * 65 + 1, "formula 66 of sheet full")]),
]

ONE_FORMULA = """\
sheet: one
number: 1
kind: {kind}
interval: {interval}
{parts}
"""

# Refusals 7 and 8: kind, numbers, interval, and what is told.
#
# 64x: the bound is 64 A steps, at most 2^31 - 1, so A is 2^25 - 1 steps, which
# is 1.99999994039...; rounded up to eight places it becomes A again if typed.
# As an odd formula it is the same. 64x^2 as an even one: S is 2^25 - 1 steps at
# most, so A squared 2^49 - 2^24, and A 23726566 steps, which is 1.4142135381...
# 1 as an even one: S is 2^31 - 1 at most, so A 189812531, 11.31370848...
# 1/(1 - x): L is 2^24 - A, and 2^48 / L rounded up is at most 2^31 - 1 if L is
# 131073 or more, so A is 16646143 steps, which is 0.99218744039...
# 5 + 7/0 and 1/(0 + x): L is 0 however small A is. 1 / one step is no word.
WIDE = "[-1.99999995, 1.99999995]"
REFUSED = [
    ("polynomial", ["coefficients: 0, 64"], "[-4, 4]", "refused 7, ",
     f"inside {WIDE} is admitted; of the one that was typed, {WIDE}"),
    ("polynomial", ["coefficients: 0, 64"], "[0, 4]", "refused 7, ",
     f"inside {WIDE} is admitted; of the one that was typed, "
     "[0, 1.99999995]"),
    ("polynomial", ["coefficients: 0, 64"], "[-100, 0.5]", "refused 7, ",
     "of the one that was typed, [-1.99999995, 0.5]"),
    ("polynomial", ["coefficients: 0, 64"], "[3, 4]", "refused 7, ",
     f"inside {WIDE} is admitted; of the one that was typed, nothing"),
    ("odd", ["coefficients: 64"], "[0, 4]", "refused 7, ",
     f"inside {WIDE} is admitted; of the one that was typed, "
     "[0, 1.99999995]"),
    ("even", ["coefficients: 0, 64"], "[-4, 4]", "refused 7, ",
     "inside [-1.41421354, 1.41421354] is admitted"),
    ("even", ["coefficients: 1"], "[0, 12]", "refused 7, ",
     "inside [-11.31370849, 11.31370849] is admitted"),
    ("rational", ["numerator: 1", "divisor: 1, -1"], "[-1, 1]", "refused 8, ",
     "inside [-0.99218745, 0.99218745] is admitted"),
    ("rational", ["numerator: 1", "divisor: 0, 1"], "[1, 2]", "refused 8, ",
     "no interval is admitted with these numbers"),
    ("rational", ["numerator: 1", "divisor: 0.00000006"], "[0, 0]",
     "refused 7, ", "no interval is admitted with these numbers"),
    ("fraction", ["mode: 0", "coefficients: 5, 7, 0"], "[0, 1]", "refused 8, ",
     "no interval is admitted with these numbers"),
    # Paper 01's own cases.
    ("rational", ["numerator: 12, 6, 1", "divisor: 12, -6, 1"], "[-2, 2]",
     "refused 8, ", "is admitted"),
    ("rational", ["numerator: 120, 60, 12, 1", "divisor: 120, -60, 12, -1"],
     "[-1, 1]", "refused 7, ", "is admitted"),
]

# Refusal 14: kind, numbers, interval, and the line that is told, which is that of
# the coefficients or of the numerator. Half a step is 1/33554432. It comes before
# 7, as for 12 times 12, and before 8, as for a divisor of 0 and of 0 + x²/1.
BLANK = [
    ("polynomial", ["coefficients: 0"], "[-1, 1]", 5),
    ("polynomial", ["coefficients: 0, -0.0,", "  0/7"], "[0, 0]", 5),
    ("polynomial", ["coefficients: 1/33554433, -2.9e-8"], "[-1, 1]", 5),
    ("odd", ["coefficients: 0" + ", 0" * 15], "[-1, 1]", 5),
    ("even", ["coefficients: 0, 0"], "[-1, 1]", 5),
    ("even", ["coefficients: 0"], "[0, 12]", 5),
    ("rational", ["numerator: 0, 0", "divisor: 1, 1"], "[0, 0.5]", 5),
    ("rational", ["divisor: 0", "numerator: 0"], "[-1, 1]", 6),
    ("fraction", ["mode: 0", "coefficients: 0, 0, 1"], "[-1, 1]", 6),
    ("fraction", ["coefficients: 0, 0, 0, 1, 1", "mode: 2"], "[-1, 1]", 5),
]

# Formulas that are nearly blank, and their words.
NEARLY = [
    ("polynomial", ["coefficients: 0, 0, 1/33554432"], (0, 0, 1)),
    ("odd", ["coefficients: -3e-8, 0"], (-1, 0)),
    ("even", ["coefficients: 0, 3e-8"], (0, 1)),
    ("rational", ["numerator: 0, 1/16777216", "divisor: 2"],
     (0, 1, 33554432)),
    ("fraction", ["mode: 0", "coefficients: -1/16777216, 0, 1"],
     (-1, 0, 16777216)),
    ("fraction", ["mode: 0", "coefficients: 0, 1/16777216, 1"],
     (0, 1, 16777216)),
]

# Intervals and their words: pi/2 is 26353589.27 steps, 40 pi 2108287141.33,
# sqrt(2)/2 11863283.20, 0.1 1677721.6.
INTERVALS = [
    ("[-1, 1]", -16777216, 16777216),
    ("[-1,1]", -16777216, 16777216),
    ("(-1, 1)", -16777215, 16777215),
    ("[0.1, 0.1000001] chosen", 1677722, 1677723),
    ("[-0.1, 0.1]", -1677721, 1677721),
    ("[-pi/2, pi/2]", -26353589, 26353589),
    ("(-pi / 2, 1/2 )", -26353589, 8388607),
    ("[pi/2, 40 pi]", 26353590, 2108287141),
    ("[3*pi/4, 40pi)", 39530384, 2108287141),
    ("[-sqrt(2)/2, sqrt(2)/2]", -11863283, 11863283),
    ("[-sqrt(4), sqrt(4))", -33554432, 33554431),
    ("[-127.999 999 95, 127.99999 995]", -2147483647, 2147483647),
]

# Numbers and their words; 33554432 half steps are one.
NUMBERS = [
    ("0", 0), ("1", 16777216), ("-1/2", -8388608), ("+ .5", 8388608),
    ("5.", 83886080), ("1/33554432", 1), ("-1/33554432", -1),
    ("3/33554432", 2), ("0.999 866 0", 16774968), ("0.99986 60", 16774968),
    ("25e-2", 4194304), ("0.000 000 029", 0), ("0.000 000 030", 1),
    ("127.999 999 94", 2147483647), ("-127.99999997", -2147483647),
]


def with_line(number, instead):
    """GOOD with another line, or without it."""
    lines = GOOD.splitlines()
    lines[number - 1:number] = [] if instead is GONE else [instead]
    return "\n".join(lines) + "\n"


def status_of(words):
    """The status of a call, or the exception that it should not raise."""
    try:
        return make.main(words)
    except Exception as exception:
        return exception


class Made:
    """What became of a text: status, lines on standard error, files."""

    def __init__(self, content):
        said, told = io.StringIO(), io.StringIO()
        with TemporaryDirectory() as room:
            text, folder = Path(room, "mine.txt"), Path(room, "out")
            text.write_bytes(content)
            with redirect_stdout(said), redirect_stderr(told):
                self.status = status_of([str(text), "--out", str(folder)])
            self.files = {path.name: path.read_bytes()
                          for path in folder.glob("*")}
            left = {path.name for path in Path(room).iterdir()}
        self.told = told.getvalue().replace(f"{text}:", "").splitlines()
        if self.status not in (0, 1):
            self.told.append(repr(self.status))
        self.nothing = left == {"mine.txt"} and not said.getvalue()

    def says(self, expected):
        """Whether it was refused with these lines and words alone."""
        return (
            self.status == 1 and self.nothing
            and len(self.told) == len(expected)
            and all(line.startswith(f"{number}: ") and words in line
                    for line, (number, words) in zip(self.told, expected)))


def one_formula(kind, parts, interval):
    return ONE_FORMULA.format(
        kind=kind, parts="\n".join(parts), interval=interval).encode()


def check_faults(tally):
    for number, instead, line, words in FAULTS:
        made = Made(with_line(number, instead).encode())
        tally.hold(f"{number} {instead!r:.60}: {made.told}",
                   made.says([(line, words)]))
    for content, expected in MORE_FAULTS:
        made = Made(content)
        tally.hold(f"{content[:60]}: {made.told}", made.says(expected))


def check_refusals(tally):
    for kind, parts, interval, refused, words in REFUSED:
        made = Made(one_formula(kind, parts, interval))
        tally.hold(f"{kind} {parts} on {interval}: {made.told}",
                   made.says([(4, refused)]) and words in made.told[0])
    for kind, parts, typed, steps in [
            ("polynomial", ["coefficients: 0, 64"], WIDE, 33554431),
            ("odd", ["coefficients: 64"], WIDE, 33554431),
            ("even", ["coefficients: 0, 64"], "[-1.41421354, 1.41421354]",
             23726566),
            ("rational", ["numerator: 1", "divisor: 1, -1"],
             "[-0.99218745, 0.99218745]", 16646143)]:
        made = Made(one_formula(kind, parts, typed))
        tally.hold(f"{kind} on {typed}: {made.told}", made.status == 0
                   and read(made.files["one.sheet"])[0].hi == steps)
        wider = f"[0, {steps + 1}/16777216]"
        tally.hold(f"{kind} on {wider}",
                   Made(one_formula(kind, parts, wider)).status == 1)


def check_blank(tally):
    for kind, parts, interval, line in BLANK:
        made = Made(one_formula(kind, parts, interval))
        tally.hold(f"{kind} {parts} on {interval}: {made.told}", made.says(
            [(line, "refused 14, the formula is blank and could only answer")]))
    for kind, parts, words in NEARLY:
        made = Made(one_formula(kind, parts, "[-1, 1]"))
        formula = read(made.files["one.sheet"])[0] if made.files else None
        tally.hold(f"{kind} {parts}: {made.told or formula}",
                   formula and formula.words == words)


def expected_files():
    """The sheets of GOOD by the layout of paper 01 and request M-100."""
    one = 16777216
    records = [
        polynomial(7, -one, one, one, one, one // 2),
        fraction(8, -one, one, 2, 0, one, one, -one, 3 * one),
        rational(9, -one, one, [12 * one, 6 * one, one],
                 [12 * one, -6 * one, one]),
        root(10, 0, 2 * one),
        polynomial(11, -one, one, one, -2796203, kind=ODD),
        polynomial(12, -one, one, one, -one // 2, 699051, kind=EVEN),
    ]
    return {"desk.sheet": sheet(*records[:2]),
            "other.sheet": sheet(*records[2:]), "all.sheet": sheet(*records)}


def check_good(tally):
    expected = expected_files()
    windows = b"\xef\xbb\xbf" + GOOD.replace("\n", "\r\n").encode()
    for content in GOOD.encode(), windows, GOOD.rstrip().encode():
        made = Made(content)
        sums = made.files.pop("mine.sha256", None)
        tally.hold(f"the good text: {made.told}", made.status == 0
                   and not made.told and made.files == expected and sums)
    tally.hold("the sheets are read", sorted(
        len(read(content)) for content in expected.values()) == [2, 4, 6])
    for interval, lo, hi in INTERVALS:
        made = Made(one_formula("polynomial", ["coefficients: 1"], interval))
        formula = read(made.files["one.sheet"])[0] if made.files else None
        tally.hold(f"{interval}: {made.told or formula}",
                   formula and formula[2:4] == (lo, hi))
    for text, word in NUMBERS:
        # behind a 1, without which 0 would be a blank formula
        made = Made(one_formula(
            "polynomial", [f"coefficients: 1, {text}"], "[0, 0]"))
        formula = read(made.files["one.sheet"])[0] if made.files else None
        tally.hold(f"{text}: {made.told or formula}",
                   formula and formula.words == (16777216, word))


def check_cut(tally):
    """However a text is cut or mistyped, it is refused or makes sheets."""
    bad = [GOOD[:at] for at in range(0, len(GOOD), 3)]
    bad += [GOOD[:at] + wrong + GOOD[at + 1:] for at in range(1, len(GOOD), 7)
            for wrong in ("", " ", "\n", ":", ",", "9", "e", "\0")]
    for text in bad:
        made = Made(text.encode())
        lines = [line.partition(": ")[0] for line in made.told]
        tally.hold(f"{text!r}: {made.told}", (
            made.status == 0 and "mine.sha256" in made.files if not lines else
            made.status == 1 and made.nothing
            and all(line.isdigit() for line in lines)))


def check_padding(tally):
    """The bytes of odd and even formulas beside those of the padded ones: a
    record holds 16 numbers, so nine terms are too many for an odd one."""
    for kind, terms, cells in (
            ("odd", 8, ("48", "80")), ("odd", 9, ("52", "–")),
            ("even", 8, ("48", "76")), ("even", 9, ("52", "–"))):
        text = one_formula(kind, ["function: sin x", "coefficients: 1"
                                  + ", 0" * (terms - 1)], "[0, 0]")
        (printed,) = read_formulas(text.decode(), [], Faults())
        found = compared_cells(printed, measure_padded(printed, 2))
        tally.hold(f"{kind} of {terms}: {found}", (*found[1:],) == cells
                   and (found[0] == "–") == (cells[1] == "–"))


def main():
    tally = Tally()
    check_faults(tally)
    check_refusals(tally)
    check_blank(tally)
    check_good(tally)
    check_cut(tally)
    check_padding(tally)
    print(f"{tally.passed} passed, {tally.failed} failed")
    return 1 if tally.failed else 0


sys.exit(main())
