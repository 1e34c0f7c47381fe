"""Reads the worked examples out of docs/FORMAT.md and puts them to the second program.

    python3 tests/format.py FOLDER

prints a line for each example that the second program answers otherwise, then
'N passed, M failed'. Into the folder go the same examples with the page's own
answers: for the library ('vectors', laid out as oracle/README.md says), for
the listing program (N.in and N.out) and for the shell ('commands').
"""

import re
import sys
from pathlib import Path
from struct import pack

ROOT = Path(__file__).resolve().parent.parent
sys.path.append(str(ROOT / "oracle"))

import damage
import number
import questions
from formulas import FRACTION, POLYNOMIAL, RATIONAL, Formula
from formulas import ROOT as SQUARE_ROOT
from listings import NAMES, listing
from makers import sheet_of
from number import M, ONE
from sheet import END

KINDS = {name: kind for kind, name in NAMES.items()}
KINDS["end"] = END
ENOUGH_ROOM = 200

sheets = {}     # the page's sheets, by name
vectors = []    # questions with the page's answers
listings = []   # sheets with the page's listings
commands = []   # lines for a shell
told = []       # what does not hold
held = []       # what does


def check(good, what):
    (held if good else told).append(what)


# ---- sheets, changes to them, and formulas, as the page writes them

def changed(content, change):
    first, *rest = change.split()
    if first == "to":
        return content[:int(rest[0])]
    if first == "from":
        return content[int(rest[0]):]
    if first == "+":
        return content + bytes.fromhex(rest[0])
    at, other = int(first), bytes.fromhex(rest[1])
    return content[:at] + other + content[at + len(other):]


def bytes_of(text):
    """The bytes of 'NAME, CHANGE, ...', or of one of the other forms."""
    if text == "nothing":
        return b""
    if text.endswith(" zeros"):
        return bytes(int(text.split()[0]))
    if text.startswith("bytes "):
        return bytes.fromhex(text[len("bytes "):])
    if text.startswith("run of "):
        return bytes_of(text[len("run of "):])[8:-8]
    name, *changes = text.split(", ")
    content = sheets[name]
    for change in changes:
        content = changed(content, change)
    return content


def formula_of(text):
    """The fields of 'KIND NUMBER [LO, HI] WORDS'."""
    kind, own, mode, lo, hi, rest = re.fullmatch(
        r"(\w+) (\d+)(?: mode (\d))? \[(-?\d+), (-?\d+)\](.*)", text).groups()
    parts = [[int(word) for word in part.split()] for part in rest.split("/")]
    words = tuple(sum(parts, []))
    p = len(words) // 2 if kind == "fraction" else len(parts[0])
    q = len(parts[1]) if kind == "rational" else 0
    return Formula(KINDS[kind], int(own), int(lo), int(hi), p, q,
                   int(mode or 0), words)


# ---- a question with the page's answer, for both programs

def parts(answer):
    """The parts of 'ANSWER after N steps MARK': the answer as it stands, the
    steps, which are 0 where none are told, and the mark."""
    itself, steps, mark = re.fullmatch(
        r"(\S+)(?: after (\d+) steps)? (exact|rounded)", answer).groups("0")
    return itself, int(steps), mark == "exact"


def values_of(question, content, answer):
    if question == questions.COUNT:
        return pack("<H", int(answer))
    if question == questions.FORMULA:
        return questions.packed_fields(formula_of(answer))
    if question in (questions.EVALUATE, questions.SINE, questions.COSINE):
        word, steps, exact = parts(answer)
        return pack("<iHH", int(word), steps, exact)
    if question == questions.DOUBLE:
        value, steps, exact = parts(answer)
        return pack("<dHH", float(value), steps, exact)
    if question == questions.INTERVAL:
        return b"".join(pack("<d", float(x)) for x in answer.split())
    written = sheets[answer] if answer in sheets else bytes.fromhex(answer)
    buffer = questions.buffer_for(question, content)
    return pack("<I", len(written)) + written + buffer[len(written):]


def put(line, asked, answer):
    question, content = asked
    refused = re.fullmatch(r"refused (\d+) at (\d+)", answer)
    if refused:
        expected = (pack("<BI", *map(int, refused.groups()))
                    + questions.values_when_refused(question, content))
    else:
        expected = pack("<BI", 0, 0) + values_of(question, content, answer)
    check(questions.answer_to(question, content) == expected, line)
    vectors.append(pack("<BH", question, len(content)) + content
                   + pack("<H", len(expected)) + expected)


# ---- arithmetic: asked of the second program itself, and of both by formulas that come to it

def at(x, answer, formula):
    """A formula whose answer at x is the operation's."""
    return [(questions.ask_evaluate(sheet_of([formula]), 1, x), answer)]


def beside(answer, formula_with):
    """A bound n just fits beside M - n; beside one more it is refused by 7."""
    n = int(answer)

    def asked(c):
        return questions.ask_count(sheet_of([formula_with(c)]))
    return [(asked(M - n), "1"), (asked(M - n + 1), "refused 7 at 8")]


def product_at(answer, a, b):
    """The polynomial 0, a at b; a coefficient 0 would leave it blank, so that a
    factor 0 is the argument."""
    a, b = (a, b) if a else (b, a)
    return at(b, answer, Formula(POLYNOMIAL, 1, b, b, 2, 0, 0, (0, a)))


OPERATIONS = {
    "product": (number.product, product_at),
    # the numerator is a and a step by x, which adds nothing at 0, so that it is
    # not blank where a is 0
    "quotient": (number.quotient, lambda answer, a, d: at(
        0, answer, Formula(RATIONAL, 1, 0, 0, 2, 1, 0, (a, 1, d)))),
    "root": (number.root, lambda answer, x: at(
        x, answer, Formula(SQUARE_ROOT, 1, 0, M, 0, 0, 0, ()))),
    "bound product": (number.bound_product, lambda answer, a, b: beside(
        answer, lambda c: Formula(POLYNOMIAL, 1, 0, b, 2, 0, 0, (c, a)))),
    "bound quotient": (number.bound_quotient, lambda answer, a, d: beside(
        answer, lambda c: Formula(FRACTION, 1, 0, ONE, 1, 0, 0, (c, a, d)))),
}


def told_of(name, answer):
    """What an operation of the second program gives, by the page: a bound is a
    number alone, the others have a mark, and the root alone has steps."""
    if name.startswith("bound "):
        return int(answer)
    n, steps, exact = parts(answer)
    return (int(n), steps, exact) if steps or name == "root" else (int(n), exact)


def operation(line, name, numbers, answer):
    itself, by_formulas = OPERATIONS[name]
    check(itself(*numbers) == told_of(name, answer), line)
    if number.is_word(int(answer.split()[0])):
        for asked, expected in by_formulas(answer, *numbers):
            put(line, asked, expected)


# ---- the page's blocks and its table

def sheet_block(name, lines):
    """A sheet taken apart: place, bytes, and what they are, with '= VALUE'."""
    content = b""
    for line in lines[1:]:
        place, taken, value = re.fullmatch(
            r" *(\d+)  ((?:[0-9A-F]{2} )+) .*?= (-?\w+).*", line).groups()
        taken = bytes.fromhex(taken)
        values = (int.from_bytes(taken, "little"),
                  int.from_bytes(taken, "little", signed=True))
        check(int(place) == len(content), f"the place of {line}")
        check(int(value, 0) in values, f"the value of {line}")
        content += taken
    sheets[name] = content


def ask(verb, rest):
    """The question of a line's left side."""
    if verb in ("record", "sheet"):
        what, _, room = rest.partition(", room ")
        room = int(room or ENOUGH_ROOM)
        if verb == "record":
            return questions.ask_record(formula_of(what), room)
        return questions.ask_sheet(bytes_of(what), room)
    own, x, name = re.fullmatch(
        r"(?:(\d+) )?(?:at (\S+) )?in (.*)", rest).groups()
    sheet = bytes_of(name)
    if verb == "count":
        return questions.ask_count(sheet)
    if verb == "formula":
        return questions.ask_formula(sheet, int(own))
    if verb == "interval":
        return questions.ask_interval(sheet, int(own))
    if verb == "evaluate":
        return questions.ask_evaluate(sheet, int(own), int(x))
    if verb == "sine":
        return questions.ask_sine(sheet, int(own), int(x, 0))
    if verb == "cosine":
        return questions.ask_cosine(sheet, int(own), int(x, 0))
    if verb == "double":
        pattern = int.from_bytes(pack("<d", float(x)), "little")
        return questions.ask_double(sheet, int(own), pattern)
    raise ValueError(verb)


def worked(line):
    text, answer = re.sub(r"\s+#.*", "", line).split(" -> ")
    arithmetic = re.fullmatch(
        f"({'|'.join(OPERATIONS)})((?: -?[0-9]+)+)", text)
    if arithmetic:
        name, numbers = arithmetic.groups()
        operation(line, name, [int(n) for n in numbers.split()], answer)
    elif text.startswith("ready sheets, "):
        check(damage.found()[text[len("ready sheets, "):]] == answer, line)
    else:
        put(line, ask(*text.split(" ", 1)), answer)


def each(lines, example):
    """Each line is an example; one that cannot be read does not hold."""
    for line in lines:
        try:
            example(line)
        except (AttributeError, KeyError, TypeError, ValueError):
            check(False, f"not understood: {line}")


def list_block(name, lines):
    content = bytes_of(name)
    check(listing(content).splitlines() == lines, f"the listing of {name}")
    listings.append((content, lines))


ROW = r"\| [^|]*: `(.*?)` \| (\d+ at \d+) " * 2 + r"\| (\d+ at \d+) \|"


def pair(line):
    """A row of two faults in the sheet `four`: each by itself, and both."""
    one, alone, another, other_alone, both = re.fullmatch(ROW, line).groups()
    for fault, answer in ((one, alone), (another, other_alone),
                          (f"{one}, {another}", both)):
        put(line, questions.ask_count(bytes_of(f"four, {fault}")),
            f"refused {answer}")


BLOCKS = {"sheet": sheet_block, "list": list_block,
          "worked": lambda name, lines: each(lines, worked),
          "sh": lambda name, lines: commands.extend(lines),
          "": lambda name, lines: None}


def main(folder):
    text = (ROOT / "docs" / "FORMAT.md").read_text(encoding="utf-8")
    for kind, name, body in re.findall(
            r"^```(\w*) ?(.*)\n((?:.*\n)*?)```$", text, re.M):
        each([f"the block {kind} {name}"],
             lambda line: BLOCKS[kind](name, body.splitlines()))
    table = text[text.index("| one fault |"):].split("\n\n")[0].splitlines()
    each(table[2:], pair)
    (folder / "vectors").write_bytes(b"".join(vectors))
    (folder / "commands").write_text("\n".join(commands) + "\n")
    for i, (content, lines) in enumerate(listings):
        (folder / f"{i}.in").write_bytes(content)
        (folder / f"{i}.out").write_text("\n".join(lines) + "\n")
    for line in told:
        print(f"FAILED: docs/FORMAT.md: {line}")
    print(f"{len(held)} passed, {len(told)} failed")
    return 1 if told else 0


if __name__ == "__main__":
    sys.exit(main(Path(sys.argv[1])))
