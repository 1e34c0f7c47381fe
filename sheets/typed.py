"""Numbers and intervals as they are typed, and what they stand for."""

import re
from fractions import Fraction
from math import ceil, floor, isqrt
from typing import NamedTuple

from number import ONE, is_word
from paragraphs import Fault, shown

LONGEST = 200  # characters of a number

# Digits after the point may stand in groups of three or of five.
PLACES = r"(?:[0-9]*|(?:[0-9]{3} )+[0-9]{1,3}|(?:[0-9]{5} )+[0-9]{1,5})"
DECIMAL = re.compile(
    r"[+-]? ?(?=\.?[0-9])[0-9]*(?:\." + PLACES + r")?(?:e[+-]?[0-9]{1,3})?")
RATIO = re.compile(r"[+-]? ?[0-9]+ ?/ ?[0-9]+")
IRRATIONAL = re.compile(
    r"([+-]?) ?(?:([0-9]{1,6}) ?\*? ?)?(?:pi|sqrt\(([0-9]{1,6})\))"
    r"(?: ?/ ?([0-9]{1,6}))?")
INTERVAL = re.compile(r"([\[(])(.*)([\])])(?: ?chosen)?")

# Pi and roots are cut after fifty places. What IRRATIONAL makes of them lies
# further than 10^-40 from every word, unless it is one; so whatever is rounded
# to a word below is rounded as the uncut number would be.
CUT = 10 ** 50
PI = Fraction(314159265358979323846264338327950288419716939937510, CUT)


class Number(NamedTuple):
    """A typed number."""

    text: str
    line: int
    value: Fraction  # exact


def why_no_number(text):
    if not text:
        return "a number is missing beside a comma"
    if any(character.isalpha() for character in text):
        return f"a letter in the number {shown(text)}"
    if " " in text:
        return (f"a comma is missing in {shown(text)}, or a blank stands "
                "elsewhere than between groups of digits after the point")
    return f"{shown(text)} is no number"


def exact(text, line):
    """The exact value of a decimal, or of two whole numbers with a / between.
    """
    if len(text) > LONGEST:
        raise Fault(line, f"a number of more than {LONGEST} characters")
    if not (DECIMAL.fullmatch(text) or RATIO.fullmatch(text)):
        raise Fault(line, why_no_number(text))
    try:
        return Fraction(text.replace(" ", ""))
    except ZeroDivisionError:
        raise Fault(line, f"{shown(text)} divides by 0") from None


def numbers(field):
    """The numbers of a field, which have commas between them."""
    comma = re.search("[0-9],[0-9]", field.text)
    if comma:
        raise Fault(field.line_at(comma.start()),
                    f"a comma between two digits, {shown(comma.group())}: a "
                    "number has a point, and between two numbers a blank "
                    "follows the comma")
    found, offset = [], 0
    for part in field.text.split(","):
        text = part.strip()
        line = field.line_at(offset + len(part) - len(part.lstrip()))
        found.append(Number(text, line, exact(text, line)))
        offset += len(part) + 1
    return found


def end_value(text, line):
    """The value of an interval's end: a number, or as pi/2 or sqrt(2)/2."""
    irrational = IRRATIONAL.fullmatch(text)
    if not irrational:
        return exact(text, line)
    sign, times, square, over = irrational.groups()
    value = Fraction(isqrt(int(square) * CUT ** 2), CUT) if square else PI
    if over and int(over) == 0:
        raise Fault(line, f"{shown(text)} divides by 0")
    value *= Fraction(int(times or 1), int(over or 1))
    return -value if sign == "-" else value


def nearest_word(number):
    """The nearest word to a typed number, a tie going away from zero."""
    size = floor(abs(number.value) * ONE + Fraction(1, 2))
    if not is_word(size):
        raise Fault(number.line, f"{shown(number.text)} is no word: a word "
                    "lies inside ±128")
    return size if number.value >= 0 else -size


def ends(field):
    """The outermost words inside an interval such as [-1, 0.5).

    A square bracket lets the end itself in, a round one does not.
    """
    line, match = field.line, INTERVAL.fullmatch(field.text)
    texts = [part.strip() for part in match[2].split(",")] if match else []
    if len(texts) != 2:
        raise Fault(line, f"{shown(field.text)} is no interval: write it as "
                    "[-1, 0.5], two ends in brackets, one comma between them")
    low, high = (end_value(text, line) * ONE for text in texts)
    if low > high:
        raise Fault(line, f"the low end {shown(texts[0])} is above the high "
                    f"end {shown(texts[1])}")
    lo = ceil(low) if match[1] == "[" else floor(low) + 1
    hi = floor(high) if match[3] == "]" else ceil(high) - 1
    for text, word in zip(texts, (lo, hi)):
        if not is_word(word):
            raise Fault(line, f"the end {shown(text)} is no word: a word lies "
                        "inside ±128")
    if lo > hi:
        raise Fault(line, f"no word lies in {shown(field.text)}")
    return lo, hi
