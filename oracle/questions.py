"""The nine questions as bytes: how each is put, and how it is answered.

README.md has the layout. A question put is a pair: its number and its bytes.
"""

from struct import calcsize, pack, unpack_from

from door import evaluate_double, interval
from evaluation import evaluate
from formulas import Formula
from refusal import Refused
from sheet import formula_count, formula_of
from turn import cosine, sine
from writing import write_record, write_sheet

FIELDS = "<HHiiHHH32i"
FIELD_WORDS = 32
WORKED = "<iHH"  # word, steps, mark
SHOWN = "<QHH"  # pattern, steps, mark

(COUNT, FORMULA, EVALUATE, DOUBLE, INTERVAL, RECORD, SHEET, SINE,
 COSINE) = range(1, 10)


def packed_fields(formula):
    """The fields, with zeros after their words until there are 32."""
    *fields, words = formula
    return pack(FIELDS, *fields, *words, *[0] * (FIELD_WORDS - len(words)))


def unpacked_fields(content):
    fields = unpack_from(FIELDS, content)
    return Formula(*fields[:7], fields[7:])


def buffer_beforehand(room):
    return bytes((7 * i + 13) % 256 for i in range(room))


# Putting the questions.


def ask_count(sheet):
    return COUNT, sheet


def ask_formula(sheet, number):
    return FORMULA, pack("<H", number) + sheet


def ask_evaluate(sheet, number, argument):
    return EVALUATE, pack("<Hi", number, argument) + sheet


def ask_double(sheet, number, pattern):
    return DOUBLE, pack("<HQ", number, pattern) + sheet


def ask_interval(sheet, number):
    return INTERVAL, pack("<H", number) + sheet


def ask_record(fields, room):
    return RECORD, packed_fields(fields) + pack("<H", room)


def ask_sheet(run, room):
    return SHEET, pack("<H", room) + run


def ask_sine(sheet, number, angle):
    return SINE, pack("<HI", number, angle) + sheet


def ask_cosine(sheet, number, angle):
    return COSINE, pack("<HI", number, angle) + sheet


# Answering them: each gives the bytes of its values, or is refused.


def count_values(content):
    return pack("<H", formula_count(content))


def formula_values(content):
    number, = unpack_from("<H", content)
    return packed_fields(formula_of(content[2:], number))


def evaluate_values(content):
    number, argument = unpack_from("<Hi", content)
    return pack(WORKED, *evaluate(content[6:], number, argument))


def double_values(content):
    number, pattern = unpack_from("<HQ", content)
    return pack(SHOWN, *evaluate_double(content[10:], number, pattern))


def interval_values(content):
    number, = unpack_from("<H", content)
    return pack("<QQ", *interval(content[2:], number))


def buffer_for(question, content):
    """The buffer lent to a writer: its room stands in the question."""
    at = calcsize(FIELDS) if question == RECORD else 0
    room, = unpack_from("<H", content, at)
    return buffer_beforehand(room)


def record_values(content):
    length, buffer = write_record(
        unpacked_fields(content), buffer_for(RECORD, content))
    return pack("<I", length) + buffer


def sheet_values(content):
    length, buffer = write_sheet(content[2:], buffer_for(SHEET, content))
    return pack("<I", length) + buffer


def sine_values(content):
    number, angle = unpack_from("<HI", content)
    return pack(WORKED, *sine(content[6:], number, angle))


def cosine_values(content):
    number, angle = unpack_from("<HI", content)
    return pack(WORKED, *cosine(content[6:], number, angle))


VALUES = {
    COUNT: count_values,
    FORMULA: formula_values,
    EVALUATE: evaluate_values,
    DOUBLE: double_values,
    INTERVAL: interval_values,
    RECORD: record_values,
    SHEET: sheet_values,
    SINE: sine_values,
    COSINE: cosine_values,
}

# How long the values are; a writer's are as long as its buffer and 4 bytes.
SIZES = {COUNT: 2, FORMULA: calcsize(FIELDS), EVALUATE: calcsize(WORKED),
         DOUBLE: calcsize(SHOWN), INTERVAL: 16, SINE: calcsize(WORKED),
         COSINE: calcsize(WORKED)}


def values_when_refused(question, content):
    """Every value is 0; a writer's buffer is as it was."""
    if question in SIZES:
        return bytes(SIZES[question])
    return bytes(4) + buffer_for(question, content)


def answer_to(question, content):
    """The whole answer: refused (1 byte), place (4 bytes), then the values."""
    try:
        return pack("<BI", 0, 0) + VALUES[question](content)
    except Refused as refusal:
        return (pack("<BI", refusal.number, refusal.place)
                + values_when_refused(question, content))
