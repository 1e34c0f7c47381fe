"""Groups of vectors aimed at the reader: sheets good, damaged and at fault."""

from struct import pack

from door import pattern_of
from faults import (
    END_FAULTS, START_FAULTS, formula_faults, one_or_two, spoilt)
from formulas import (
    EVEN, FRACTION, ODD, POLYNOMIAL, POLYNOMIALS, RATIONAL, ROOT, SHAPES,
    Formula)
from makers import (
    KINDS, KINDS_AND_MODES, arguments, every_shape, framed, good_formula,
    good_formulas, records_of, run_of, sheet_of, word)
from number import M, NO_WORD, ONE
from questions import (
    ask_count, ask_double, ask_evaluate, ask_formula, ask_interval)
from sheet import END, START
from writing import start_or_end


def any_question(rng, sheet, number):
    """One of the questions 1 to 5 about a sheet, the count more often; now and
    then about a number that is not there."""
    number = rng.choice((number, number, number, 40000))
    return rng.choice((
        ask_count(sheet),
        ask_count(sheet),
        ask_formula(sheet, number),
        ask_evaluate(sheet, number, word(rng)),
        ask_double(sheet, number, pattern_of(word(rng))),
        ask_interval(sheet, number)))


def small_sheets(rng):
    """Good sheets of 1 to 3 formulas: questions 1 to 5 about each formula,
    arguments at lo, hi, between and just outside, and a number not there."""
    for size in (1, 1, 2, 3) * 12:
        formulas = good_formulas(rng, size)
        sheet = sheet_of(formulas)
        yield ask_count(sheet)
        for formula in formulas:
            number = formula.number
            yield ask_formula(sheet, number)
            yield ask_interval(sheet, number)
            for argument in arguments(rng, formula):
                yield ask_evaluate(sheet, number, argument)
            yield ask_double(sheet, number, pattern_of(formula.lo))
            yield ask_evaluate(sheet, number, NO_WORD)
        absent = (formulas[-1].number + 1) % 65536
        yield ask_formula(sheet, absent)
        yield ask_evaluate(sheet, absent, formulas[0].lo)
        yield ask_double(sheet, absent, 0)
        yield ask_interval(sheet, absent)


def sheets_of_every_count(rng):
    """Good sheets of 1 to 64 formulas: the count, and the first, the last and
    one other formula."""
    for count in range(1, 65):
        formulas = good_formulas(rng, count)
        sheet = sheet_of(formulas)
        first, last, other = formulas[0], formulas[-1], rng.choice(formulas)
        yield ask_count(sheet)
        yield ask_formula(sheet, last.number)
        yield ask_evaluate(sheet, first.number, first.hi)
        yield ask_evaluate(sheet, other.number, rng.choice(
            arguments(rng, other)))


def sheets_of_every_shape(rng):
    """Every kind with every count, depth and mode that it may have."""
    for shape in every_shape():
        formula = good_formula(rng, number=rng.randrange(65536), **shape)
        sheet = sheet_of([formula])
        yield ask_formula(sheet, formula.number)
        for argument in arguments(rng, formula):
            yield ask_evaluate(sheet, formula.number, argument)


def largest_sheets(rng):
    """The longest sheet there is, 64 records of 120 bytes, and longer ones:
    bytes after its end, a 65th record."""
    formulas = [good_formula(rng, FRACTION, number, p=12)
                for number in range(65)]
    sheet = sheet_of(formulas[:64])
    last = formulas[63]
    yield ask_count(sheet)
    yield ask_formula(sheet, last.number)
    yield ask_evaluate(sheet, last.number, last.lo)
    yield ask_count(sheet[:-1])
    yield ask_count(sheet + bytes(600))
    yield ask_count(sheet_of(formulas))
    yield ask_count(start_or_end(START, 64) + run_of(formulas))


def sheets_to_damage(rng):
    """A few accepted sheets, each with a number that is there."""
    for kinds in ((ROOT,), (POLYNOMIAL, RATIONAL), (FRACTION, ROOT, FRACTION),
                  (ODD, EVEN)):
        formulas = [good_formula(rng, kind, 5 * i + 1, p=2, q=2)
                    for i, kind in enumerate(kinds)]
        yield sheet_of(formulas), formulas[-1].number


def cuts(rng):
    """Accepted sheets cut to every shorter length."""
    for sheet, number in sheets_to_damage(rng):
        for length in range(len(sheet)):
            yield ask_count(sheet[:length])
            yield any_question(rng, sheet[:length], number)


def zero_tails(rng):
    """Accepted sheets with zeros from every place on."""
    for sheet, number in sheets_to_damage(rng):
        for place in range(len(sheet)):
            tail = bytes(len(sheet) - place)
            yield any_question(rng, sheet[:place] + tail, number)


def changed_bytes(rng):
    """Accepted sheets with one byte changed: one bit of it, or any."""
    for sheet, number in sheets_to_damage(rng):
        for place in range(len(sheet)):
            for change in (1 << rng.randrange(8), 1 + rng.randrange(255)):
                byte = bytes([sheet[place] ^ change])
                changed = sheet[:place] + byte + sheet[place + 1:]
                yield ask_count(changed)
                yield any_question(rng, changed, number)


def bytes_after_the_end(rng):
    """Accepted sheets with something after them: refusal 9, and only then."""
    for sheet, number in sheets_to_damage(rng):
        tails = [bytes(n) for n in range(1, 10)]
        tails += [b"\xff", sheet, sheet[8:], sheet[-8:]]
        for tail in tails:
            yield ask_count(sheet + tail)
            yield any_question(rng, sheet + tail, number)


def faults_at_formulas(rng):
    """One and two faults at a formula record, the first or a later one: every
    order of two refusals."""
    for kind, mode in KINDS_AND_MODES:
        around = [good_formula(rng, ROOT, 10), good_formula(rng, ROOT, 30)]
        aimed = good_formula(rng, kind, 20, p=3, q=2, mode=mode)
        for at, formulas in ((1, [aimed, around[1]]),
                             (2, [around[0], aimed, around[1]])):
            for faults in one_or_two(formula_faults(kind, aimed.p)):
                sheet = spoilt(framed(records_of(formulas)), (at, faults))
                yield any_question(rng, sheet, rng.choice((20, 30)))


def faults_at_start_and_end(rng):
    """One and two faults at the start record and at the end record."""
    formulas = [good_formula(rng, kind, 10 + i, p=1, q=1)
                for i, kind in enumerate((ROOT, POLYNOMIAL, RATIONAL))]
    records = framed(records_of(formulas))
    for at, table in ((0, START_FAULTS), (len(records) - 1, END_FAULTS)):
        for faults in one_or_two(table):
            sheet = spoilt(records, (at, faults))
            yield ask_count(sheet)
            yield any_question(rng, sheet, 10)


def faults_at_two_records(rng):
    """One fault at each of two records: the earlier record decides, whatever
    the refusals' order."""
    for kinds in (((POLYNOMIAL, RATIONAL, FRACTION),) * 600
                  + ((ODD, EVEN, ROOT),) * 200):
        formulas = [good_formula(rng, kind, 10 * i, p=2, q=2)
                    for i, kind in enumerate(kinds)]
        tables = [START_FAULTS, *(formula_faults(f.kind, f.p)
                                  for f in formulas), END_FAULTS]
        first = rng.randrange(4)
        second = rng.randrange(first + 1, 5)
        sheet = spoilt(framed(records_of(formulas)),
                       (second, [rng.choice(tables[second])]),
                       (first, [rng.choice(tables[first])]))
        yield any_question(rng, sheet, 10)


def records_out_of_place(rng):
    """Start, end and formula records left out, doubled or moved about."""
    formulas = [good_formula(rng, ROOT, 1),
                good_formula(rng, POLYNOMIAL, 2, p=2)]
    records = framed(records_of(formulas))
    for i in range(len(records)):
        for j in range(len(records)):
            moved = records[:i] + records[i + 1:]
            moved.insert(j, records[i])
            yield ask_count(b"".join(moved))
            doubled = records[:j] + [records[i]] + records[j:]
            yield ask_count(b"".join(doubled))
        yield ask_count(b"".join(records[:i] + records[i + 1:]))
        yield ask_count(b"".join(records[i:]))
        yield ask_count(records[i])


def start_and_end_counts(rng):
    """Counts 0, 1, 2, 64, 65 and 65535 in the start and in the end, over as
    many formulas or others."""
    roots = [Formula(ROOT, i, 0, 1, 0, 0, 0, ()) for i in range(66)]
    counts = 0, 1, 2, 63, 64, 65, 65535
    for start in counts:
        for end in counts:
            for size in (0, 1, 2):
                yield ask_count(start_or_end(START, start)
                                + run_of(roots[:size])
                                + start_or_end(END, end))
    for start, size, end in ((64, 63, 64), (64, 64, 64), (64, 65, 64),
                             (64, 64, 63), (64, 64, 65), (63, 64, 64),
                             (65, 65, 65), (64, 65, 65), (64, 66, 64)):
        yield ask_count(start_or_end(START, start) + run_of(roots[:size])
                        + start_or_end(END, end))


def kinds_and_lengths(rng):
    """Every kind, known or not, in records of every length from 8 to 120 or
    just outside; the bytes that such a length counts are all there."""
    kinds = (START, END, *KINDS, 0x0000, 0x0002, 0x000F, 0x0016, 0x1000,
             0x1100, 0x1400, 0xFF10, 0xFF15, 0xFFFE)
    for kind in kinds:
        lengths = (0, 4, 7, 8, 9, 16, 119, 120, 121)
        for length in range(6, 123) if kind in SHAPES else lengths:
            body = pack("<HHiiHH26i", kind, 3, 0, 1, 1, 1, *[ONE] * 26)
            record = (pack("<I", length) + body)[:max(length, 8)]
            yield ask_count(b"".join(framed([record])))
        for length in (1 << 16, 1 << 31, (1 << 32) - 1):
            record = pack("<IHH", length, kind, 1)
            yield ask_count(b"".join(framed([record])))


def counts_of_coefficients(rng):
    """Counts, depths and modes at their ranges' ends and just beyond, stored
    in records as long as they say (if 120 bytes allow it) or in others."""
    for kind in POLYNOMIALS:
        for m in (0, 1, 2, 15, 16, 17, 26):
            yield ask_count(sheet_of([Formula(
                kind, 1, 0, 0, 0, 0, 0, (1,) * m)]))
    edges = 0, 1, 2, 11, 12, 13, 14, 24, 25, 65535
    for p in edges:
        for q in edges:
            for stored in sorted({min(p + q, 25), 2, 25}):
                yield ask_count(sheet_of([Formula(
                    RATIONAL, 1, 0, 0, p, q, 0, (1,) * stored)]))
        for mode in (0, 1, 2, 3, 65535):
            for stored in sorted({min(2 * p + 1, 25), 1, 3, 25}):
                yield ask_count(sheet_of([Formula(
                    FRACTION, 1, 0, 0, p, 0, mode, (1,) * stored)]))


def stored_values(rng):
    """Every stored word at the words' limits and at the pattern that is no
    word; lo and hi equal, next to each other and the wrong way round."""
    edges = NO_WORD, -M, 1 - M, -1, 0, 1, M - 1, M
    for formula in (*(Formula(kind, 9, 0, 0, 1, 0, 0, (1,))
                      for kind in POLYNOMIALS),
                    Formula(RATIONAL, 9, 0, 0, 1, 1, 0, (1, 1)),
                    Formula(FRACTION, 9, 0, 0, 1, 0, 0, (1, 0, 1)),
                    Formula(ROOT, 9, 0, 0, 0, 0, 0, ())):
        for lo in edges:
            for hi in edges:
                sheet = sheet_of([formula._replace(lo=lo, hi=hi)])
                yield ask_formula(sheet, 9)
                yield ask_evaluate(sheet, 9, lo)
                yield ask_interval(sheet, 9)
    for kind in (*POLYNOMIALS, RATIONAL, FRACTION):
        formula = good_formula(rng, kind, 1, p=3, q=3)
        for i in range(len(formula.words)):
            for edge in edges:
                words = list(formula.words)
                words[i] = edge
                changed = formula._replace(words=tuple(words))
                yield ask_count(sheet_of([changed]))


def numbers(rng):
    """Numbers 0 to 65535, rising, equal and falling, and asked for."""
    edges = 0, 1, 2, 255, 256, 32767, 32768, 65534, 65535
    roots = [Formula(ROOT, number, 0, 1, 0, 0, 0, ()) for number in edges]
    for first in roots:
        for second in roots:
            yield ask_count(sheet_of([first, second]))
        for number in edges:
            yield ask_formula(sheet_of([first]), number)
    for number in edges:
        yield ask_evaluate(sheet_of(roots), number, 1)
        yield ask_evaluate(sheet_of(roots[1:-1]), number, 1)


GROUPS = (
    small_sheets, sheets_of_every_count, sheets_of_every_shape,
    largest_sheets, cuts, zero_tails, changed_bytes, bytes_after_the_end,
    faults_at_formulas, faults_at_start_and_end, faults_at_two_records,
    records_out_of_place, start_and_end_counts, kinds_and_lengths,
    counts_of_coefficients, stored_values, numbers)
