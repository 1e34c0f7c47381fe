"""Groups of vectors aimed at blank formulas and nearly blank ones (request
M-106)."""

from by_hand import (
    BLANK_BYTES, BLANK_FIELDS, BLANK_SHEETS, BLANK_TURNS, BLANKS)
from door import pattern_of
from faults import (
    END_FAULTS, START_FAULTS, beside_a_blank, formula_faults, run_faults,
    spoilt)
from formulas import (
    FRACTION, ODD, POLYNOMIALS, RATIONAL, ROOT, SHAPES, Formula,
    decisive_count)
from groups_numbers import INFINITY, fraction, polynomial, rational
from groups_writers import field_faults, needed
from makers import (
    KINDS_AND_MODES, SPARSE, blank_formula, blanked, every_shape, framed,
    good_formula, good_formulas, nearly_blank, quarter_formula, records_of,
    run_of, sheet_of, signed, with_word, word)
from number import M, NO_WORD, ONE
from questions import (
    FIELD_WORDS, ask_cosine, ask_count, ask_double, ask_evaluate, ask_formula,
    ask_interval, ask_record, ask_sheet, ask_sine)
from writing import record_of

FORMS = tuple(form for form in KINDS_AND_MODES if form[0] != ROOT)


def each_about(rng, sheet, number, x):
    """The seven questions about a sheet; x is an argument."""
    angle = rng.getrandbits(32)
    return [ask_count(sheet), ask_formula(sheet, number),
            ask_evaluate(sheet, number, x),
            ask_double(sheet, number, pattern_of(x)),
            ask_interval(sheet, number), ask_sine(sheet, number, angle),
            ask_cosine(sheet, number, angle)]


def any_about(rng, sheet, number, x=0):
    return rng.choice(each_about(rng, sheet, number, x))


def inside(rng, formula):
    """An argument of the formula, or 0 where lo is above hi."""
    lo, hi = formula.lo, formula.hi
    return rng.randrange(lo, hi + 1) if lo <= hi else 0


def each_of_nine(rng, formula):
    """Every question about one formula; for the writers there is room enough,
    or not (12)."""
    room = needed(formula) + rng.choice((0, 0, 3, -1))
    return [*each_about(rng, sheet_of([formula]), formula.number,
                        inside(rng, formula)),
            ask_record(formula, room),
            ask_sheet(record_of(formula), room + 16)]


def any_of_nine(rng, formula):
    return rng.choice(each_of_nine(rng, formula))


def decisive(kind, p):
    """Where the words are that must not all be 0."""
    return range(decisive_count(kind, p))


def sparse(rng):
    """A word of few bits, often with bytes that are all 0."""
    return signed(rng, rng.choice(SPARSE))


def blanks_by_hand(rng):
    """The cases worked out by hand: by the reader, and by another question."""
    for formula, _ in BLANKS:
        yield ask_count(sheet_of([formula]))
        yield rng.choice(each_of_nine(rng, formula)[1:])
    for fields, _ in BLANK_FIELDS:
        yield ask_record(fields, 120)
    for formulas, _, _ in BLANK_SHEETS:
        yield any_about(rng, sheet_of(formulas), 1)
        yield ask_sheet(run_of(formulas), 200)
    for sheet, _, _ in BLANK_BYTES:
        yield ask_count(sheet)
        yield any_about(rng, sheet, 2)
    for formula, number, _ in BLANK_TURNS:
        for ask in (ask_sine, ask_cosine):
            yield ask(sheet_of([formula]), number, rng.getrandbits(32))


# Single formulas.


def every_question_about_blanks(rng):
    """All nine questions about a formula of every form that is blank, and two
    that are nearly so."""
    for kind, mode in FORMS:
        blank = blank_formula(rng, kind, mode=mode)
        near = (nearly_blank(rng, kind, i, sparse(rng), p=2, mode=mode)
                for i in (0, 1))
        for formula in (blank, *near):
            yield from each_of_nine(rng, formula)


def blanks_of_every_shape(rng):
    """Every kind but the root, with every count, depth and mode: blank, and
    nearly so."""
    for shape in every_shape():
        kind, p = shape["kind"], shape["p"]
        if kind != ROOT:
            number, i = rng.randrange(65536), rng.choice(decisive(kind, p))
            for formula in (
                    blank_formula(rng, number=number, **shape),
                    nearly_blank(rng, i=i, value=sparse(rng), number=number,
                                 **shape)):
                yield any_of_nine(rng, formula)


def one_word_left(rng):
    """One word that counts is not 0, the first, the last or the one between
    them: a single bit or a single byte, of either sign."""
    for kind, mode in FORMS:
        for p in (1, 3):
            for i in decisive(kind, p):
                for size in SPARSE:
                    for value in (size, -size):
                        yield any_of_nine(rng, nearly_blank(
                            rng, kind, i, value, p=p, mode=mode))


def one_word_left_of_many(rng):
    """The same at every place of the most words there can be."""
    for kind, mode in FORMS:
        p = SHAPES[kind].p[-1]
        for i in decisive(kind, p):
            yield any_of_nine(rng, nearly_blank(
                rng, kind, i, sparse(rng), p=p, mode=mode))


def zeros_anywhere(rng):
    """Every choice of words that are 0, those that do not count too; a divisor
    of zeros gives 8, unless the formula is blank."""
    for kind, mode in FORMS:
        drawn = good_formula(rng, kind, p=2 if kind in (RATIONAL, FRACTION)
                             else 3, q=2, mode=mode)
        for chosen in range(1 << len(drawn.words)):
            words = tuple(c * (chosen >> i & 1)
                          for i, c in enumerate(drawn.words))
            formula = drawn._replace(words=words)
            yield ask_count(sheet_of([formula]))
            yield any_of_nine(rng, formula)


def words_that_cancel(rng):
    """Words whose sum is 0, or that are all alike: not blank."""
    for size in SPARSE:
        c = signed(rng, size)
        for words in ((c, -c), (c, c)):
            for formula in (
                    *(polynomial(words, -ONE // 4, ONE // 4, kind)
                      for kind in POLYNOMIALS),
                    rational(words, (2 * ONE,), -ONE // 4, ONE // 4),
                    *(fraction((*words, 2 * ONE), mode, -ONE // 4, ONE // 4)
                      for mode in range(3))):
                yield any_of_nine(rng, formula)


def blanks_beyond_the_range(rng):
    """The same words as a polynomial, an odd and an even formula, on intervals
    whose S is a word or above M: blank, whatever S is (14), or nearly so (7
    where S is above M)."""
    for a in (0, 1, ONE, 13 * ONE, M):
        for words in ((0,), (0, 0, 0), (1,), (0, -1), (0, 0, 1)):
            for kind in POLYNOMIALS:
                yield any_of_nine(rng, polynomial(words, -a, a, kind))


def bad_divisors_under_blanks(rng):
    """Rationals and fractions whose divisor may reach 0 (8), or whose range
    may be left (7): blank (14), and nearly so."""
    for _ in range(6):
        value, a = sparse(rng), rng.choice((ONE // 2, ONE, 2 * ONE))
        for divisor in ((0,), (0, 0), (ONE, 2 * ONE), (M, M), (M, -1)):
            for numerator in ((0,), (0, 0), (0, value)):
                yield any_of_nine(rng, rational(numerator, divisor, -a, a))
        for inner in ((0,), (ONE, 1, 0), (0, ONE, ONE), (ONE, ONE, 1),
                      (M, M, M)):
            for first in ((0, 0), (value, 0), (0, value)):
                yield any_of_nine(rng, fraction(
                    (*first, *inner), rng.randrange(3), -a, a))


def zero_answers(rng):
    """Formulas that give 0 at every argument of their interval, or nearly
    every one, but are not blank."""
    for lo, hi in ((0, 0), (-1, 1), (0, 1), (-1000, 1000)):
        for formula in (*(polynomial((0, 1), lo, hi, kind)
                          for kind in POLYNOMIALS),
                        polynomial((1,), lo, hi, ODD),
                        rational((0, 1), (ONE,), lo, hi),
                        rational((1,), (M,), lo, hi),
                        *(fraction((0, 1, ONE), mode, lo, hi)
                          for mode in range(3))):
            sheet = sheet_of([formula])
            yield ask_evaluate(sheet, 1, lo)
            yield ask_double(sheet, 1, pattern_of(hi))
            yield ask_record(formula, needed(formula))


def roots_are_never_blank(rng):
    """All nine questions about roots, whatever their interval."""
    for lo, hi in ((0, 0), (0, 1), (1, 1), (0, M), (M, M)):
        yield from each_of_nine(rng, Formula(ROOT, 1, lo, hi, 0, 0, 0, ()))


def turns_of_blanks(rng):
    """Sine and cosine: blank formulas (14), whatever their kind, their number
    and their interval are, and nearly blank ones, taken or refused by 11 or
    15."""
    for kind in (ODD, ODD, *SHAPES) * 4:
        drawn = quarter_formula(rng, kind)
        i = rng.choice(decisive(kind, drawn.p) or [0])
        near = with_word(blanked(drawn), i, 1) if kind != ROOT else drawn
        for formula in (blanked(drawn), near):
            hi = rng.choice((formula.hi, formula.hi, ONE - 1))
            sheet = sheet_of([formula._replace(hi=hi)])
            number, angle = rng.choice((1, 1, 2)), rng.getrandbits(32)
            yield ask_sine(sheet, number, angle)
            yield ask_cosine(sheet, number, angle)


def turns_of_nearly_blanks(rng):
    """Odd formulas that sine and cosine take, with one word that is not 0, at
    every place of the first few."""
    for p in (1, 2, 3):
        for i in range(p):
            for size in SPARSE:
                zeros = polynomial((0,) * p, rng.choice((0, -ONE)), ONE, ODD)
                formula = with_word(zeros, i, signed(rng, size))
                sheet = sheet_of([formula])
                yield ask_sine(sheet, 1, rng.getrandbits(32))
                yield ask_cosine(sheet, 1, rng.getrandbits(32))


# Words past the last, which the record writer ignores.


def padded(formula, *rest):
    """The fields with these words after their own, over and over."""
    count = FIELD_WORDS - len(formula.words)
    return formula._replace(words=(*formula.words, *(rest * count)[:count]))


def words_past_the_last(rng):
    """Blank fields with other words after theirs, and nearly blank ones with
    zeros; a root with words of any kind."""
    for kind, mode in FORMS:
        for p in (1, 2, 3):
            blank = blank_formula(rng, kind, p=p, mode=mode)
            i = rng.choice(decisive(kind, p))
            near = nearly_blank(rng, kind, i, sparse(rng), p=p, mode=mode)
            for fields in (padded(blank, 1), padded(blank, word(rng), NO_WORD),
                           padded(near, 0), padded(near, NO_WORD)):
                yield ask_record(fields, needed(fields))
    root = Formula(ROOT, 1, 0, 0, 0, 0, 0, ())
    for p in (0, 1, 16, 65535):
        for value in (0, 1):
            yield ask_record(padded(root._replace(p=p), value), 16)


# Several records.


def blanks_among_others(rng):
    """A blank formula at each place of sheets of 2 to 5: the count, the sheet
    writer, and questions about it, about another and about a number that is
    not there."""
    for count in (2, 3, 4, 5) * 3:
        for at in range(count):
            formulas = good_formulas(rng, count)
            kind, mode = rng.choice(FORMS)
            other, number = rng.choice(formulas).number, formulas[at].number
            formulas[at] = blank_formula(rng, kind, number, mode=mode)
            sheet, run = sheet_of(formulas), run_of(formulas)
            yield ask_count(sheet)
            yield ask_sheet(run, len(run) + rng.choice((0, 15, 16)))
            for asked in (number, other, (other + 1) % 65536):
                yield any_about(rng, sheet, asked)


def refused_before_the_question(rng):
    """A blank formula somewhere, and a question that would be refused itself:
    an argument outside (10), a number not there (11), a double that is not
    finite (13)."""
    for at in (0, 1, 2) * 5:
        kind, mode = rng.choice(FORMS)
        formulas = [good_formula(rng, ROOT, number) for number in (1, 2, 3)]
        formulas[at] = blank_formula(rng, kind, at + 1, mode=mode)
        sheet, number = sheet_of(formulas), rng.choice((1, 2, 3, 4))
        yield ask_evaluate(sheet, number, NO_WORD)
        yield ask_double(sheet, number, INFINITY)
        yield ask_formula(sheet, 4)


def nearly_blank_sheets(rng):
    """Sheets in which every formula is nearly blank, and the same with one of
    them blank."""
    for count in (1, 2, 3, 4, 5) * 4:
        formulas = []
        for number in range(count):
            kind, mode = rng.choice(FORMS)
            p = rng.choice(SHAPES[kind].p[:4])
            i = rng.choice(decisive(kind, p))
            formulas.append(nearly_blank(
                rng, kind, i, sparse(rng), number, p, mode=mode))
        at = rng.randrange(count)
        blank = [*formulas[:at], blanked(formulas[at]), *formulas[at + 1:]]
        for chosen in (formulas, blank):
            run, asked = run_of(chosen), chosen[rng.randrange(count)]
            yield any_about(rng, sheet_of(chosen), asked.number,
                            inside(rng, asked))
            yield ask_sheet(run, len(run) + 16)


def several_blanks(rng):
    """Two or more blank formulas: the first of them decides."""
    for count in (2, 3, 4, 5) * 5:
        formulas = [blanked(formula) if rng.randrange(2) else formula
                    for formula in good_formulas(rng, count)]
        yield any_about(rng, sheet_of(formulas), formulas[-1].number)
        yield ask_sheet(run_of(formulas), rng.choice((0, 700)))


# Other faults.


def faults_beside_blanks(rng):
    """A blank record, the first or a later one, with another fault."""
    for kind, mode in FORMS:
        before, aimed, after = good_formula(rng, ROOT, 10), good_formula(
            rng, kind, 20, p=3, q=2, mode=mode), good_formula(rng, ROOT, 30)
        for at, formulas in ((1, [aimed, after]), (2, [before, aimed, after])):
            for faults in beside_a_blank(kind, 3, formula_faults(kind, 3)):
                sheet = spoilt(framed(records_of(formulas)), (at, faults))
                yield any_about(rng, sheet, rng.choice((20, 30)))


def faults_about_blanks(rng):
    """A blank record, and a fault at an earlier or a later one: the earlier
    record decides."""
    for _ in range(220):
        kind, mode = rng.choice(FORMS)
        formulas = [good_formula(rng, rng.choice((kind, *SHAPES)), 10 * i,
                                 p=2, q=2) for i in range(3)]
        tables = [START_FAULTS, *(formula_faults(f.kind, f.p)
                                  for f in formulas), END_FAULTS]
        blank, at = rng.randrange(1, 4), rng.choice((1, 1, 2, 3, 3, 0, 4))
        formulas[blank - 1] = blank_formula(rng, kind, 10 * blank - 10,
                                            mode=mode)
        if at != blank:
            sheet = spoilt(framed(records_of(formulas)),
                           (at, [rng.choice(tables[at])]))
            yield any_about(rng, sheet, 10)


def faults_in_blank_runs(rng):
    """The same in runs: a fault in the blank record, and one before or after
    it; with room and without."""
    for kind, mode in FORMS:
        before, after = good_formula(rng, ROOT, 4), good_formula(rng, ROOT, 6)
        aimed = good_formula(rng, kind, 5, p=3, q=2, mode=mode)
        for at, formulas in ((0, [aimed, after]), (1, [before, aimed, after])):
            for faults in beside_a_blank(kind, 3, run_faults(kind, 3)):
                if rng.randrange(2):
                    run = spoilt(records_of(formulas), (at, faults))
                    yield ask_sheet(run, rng.choice((0, len(run) + 16)))
        records = records_of([before, blanked(aimed), after])
        for at in (0, 2):
            for fault in run_faults(ROOT, 0):
                if rng.randrange(3) == 0:
                    run = spoilt(records, (at, [fault]))
                    yield ask_sheet(run, rng.choice((0, len(run) + 16)))


def blanks_about_the_64th(rng):
    """The 64th record is blank, or the 65th, which is one too many (4)."""
    roots = [Formula(ROOT, i, 0, 9, 0, 0, 0, ()) for i in range(64)]
    for kind, mode in FORMS:
        blank = blank_formula(rng, kind, 64, p=2, q=2, mode=mode)
        for formulas in ([*roots[:63], blank], [*roots, blank]):
            yield ask_sheet(run_of(formulas), 30)
            yield any_about(rng, sheet_of(formulas), 64)


def fields_beside_blanks(rng):
    """Blank fields with another fault, put to the record writer with room and
    without (12)."""
    for kind, mode in FORMS:
        formula = good_formula(rng, kind, 3, p=3, q=2, mode=mode)
        for refusal, spoil in field_faults(formula):
            if refusal in (7, 8):
                fields = blanked(spoil(formula))
            else:
                fields = spoil(blanked(formula))
            room = needed(formula) - rng.randrange(2)
            yield ask_record(fields, room)


# Damaged sheets.


def three_records(rng, kind, mode):
    """A root, a formula with two words that count, and a root."""
    return [good_formula(rng, ROOT, 1), good_formula(
        rng, kind, 2, p=2, q=2, mode=mode), good_formula(rng, ROOT, 3)]


def zeros_in_the_middle(rng):
    """Zeros from every place of the second record on, to the end of the sheet
    or to the end of that record."""
    for kind, mode in FORMS:
        formulas = three_records(rng, kind, mode)
        sheet, end = sheet_of(formulas), 24 + needed(formulas[1])
        for place in range(36, end):
            tail = bytes(len(sheet) - place)
            part = bytes(end - place) + sheet[end:]
            yield any_about(
                rng, sheet[:place] + rng.choice((tail, part)), 3)


def one_byte_left(rng):
    """A blank record with one byte that is not 0 among the words that count:
    not blank, or no word (6). The bytes next to those words belong to an end
    or a count (2) and to what follows, and leave it blank."""
    for kind, mode in FORMS:
        root, aimed, last = three_records(rng, kind, mode)
        sheet = sheet_of([root, blanked(aimed), last])
        first = 24 + SHAPES[kind].head
        for place in (*range(first - 1, first + 9),) * 2:
            byte = rng.choice((1, 0x80, 0x7F, 1 + rng.randrange(255)))
            changed = sheet[:place] + bytes([byte]) + sheet[place + 1:]
            yield any_about(rng, changed, 2, inside(rng, aimed))


GROUPS = (
    blanks_by_hand, every_question_about_blanks, blanks_of_every_shape,
    one_word_left, one_word_left_of_many, zeros_anywhere, words_that_cancel,
    blanks_beyond_the_range, bad_divisors_under_blanks, zero_answers,
    roots_are_never_blank, turns_of_blanks, turns_of_nearly_blanks,
    words_past_the_last, blanks_among_others, refused_before_the_question,
    nearly_blank_sheets, several_blanks, faults_beside_blanks,
    faults_about_blanks, faults_in_blank_runs, blanks_about_the_64th,
    fields_beside_blanks, zeros_in_the_middle, one_byte_left)
