"""Groups of vectors aimed at the record writer and the sheet writer."""

from by_hand import ADMISSIONS, ODD_AND_EVEN_ADMISSIONS
from faults import KIND_AT, field, one_or_two, run_faults, spoilt
from formulas import (
    EVEN, FRACTION, ODD, POLYNOMIAL, RATIONAL, ROOT, Formula, record_length)
from makers import (
    KINDS, KINDS_AND_MODES, every_shape, good_formula, good_formulas,
    records_of, run_of, word)
from number import M, NO_WORD
from questions import FIELD_WORDS, ask_record, ask_sheet
from sheet import END
from writing import record_of


def needed(formula):
    return record_length(formula.kind, formula.p, formula.q)


def records_of_every_shape(rng):
    """Accepted fields of every kind with every count, depth and mode."""
    for shape in every_shape():
        formula = good_formula(rng, number=rng.randrange(65536), **shape)
        yield ask_record(formula, needed(formula) + rng.randrange(3))


def record_rooms(rng):
    """Every room from none to two bytes more than the record needs."""
    for kind in KINDS:
        formula = good_formula(rng, kind, p=1, q=1)
        for room in range(needed(formula) + 3):
            yield ask_record(formula, room)
    for _ in range(60):
        formula = good_formula(rng, rng.choice(KINDS))
        for room in (0, needed(formula) - 1, needed(formula), 120, 200):
            yield ask_record(formula, room)


def fields_not_had(rng):
    """Accepted fields with something in those that the kind has not, which is
    ignored: counts, modes, and words past the last, even what is no word."""
    for kind in KINDS * 40:
        formula = good_formula(rng, kind, rng.choice((0, 1, 65535)))
        drawn = rng.getrandbits(16)
        count = len(formula.words)
        extra = [rng.choice((NO_WORD, M, word(rng)))
                 for _ in range(FIELD_WORDS - count)]
        fields = formula._replace(
            p=drawn if kind == ROOT else formula.p,
            q=formula.q if kind == RATIONAL else drawn,
            mode=formula.mode if kind == FRACTION else drawn,
            words=(*formula.words, *extra))
        yield ask_record(fields, needed(formula) + rng.randrange(-1, 2))


def record_counts(rng):
    """Counts, depths and modes at their ranges' ends, beyond, and far beyond;
    kinds that are no formula."""
    edges = 0, 1, 2, 11, 12, 13, 15, 16, 17, 32, 33, 256, 65535
    for kind in (*KINDS, 0x0000, 0x0001, 0x000F, 0x0016, 0xFFFF):
        for p in edges:
            for q in edges if kind == RATIONAL else (0, 1):
                for mode in (0, 2, 3, 65535) if kind == FRACTION else (0, 3):
                    yield ask_record(Formula(
                        kind, 7, 0, 0, p, q, mode, (1,) * FIELD_WORDS), 125)


def record_values(rng):
    """lo and hi at the words' limits, equal and the wrong way round, and each
    word of a formula at the words' limits or no word."""
    edges = NO_WORD, -M, -1, 0, 1, M
    for kind in KINDS:
        formula = good_formula(rng, kind, p=2, q=2)
        for lo in edges:
            for hi in edges:
                yield ask_record(formula._replace(lo=lo, hi=hi), 40)
        for i in range(len(formula.words) + 1):
            for edge in edges:
                words = [*formula.words, 0]
                words[i] = edge
                yield ask_record(formula._replace(words=tuple(words)), 40)


def changed(**fields):
    return lambda formula: formula._replace(**fields)


def word_changed(i, value):
    return lambda formula: formula._replace(
        words=(*formula.words[:i], value, *formula.words[i + 1:]))


def field_faults(formula):
    """Faults in the fields handed to the record writer, the last looked for
    coming first, so that none is undone by another."""
    kind, p, last = formula.kind, formula.p, len(formula.words) - 1
    faults = []
    if kind != ROOT:
        faults += [(7, changed(lo=-M, hi=M, words=(M,) * FIELD_WORDS))]
    if kind in (ODD, EVEN):
        faults += [(7, changed(lo=-M, hi=M,
                               words=(1,) + (0,) * (FIELD_WORDS - 1)))]
    if kind == RATIONAL:
        faults += [(8, word_changed(p, 0)), (2, changed(q=13))]
    if kind == FRACTION:
        faults += [(8, word_changed(last, 0)), (6, changed(mode=3))]
    if kind != ROOT:
        faults += [(6, word_changed(0, NO_WORD)), (2, changed(p=0)),
                   (2, changed(p=17))]
    return faults + [
        (6, changed(lo=M, hi=-M)), (6, changed(lo=NO_WORD)),
        (6, changed(hi=NO_WORD)), (3, changed(kind=0x0001)),
        (3, changed(kind=0x0016)), (3, changed(kind=END))]


def record_faults(rng):
    """One and two faults in the fields, with room enough and with too little
    (12): every order of two refusals."""
    for kind, mode in KINDS_AND_MODES:
        formula = good_formula(rng, kind, 3, p=3, q=2, mode=mode)
        for faults in one_or_two(field_faults(formula)):
            fields = formula
            for _, spoil in faults:
                fields = spoil(fields)
            yield ask_record(fields, needed(formula))
            yield ask_record(fields, needed(formula) - 1)


def admissions_by_hand(rng):
    """Admission's cases by hand, put to both writers."""
    for formula, _ in (*ADMISSIONS, *ODD_AND_EVEN_ADMISSIONS):
        yield ask_record(formula, needed(formula))
        yield ask_sheet(record_of(formula), needed(formula) + 16)


# The sheet writer.


def runs(rng):
    """Accepted runs of 1 to 64 records of every kind, the longest among them,
    and more records; with just room enough, more, and too little."""
    for count in (*range(1, 13), 31, 63, 64, 65, 66):
        run = run_of(good_formulas(rng, count))
        for more in (-1, 0, 2):
            yield ask_sheet(run, len(run) + 16 + more)
    roots = [Formula(ROOT, i, 0, i, 0, 0, 0, ()) for i in range(66)]
    for count in range(67):
        run = run_of(roots[:count])
        yield ask_sheet(run, len(run) + 16)
    longest = [good_formula(rng, FRACTION, i, p=12) for i in range(70)]
    for count in (64, 70):
        yield ask_sheet(run_of(longest[:count]), 64 * 120 + 16)


def sheet_rooms(rng):
    """Every room from none to two bytes more than the sheet needs; no room
    and some with an empty run."""
    for kinds in ((ROOT,), (POLYNOMIAL, RATIONAL), (FRACTION, ROOT),
                  (ODD, EVEN)):
        run = run_of([good_formula(rng, kind, i, p=1, q=1)
                      for i, kind in enumerate(kinds)])
        for room in range(len(run) + 19):
            yield ask_sheet(run, room)
    for room in (0, 1, 7, 8, 15, 16, 17, 40):
        yield ask_sheet(b"", room)


def cut_runs(rng):
    """Accepted runs cut to every shorter length: a cut between two records is
    no fault, any other breaks a record off."""
    for _ in range(3):
        run = run_of(good_formulas(rng, 3))
        for length in range(len(run)):
            yield ask_sheet(run[:length], length + 16)


def left_over(rng):
    """Accepted runs with 1 to 9 bytes left over, zeros or the beginning of a
    record."""
    for count in (1, 2, 64):
        roots = [Formula(ROOT, i, 0, 9, 0, 0, 0, ()) for i in range(count + 1)]
        run, record = run_of(roots[:count]), record_of(roots[count])
        for size in range(1, 10):
            for rest in (bytes(size), record[:size], b"\xff" * size):
                yield ask_sheet(run + rest, 24)


def run_faults_anywhere(rng):
    """One and two faults at the first record of a run, at a later one and at
    the last: places count from the new sheet's first byte."""
    end_record = 3, field(KIND_AT, "H", END)
    for kind, mode in ((POLYNOMIAL, 0), (RATIONAL, 0), (FRACTION, 0),
                       (FRACTION, 2), (ROOT, 0), (ODD, 0), (EVEN, 0)):
        before, after = good_formula(rng, ROOT, 4), good_formula(rng, ROOT, 6)
        aimed = good_formula(rng, kind, 5, p=3, q=2, mode=mode)
        for at, formulas in ((0, [aimed, after]), (1, [before, aimed, after]),
                             (1, [before, aimed])):
            records = records_of(formulas)
            for faults in one_or_two(
                    [end_record, *run_faults(kind, aimed.p)]):
                run = spoilt(records, (at, faults))
                yield ask_sheet(run, rng.choice((0, len(run) + 16)))


def faults_at_the_65th(rng):
    """A 65th record that has a fault as well: 1, 2 and 3 come before its 4,
    and 5 to 8 after."""
    records = records_of(
        [Formula(ROOT, i, 0, 9, 0, 0, 0, ()) for i in range(64)])
    for kind in KINDS:
        formula = good_formula(rng, kind, 70, p=2, q=2)
        for fault in run_faults(kind, formula.p):
            run = spoilt([*records, record_of(formula)], (64, [fault]))
            yield ask_sheet(run, 30)


GROUPS = (
    records_of_every_shape, record_rooms, fields_not_had, record_counts,
    record_values, record_faults, admissions_by_hand, runs, sheet_rooms,
    cut_runs, left_over, run_faults_anywhere, faults_at_the_65th)
