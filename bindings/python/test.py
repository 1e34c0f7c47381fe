"""Tries the binding, mostly on the paper's own sheet and cases. Run it from the
repository's root: the docstring's example opens a ready sheet."""

import copy
import dataclasses
import decimal
import doctest
import mmap
import pickle
import struct
import unittest
from array import array

import valvepigeon as vp

ONE = 16777216
SHEET = bytes.fromhex(
    "08000000 0100 0100 10000000 1300 0100 00000000 00000002"
    "08000000 FFFF 0100")
ROOT = vp.Fields(vp.ROOT, 1, 0, 2 * ONE)
POLYNOMIAL = vp.Fields(vp.POLYNOMIAL, 7, -2 * ONE, 2 * ONE, p=3,
                       words=(ONE, ONE, ONE // 2))
RATIONAL = vp.Fields(vp.RATIONAL, 8, -ONE, ONE, p=3, q=3,
                     words=(12 * ONE, 6 * ONE, ONE, 12 * ONE, -6 * ONE, ONE))
FRACTION = vp.Fields(vp.FRACTION, 9, -ONE, ONE, p=2, mode=2,
                     words=(0, ONE, ONE, -ONE, 3 * ONE))
# x - x^3/6, and 1 - x^2/2 + x^4/24
ODD = vp.Fields(vp.ODD, 10, -ONE, ONE, p=2, words=(ONE, -2796203))
EVEN = vp.Fields(vp.EVEN, 11, -ONE, ONE, p=3,
                 words=(ONE, -ONE // 2, 699051))
EVERY_KIND = ROOT, POLYNOMIAL, RATIONAL, FRACTION, ODD, EVEN


def load_tests(loader, tests, pattern):
    tests.addTest(doctest.DocTestSuite(vp, optionflags=doctest.ELLIPSIS))
    return tests


class Case(unittest.TestCase):
    def refuses(self, number, place, function, *arguments, **options):
        with self.assertRaises(vp.Refused) as raised:
            function(*arguments, **options)
        self.assertEqual((raised.exception.number, raised.exception.place),
                         (number, place))

    def raises(self, error, function, *arguments):
        given = [type(argument).__name__ for argument in arguments]
        with self.assertRaises(error, msg=f"{function.__name__} of {given}"):
            function(*arguments)


class Reading(Case):
    def test_count(self):
        self.assertEqual(vp.count(SHEET), 1)
        self.refuses(1, 0, vp.count, b"")
        self.refuses(1, 24, vp.count, SHEET[:31])

    def test_formula(self):
        self.assertEqual(vp.formula(SHEET, 1), ROOT)
        self.refuses(11, 0, vp.formula, SHEET, 2)

    def test_interval(self):
        self.assertEqual(vp.interval(SHEET, 1), vp.Ends(0.0, 2.0))
        self.refuses(11, 0, vp.interval, SHEET, 2)

    def test_evaluate(self):
        self.assertEqual(vp.evaluate(SHEET, 1, 2 * ONE),
                         vp.Worked(23726566, 5, False))
        self.refuses(10, 0, vp.evaluate, SHEET, 1, -1)
        self.refuses(10, 0, vp.evaluate, SHEET, 1, -2**31)

    def test_evaluate_double(self):
        for two in (2.0, 2):
            self.assertEqual(vp.evaluate_double(SHEET, 1, two),
                             vp.Shown(23726566 / ONE, 5, False))
        self.refuses(10, 0, vp.evaluate_double, SHEET, 1, 10**300)
        self.refuses(13, 0, vp.evaluate_double, SHEET, 1, float("nan"))

    def test_steps(self):
        """Arguments of a root, each with the numbers of Heron's rule, worked
        out by hand. The last is the root, and there are as many as steps; the
        most are of 33554433 squared less one. Only the root of a step is exact:
        4096 squared is 2^24."""
        sheet = vp.write_sheet(vp.write_record(
            dataclasses.replace(ROOT, hi=2**31 - 1)))
        for argument, *numbers in (
                (16777215, 16777216, 16777215), (3, 8192, 7168, 7094),
                (2, 8192, 6144, 5802, 5792), (1, 8192, 5120, 4198, 4097, 4096),
                (4097, 524288, 327696, 268726, 262255, 262176, 262175),
                (67108868, 67108864, 41943040, 34393293, 33564662, 33554434,
                 33554433, 33554432)):
            root, steps = numbers[-1], len(numbers)
            self.assertEqual(vp.evaluate(sheet, 1, argument),
                             vp.Worked(root, steps, argument == 1))
            self.assertEqual(vp.evaluate_double(sheet, 1, argument / ONE),
                             vp.Shown(root / ONE, steps, argument == 1))
        self.assertEqual(vp.evaluate(sheet, 1, 0), vp.Worked(0, 0, True))
        self.assertEqual(vp.evaluate_double(sheet, 1, 0),
                         vp.Shown(0.0, 0, True))

    def test_left_out(self):
        """Steps are 0, as in the answers of every other kind; and nothing is
        said to be exact."""
        self.assertEqual(vp.Worked(1), vp.Worked(1, 0, False))
        self.assertEqual(vp.Shown(1.0), vp.Shown(1.0, 0, False))

    def test_ties(self):
        """x itself, at halves of a step: they go away from zero."""
        sheet = vp.write_sheet(vp.write_record(vp.Fields(
            vp.POLYNOMIAL, 1, -ONE, ONE, p=2, words=(0, ONE))))
        for halves, steps in ((1, 1), (-1, -1), (3, 2), (-3, -2)):
            self.assertEqual(
                vp.evaluate_double(sheet, 1, halves / (2 * ONE)).value,
                steps / ONE)
        for beyond in (1 + 2**-25, -1 - 2**-25):
            self.refuses(10, 0, vp.evaluate_double, sheet, 1, beyond)


def sheet_of(kind, words, lo=-ONE, **counts):
    """A sheet of one formula, with the number 1, up to one."""
    counts = counts or {"p": len(words)}
    return vp.write_sheet(vp.write_record(
        vp.Fields(kind, 1, lo, ONE, words=words, **counts)))


class Marks(Case):
    """Answers that are exact and answers that are rounded, by hand. Words are
    in steps, divisors and factors in ones. 4096 steps squared are 2^24, so s is
    a step there; at 4097 it is 8193/2^24 more, and is rounded to a step."""

    half = ONE // 2

    def holds(self, sheet, *cases):
        """The answers at words, and at the doubles that these are."""
        for argument, word, exact in cases:
            answer = vp.evaluate(sheet, 1, argument)
            self.assertEqual(answer, vp.Worked(word, 0, exact))
            self.assertIs(type(answer.exact), bool)
            answer = vp.evaluate_double(sheet, 1, argument / ONE)
            self.assertEqual(answer, vp.Shown(word / ONE, 0, exact))
            self.assertIs(type(answer.exact), bool)

    def test_polynomial(self):
        # a step by 1; by 1/2; by 0; and a formula that multiplies nothing
        self.holds(sheet_of(vp.POLYNOMIAL, (0, 1)), (ONE, 1, True),
                   (self.half, 1, False), (-self.half, -1, False), (0, 0, True))
        self.holds(sheet_of(vp.POLYNOMIAL, (9,)), (1, 9, True))
        # only the first product is rounded: 1/2, so 1; then 1 + 1 by 1/2
        self.holds(sheet_of(vp.POLYNOMIAL, (5, 1, 1)), (self.half, 6, False))

    def test_rational(self):
        half_of_it = sheet_of(vp.RATIONAL, (0, ONE, 2 * ONE), p=2, q=1)
        self.holds(half_of_it, (2, 1, True), (3, 2, False), (-3, -2, False))
        # 1 and half a step over the same: two roundings, which cancel
        over_itself = sheet_of(vp.RATIONAL, (ONE, 1, ONE, 1), p=2, q=2)
        self.holds(over_itself, (ONE, ONE, True), (self.half, ONE, False))

    def test_fraction(self):
        half_of_it = sheet_of(vp.FRACTION, (0, ONE, 2 * ONE), p=1)
        self.holds(half_of_it, (2, 1, True), (3, 2, False))
        square = sheet_of(vp.FRACTION, (0, ONE, ONE), p=1, mode=1)
        self.holds(square, (4096, 1, True), (4097, 1, False))
        # mode 2 does not use s in depth 1; in depth 2 it does, if only by 0
        self.holds(sheet_of(vp.FRACTION, (0, ONE, ONE), p=1, mode=2),
                   (4097, 4097, True))
        self.holds(sheet_of(vp.FRACTION, (0, ONE, ONE, 0, ONE), p=2, mode=2),
                   (4096, 4096, True), (4097, 4097, False))

    def test_odd_and_even(self):
        # with one coefficient s is not used; with two it is, if only by 0
        self.holds(sheet_of(vp.ODD, (ONE,)), (4097, 4097, True))
        self.holds(sheet_of(vp.EVEN, (9,)), (4097, 9, True))
        self.holds(sheet_of(vp.ODD, (ONE, 0)), (4096, 4096, True),
                   (4097, 4097, False))
        self.holds(sheet_of(vp.EVEN, (9, 0)), (4096, 9, True),
                   (4097, 9, False))
        # s is 1/4; the last product is half a step
        self.holds(sheet_of(vp.ODD, (1,)), (self.half, 1, False))

    def test_door(self):
        """A double that is no whole number of steps, of x and of 9 steps."""
        for coefficients, at_one, at_nought in (((0, ONE), 1.0, 0.0),
                                                ((9,), 9 / ONE, 9 / ONE)):
            sheet = sheet_of(vp.POLYNOMIAL, coefficients)
            for argument, value, exact in (
                    (1.0, at_one, True), (1 - 2**-53, at_one, False),
                    (-0.0, at_nought, True), (2**-26, at_nought, False),
                    (5e-324, at_nought, False), (-5e-324, at_nought, False)):
                self.assertEqual(vp.evaluate_double(sheet, 1, argument),
                                 vp.Shown(value, 0, exact))

    def test_angles(self):
        """x itself: one step has 64 parts of a turn. It does not use s."""
        sheet, quarter = sheet_of(vp.ODD, (ONE,), lo=0), 2**30
        for angle, word, exact in (
                (64, 1, True), (63, 1, False), (65, 1, False), (1, 0, False),
                (64 * 4097, 4097, True),
                # behind each quarter; before the whole turn
                (quarter, ONE, True), (quarter + 1, ONE, False),
                (quarter + 64, ONE - 1, True), (quarter + 65, ONE - 1, False),
                (2 * quarter + 64, -1, True), (2 * quarter + 63, -1, False),
                (3 * quarter, -ONE, True), (3 * quarter + 1, -ONE, False),
                (2**32 - 64, -1, True), (2**32 - 1, 0, False)):
            for answer in (vp.sine(sheet, 1, angle),
                           vp.cosine(sheet, 1, (angle - quarter) % 2**32)):
                self.assertEqual(answer, vp.Worked(word, 0, exact))
                self.assertIs(type(answer.exact), bool)


class Turning(Case):
    """x - x^3/6 at angles, and what is no sine."""

    sheet = vp.write_sheet(
        b"".join(map(vp.write_record, (POLYNOMIAL, ODD, EVEN))))
    quarter = 2**30

    def test_sine(self):
        """At one it is 16777216 - 2796203, at a few steps its argument."""
        for angle, word, exact in (
                (0, 0, True), (self.quarter, 13981013, True),
                (2 * self.quarter, 0, True),
                (3 * self.quarter, -13981013, True),
                # an eighth: a tie, as in test_there_and_back
                (self.quarter // 2, 8039083, False),
                (2**32 - self.quarter // 2, -8039083, False),
                # ties at half a step and at one and a half
                (31, 0, False), (32, 1, False), (95, 1, False), (96, 2, False),
                (2 * self.quarter - 32, 1, False), (2**32 - 32, -1, False)):
            self.assertEqual(vp.sine(self.sheet, 10, angle),
                             vp.Worked(word, 0, exact))
            self.assertEqual(
                vp.cosine(self.sheet, 10, (angle - self.quarter) % 2**32),
                vp.Worked(word, 0, exact))

    def test_refused(self):
        for function in vp.sine, vp.cosine:
            self.refuses(vp.NO_SINE, 0, function, self.sheet, 7, 0)
            self.refuses(15, 0, function, self.sheet, 11, 0)
            self.refuses(11, 0, function, self.sheet, 8, 0)
            self.refuses(1, 24, function, SHEET[:31], 1, 0)
            narrow = vp.write_sheet(vp.write_record(
                dataclasses.replace(ODD, hi=ONE - 1)))
            self.refuses(15, 0, function, narrow, 10, 0)


class Writing(Case):
    def test_record(self):
        self.assertEqual(vp.write_record(ROOT), SHEET[8:24])
        self.refuses(12, 0, vp.write_record, ROOT, room=15)
        self.refuses(3, 0, vp.write_record, dataclasses.replace(ROOT, kind=1))

    def test_sheet(self):
        self.assertEqual(vp.write_sheet(SHEET[8:24]), SHEET)
        self.refuses(4, 0, vp.write_sheet, b"")
        self.refuses(3, 8, vp.write_sheet, SHEET)
        self.refuses(12, 0, vp.write_sheet, SHEET[8:24], room=31)

    def test_layout(self):
        """The table of the paper, record by record."""
        self.assertEqual(
            vp.write_record(POLYNOMIAL),
            struct.pack("<IHHii3i", 28, 0x10, 7, -2 * ONE, 2 * ONE,
                        *POLYNOMIAL.words))
        self.assertEqual(
            vp.write_record(RATIONAL),
            struct.pack("<IHHiiHH6i", 44, 0x11, 8, -ONE, ONE, 3, 3,
                        *RATIONAL.words))
        self.assertEqual(
            vp.write_record(FRACTION),
            struct.pack("<IHHiiHH5i", 40, 0x12, 9, -ONE, ONE, 2, 2,
                        *FRACTION.words))
        self.assertEqual(
            vp.write_record(ODD),
            struct.pack("<IHHii2i", 24, 0x14, 10, -ONE, ONE, *ODD.words))
        self.assertEqual(
            vp.write_record(EVEN),
            struct.pack("<IHHii3i", 28, 0x15, 11, -ONE, ONE, *EVEN.words))

    def test_there_and_back(self):
        sheet = vp.write_sheet(b"".join(map(vp.write_record, EVERY_KIND)))
        self.assertEqual(vp.count(sheet), 6)
        for formula in EVERY_KIND:
            self.assertEqual(vp.formula(sheet, formula.number), formula)
        for number, argument, word, exact in (
                # 1/4 and 5/8
                (7, ONE // 2, 27262976, True),
                (8, ONE, 45538158, False), (8, -ONE, 6181080, False),
                (8, 0, ONE, True), (9, ONE // 2, 9151209, False),
                # s is 1/4: 16777216 - 699051, halved, is a tie
                (10, ONE // 2, 8039083, False),
                (10, -ONE // 2, -8039083, False),
                # -8388608 + 174763 by 4 is -2053461.25
                (11, ONE // 2, 14723755, False),
                (11, -ONE // 2, 14723755, False)):
            self.assertEqual(vp.evaluate(sheet, number, argument),
                             vp.Worked(word, 0, exact))
            self.assertEqual(vp.evaluate_double(sheet, number, argument / ONE),
                             vp.Shown(word / ONE, 0, exact))


class Sheets(Case):
    """A sheet is bytes-like, and its length counts in bytes."""

    def test_bytes_like(self):
        mapped = mmap.mmap(-1, 32)
        mapped.write(SHEET)
        spread = b"".join(bytes((byte, 255)) for byte in SHEET)
        for sheet in (bytearray(SHEET), memoryview(SHEET), array("I", SHEET),
                      memoryview(b"xx" + SHEET + b"yy")[2:-2],
                      memoryview(bytearray(b"xx" + SHEET + b"yy"))[2:-2],
                      memoryview(SHEET).cast("B", (4, 8)), mapped,
                      memoryview(spread)[::2], memoryview(SHEET[::-1])[::-1],
                      memoryview(bytearray(spread))[::2]):
            self.assertEqual(vp.evaluate(sheet, 1, 2 * ONE).word, 23726566)
        self.assertEqual(vp.write_sheet(array("I", SHEET[8:24])), SHEET)

    def test_length_in_bytes(self):
        self.refuses(1, 24, vp.count, array("I", SHEET[:28]))
        self.refuses(9, 32, vp.count, array("I", SHEET + bytes(4)))

    def test_empty(self):
        for sheet in (bytearray(), memoryview(b""), array("I")):
            self.refuses(1, 0, vp.count, sheet)

    def test_anything_else(self):
        for sheet in (5, True, 1.5, "sheet", {}, [8, 0], None):
            self.raises(TypeError, vp.count, sheet)
            self.raises(TypeError, vp.formula, sheet, 1)
            self.raises(TypeError, vp.interval, sheet, 1)
            self.raises(TypeError, vp.evaluate, sheet, 1, 0)
            self.raises(TypeError, vp.evaluate_double, sheet, 1, 0.0)
            self.raises(TypeError, vp.sine, sheet, 1, 0)
            self.raises(TypeError, vp.cosine, sheet, 1, 0)
            self.raises(TypeError, vp.write_sheet, sheet)

    def test_given_back(self):
        """After a refusal, while it is held, the caller's buffer is free."""
        sheet = bytearray(SHEET[:24])
        try:
            vp.count(sheet)
        except vp.Refused as refused:
            self.assertEqual(refused.place, 24)
            sheet.extend(SHEET[24:])
        self.assertEqual(vp.count(sheet), 1)


class Numbers(Case):
    """No number is cut or converted on its way to C."""

    no_ints = (1.0, True, "1", None, decimal.Decimal(1))

    def test_formula_number(self):
        for function, more in ((vp.formula, ()), (vp.interval, ()),
                               (vp.evaluate, (0,)),
                               (vp.evaluate_double, (0.0,)),
                               (vp.sine, (0,)), (vp.cosine, (0,))):
            for number in self.no_ints:
                self.raises(TypeError, function, SHEET, number, *more)
            for number in (-1, 65536, 65537, 10**5000):
                self.raises(OverflowError, function, SHEET, number, *more)

    def test_argument(self):
        for argument in self.no_ints:
            self.raises(TypeError, vp.evaluate, SHEET, 1, argument)
        for argument in (2**31, -2**31 - 1, 2**32, 10**5000):
            self.raises(OverflowError, vp.evaluate, SHEET, 1, argument)

    def test_angle(self):
        for function in vp.sine, vp.cosine:
            for angle in self.no_ints:
                self.raises(TypeError, function, SHEET, 1, angle)
            for angle in (-1, 2**32, 2**64, 10**5000):
                self.raises(OverflowError, function, SHEET, 1, angle)

    def test_double(self):
        for argument in self.no_ints[1:]:
            self.raises(TypeError, vp.evaluate_double, SHEET, 1, argument)
        for argument in (10**400, -10**400):
            self.raises(OverflowError, vp.evaluate_double, SHEET, 1, argument)

    def test_fields(self):
        for name in ("kind", "number", "lo", "hi", "p", "q", "mode"):
            for value in self.no_ints:
                self.raises(TypeError, vp.write_record,
                            dataclasses.replace(ROOT, **{name: value}))
            self.raises(OverflowError, vp.write_record,
                        dataclasses.replace(ROOT, **{name: 2**32}))

    def test_room(self):
        for write, content in ((vp.write_record, ROOT),
                               (vp.write_sheet, SHEET[8:24])):
            with self.assertRaises(TypeError):
                write(content, room=120.0)
            with self.assertRaises(OverflowError):
                write(content, room=-1)


class Words(Case):
    def test_too_few_or_too_many(self):
        for formula in EVERY_KIND:
            for words in (formula.words + (0,), formula.words[1:] or (0, 0),
                          (0,) * 32):
                self.raises(ValueError, vp.write_record,
                            dataclasses.replace(formula, words=words))

    def test_no_words(self):
        for words in ((1.0,), (True,), "1", None, 1):
            self.raises(TypeError, vp.write_record, dataclasses.replace(
                POLYNOMIAL, p=1, words=words))
        self.raises(OverflowError, vp.write_record, dataclasses.replace(
            POLYNOMIAL, p=1, words=(2**31,)))
        self.raises(TypeError, vp.write_record, (vp.ROOT, 1, 0, 0))

    def test_refused(self):
        for count in (17, 40):
            self.refuses(2, 0, vp.write_record, dataclasses.replace(
                POLYNOMIAL, p=count, words=(1,) * count))
            self.refuses(3, 0, vp.write_record, dataclasses.replace(
                POLYNOMIAL, kind=0xFFFF, words=(1,) * count))
        self.refuses(6, 0, vp.write_record, dataclasses.replace(
            POLYNOMIAL, p=1, words=(-2**31,)))
        for formula in (ODD, EVEN):
            self.refuses(2, 0, vp.write_record, dataclasses.replace(
                formula, p=17, words=(1,) * 17))
            # 12 times 12 is no word
            self.refuses(7, 0, vp.write_record, dataclasses.replace(
                formula, hi=12 * ONE, p=1, words=(1,)))


class Blank(Case):
    """Formulas that are blank, and beside each one that nearly is."""

    pairs = [(vp.Fields(kind, 1, -ONE, ONE, words=words, **counts),
              vp.Fields(kind, 1, -ONE, ONE, words=nearly, **counts))
             for kind, counts, words, nearly in (
                 (vp.POLYNOMIAL, {"p": 1}, (0,), (-1,)),
                 (vp.POLYNOMIAL, {"p": 16}, (0,) * 16, (0,) * 15 + (1,)),
                 (vp.ODD, {"p": 2}, (0, 0), (0, -1)),
                 (vp.EVEN, {"p": 2}, (0, 0), (0, 1)),
                 (vp.RATIONAL, {"p": 2, "q": 1}, (0, 0, ONE), (0, 1, ONE)),
                 (vp.RATIONAL, {"p": 2, "q": 1}, (0, 0, -ONE), (-1, 0, -ONE)),
                 (vp.FRACTION, {"p": 1}, (0, 0, ONE), (1, 0, ONE)),
                 (vp.FRACTION, {"p": 2, "mode": 2},
                  (0, 0, ONE, -ONE, 3 * ONE), (0, 1, ONE, -ONE, 3 * ONE)))]

    def test_record(self):
        for blank, nearly in self.pairs:
            self.refuses(vp.BLANK_FORMULA, 0, vp.write_record, blank)
            # 14 before 12, and 6 before 14
            self.refuses(14, 0, vp.write_record, blank, room=0)
            self.refuses(6, 0, vp.write_record,
                         dataclasses.replace(blank, lo=ONE + 1))
            sheet = vp.write_sheet(vp.write_record(nearly))
            self.assertEqual(vp.formula(sheet, 1), nearly)

    def test_before_7_and_8(self):
        """A divisor and a b1 of 0; 12 times 12, which is no word."""
        for number, hi, kind, counts, words in (
                (8, ONE, vp.RATIONAL, {"p": 1, "q": 1}, (0, 0)),
                (8, ONE, vp.FRACTION, {"p": 1}, (0, 0, 0)),
                (7, 12 * ONE, vp.FRACTION, {"p": 1, "mode": 1}, (0, 0, ONE)),
                (7, 12 * ONE, vp.EVEN, {"p": 1}, (0,))):
            blank = vp.Fields(kind, 1, 0, hi, words=words, **counts)
            self.refuses(14, 0, vp.write_record, blank)
            self.refuses(number, 0, vp.write_record, dataclasses.replace(
                blank, words=(1,) + words[1:]))

    def test_root(self):
        self.assertEqual(vp.write_record(vp.Fields(vp.ROOT, 1, 0, 0)),
                         SHEET[8:20] + bytes(4))

    def test_sheet(self):
        """Before 9, 11, 13, 10 and 15; by the sheet writer too."""
        for blank, nearly in self.pairs:
            words = struct.pack(f"<{len(blank.words)}i", *blank.words)
            run = vp.write_record(nearly)[:-len(words)] + words
            self.refuses(14, 8, vp.write_sheet, run)
            sheet = SHEET[:8] + run + SHEET[24:] + b"\0"
            self.refuses(14, 8, vp.count, sheet)
            self.refuses(14, 8, vp.formula, sheet, 2)
            self.refuses(14, 8, vp.evaluate, sheet, 1, ONE + 1)
            self.refuses(14, 8, vp.evaluate_double, sheet, 1, float("nan"))
            self.refuses(14, 8, vp.interval, sheet, 1)
            self.refuses(14, 8, vp.sine, sheet, 1, 0)
            self.refuses(14, 8, vp.cosine, sheet, 1, 0)


class Refusals(Case):
    def test_pickled_and_copied(self):
        with self.assertRaises(vp.Refused) as raised:
            vp.count(SHEET[:31])
        refused = raised.exception
        others = [pickle.loads(pickle.dumps(refused, protocol))
                  for protocol in range(pickle.HIGHEST_PROTOCOL + 1)]
        for other in others + [copy.copy(refused), copy.deepcopy(refused)]:
            self.assertIs(type(other), vp.Refused)
            self.assertEqual(vars(other), vars(refused))
            self.assertEqual(str(other), str(refused))

    def test_message_of_the_library(self):
        with self.assertRaises(vp.Refused) as raised:
            vp.count(b"")
        self.assertRegex(raised.exception.message, r"[a-z].*[.]$")

    def test_message(self):
        refused = vp.Refused(1, 24, "The file was cut.")
        self.assertEqual(vars(refused), {"number": 1, "place": 24,
                                         "message": "The file was cut."})
        self.assertEqual(str(refused), "refused 1 at 24: The file was cut.")


if __name__ == "__main__":
    unittest.main()
