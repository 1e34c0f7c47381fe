"""The paper's own cases (01, 'Checked by hand'), P or not, with the tie cases
as request M-101 has them, and the listing's; then cases of odd and even
formulas (request M-100), of ties (M-101), of sines and cosines (M-102), of the
steps that roots take (M-103), of products from halves (M-104), of marks
(M-105) and of blank formulas (M-106), worked out by hand.

A case is a formula, an argument or an angle where an answer is asked, and what
is given: an answer word, a refusal number at the record, or accepted (0). A
root's case has no formula, and has the number of steps after the answer word;
a mark's case has the mark after it: exact (1) or rounded (0).
"""

from formulas import EVEN, FRACTION, ODD, POLYNOMIAL, RATIONAL, ROOT, Formula
from number import M, NO_WORD, ONE


def ones(*coefficients):
    return tuple(c * ONE for c in coefficients)


def polynomial(words, lo=-2 * ONE, hi=2 * ONE):
    return Formula(POLYNOMIAL, 1, lo, hi, len(words), 0, 0, words)


def rational(numerator, divisor, lo=-2 * ONE, hi=2 * ONE):
    return Formula(RATIONAL, 1, lo, hi, len(numerator), len(divisor), 0,
                   numerator + divisor)


def fraction(mode, words, lo=-2 * ONE, hi=2 * ONE):
    return Formula(FRACTION, 1, lo, hi, len(words) // 2, 0, mode, words)


STEP = polynomial((0, 1))
QUADRATIC = polynomial((ONE, ONE, 8388608))
PADE = rational(ones(12, 6, 1), ones(12, -6, 1), -ONE, ONE)
PADE_WIDER = PADE._replace(lo=-2 * ONE, hi=2 * ONE)
CUBIC = rational(ones(120, 60, 12, 1), ones(120, -60, 12, -1), -ONE, ONE)
TANGENT = fraction(2, ones(0, 1, 1, -1, 3), -ONE, ONE)
SQUARE_ROOT = Formula(ROOT, 1, 0, 2 * ONE, 0, 0, 0, ())

ANSWERS = (
    (STEP, 8388608, 1),
    (STEP, -8388608, -1),
    (STEP, -25165824, -2),
    (QUADRATIC, 8388608, 27262976),
    (PADE, 0, 16777216),
    (PADE, ONE, 45538158),
    (PADE, -ONE, 6181080),
    (TANGENT, ONE // 2, 9151209),
    (SQUARE_ROOT, 0, 0),
    (SQUARE_ROOT, 1, 4096),
    (SQUARE_ROOT, 33554432, 23726566),
)

ADMISSIONS = (
    (PADE_WIDER, 8),
    (polynomial((2147483647, 1), 0, 1), 7),
    (polynomial((2147483647, 1), 0, 0), 0),
    (CUBIC, 7),
)

LISTED = bytes.fromhex(
    "08000000 0100 0100 10000000 1300 0100 00000000 00000002"
    "08000000 FFFF 0100")

# Sheets that the paper says are refused, with the number and the place.
REFUSED = (
    (b"", 1, 0),
    (LISTED[:24], 1, 24),
    (LISTED[:31], 1, 24),
    (LISTED[:24] + bytes(8), 2, 24),
)

# Odd and even formulas. Here and below the interval is -2 to 2 where none
# stands.


def odd(words, *ends):
    return polynomial(words, *ends)._replace(kind=ODD)


def even(words, *ends):
    return polynomial(words, *ends)._replace(kind=EVEN)


HALF = ONE // 2

# The largest A whose S is a word, and the next. M * 2^24 = 2^55 - 2^24 is
# 36028797002186752.
#   189812531^2 = 36028796924625961, less than that by 77560791, which is
#   4.62 * 2^24: the square is M - 4.62 steps, so S = M - 4 and s = M - 5.
#   189812532^2 is more by 2 * 189812531 + 1 = 379625063, above M * 2^24 by
#   302064272, which is 18.004 * 2^24: S = M + 19.
# So S is never M itself.
WIDEST = 189812531

# Exactly one step: its product with x is x / 2^24, whatever s is.
ODD_STEP = odd((1,))

# 1 - x^2/2 and 1 - x^2/2 + x^4/32; x - x^3/8 and x - x^3/4 + x^5/32.
EVEN_OF_TWO = even((ONE, -HALF))
EVEN_OF_THREE = even((ONE, -HALF, ONE // 32))
ODD_OF_TWO = odd((ONE, -ONE // 8))
ODD_OF_THREE = odd((ONE, -ONE // 4, ONE // 32))

ODD_AND_EVEN_ANSWERS = (
    (ODD_STEP, 0, 0),
    (ODD_STEP, HALF - 1, 0),  # just below 1/2
    (ODD_STEP, 1 - HALF, 0),  # just above -1/2
    (ODD_STEP, HALF, 1),  # 1/2, a tie, away from zero
    (ODD_STEP, -HALF, -1),  # -1/2, a tie, away from zero
    (ODD_STEP, -HALF - 1, -1),  # just below -1/2
    (ODD_STEP, ONE, 1),
    (ODD_STEP, -ONE, -1),
    (ODD_STEP, ONE + HALF, 2),  # 3/2, a tie, away from zero
    (ODD_STEP, -ONE - HALF, -2),  # -3/2, a tie, away from zero
    (odd((1,), -WIDEST, WIDEST), WIDEST, 11),  # 11.31
    (odd((1,), -WIDEST, WIDEST), -WIDEST, -11),
    # s = 1/4: 1 - 1/8 = 7/8, and 7 * 2^21 steps.
    (EVEN_OF_TWO, HALF, 14680064),
    (EVEN_OF_TWO, -HALF, 14680064),
    (EVEN_OF_TWO, 0, 16777216),
    (EVEN_OF_TWO, ONE, 8388608),  # s = 1: 1 - 1/2
    (EVEN_OF_TWO, -2 * ONE, -16777216),  # s = 4: 1 - 2
    # s = 1/4: -1/2 + 1/128 = -63/128; 1 - 63/512 = 449/512, 449 * 2^15 steps.
    (EVEN_OF_THREE, HALF, 14712832),
    (EVEN_OF_THREE, -HALF, 14712832),
    # s = 1/4: 1 - 1/32 = 31/32, times 1/2 is 31/64, and 31 * 2^18 steps.
    (ODD_OF_TWO, HALF, 8126464),
    (ODD_OF_TWO, -HALF, -8126464),
    (ODD_OF_TWO, 0, 0),
    (ODD_OF_TWO, 2 * ONE, 16777216),  # s = 4: (1 - 1/2) * 2
    (ODD_OF_TWO, -2 * ONE, -16777216),
    # s = 1/4: -1/4 + 1/128 = -31/128; 1 - 31/512 = 481/512, times 1/2 is
    # 481/1024, and 481 * 2^14 steps.
    (ODD_OF_THREE, HALF, 7880704),
    (ODD_OF_THREE, -HALF, -7880704),
    # s is rounded before it is used. 2896^2 = 8386816 is below 2^23 and
    # 2897^2 = 8392609 above it, so s is 0 or 1 step, and 4 s is 0 or 4; with
    # s unrounded both would be 2.
    (even((0, 4 * ONE)), 2896, 0),
    (even((0, 4 * ONE)), 2897, 4),
    (even((0, 4 * ONE)), -2897, 4),
    # s = 25/16: one step times it is 1.5625, rounded 2; 2 times 5/4 is 2.5 and
    # 2 times -5/4 is -2.5, ties, away from zero.
    (odd((0, 1)), ONE + ONE // 4, 3),
    (odd((0, 1)), -ONE - ONE // 4, -3),
    # s = M - 5 at both ends, and 4 more.
    (even((0, ONE), -WIDEST, WIDEST), WIDEST, 2147483642),
    (even((0, ONE), -WIDEST, WIDEST), -WIDEST, 2147483642),
    (even((4, ONE), -WIDEST, WIDEST), WIDEST, 2147483646),
    # The largest word times one, and times minus one.
    (odd((2147483647,), -ONE, ONE), ONE, 2147483647),
    (odd((2147483647,), -ONE, ONE), -ONE, -2147483647),
)

ODD_AND_EVEN_ADMISSIONS = (
    # S at its largest and above M, with one coefficient, at either end; a
    # polynomial does not form it.
    (even((1,), -WIDEST, WIDEST), 0),
    (odd((1,), -WIDEST, WIDEST), 0),
    (even((1,), 0, WIDEST + 1), 7),
    (odd((1,), 0, WIDEST + 1), 7),
    (even((-1,), -WIDEST - 1, -WIDEST - 1), 7),
    (odd((-1,), -WIDEST - 1, 0), 7),
    (polynomial((1,), -WIDEST - 1, WIDEST + 1), 0),
    # B_0 = |c0| + S with S = M - 4: M, then M + 1.
    (even((4, ONE), -WIDEST, WIDEST), 0),
    (even((5, ONE), -WIDEST, WIDEST), 7),
    (even((-5, ONE), 0, WIDEST), 7),
    # On [-1/2, 1/2] S = 1/4, and a quarter of a step is rounded up: B_0 is
    # M + 1, though the odd formula's last bound product would be small.
    (even((2147483646, 1), -HALF, HALF), 0),
    (even((2147483647, 1), -HALF, HALF), 7),
    (odd((2147483646, 1), -HALF, HALF), 0),
    (odd((2147483647, 1), -HALF, HALF), 7),
    # The last bound product, the odd formula's alone: M * 1 = M; one step of
    # A more adds M / 2^24, nearly 128.
    (odd((2147483647,), -ONE, ONE), 0),
    (odd((2147483647,), 0, ONE + 1), 7),
    (even((2147483647,), 0, ONE + 1), 0),
    # 1073741823 * 2 = M - 1 and 1073741824 * 2 = M + 1.
    (odd((1073741823,)), 0),
    (odd((1073741824,)), 7),
    (even((1073741824,)), 0),
    # 1431655764 * 3/2 = M - 1; 1431655765 * 3/2 = M + 1/2, rounded up.
    (odd((-1431655764,), 0, ONE + HALF), 0),
    (odd((-1431655765,), 0, ONE + HALF), 7),
    # With two coefficients on [-2, 2]: S = 4 and B_0 = c0 + 4, doubled.
    (odd((1073741819, 1)), 0),
    (odd((1073741820, 1)), 7),
    # S = 0: every B is |ck|, and the last bound product is 0.
    (odd((2147483647, 2147483647), 0, 0), 0),
)

# Ties, each going away from zero. In the comments arguments, s and divisors
# are in ones, all else is in steps.

LARGEST_TIE = polynomial((0, 9241 << 12), -464773 << 11, 464773 << 11)

TIES = (
    # 1, and 1/2 or -1/2 more, which is 1 or -1.
    (polynomial((1, 1)), HALF, 2),
    (polynomial((1, 1)), -HALF, 0),
    # 9241 * 464773 = 4294967293 = 2 M - 1, and the other factors are 2^12 and
    # 2^11, so the product is M - 1/2.
    (LARGEST_TIE, 464773 << 11, 2147483647),
    (LARGEST_TIE, -464773 << 11, -2147483647),
    # 1 times 3/2 is 3/2, a tie: 2; times 3/2 again 3; and again 9/2, a tie: 5.
    # Times -3/2 it is -2, 3 and -5.
    (polynomial((0, 0, 1)), ONE + HALF, 3),
    (polynomial((0, 0, 1)), -ONE - HALF, 3),
    (polynomial((0, 0, 0, 1)), ONE + HALF, 5),
    (polynomial((0, 0, 0, 1)), -ONE - HALF, -5),
    # At 1/2: 1/2, so 1; 1/2, so 1, and 3 more. At -1/2: -1, 1, and 3 more.
    (polynomial((3, 0, 1)), HALF, 4),
    (polynomial((3, 0, 1)), -HALF, 4),
    # At 1/2: 1/2, so 1; 1/2, so 1, and 1 more is 2; the half of it is 1. At
    # -1/2: -1; 1, and 1 more is 2; -1.
    (polynomial((0, 1, 0, 1)), HALF, 1),
    (polynomial((0, 1, 0, 1)), -HALF, -1),
    # s = 1/4: 2 or -2 times it is 1/2 or -1/2, so 1 or -1; an odd formula has
    # this times 1/2 or -1/2, a tie again.
    (even((0, 2)), HALF, 1),
    (even((0, 2)), -HALF, 1),
    (even((0, -2)), HALF, -1),
    (even((0, -2)), -HALF, -1),
    (odd((0, 2)), HALF, 1),
    (odd((0, 2)), -HALF, -1),
    (odd((0, -2)), HALF, -1),
    (odd((0, -2)), -HALF, 1),
    # A numerator n over 2 is n/2, over -2 it is -n/2. At 1 and -1 the first n
    # is 1 and -1; at 1/2 and -1/2 too, by ties of their own.
    (rational((0, 1), ones(2)), ONE, 1),
    (rational((0, 1), ones(2)), -ONE, -1),
    (rational((0, 1), ones(-2)), ONE, -1),
    (rational((0, 1), ones(-2)), -ONE, 1),
    (rational((0, 1), ones(2)), HALF, 1),
    (rational((0, 1), ones(2)), -HALF, -1),
    (rational((0, 3), ones(2)), ONE, 2),  # 3/2
    (rational((0, 3), ones(2)), -ONE, -2),
    (rational((0, 0, 3), ones(-2)), ONE, -2),  # -3/2
    (rational((0, 0, 3), ones(-2)), -ONE, -2),
    # The divisor is 2 less a step, and a step times x times x, which is 1 at 1
    # and -1, and at 1/2 and -1/2 by ties. So it is 2 at all four.
    (rational((0, 1), (2 * ONE - 1, 0, 1)), ONE, 1),
    (rational((0, 1), (2 * ONE - 1, 0, 1)), -ONE, -1),
    (rational((0, 1), (2 * ONE - 1, 0, 1)), HALF, 1),
    (rational((0, 1), (2 * ONE - 1, 0, 1)), -HALF, -1),
    # 1 or -1 over 2 and over -2, in mode 0; -3 over 2, in mode 1: -3/2, so -2,
    # and 5 more.
    (fraction(0, (0, 1, 2 * ONE)), ONE, 1),
    (fraction(0, (0, 1, 2 * ONE)), -ONE, -1),
    (fraction(0, (0, 1, -2 * ONE)), ONE, -1),
    (fraction(0, (0, 1, -2 * ONE)), -ONE, 1),
    (fraction(1, (5, -3, 2 * ONE)), ONE, 3),
    (fraction(1, (5, -3, 2 * ONE)), -ONE, 3),
    # In mode 2, s = 1: 1 over 2 is 1/2, so 1, which makes t 2; then 3 or -3
    # over it is 3/2 or -3/2.
    (fraction(2, (0, 3, 2 * ONE - 1, 1, 2 * ONE)), ONE, 2),
    (fraction(2, (0, 3, 2 * ONE - 1, 1, 2 * ONE)), -ONE, -2),
)

# Sines and cosines. The sine of the first formula is the argument itself, and
# in quarters 2 and 3 it negated. In the comments f is the one that is divided
# by 2^6: in quarters 1 and 3 it has been taken from 2^30.

ARGUMENT = odd((ONE,), 0, ONE)

# A sine as a handbook has it: the series of the sine of pi x / 2, to x^11.
SERIES = odd((26353589, -10837479, 1337020, -78547, 2692, -60), -ONE, ONE)

SINES = (
    # f = 0, 1, 31, 32 (1/2, a tie), 33, 64, 95 and 96 (3/2, a tie).
    (ARGUMENT, 0x00000000, 0),
    (ARGUMENT, 0x00000001, 0),
    (ARGUMENT, 0x0000001F, 0),
    (ARGUMENT, 0x00000020, 1),
    (ARGUMENT, 0x00000021, 1),
    (ARGUMENT, 0x00000040, 1),
    (ARGUMENT, 0x0000005F, 1),
    (ARGUMENT, 0x00000060, 2),
    # 0x12345640 is 0x48D159 times 2^6, and 0x48D159 is 4772185; with 32 more
    # it is a tie. Then half of a quarter.
    (ARGUMENT, 0x1234565F, 4772185),
    (ARGUMENT, 0x12345660, 4772186),
    (ARGUMENT, 0x20000000, 8388608),
    # f is 2^30 less 33, 32 (one less 1/2, a tie), 31, 1, 0, 1, 31, 32 and 33.
    (ARGUMENT, 0x3FFFFFDF, 16777215),
    (ARGUMENT, 0x3FFFFFE0, 16777216),
    (ARGUMENT, 0x3FFFFFE1, 16777216),
    (ARGUMENT, 0x3FFFFFFF, 16777216),
    (ARGUMENT, 0x40000000, 16777216),
    (ARGUMENT, 0x40000001, 16777216),
    (ARGUMENT, 0x4000001F, 16777216),
    (ARGUMENT, 0x40000020, 16777216),
    (ARGUMENT, 0x40000021, 16777215),
    # One less 4772185 and 1/2 is 12005030 and 1/2, a tie.
    (ARGUMENT, 0x52345660, 12005031),
    (ARGUMENT, 0x52345661, 12005030),
    (ARGUMENT, 0x60000000, 8388608),
    # f = 96, 33, 32, 31, 1; in quarter 2 f = 0, 1, 31, 32, 33 and 96.
    (ARGUMENT, 0x7FFFFFA0, 2),
    (ARGUMENT, 0x7FFFFFDF, 1),
    (ARGUMENT, 0x7FFFFFE0, 1),
    (ARGUMENT, 0x7FFFFFE1, 0),
    (ARGUMENT, 0x7FFFFFFF, 0),
    (ARGUMENT, 0x80000000, 0),
    (ARGUMENT, 0x80000001, 0),
    (ARGUMENT, 0x8000001F, 0),
    (ARGUMENT, 0x80000020, -1),
    (ARGUMENT, 0x80000021, -1),
    (ARGUMENT, 0x80000060, -2),
    (ARGUMENT, 0x9234565F, -4772185),
    (ARGUMENT, 0x92345660, -4772186),
    (ARGUMENT, 0xA0000000, -8388608),
    # About three quarters as about a quarter, negated.
    (ARGUMENT, 0xBFFFFFDF, -16777215),
    (ARGUMENT, 0xBFFFFFE0, -16777216),
    (ARGUMENT, 0xBFFFFFFF, -16777216),
    (ARGUMENT, 0xC0000000, -16777216),
    (ARGUMENT, 0xC0000001, -16777216),
    (ARGUMENT, 0xC0000020, -16777216),
    (ARGUMENT, 0xC0000021, -16777215),
    (ARGUMENT, 0xD2345660, -12005031),
    (ARGUMENT, 0xD2345661, -12005030),
    (ARGUMENT, 0xE0000000, -8388608),
    # f = 96, 33, 32, 31 and 1.
    (ARGUMENT, 0xFFFFFFA0, -2),
    (ARGUMENT, 0xFFFFFFDF, -1),
    (ARGUMENT, 0xFFFFFFE0, -1),
    (ARGUMENT, 0xFFFFFFE1, 0),
    (ARGUMENT, 0xFFFFFFFF, 0),
    # x - x^3/8 is 31/64 at 1/2, as above, and 7/8 at one, 7 * 2^21 steps.
    (ODD_OF_TWO, 0x20000000, 8126464),
    (ODD_OF_TWO, 0x60000000, 8126464),
    (ODD_OF_TWO, 0xA0000000, -8126464),
    (ODD_OF_TWO, 0xE0000000, -8126464),
    (ODD_OF_TWO, 0x40000000, 14680064),
    (ODD_OF_TWO, 0xC0000000, -14680064),
    # The argument is rounded before it is used. It is half of one, less 33/64
    # and 1/2 of a step: just below 1/2, and 1/2, which is a tie again.
    (ODD_STEP, 0x1FFFFFDF, 0),
    (ODD_STEP, 0x1FFFFFE0, 1),
    (ODD_STEP, 0x60000020, 1),
    (ODD_STEP, 0x9FFFFFE0, -1),
    (ODD_STEP, 0xE0000020, -1),
    (ODD_STEP, 0xE0000021, 0),
    # A formula below 0 between 0 and one, and the largest word at one.
    (odd((-ONE,), 0, ONE), 0x40000000, -16777216),
    (odd((-ONE,), 0, ONE), 0xC0000000, 16777216),
    (odd((-ONE,), 0, ONE), 0xFFFFFFE0, 1),
    (odd((2147483647,), -ONE, ONE), 0x40000000, 2147483647),
    (odd((2147483647,), -ONE, ONE), 0xC0000000, -2147483647),
)

# A quarter more, each time, is an angle of the sines above; from 0xC0000000 on
# the sum wraps.
COSINES = (
    (ARGUMENT, 0x00000000, 16777216),
    (ARGUMENT, 0x00000001, 16777216),
    (ARGUMENT, 0x00000020, 16777216),
    (ARGUMENT, 0x00000021, 16777215),
    (ARGUMENT, 0x12345660, 12005031),
    (ARGUMENT, 0x20000000, 8388608),
    (ARGUMENT, 0x3FFFFFA0, 2),
    (ARGUMENT, 0x3FFFFFE0, 1),
    (ARGUMENT, 0x3FFFFFE1, 0),
    (ARGUMENT, 0x3FFFFFFF, 0),
    (ARGUMENT, 0x40000000, 0),
    (ARGUMENT, 0x40000001, 0),
    (ARGUMENT, 0x40000020, -1),
    (ARGUMENT, 0x52345660, -4772186),
    (ARGUMENT, 0x60000000, -8388608),
    (ARGUMENT, 0x7FFFFFDF, -16777215),
    (ARGUMENT, 0x7FFFFFE0, -16777216),
    (ARGUMENT, 0x7FFFFFFF, -16777216),
    (ARGUMENT, 0x80000000, -16777216),
    (ARGUMENT, 0x80000001, -16777216),
    (ARGUMENT, 0x80000020, -16777216),
    (ARGUMENT, 0x80000021, -16777215),
    (ARGUMENT, 0x92345660, -12005031),
    (ARGUMENT, 0xA0000000, -8388608),
    (ARGUMENT, 0xBFFFFFE0, -1),
    (ARGUMENT, 0xBFFFFFFF, 0),
    (ARGUMENT, 0xC0000000, 0),
    (ARGUMENT, 0xC0000001, 0),
    (ARGUMENT, 0xC0000020, 1),
    (ARGUMENT, 0xD2345660, 4772186),
    (ARGUMENT, 0xE0000000, 8388608),
    (ARGUMENT, 0xFFFFFFDF, 16777215),
    (ARGUMENT, 0xFFFFFFE0, 16777216),
    (ARGUMENT, 0xFFFFFFFF, 16777216),
    (ODD_OF_TWO, 0x00000000, 14680064),
    (ODD_OF_TWO, 0x60000000, -8126464),
    (ODD_OF_TWO, 0xE0000000, 8126464),
    (ODD_STEP, 0xDFFFFFDF, 0),
    (ODD_STEP, 0xDFFFFFE0, 1),
    (odd((2147483647,), -ONE, ONE), 0x80000000, -2147483647),
)

# Formulas that sine and cosine take, and formulas that they refuse by 15.

FIT = (
    ARGUMENT,
    odd((ONE,), -1, ONE),
    odd((ONE,), 0, ONE + 1),
    odd((1,), -WIDEST, ONE),
    odd((1,), 0, WIDEST),
    odd((0, 1), -ONE, 2 * ONE),
)

UNFIT = (
    # The interval ends short of 0 or of one, or of both, or far from them.
    odd((ONE,), 1, ONE),
    odd((ONE,), 0, ONE - 1),
    odd((ONE,), 1, ONE - 1),
    odd((ONE,), 0, 0),
    odd((ONE,), ONE, ONE),
    odd((ONE,), -ONE, 0),
    odd((ONE,), -ONE, ONE - 1),
    odd((ONE,), 1, 2 * ONE),
    odd((ONE,), -2 * ONE, -ONE),
    odd((1,), -WIDEST, -1),
    # Another kind; but for the even formula and the root they give x, or
    # another odd answer.
    polynomial((0, ONE)),
    polynomial((0, ONE, 0, -ONE // 8), 0, ONE),
    even((0, ONE)),
    rational(ones(0, 1), ones(1)),
    fraction(0, ones(0, 1, 1)),
    TANGENT,
    SQUARE_ROOT,
)

# Roots, with the number of steps of Heron's rule. In the comments each w has
# the whole part of v/w in brackets behind it, and the last number is the new
# one that is not below the old, so there is a step for each bracket. v is
# x * 2^24, and 2^13 = 8192, 2^25 = 33554432, 2^27 = 134217728.

ANY_ROOT = SQUARE_ROOT._replace(hi=2147483647)

ROOTS = (
    (0, 0, 0),
    # v = 2^24 has 25 digits; 25/2 rounded up is 13.
    # 8192 (2048), 5120 (3276), 4198 (3996), 4097 (4095), 4096 (4096), 4096.
    (1, 4096, 5),
    # 33554432 has 26 digits.
    # 8192 (4096), 6144 (5461), 5802 (5783), 5792 (5793), 5792.
    (2, 5792, 4),
    # 50331648 has 26 digits. 8192 (6144), 7168 (7021), 7094 (7094), 7094.
    (3, 7094, 3),
    # 2^26 has 27 digits.
    # 16384 (4096), 10240 (6553), 8396 (7992), 8194 (8190), 8192 (8192), 8192.
    (4, 8192, 5),
    # v = 2^36 + 2^24 = 68736253952 has 37 digits. 2^19 = 524288 (131104),
    # 327696 (209756), 268726 (255785), 262255 (262097), 262176 (262175),
    # 262175 (262176), 262175.
    (4097, 262175, 6),
    # The square of 2^24: v = 2^48 has 49 digits. 33554432 (8388608),
    # 20971520 (13421772), 17196646 (16368015), 16782330 (16772103),
    # 16777216 (16777216), 16777216.
    (16777216, 16777216, 5),
    # v = 2^49 has 50 digits. 33554432 (16777216), 25165824 (22369621),
    # 23767722 (23685482), 23726602 (23726530), 23726566 (23726566), 23726566.
    (33554432, 23726566, 5),
    # 48 digits: v = 2^48 - 2^24 is 2^24 * (2^24 - 1), and that is the first
    # bracket. 16777216 (16777215), 16777215 (16777216), 16777215.
    (16777215, 16777215, 2),
    # v = 2^54 - 2^24 has 54 digits. Over 2^27 it is 2^27 - 1/8; then over
    # 2^27 - 1 it is less than 2^27 + 1, as 2^54 - 1 is more than v.
    # 134217728 (134217727), 134217727 (134217728), 134217727.
    (1073741823, 134217727, 2),
    # v = 2^54 has 55 digits. 2^28 = 268435456 (67108864),
    # 167772160 (107374182), 137573171 (130944125), 134258648 (134176820),
    # 134217734 (134217722), 134217728 (134217728), 134217728.
    (1073741824, 134217728, 6),
    # The largest word: v = 2^55 - 2^24 has 55 digits. 268435456 (134217727),
    # 201326591 (178956971), 190141781 (189483851), 189812816 (189812246),
    # 189812531 (189812531), 189812531. (It is also the largest A above.)
    (2147483647, 189812531, 5),
    # A square less one: where x is n^2 * 2^22 + n, v is
    # n^2 * 2^46 + 2 * n * 2^23 = (n * 2^23 + 1)^2 - 1; where x is
    # n^2 * 2^22 - n, v is (n * 2^23 - 1)^2 - 1. There the last new number is
    # above the old one, and two that agree are never met: from the one the
    # rule goes to the other.
    # n = 1, less: v = 8388607^2 - 1 has 46 digits. 2^23 = 8388608 (8388606),
    # 8388607 (8388606), 8388606 (8388608), 8388607.
    (4194303, 8388606, 3),
    # n = 1, more: v = 8388609^2 - 1 has 47 digits. 16777216 (4194305),
    # 10485760 (6710888), 8598324 (8184008), 8391166 (8386052),
    # 8388609 (8388608), 8388608 (8388610), 8388609.
    (4194305, 8388608, 6),
    # n = 4, more: v = 33554433^2 - 1 has 51 digits. 67108864 (16777217),
    # 41943040 (26843547), 34393293 (32736032), 33564662 (33544207),
    # 33554434 (33554432), 33554433 (33554432), 33554432 (33554434), 33554433.
    (67108868, 33554432, 7),
)

# Products from halves. In the comments numbers are written by their digits of
# base 65536, the highest first, and 1,65535 is 131071. Of a1,a0 times b1,b0
# the long multiplication has the lower halves' product a0*b0, the two middle
# products a1*b0 and a0*b1, and the upper halves' product a1*b1. Then come the
# four columns, the lowest first, each with what is carried to it, and the
# digits. Digits d3,d2,d1,d0 are d3 * 2^24 + d2 * 256 + d1 / 256 steps, and a
# little more if d0 is not 0.


def times(c, x):
    """The product of c and the argument, on -x to x."""
    return polynomial((0, c), -x, x)


HALVES = (
    # 1,65535 times 1,65535. 65535*65535 = 65534,1; 1*65535 = 65535, twice;
    # 1*1 = 1. Columns: 1; 65534 + 65535 + 65535 = 196604 = 2,65532, so both
    # additions carry; 1 + 2 = 3; 0. Digits 0,3,65532,1: 768 + 255.98.
    (times(131071, 131071), 131071, 1024),
    (times(131071, 131071), -131071, -1024),
    (times(-131071, 131071), 131071, -1024),
    (times(-131071, 131071), -131071, 1024),
    (even((0, ONE)), 131071, 1024),
    (even((0, ONE)), -131071, 1024),
    # 32767,0 times 0,32769, one middle product alone, then the other:
    # 32767*32769 = 2^30 - 1 = 16383,65535. Digits 0,16383,65535,0:
    # 16383 * 256 + 255.996, which is rounded to 16384 * 256.
    (times(2147418112, 32769), 32769, 4194304),
    (times(2147418112, 32769), -32769, -4194304),
    (times(32769, 2147418112), 2147418112, 4194304),
    (times(32769, 2147418112), -2147418112, -4194304),
    # The largest word, 32767,65535, times 0,65535. 65535*65535 = 65534,1;
    # 32767*65535 = 32766,32769. Columns: 1; 65534 + 32769 = 98303 = 1,32767;
    # 32766 + 1 = 32767; 0. Digits 0,32767,32767,1: 8388352 + 127.996.
    (times(2147483647, 65535), 65535, 8388480),
    (times(65535, 2147483647), -2147483647, -8388480),
    # 255,65535 times 257,65535. 65535*65535 = 65534,1; 255*65535 = 254,65281;
    # 65535*257 = 256,65279; 255*257 = 65535. Columns: 1;
    # 65534 + 65281 + 65279 = 196094 = 2,65022;
    # 254 + 256 + 65535 + 2 = 66047 = 1,511; 1. Digits 1,511,65022,1:
    # 16777216 + 130816 + 253.99.
    (times(16777215, 16908287), 16908287, 16908286),
    (times(16777215, 16908287), -16908287, -16908286),
    # A tie: 2,4096 times 1,6144. 4096*6144 = 384,0; 2*6144 = 12288;
    # 4096*1 = 4096; 2*1 = 2. Columns: 0; 384 + 12288 + 4096 = 16768; 2; 0.
    # Digits 0,2,16768,0: 512 + 65.5.
    (times(135168, 71680), 71680, 578),
    (times(135168, 71680), -71680, -578),
    (times(-135168, 71680), 71680, -578),
    (times(-135168, 71680), -71680, 578),
    # As near below a tie as can be: 0,47 times 2,47409, which is 2^23 - 1.
    # 47*47409 = 33,65535; 47*2 = 94. Columns: 65535; 33 + 94 = 127; 0; 0.
    # Digits 0,0,127,65535: less than 128/256.
    (times(47, 178481), 178481, 0),
    (times(47, 178481), -178481, 0),
    # As near above it: 0,3 times 42,43691. 3*43691 = 2,1; 3*42 = 126.
    # Columns: 1; 2 + 126 = 128; 0; 0. Digits 0,0,128,1: more than 128/256.
    (times(3, 2796203), 2796203, 1),
    (times(3, 2796203), -2796203, -1),
    # The answer is the largest word: 256,1 times 32767,65407. 1*65407 = 65407;
    # 256*65407 = 255,32512; 1*32767 = 32767; 256*32767 = 127,65280. Columns:
    # 65407; 32512 + 32767 = 65279; 255 + 65280 = 65535; 127. Digits
    # 127,65535,65279,65407: 2130706432 + 16776960 + 254.996, and a little.
    (times(16777217, 2147483519), 2147483519, 2147483647),
    (times(16777217, 2147483519), -2147483519, -2147483647),
)

HALVES_ADMISSIONS = (
    # 0,97 times 2,41889, which is 2^24 + 1. 97*41889 = 62,1; 97*2 = 194.
    # Columns: 1; 62 + 194 = 256; 0; 0. Digits 0,0,256,1: more than a step, by
    # the lowest digit alone, so the bound is 2 steps. B_0 is M, then M + 1; L
    # is 1, then 0.
    (polynomial((2147483645, 97), 0, 172961), 0),
    (polynomial((2147483646, 97), 0, 172961), 7),
    (rational((1,), (3, 97), -172961, 0), 0),
    (rational((1,), (2, 97), -172961, 0), 8),
    # 0,4096 times 0,4096 is 2^24 = 256,0, a step exactly.
    (polynomial((2147483646, 4096), 0, 4096), 0),
    (polynomial((2147483647, 4096), 0, 4096), 7),
    (rational((1,), (2, 4096), 0, 4096), 0),
    (rational((1,), (1, 4096), 0, 4096), 8),
    # 1,65535 times 1,65535, as above: 1024 when rounded up, too.
    (polynomial((2147482623, 131071), 0, 131071), 0),
    (polynomial((2147482624, 131071), 0, 131071), 7),
    (even((2147482623, ONE), 0, 131071), 0),
    (even((2147482624, ONE), 0, 131071), 7),
    # 256,1 times 32767,65407, as above: M when rounded up, too.
    (polynomial((0, 16777217), 0, 2147483519), 0),
    (polynomial((1, 16777217), 0, 2147483519), 7),
    # 256,1 times 32767,65408. 1*65408 = 65408; 256*65408 = 255,32768; 32767;
    # 127,65280. Columns: 65408; 32768 + 32767 = 65535; 255 + 65280 = 65535;
    # 127. Digits 127,65535,65535,65408: rounded up, all of them carry, and it
    # is 128,0,0,0, so M + 1.
    (polynomial((0, 16777217), 0, 2147483520), 7),
)

# Marks. In the comments arguments, s and divisors are in ones, all else is in
# steps. 4096 steps squared are 2^24, so s is one step there, exactly; at 4097
# steps the square is 16785409, 8193 more, so s is one step, rounded; at one
# step it is 2^-24, so 0, rounded.

QUARTER_OF_ONE = ONE // 4
IDENTITY = polynomial((0, ONE))

# In a polynomial no roundings cancel: where a product is rounded x is no whole
# number, and no further product with x makes up the part of a step.
POLYNOMIAL_MARKS = (
    # Nothing is multiplied.
    (polynomial((7,)), 3, 7, 1),
    # One product: by one; of a step with x; of two.
    (IDENTITY, 12345, 12345, 1),
    (IDENTITY, -1, -1, 1),
    (STEP, ONE, 1, 1),
    (STEP, -2 * ONE, -2, 1),
    (STEP, 0, 0, 1),
    (STEP, HALF, 1, 0),  # 1/2
    (STEP, -HALF, -1, 0),
    (STEP, 1, 0, 0),  # 2^-24
    (STEP, ONE + 1, 1, 0),  # 2^-24 more than 1
    (STEP, ONE - 1, 1, 0),  # 2^-24 less than 1
    (polynomial((0, 2)), HALF, 1, 1),
    (polynomial((0, 2)), -HALF, -1, 1),
    (polynomial((0, 2)), HALF + 1, 1, 0),  # 2^-23 more than 1
    # Both are exact: 2 and 1. Only the last is rounded: 1 and 1/2, so 1. Only
    # the first: 1/2, so 1, and 1 more is 2; 1. The first, and then 1 less is
    # 0; 0.
    (polynomial((5, 0, 4)), HALF, 6, 1),
    (polynomial((5, 0, 2)), HALF, 6, 0),
    (polynomial((5, 1, 1)), HALF, 6, 0),
    (polynomial((5, -1, 1)), HALF, 5, 0),
    # Only the middle one of three: 1; 1/2, so 1, and 1 more is 2; 1.
    (polynomial((0, 1, 0, 2)), HALF, 1, 0),
    # Products with 0 are exact.
    (polynomial((3, 0, 0)), 1, 3, 1),
    (polynomial((3, 1, 1)), 0, 3, 1),
    # 1/4 and 5/8 in ones, as in the paper's own case.
    (QUADRATIC, HALF, 27262976, 1),
    # Up to the largest word: times one, and M - 1/2.
    (polynomial((0, 2147483647), -ONE, ONE), -ONE, -2147483647, 1),
    (LARGEST_TIE, 464773 << 11, 2147483647, 0),
)

# Near where it turns, an even formula has no use of how s is rounded. x is
# 8193 * 2^11 steps and s a quarter of 8193^2 = 67125249, so 16781312.25,
# rounded 16781312. c2 is 4, so c2 s is 67125248; with s unrounded it would be
# 67125249. c1 is -67108864 - 67125249, so c1 + c2 s is -67108865; it would be
# -67108864, which is -4 in ones. Times s that is -67125248, and 1.0002 less
# for the step, rounded -67125249; it would be -4 times 16781312.25, the same.
# With c0 = 67125249 + 8192 the even part is 8192, and times x it is
# 2^13 * 8193 * 2^11 / 2^24 = 8193.
TURNING = 8193 << 11

SQUARE_MARKS = (
    # With one coefficient s is not used, and so it does not count.
    (even((9,)), 1, 9, 1),
    (even((9,)), 4097, 9, 1),
    (odd((ONE,)), 1, 1, 1),
    (odd((ONE,)), -4097, -4097, 1),
    (ODD_STEP, ONE, 1, 1),
    (ODD_STEP, HALF, 1, 0),  # s is 1/4, but the last product 1/2
    # With two it is used, and counts; beside a coefficient of 0 too.
    (even((9, 0)), 4096, 9, 1),
    (even((9, 0)), 4097, 9, 0),
    (even((9, 0)), 1, 9, 0),
    (even((9, 0, 0)), -4096, 9, 1),
    (even((9, 0, 0)), -4097, 9, 0),
    (even((9, ONE)), 4096, 10, 1),
    (even((9, ONE)), 4097, 10, 0),
    (even((9, ONE)), -4097, 10, 0),
    (odd((ONE, 0)), 4096, 4096, 1),
    (odd((ONE, 0)), 4097, 4097, 0),
    (odd((ONE, 0)), 3, 3, 0),  # s is 9 * 2^-24, so 0
    # The even part is one less a step, and a step more: one. So only s is
    # rounded at 4097.
    (odd((ONE - 1, ONE)), 4096, 4096, 1),
    (odd((ONE - 1, ONE)), 4097, 4097, 0),
    # s is exact, and the product with it is not: 1/2, so 1; 1/4, so 0, and
    # 0 times x is exact.
    (even((0, HALF)), 4096, 1, 0),
    (odd((0, 1)), HALF, 0, 0),
    # Only the odd formula's last product: 1 + 1 times 4096 steps is 2^-11, so
    # 0; 4095 + 1 times 4096 steps is 1.
    (odd((1, ONE)), 4096, 0, 0),
    (odd((4095, ONE)), 4096, 1, 1),
    (odd((4095, ONE)), -4096, -1, 1),
    # s is 1/4: 7/8; and 31/32, then 31/64. All are exact, as at 2.
    (EVEN_OF_TWO, HALF, 14680064, 1),
    (ODD_OF_TWO, -HALF, -8126464, 1),
    (ODD_OF_TWO, 2 * ONE, 16777216, 1),
    # Two roundings that cancel.
    (even((0, -134234113, 67108864)), TURNING, -67125249, 0),
    (even((0, -134234113, 67108864)), -TURNING, -67125249, 0),
    (odd((67133441, -134234113, 67108864), -TURNING, TURNING), TURNING, 8193,
     0),
    (odd((67133441, -134234113, 67108864), -TURNING, TURNING), -TURNING,
     -8193, 0),
)

RATIONAL_MARKS = (
    # x over 2, and over -2.
    (rational((0, ONE), ones(2)), 2, 1, 1),
    (rational((0, ONE), ones(2)), -2, -1, 1),
    (rational((0, ONE), ones(2)), 3, 2, 0),
    (rational((0, ONE), ones(-2)), 2, -1, 1),
    (rational((0, ONE), ones(-2)), -2, 1, 1),
    (rational((0, ONE), ones(-2)), 3, -2, 0),
    # 6 and 7 over -3, 0 over 3 steps: a step times 0 is 0.
    (rational((6,), ones(-3)), 0, -2, 1),
    (rational((-6,), ones(-3)), 0, 2, 1),
    (rational((7,), ones(-3)), 0, -2, 0),
    (rational((0, 1), (3,)), 0, 0, 1),
    # A step over 2 and over 3 steps: 2^24 / 2 is whole, and 2^24 / 3 is not.
    (rational((1,), (2,)), 0, 8388608, 1),
    (rational((1,), (-2,)), 0, -8388608, 1),
    (rational((1,), (3,)), 0, 5592405, 0),
    # Only the numerator's product is rounded: 1/2, so 1; over 1.
    (rational((0, 1), ones(1)), HALF, 1, 0),
    (rational((0, 1), ones(1)), ONE, 1, 1),
    # Only the divisor's: 1/2, so 1, and the divisor is 2; at 1 it is 2 too,
    # exactly. At -1 it is 2 less 2 steps, and 4 over that is a little over 2.
    (rational((4,), (2 * ONE - 1, 1)), HALF, 2, 0),
    (rational((4,), (2 * ONE - 1, 1)), ONE, 2, 1),
    (rational((4,), (2 * ONE - 1, 1)), -ONE, 2, 0),
    # 12 over 12, 19 over 7 and 7 over 19, as in the paper's own cases.
    (PADE, 0, 16777216, 1),
    (PADE, ONE, 45538158, 0),
    (PADE, -ONE, 6181080, 0),
    # Two roundings that cancel: one and half a step over the same.
    (rational((ONE, 1), (ONE, 1)), HALF, 16777216, 0),
    (rational((ONE, 1), (ONE, 1)), ONE, 16777216, 1),
)

FRACTION_MARKS = (
    # Mode 0. 1 over 1; only the product is rounded, 1/2, so 1; only the
    # quotient, 1/3, so 0; 6 over -3, and 7 over -3, which is -7/3, so -2.
    (fraction(0, (5, 2, ONE)), HALF, 6, 1),
    (fraction(0, (5, 1, ONE)), HALF, 6, 0),
    (fraction(0, (5, 2, 3 * ONE)), HALF, 5, 0),
    (fraction(0, (5, 6, -3 * ONE)), ONE, 3, 1),
    (fraction(0, (5, 7, -3 * ONE)), ONE, 3, 0),
    # It has no s that could count, at any depth.
    (fraction(0, (0, ONE, ONE)), 1, 1, 1),
    (fraction(0, (0, ONE, ONE)), -4097, -4097, 1),
    (fraction(0, (0, ONE, ONE, 0, ONE)), 4097, 4097, 1),
    # Depth 2, b1 a step short of 1 or 2, and the inner quotient 1, which makes
    # it up. Of four, only the inner product is rounded: 1/2; only the inner
    # quotient: 1/2; only the outer product: 1/2; only the outer quotient: 1/2.
    (fraction(0, (0, ONE, ONE - 1, 1, ONE)), ONE, ONE, 1),
    (fraction(0, (0, ONE, ONE - 1, 1, ONE)), HALF, HALF, 0),
    (fraction(0, (0, ONE, ONE - 1, 1, 2 * ONE)), ONE, ONE, 0),
    (fraction(0, (0, 1, ONE - 1, 2, ONE)), HALF, 1, 0),
    (fraction(0, (0, 2, 2 * ONE - 1, 2, ONE)), HALF, 1, 0),
    # Mode 1: s over 1. With a1 = 0 too, s counts.
    (fraction(1, (0, ONE, ONE)), 4096, 1, 1),
    (fraction(1, (0, ONE, ONE)), -4096, 1, 1),
    (fraction(1, (0, ONE, ONE)), 4097, 1, 0),
    (fraction(1, (0, ONE, ONE)), 1, 0, 0),
    (fraction(1, (7, 0, ONE)), 4096, 7, 1),
    (fraction(1, (7, 0, ONE)), 4097, 7, 0),
    (fraction(1, (0, 2, ONE)), HALF, 1, 0),  # s = 1/4, and 2 times it is 1/2
    (fraction(1, (0, 4, ONE)), HALF, 1, 1),
    (fraction(1, (0, 4, 2 * ONE)), HALF, 1, 0),  # 1/2
    (fraction(1, (0, 4, -ONE)), HALF, -1, 1),
    # Mode 2 has no use of s at depth 1; at depth 2 it has, with a2 = 0 too.
    # With a2 = 1, s, which is a step, makes b1 up to 1.
    (fraction(2, (0, ONE, ONE)), 1, 1, 1),
    (fraction(2, (0, ONE, ONE)), 4097, 4097, 1),
    (fraction(2, (0, ONE, ONE, 0, ONE)), 4096, 4096, 1),
    (fraction(2, (0, ONE, ONE, 0, ONE)), 4097, 4097, 0),
    (fraction(2, (0, ONE, ONE - 1, ONE, ONE), -HALF, HALF), 4096, 4096, 1),
    (fraction(2, (0, ONE, ONE - 1, ONE, ONE), -HALF, HALF), 4097, 4097, 0),
    (fraction(2, (0, ONE, ONE - 1, ONE, ONE), -HALF, HALF), -4097, -4097, 0),
    # s = 1: 1 over 2 is 1/2, and 1 over 2 again. s = 1/4: 1/8, and 1/2 over
    # 13/8 is 4/13.
    (fraction(2, (0, ONE, ONE + HALF, ONE, 2 * ONE), -ONE, ONE), ONE, HALF, 1),
    (fraction(2, (0, ONE, ONE + HALF, ONE, 2 * ONE), -ONE, ONE), -ONE, -HALF,
     1),
    (fraction(2, (0, ONE, ONE + HALF, ONE, 2 * ONE), -ONE, ONE), HALF, 5162220,
     0),
    # 0 over 3, and 0 over 1; -1/4 over 3 is rounded.
    (TANGENT, 0, 0, 1),
    (TANGENT, ONE // 2, 9151209, 0),
    # Two roundings that cancel: 3 times 1/4 is 3/4, so 1; over 3/4 that is
    # 4/3, so 1; and 3/4 over 3/4 is 1.
    (fraction(0, (5, 3, 3 * QUARTER_OF_ONE)), QUARTER_OF_ONE, 6, 0),
    (fraction(1, (5, 3, 3 * QUARTER_OF_ONE)), HALF, 6, 0),
    (fraction(2, (5, 3, 3 * QUARTER_OF_ONE)), QUARTER_OF_ONE, 6, 0),
)

# 4096 is the root of 2^24, so the root of n * n is n * 4096. The others are
# those above, and those next to 46340 * 46340 = 2147395600, the largest square
# among the words: 46340 * 4096 is 189808640, and one more or less changes it
# by 4096 / (2 * 46340), which is 0.044.
ROOT_MARKS = (
    (0, 0, 1), (1, 4096, 1), (2, 5792, 0), (3, 7094, 0), (4, 8192, 1),
    (9, 12288, 1), (4097, 262175, 0), (4194303, 8388606, 0),
    (4194304, 8388608, 1), (4194305, 8388608, 0), (16777215, 16777215, 0),
    (16777216, 16777216, 1), (33554432, 23726566, 0),
    (67108864, 33554432, 1), (67108868, 33554432, 0),
    (1073741823, 134217727, 0), (1073741824, 134217728, 1),
    (2147395599, 189808639, 0), (2147395600, 189808640, 1),
    (2147395601, 189808640, 0), (2147483647, 189812531, 0),
)

MARKS = (*POLYNOMIAL_MARKS, *SQUARE_MARKS, *RATIONAL_MARKS, *FRACTION_MARKS,
         *((ANY_ROOT, *case) for case in ROOT_MARKS))

# Marks at the door. The pattern 0x3FF << 52 is 1, 0x3E7 << 52 is a step and
# 0x3E6 << 52 half of one; one bit more, or one less, is never whole here.
DOUBLE_MARKS = (
    (IDENTITY, 0x3FF0000000000000, ONE, 1),
    (IDENTITY, 0x3FF0000000000001, ONE, 0),
    (IDENTITY, 0x3FEFFFFFFFFFFFFF, ONE, 0),
    (IDENTITY, 0xBFF0000000000000, -ONE, 1),
    (IDENTITY, 0xBFF0000000000001, -ONE, 0),
    (IDENTITY, 0x3E70000000000000, 1, 1),
    (IDENTITY, 0xBE70000000000000, -1, 1),
    (IDENTITY, 0x3E78000000000000, 2, 0),  # 3/2
    (IDENTITY, 0x3FB999999999999A, 1677722, 0),  # about 1/10, 1677721.6
    # Half a step and just less, of either sign.
    (IDENTITY, 0x3E60000000000000, 1, 0),
    (IDENTITY, 0x3E5FFFFFFFFFFFFF, 0, 0),
    (IDENTITY, 0xBE60000000000000, -1, 0),
    (IDENTITY, 0xBE5FFFFFFFFFFFFF, 0, 0),
    # 0 and minus 0; the least and the greatest subnormal; the least normal.
    (IDENTITY, 0x0000000000000000, 0, 1),
    (IDENTITY, 0x8000000000000000, 0, 1),
    (IDENTITY, 0x0000000000000001, 0, 0),
    (IDENTITY, 0x8000000000000001, 0, 0),
    (IDENTITY, 0x000FFFFFFFFFFFFF, 0, 0),
    (IDENTITY, 0x0010000000000000, 0, 0),
    # The largest word, and a little more.
    (polynomial((0, ONE), -2147483647, 2147483647), 0x405FFFFFFFC00000,
     2147483647, 1),
    (polynomial((0, ONE), -2147483647, 2147483647), 0x405FFFFFFFC00001,
     2147483647, 0),
    # The argument's rounding counts where the answer has no use of it, too.
    (polynomial((9,)), 0x3FF0000000000000, 9, 1),
    (polynomial((9,)), 0x3FF0000000000001, 9, 0),
    (even((9,)), 0x8000000000000000, 9, 1),
    (even((9,)), 0x0000000000000001, 9, 0),
    (rational((9,), ones(-1)), 0x3E70000000000000, -9, 1),
    (rational((9,), ones(-1)), 0x3E60000000000000, -9, 0),
    # The formula's own roundings: half a step at 1/2, s at 4097 steps.
    (STEP, 0x3FE0000000000000, 1, 0),
    (STEP, 0x3FE0000000000001, 1, 0),
    (odd((ONE - 1, ONE)), 0x3F30000000000000, 4096, 1),
    (odd((ONE - 1, ONE)), 0x3F30010000000000, 4097, 0),
    (odd((ONE - 1, ONE)), 0x3F30000000000001, 4096, 0),
    (fraction(2, (0, ONE, ONE)), 0x3F30010000000000, 4097, 1),
    (ODD_OF_TWO, 0x3FE0000000000000, 8126464, 1),
    (ODD_OF_TWO, 0xBFE0000000000000, -8126464, 1),
    (ODD_OF_TWO, 0xBFE0000000000001, -8126464, 0),
    (TANGENT, 0x8000000000000000, 0, 1),
    (TANGENT, 0x8000000000000001, 0, 0),
    # Roots of 1/4, of a little more, of 2 and of minus 0.
    (SQUARE_ROOT, 0x3FD0000000000000, HALF, 1),
    (SQUARE_ROOT, 0x3FD0000000000001, HALF, 0),
    (SQUARE_ROOT, 0x4000000000000000, 23726566, 0),
    (SQUARE_ROOT, 0x8000000000000000, 0, 1),
    (SQUARE_ROOT, 0x8000000000000001, 0, 0),
)

# Marks of sines: the argument is exact where the angle's last six bits are 0.
SINE_MARKS = (
    (ARGUMENT, 0x00000000, 0, 1),
    (ARGUMENT, 0x00000001, 0, 0),
    (ARGUMENT, 0x00000020, 1, 0),
    (ARGUMENT, 0x00000040, 1, 1),
    (ARGUMENT, 0x00000041, 1, 0),
    (ARGUMENT, 0x20000000, 8388608, 1),
    (ARGUMENT, 0x3FFFFFC0, 16777215, 1),
    (ARGUMENT, 0x3FFFFFFF, 16777216, 0),
    (ARGUMENT, 0x40000000, 16777216, 1),
    (ARGUMENT, 0x40000001, 16777216, 0),
    (ARGUMENT, 0x40000040, 16777215, 1),
    (ARGUMENT, 0x7FFFFFC0, 1, 1),
    (ARGUMENT, 0x7FFFFFE0, 1, 0),
    (ARGUMENT, 0x80000000, 0, 1),
    (ARGUMENT, 0x8000003F, -1, 0),
    (ARGUMENT, 0x80000040, -1, 1),
    (ARGUMENT, 0xA0000000, -8388608, 1),
    (ARGUMENT, 0xBFFFFFFF, -16777216, 0),
    (ARGUMENT, 0xC0000000, -16777216, 1),
    (ARGUMENT, 0xC0000040, -16777215, 1),
    (ARGUMENT, 0xC0000060, -16777215, 0),  # one less 3/2 of a step, a tie
    (ARGUMENT, 0xFFFFFFC0, -1, 1),
    (ARGUMENT, 0xFFFFFFFF, 0, 0),
    # The formula's own roundings: half a step at 1/2; none for 31/64, but for
    # the angle's; s alone at 4097 steps, of 64 parts each.
    (ODD_STEP, 0x20000000, 1, 0),
    (ODD_STEP, 0x40000000, 1, 1),
    (ODD_STEP, 0xC0000000, -1, 1),
    (ODD_STEP, 0xE0000000, -1, 0),
    (ODD_OF_TWO, 0x20000000, 8126464, 1),
    (ODD_OF_TWO, 0x20000001, 8126464, 0),
    (ODD_OF_TWO, 0x60000000, 8126464, 1),
    (ODD_OF_TWO, 0xA0000000, -8126464, 1),
    (ODD_OF_TWO, 0xDFFFFFFF, -8126464, 0),
    (odd((ONE - 1, ONE), 0, ONE), 0x00040000, 4096, 1),
    (odd((ONE - 1, ONE), 0, ONE), 0x00040001, 4096, 0),
    (odd((ONE - 1, ONE), 0, ONE), 0x00040040, 4097, 0),
    (odd((ONE,), 0, ONE), 0x00040040, 4097, 1),
)

# A quarter more, each time, is an angle of the sines above.
COSINE_MARKS = (
    (ARGUMENT, 0x00000000, 16777216, 1),
    (ARGUMENT, 0x00000001, 16777216, 0),
    (ARGUMENT, 0x00000040, 16777215, 1),
    (ARGUMENT, 0x3FFFFFC0, 1, 1),
    (ARGUMENT, 0x3FFFFFE0, 1, 0),
    (ARGUMENT, 0x40000000, 0, 1),
    (ARGUMENT, 0x4000003F, -1, 0),
    (ARGUMENT, 0x60000000, -8388608, 1),
    (ARGUMENT, 0x80000000, -16777216, 1),
    (ARGUMENT, 0x80000060, -16777215, 0),
    (ARGUMENT, 0xBFFFFFC0, -1, 1),
    (ARGUMENT, 0xBFFFFFFF, 0, 0),
    (ARGUMENT, 0xC0000000, 0, 1),
    (ARGUMENT, 0xC0000040, 1, 1),
    (ARGUMENT, 0xC0000041, 1, 0),
    (ODD_STEP, 0x00000000, 1, 1),
    (ODD_STEP, 0xE0000000, 1, 0),
    (ODD_OF_TWO, 0xE0000000, 8126464, 1),
    (ODD_OF_TWO, 0xE0000001, 8126464, 0),
    (odd((ONE - 1, ONE), 0, ONE), 0xC0040000, 4096, 1),
    (odd((ONE - 1, ONE), 0, ONE), 0xC0040040, 4097, 0),
)

# Blank formulas (14). A case is a formula alone in its sheet, and what it is
# refused by. The interval is -2 to 2 where none stands; where it is another,
# or a word is large, that is for 6, 7 or 8.

POLYNOMIAL_BLANKS = (
    # All are 0: one, two, and the most there can be; on the smallest interval.
    (polynomial((0,)), 14),
    (polynomial((0, 0)), 14),
    (polynomial((0,) * 16), 14),
    (polynomial((0, 0), 0, 0), 14),
    (odd((0,)), 14),
    (odd((0, 0, 0)), 14),
    (odd((0,) * 16), 14),
    (even((0,)), 14),
    (even((0, 0, 0)), 14),
    (even((0,) * 16), 14),
    # One alone is not 0: the only one, the first, one in the middle, the last.
    (polynomial((1,)), 0),
    (polynomial((1, 0)), 0),
    (polynomial((0, -1, 0)), 0),
    (polynomial((0, 0, 1)), 0),
    (polynomial((0,) * 15 + (1,)), 0),
    (odd((-1,)), 0),
    (odd((-1, 0)), 0),
    (odd((0, 1, 0)), 0),
    (odd((0, 0, -1)), 0),
    (even((1,)), 0),
    (even((1, 0)), 0),
    (even((0, 1, 0)), 0),
    (even((0, 0, -1)), 0),
    # -1 has every bit; the others have one or two bytes that are not 0.
    (polynomial((-1, 0)), 0),
    (polynomial((0x01000000, 0)), 0),
    (polynomial((0, 0x00010000)), 0),
    (odd((0x00000100,)), 0),
    (odd((0, 0x00010000)), 0),
    (even((0, 0x01000000)), 0),
    (even((-0x01000000, 0)), 0),
    # Sums of 0 make nothing blank.
    (polynomial((1, -1)), 0),
    (odd((ONE, -ONE)), 0),
    (even((7, -4, -3)), 0),
    # These give 0 at every argument, and yet are not blank: a step times 0,
    # or times 2^-24, so 0; s is 0.
    (polynomial((0, 1), 0, 0), 0),
    (polynomial((0, 1), -1, 1), 0),
    (odd((1,), 0, 0), 0),
    (even((0, ONE), -1, 1), 0),
    # 14 before 7: S would be above M. A polynomial of zeros has no bound above
    # 0, so it is never refused by 7.
    (odd((0,), 0, WIDEST + 1), 14),
    (odd((0, 0), -M, M), 14),
    (odd((1, 0), -M, M), 7),
    (even((0,), -WIDEST - 1, -WIDEST - 1), 14),
    (even((0, 0), -M, M), 14),
    (even((0, -1), -M, M), 7),
    (polynomial((0, 0), -M, M), 14),
    # 6 before 14: an end that is no word, lo above hi. The one pattern that is
    # no word is not 0 either, be it the only one that is not.
    (polynomial((0, 0), 1, 0), 6),
    (polynomial((0,), NO_WORD, 0), 6),
    (polynomial((0,), 0, NO_WORD), 6),
    (polynomial((NO_WORD,)), 6),
    (polynomial((NO_WORD, 0)), 6),
    (polynomial((0, 0, NO_WORD)), 6),
    (odd((0, NO_WORD, 0)), 6),
    (odd((0,), M, -M), 6),
    (even((0, NO_WORD)), 6),
    (even((0,), 1, 0), 6),
)

RATIONAL_BLANKS = (
    # The numerator is all 0, over good divisors.
    (rational((0,), ones(1)), 14),
    (rational((0, 0), ones(8, 1)), 14),
    (rational((0,) * 12, (-8 * ONE,) + (0,) * 11), 14),
    (rational((0, 0, 0), (1,)), 14),
    # One of the numerator is not 0.
    (rational((1,), ones(1)), 0),
    (rational((1, 0), ones(8, 1)), 0),
    (rational((0, -1, 0), ones(8)), 0),
    (rational((0, 0, 1), ones(8)), 0),
    (rational((0x00010000,), ones(1)), 0),
    (rational((0, -0x01000000), ones(8)), 0),
    (rational((1, -1), ones(8)), 0),
    (rational((0,) * 11 + (1,), ones(8)), 0),
    # 14 before 8: L is 0; 0 less 2; 1 less 2.
    (rational((0,), (0,)), 14),
    (rational((0, 0), ones(0, 1)), 14),
    (rational((0,), ones(1, 1)), 14),
    # A divisor of zeros makes no formula blank: L is 0.
    (rational((1,), (0,)), 8),
    (rational((0, 1), (0, 0)), 8),
    (rational((-1,), (0, 0, 0)), 8),
    (rational((1,), ones(1, 1)), 8),
    # 14 before 7: the divisor's B_0 would be M and 2 M.
    (rational((0,), (M, M)), 14),
    (rational((1,), (M, M)), 7),
    # 7 and not 14: the numerator's bound comes before the divisor's 8.
    (rational((0, M), (0,)), 7),
    # 6 before 14: a divisor's word that is none; the numerator's only word
    # that is not 0; the ends.
    (rational((0,), (NO_WORD,)), 6),
    (rational((0, 0), (ONE, NO_WORD)), 6),
    (rational((0, NO_WORD), ones(1)), 6),
    (rational((NO_WORD, 0), (0,)), 6),
    (rational((0,), ones(1), 1, 0), 6),
    (rational((0,), (0,), 0, NO_WORD), 6),
)

# In every mode; of the fractions the interval is -1 to 1 where none stands.
FRACTION_BLANKS = tuple(
    (fraction(mode, words, *(ends or (-ONE, ONE))), expected)
    for mode in (0, 1, 2) for words, expected, *ends in (
        # b0 and a1 are 0; the other terms, as many as there may be, do not
        # count.
        ((0, 0, ONE), 14),
        ((0, 0, -1), 14),
        (ones(0, 0, 8, 1, 8), 14),
        (ones(0, 0, 8, -1, 8, 3, -8), 14),
        ((0, 0) + ones(8, 1) * 11 + (8 * ONE,), 14),
        ((0, 0, ONE), 14, 0, 0),
        # Either is enough, of any size and sign.
        ((1, 0, ONE), 0),
        ((-1, 0, ONE), 0),
        ((0, 1, ONE), 0),
        ((0, -1, ONE), 0),
        ((0x01000000, 0, ONE), 0),
        ((0, 0x00010000, ONE), 0),
        ((0, -0x01000000, ONE), 0),
        ((1, -1, ONE), 0),
        (ones(1, 0, 8, 0, 8), 0),
        (ones(0, 1, 8, 0, 8), 0),
        ((0, 1, ONE), 0, 0, 0),
        # 14 before 8: the innermost b is 0; b1 is 0, and L is 0 less 1/8; L is
        # 1 less 1.
        ((0, 0, 0), 14),
        (ones(0, 0, 8, 1, 0), 14),
        (ones(0, 0, 0, 1, 8), 14),
        (ones(0, 0, 1, 1, 1), 14),
        # Those with b0 or a1: 8.
        ((0, 1, 0), 8),
        ((1, 0, 0), 8),
        (ones(0, 1, 0, 1, 8), 8),
        (ones(1, 0, 1, 1, 1), 8),
        # 14 before 7: 1 over a step is 2^24 in ones.
        ((0, 0, ONE, ONE, 1), 14),
        ((1, 0, ONE, ONE, 1), 7),
        ((0, 1, ONE, ONE, 1), 7),
        # 6 before 14.
        ((0, 0, NO_WORD), 6),
        ((0, 0, ONE, NO_WORD, ONE), 6),
        ((NO_WORD, 0, ONE), 6),
        ((0, NO_WORD, ONE), 6),
        ((0, 0, ONE), 6, 1, 0),
        ((0, 0, 0), 6, NO_WORD, 0)))

OTHER_BLANKS = (
    # A mode of 3: 6 before 14.
    (fraction(3, (0, 0, ONE)), 6),
    (fraction(3, (0, 0, 0)), 6),
    (fraction(3, (1, 0, ONE)), 6),
    # 14 before 7: S, which mode 0 does not form.
    (fraction(0, (0, 0, ONE), -M, M), 14),
    (fraction(1, (0, 0, ONE), -M, M), 14),
    (fraction(2, (0, 0, ONE), -M, M), 14),
    (fraction(0, (1, 0, ONE), -M, M), 0),
    (fraction(1, (1, 0, ONE), -M, M), 7),
    (fraction(2, (1, 0, ONE), -M, M), 7),
    # A root has no coefficients, and is never blank.
    (SQUARE_ROOT, 0),
    (SQUARE_ROOT._replace(hi=0), 0),
    (SQUARE_ROOT._replace(lo=1, hi=1), 0),
    (SQUARE_ROOT._replace(lo=-1, hi=0), 6),
    # 2 before 14: no coefficient, and one too many; a numerator and a divisor
    # of none; no depth.
    (polynomial(()), 2),
    (polynomial((0,) * 17), 2),
    (odd((0,) * 17), 2),
    (even(()), 2),
    (rational((), (0,)), 2),
    (rational((0,), ()), 2),
    (rational((0,) * 13, ones(1)), 2),
    (fraction(0, (0,)), 2),
    (fraction(0, (0,) * 27), 2),
)

BLANKS = (*POLYNOMIAL_BLANKS, *RATIONAL_BLANKS, *FRACTION_BLANKS,
          *OTHER_BLANKS)

# Fields for the record writer, with words past the last, which do not count;
# place 0.
BLANK_FIELDS = (
    # Two words of 0, and a third that is none of the polynomial's.
    (polynomial((0, 0))._replace(words=(0, 0, 1)), 14),
    (polynomial((0, 0))._replace(words=(0, 0, NO_WORD)), 14),
    (polynomial((0, 0, 1))._replace(words=(0, 0, 1, 0)), 0),
    (polynomial((0, 1))._replace(words=(0, 1, NO_WORD)), 0),
    (odd((0,))._replace(words=(0, ONE, ONE)), 14),
    (even((0,))._replace(words=(0, ONE, ONE)), 14),
    (even((1,))._replace(words=(1, 0, 0)), 0),
    # q and mode are not a polynomial's; nor is the mode a rational's.
    (polynomial((0,))._replace(q=1, mode=3, words=(0, 1)), 14),
    (rational((0,), ones(1))._replace(mode=3), 14),
    # The divisor is no part of the numerator, nor is what follows it.
    (rational((0,), ones(1))._replace(words=(0, ONE, ONE)), 14),
    (rational((0, 0), ones(1))._replace(words=(0, 0, ONE, 5)), 14),
    (rational((0, 0), (0,))._replace(words=(0, 0, 0, 5)), 14),
    (rational((0, 5), (0,))._replace(words=(0, 5, 0, 5)), 8),
    (rational((1,), ones(1))._replace(words=(1, ONE, 0)), 0),
    # The terms past the depth, and those within it.
    (fraction(0, (0, 0, ONE))._replace(words=(0, 0, ONE, 1, 1)), 14),
    (fraction(0, (0, 0, ONE))._replace(q=3, words=(0, 0, ONE, 1, 1)), 14),
    (fraction(0, (0, 1, ONE))._replace(words=(0, 1, ONE, 0, 0)), 0),
    # No word of a root counts, nor its p.
    (SQUARE_ROOT._replace(p=2, words=(0, 0)), 0),
    (SQUARE_ROOT._replace(p=3, q=1, mode=2, hi=0, words=(0,) * 32), 0),
    # 3 and 2 before 14.
    (polynomial((0,))._replace(kind=0x0001), 3),
    (polynomial((0,))._replace(kind=0xFFFF), 3),
    (polynomial((0,))._replace(p=0), 2),
    (polynomial((0,))._replace(p=65535), 2),
    (rational((0,), ones(1))._replace(q=0), 2),
    (fraction(0, (0, 0, ONE))._replace(p=13), 2),
)


def numbered(*formulas):
    """Numbers 1, 2, 3, ..."""
    return [formula._replace(number=i + 1)
            for i, formula in enumerate(formulas)]


BLANK = polynomial((0,))
NOT_BLANK = polynomial((1,))

# Sheets of several formulas, with the refusal and its place; the sheet writer
# gives the same for a run of them. The first record is at 8. A root's is 16
# bytes, a polynomial's of one coefficient 20, a rational's of two 28, a
# fraction's of depth 1 32.
BLANK_SHEETS = (
    (numbered(NOT_BLANK), 0, 0),
    (numbered(BLANK), 14, 8),
    (numbered(BLANK, NOT_BLANK), 14, 8),
    (numbered(NOT_BLANK, BLANK), 14, 28),
    (numbered(SQUARE_ROOT, BLANK), 14, 24),
    (numbered(SQUARE_ROOT, NOT_BLANK, BLANK), 14, 44),
    (numbered(SQUARE_ROOT, BLANK, NOT_BLANK), 14, 24),
    (numbered(NOT_BLANK, rational((1,), ones(1)), odd((0,))), 14, 56),
    (numbered(rational((1,), ones(1)), rational((0,), ones(1))), 14, 36),
    (numbered(fraction(0, (1, 0, ONE)), even((0, 0)), SQUARE_ROOT), 14, 40),
    (numbered(fraction(0, (0, 1, ONE)), fraction(0, (0, 0, ONE))), 14, 40),
    # The earlier record decides: both blank; 14 and then 6, 7 or 8; 6, 7 or 8
    # and then 14.
    (numbered(BLANK, BLANK), 14, 8),
    (numbered(SQUARE_ROOT, BLANK, BLANK), 14, 24),
    (numbered(BLANK, SQUARE_ROOT._replace(lo=-1)), 14, 8),
    (numbered(BLANK, polynomial((M, M))), 14, 8),
    (numbered(BLANK, rational((1,), (0,))), 14, 8),
    (numbered(SQUARE_ROOT._replace(lo=-1), BLANK), 6, 8),
    (numbered(polynomial((M, M)), BLANK), 7, 8),
    (numbered(rational((1,), (0,)), BLANK), 8, 8),
    # 5 before 14, and 14 before the next record's 5 or 2.
    ([NOT_BLANK, BLANK], 5, 28),
    ([NOT_BLANK, BLANK._replace(number=0)], 5, 28),
    ([BLANK, NOT_BLANK], 14, 8),
    (numbered(BLANK, polynomial(())), 14, 8),
    (numbered(polynomial(()), BLANK), 2, 8),
)

# A sheet of three: a root, a polynomial of 2^24 and 5 steps, a root. Of 2^24
# the highest byte alone is not 0; it is the one at 43.
OF_THREE = bytes.fromhex(
    "08000000 0100 0300"
    "10000000 1300 0100 00000000 00000002"
    "18000000 1000 0200 000000FF 00000001 00000001 05000000"
    "10000000 1300 0300 00000000 00000002"
    "08000000 FFFF 0300")

# Bytes, with the refusal and its place.
BLANK_BYTES = (
    (OF_THREE, 0, 0),
    # Zeros from a place on. From the third record, or from the second's last
    # coefficient, the third's length is 0. From the second's first coefficient
    # it is blank; from hi, which is then 0 beside a lo of -1, and from lo, it
    # is too. Then its number, its kind and its length are 0.
    (OF_THREE[:48] + bytes(24), 2, 48),
    (OF_THREE[:45] + bytes(27), 2, 48),
    (OF_THREE[:44] + bytes(28), 2, 48),
    (OF_THREE[:43] + bytes(29), 14, 24),
    (OF_THREE[:40] + bytes(32), 14, 24),
    (OF_THREE[:36] + bytes(36), 14, 24),
    (OF_THREE[:32] + bytes(40), 14, 24),
    (OF_THREE[:30] + bytes(42), 5, 24),
    (OF_THREE[:28] + bytes(44), 3, 24),
    (OF_THREE[:24] + bytes(48), 2, 24),
    # Zeros in the second record's coefficients alone: in both; in either.
    (OF_THREE[:40] + bytes(8) + OF_THREE[48:], 14, 24),
    (OF_THREE[:40] + bytes(4) + OF_THREE[44:], 0, 0),
    (OF_THREE[:44] + bytes(4) + OF_THREE[48:], 0, 0),
    # The same with bytes after the end, or without the end: 14 before 9 and 1.
    (OF_THREE[:40] + bytes(8) + OF_THREE[48:] + b"\0", 14, 24),
    (OF_THREE[:40] + bytes(8) + OF_THREE[48:64], 14, 24),
    (OF_THREE[:40] + bytes(8), 14, 24),
    # Without its last byte the record breaks off: 1 before 14.
    (OF_THREE[:40] + bytes(7), 1, 24),
    # The start counts a formula less: the second is one too many, 4 before
    # 14. It counts 65: 4 at the start.
    (b"\x08\0\0\0\1\0\1\0" + OF_THREE[8:40] + bytes(32), 4, 24),
    (b"\x08\0\0\0\1\0\x41\0" + OF_THREE[8:40] + bytes(32), 4, 0),
)

# Sine and cosine of odd formulas, at any angle: 14 comes before 11 and 15. A
# case is a formula, the number asked for, and what is given.
BLANK_TURNS = (
    (odd((0,), 0, ONE), 1, 14),
    (odd((0, 0), -ONE, ONE), 1, 14),
    (odd((0, 0), -ONE, ONE), 2, 14),
    (odd((0,), 0, ONE - 1), 1, 14),
    (even((0,), 0, ONE), 1, 14),
    (odd((1,), 0, ONE), 1, 0),
    (odd((0, 1), 0, ONE), 1, 0),
    (odd((0, -0x01000000), -ONE, ONE), 1, 0),
    (odd((0, 1), -ONE, ONE), 2, 11),
    (odd((0, 1), 0, ONE - 1), 1, 15),
    (even((0, 1), 0, ONE), 1, 15),
    (SQUARE_ROOT, 1, 15),
)
