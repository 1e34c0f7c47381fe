"""Products from halves with a slip in each, which the vectors of
groups_halves.py have to show (request M-104).
"""

from contextlib import contextmanager
from struct import error
from typing import Callable, NamedTuple

import formulas
from number import M, bound_product, product
from questions import answer_to


def lower(n):
    return n & 0xFFFF


def upper(n):
    return n >> 16


def nothing(n):
    return 0


def as_it_is(n):
    return n


def digit_by_digit(way, low, first, second, high):
    """The product of two sizes from those of their halves, as on paper."""
    one = lower(first) + way.out_of_low(low)
    two = lower(second) + lower(one)
    both = way.together(way.out_of_first(one) + way.out_of_second(two))
    three = both + upper(first) + upper(second) + lower(high)
    four = way.out_of_high(high) + way.into_highest(three)
    return lower(low) | lower(two) << 16 | lower(three) << 32 | four << 48


def without_a_32_bit_carry(way, low, first, second, high):
    """The same in numbers of 32 bits, and the lower one's carry lost."""
    middle = first + second
    below = low + (lower(middle) << 16)
    return below & 0xFFFFFFFF | high + upper(middle) << 32


def away_from_zero(size, sign):
    return sign * (size + (1 << 23) >> 24)


def upward(size):
    return size + (1 << 24) - 1 >> 24


class Way(NamedTuple):
    """How a product is worked; a slip replaces one of these."""

    halves: Callable = lambda n: (lower(n), upper(n))
    middles: Callable = lambda first, second: (first, second)
    out_of_low: Callable = upper
    out_of_first: Callable = upper
    out_of_second: Callable = upper
    together: Callable = as_it_is
    out_of_high: Callable = upper
    into_highest: Callable = upper
    put_together: Callable = digit_by_digit
    nearest: Callable = away_from_zero
    upward: Callable = upward

    def size(self, a, b):
        (a0, a1), (b0, b1) = self.halves(a), self.halves(b)
        first, second = self.middles(a1 * b0, a0 * b1)
        return self.put_together(self, a0 * b0, first, second, a1 * b1)

    def product(self, a, b):
        sign = -1 if (a < 0) != (b < 0) else 1
        return self.nearest(self.size(abs(a), abs(b)), sign)

    def bound_product(self, a, b):
        return self.upward(self.size(a, b))


def signed_half(n):
    return n - 0x10000 if n >= 0x8000 else n


def carries_lost_above(bit):
    """Rounding where nothing is carried into a bit and those above it."""
    below = (1 << bit) - 1

    def steps(size, added):
        return (size & ~below | size + added & below) >> 24

    return {"nearest": lambda size, sign: sign * steps(size, 1 << 23),
            "upward": lambda size: steps(size, (1 << 24) - 1)}


# What is replaced in each slip.
SLIPS = {
    "the low product's upper half not carried": {"out_of_low": nothing},
    "carry at the first middle product lost": {"out_of_first": nothing},
    "carry at the second middle product lost": {"out_of_second": nothing},
    "both of these carries lost": {"together": nothing},
    "both at once taken as one": {"together": lambda n: min(n, 1)},
    "carry into the highest half lost": {"into_highest": nothing},
    "carry of a 32-bit sum lost": {"put_together": without_a_32_bit_carry},
    "the high product's upper half lost": {"out_of_high": nothing},
    "first middle product twice": {"middles": lambda n, _: (n, n)},
    "second middle product twice": {"middles": lambda _, n: (n, n)},
    "first middle product left out": {"middles": lambda _, n: (0, n)},
    "second middle product left out": {"middles": lambda n, _: (n, 0)},
    "halves of 15 bits": {"halves": lambda n: (n & 0x7FFF, n >> 15)},
    "lower mask a bit short": {"halves": lambda n: (n & 0x7FFF, n >> 16)},
    "lower mask without its lowest bit": {
        "halves": lambda n: (n & 0xFFFE, n >> 16)},
    "upper mask a bit short": {
        "halves": lambda n: (n & 0xFFFF, n >> 16 & 0x3FFF)},
    "signed lower halves": {
        "halves": lambda n: (signed_half(lower(n)), upper(n))},
    "rounding not carried past the lower 32 bits": carries_lost_above(32),
    "rounding not carried past the lower 48 bits": carries_lost_above(48),
    "sign before the half is added": {
        "nearest": lambda size, sign: sign * size + (1 << 23) >> 24},
    "no half added, sign last": {
        "nearest": lambda size, sign: sign * (size >> 24)},
    "no half added, sign first": {
        "nearest": lambda size, sign: sign * size >> 24},
    "ties towards zero": {
        "nearest": lambda size, sign: sign * (size + (1 << 23) - 1 >> 24)},
    "bound cut off": {"upward": lambda size: size >> 24},
    "bound to the nearest": {"upward": lambda size: size + (1 << 23) >> 24},
    "bound without the lowest digit": {
        "upward": lambda size: upper(size) + 0xFF >> 8},
    "bound a step more where exact": {
        "upward": lambda size: size + (1 << 24) >> 24},
    "bound kept to 32 bits": {
        "upward": lambda size: upward(size) & 0xFFFFFFFF},
}


def is_in_products(slip):
    """A slip that rounds bound products alone is not."""
    return SLIPS[slip].keys() != {"upward"}


def is_in_bounds(slip):
    """A slip that rounds products alone is not."""
    return SLIPS[slip].keys() != {"nearest"}


def plain(a, b):
    return product(a, b).number


@contextmanager
def formulas_worked_by(other, other_bound):
    """Formulas are worked by another product, with the mark it should have,
    and by another bound product. Beyond the words a bound is refused whatever
    it is multiplied by, so that the other need not take it."""
    formulas.product = lambda a, b: product(a, b)._replace(number=other(a, b))
    formulas.bound_product = lambda a, b: (
        other_bound if a <= M and b <= M else bound_product)(a, b)
    try:
        yield
    finally:
        formulas.product = product
        formulas.bound_product = bound_product


def is_changed(vector):
    """Whether the answer is another one, or none can be given."""
    question, content, answer = vector
    try:
        return answer_to(question, content) != answer
    except (error, ZeroDivisionError):
        return True


def changed(vectors, other=plain, other_bound=bound_product, count=sum):
    """How many vectors other products change; or, counted by `any`, whether
    they change one."""
    with formulas_worked_by(other, other_bound):
        return count(map(is_changed, vectors))
