"""Words and their arithmetic (paper 01, 'The number on the board').

A word is a whole number from -M to M and stands for itself divided by 2^24.
All arithmetic is on whole numbers of any size: a product or quotient that is
no word is given as the whole number it is. Admission keeps formulas from it.
A root is worked by Heron's rule (request M-103). What is rounded says whether
it had to be (M-105).
"""

from typing import NamedTuple

ONE = 1 << 24
M = 2147483647  # the largest word
NO_WORD = -2147483648  # the one 32-bit pattern that is no word


def is_word(n):
    return -M <= n <= M


class Marked(NamedTuple):
    """A whole number and its mark: exact, or else rounded."""

    number: int
    exact: bool


def nearest(a, d):
    """a / d rounded to the nearest whole number, a tie going away from zero
    (request M-101); exact where a / d is a whole number itself.

    Its size is the floor of |a|/|d| + 1/2; its sign is that of a / d.
    """
    size = (2 * abs(a) + abs(d)) // (2 * abs(d))
    return Marked(size if (a < 0) == (d < 0) else -size, a % d == 0)


def rounded_up(a, d):
    """The least whole number not below a / d."""
    return -(-a // d)


def product(a, b):
    return nearest(a * b, ONE)


def quotient(a, d):
    """The quotient of a by d, d not 0."""
    return nearest(a * ONE, d)


def bound_product(a, b):
    """The bound product of two numbers not below 0."""
    return rounded_up(a * b, ONE)


def bound_quotient(a, d):
    """The bound quotient of a, not below 0, by d, above 0."""
    return rounded_up(a * ONE, d)


def first_number(v):
    """2 to the power b/2 rounded up, where v has b binary digits."""
    return 1 << (v.bit_length() + 1) // 2


def next_number(v, w):
    """The whole part of half of w plus the whole part of v/w."""
    return (w + v // w) // 2


def heron(v):
    """The root of v, above 0, and the number of steps: each replaces the old
    number by a new one, until the new is not below the old. The old one is
    then the root, and that last step is counted too."""
    old = first_number(v)
    new = next_number(v, old)
    steps = 1
    while new < old:
        old, new = new, next_number(v, new)
        steps += 1
    return old, steps


def root(x):
    """The largest whole r with r*r not above x * 2^24 ('Formula kinds'), the
    number of steps to it, none for x = 0, and whether it is exact: whether its
    square is x * 2^24 (request M-105)."""
    v = x * ONE
    r, steps = heron(v) if v != 0 else (0, 0)
    return r, steps, r * r == v
