"""Measures how far a formula's answers lie from its function, in steps.

A step is 2^-24. Every value below, but for the argument x, is in steps.
"""

from math import sqrt
from typing import NamedTuple

from evaluation import answer_inside
from functions import FUNCTIONS
from number import ONE


class NoValue(Exception):
    """The function, or the printed formula, has no value at an argument."""


class Point(NamedTuple):
    """What is had at one argument."""

    x: float
    true: float  # the function
    own: float  # the formula with its numbers as printed, without rounding
    answer: int  # the answer word


class Errors(NamedTuple):
    """The largest of each over the arguments asked."""

    bound: float  # the printed bound, or None
    own: float
    answer: float
    bound_missed: bool  # by the printed formula, by over 1/100 step somewhere


def arguments(lo, hi, count):
    """That many words from lo to hi, both ends among them, evenly spread."""
    return [lo + (hi - lo) * i // (count - 1) for i in range(count)]


def horner(coefficients, x):
    value = 0.0
    for c in reversed(coefficients):
        value = value * x + c
    return value


def fraction(coefficients, mode, x):
    b, a = coefficients[0::2], coefficients[1::2]
    t = b[-1]
    for j in range(len(a), 0, -1):
        v = x if mode == 0 or (mode == 2 and j == 1) else x * x
        t = b[j - 1] + a[j - 1] * v / t
    return t


def unrounded(kind, parts, mode, x):
    """The value of a formula in doubles."""
    if kind == "polynomial":
        return horner(parts[0], x)
    if kind == "odd":
        return x * horner(parts[0], x * x)
    if kind == "even":
        return horner(parts[0], x * x)
    if kind == "rational":
        return horner(parts[0], x) / horner(parts[1], x)
    if kind == "fraction":
        return fraction(parts[0], mode, x)
    return sqrt(x)


def value_of(what, function, x):
    """The function's value at x, in steps."""
    try:
        return function(x) * ONE
    except (ValueError, ZeroDivisionError):
        raise NoValue(f"{what} has no value at {x}") from None


def points(printed, count):
    """What is had at `count` arguments."""
    formula = printed.formula
    function = FUNCTIONS[printed.function]
    parts = [[float(value) for value in part] for part in printed.parts]

    def own(x):
        return unrounded(printed.kind, parts, formula.mode, x)

    for word in arguments(formula.lo, formula.hi, count):
        x = word / ONE
        yield Point(x, value_of(printed.function, function, x),
                    value_of("the printed formula", own, x),
                    answer_inside(formula, word).word)


def bound_at(printed, true):
    """The printed bound where the function has this value."""
    return float(printed.bound) * (abs(true) if printed.relative else ONE)


def measure(printed, count):
    """The errors of a formula over `count` arguments."""
    had = list(points(printed, count))
    own = max(abs(point.own - point.true) for point in had)
    answer = max(abs(point.answer - point.true) for point in had)
    if printed.bound is None:
        return Errors(None, own, answer, False)
    bound = max(bound_at(printed, point.true) for point in had)
    missed = any(
        abs(point.own - point.true) > bound_at(printed, point.true) + 0.01
        for point in had)
    return Errors(bound, own, answer, missed)


def walk_bound(count, v):
    """What typing and rounding cost a polynomial of `count` numbers at most.

    Where |x| is v, each number costs half a step, times its power of v, and
    the rounded products cost half of 1 + v + .. + v^(count-2).
    """
    return horner([1] * (count - 1) + [0.5], v)


def rounding_bound(kind, numbers, x):
    """What typing and rounding cost a formula of these numbers at most.

    An even one is its polynomial at s, which lies within half a step of x*x;
    that costs half of the polynomial's slope. An odd one is the product of
    that and x.
    """
    if kind == "polynomial":
        return walk_bound(len(numbers), abs(x))
    most = x * x + 0.5 / ONE  # neither x*x nor s is above it
    slope = horner([k * abs(c) for k, c in enumerate(numbers)][1:], most)
    even = walk_bound(len(numbers), most) + slope / 2
    return even if kind == "even" else abs(x) * even + 0.5


def rounding_is_small(printed, count):
    """Whether answers keep as near to the printed formula as they should."""
    numbers = [float(value) for value in printed.parts[0]]
    return all(
        abs(point.answer - point.own)
        <= rounding_bound(printed.kind, numbers, point.x)
        for point in points(printed, count))
