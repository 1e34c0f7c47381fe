"""The functions that the formulas stand for, by their names in a text.

They are worked in doubles by Python's math, whose error is near 1e-16 of the
value; those of the ready formulas are below 16, so it stays under a millionth
of a step there.
Where a function has no value, math says so by a ValueError, or by a division
by zero.
"""

from math import (
    acos, asin, atan, atanh, copysign, cos, cosh, exp, log, log1p, pi, sin,
    sinh, sqrt, tan, tanh)


def cbrt(x):
    return copysign(abs(x) ** (1 / 3), x)


FUNCTIONS = {
    "sin x": sin,
    "sin(pi x/2)": lambda x: sin(pi * x / 2),
    "cos x": cos,
    "cos(pi x/2)": lambda x: cos(pi * x / 2),
    "tan x": tan,
    "arctan x": atan,
    "arcsin x": asin,
    "arcsin(x)/sqrt(1-x^2)": lambda x: asin(x) / sqrt(1 - x * x),
    "arccos(x)/sqrt(1-x)":
        lambda x: sqrt(2) if x == 1 else acos(x) / sqrt(1 - x),
    "e^x": exp,
    "2^x": lambda x: 2 ** x,
    "10^(x/4)": lambda x: 10 ** (x / 4),
    "ln(1+x)": log1p,
    "lg((1+x)/(1-x))": lambda x: 2 * atanh(x) / log(10),
    "sqrt x": sqrt,
    "sqrt(1+x)": lambda x: sqrt(1 + x),
    "cbrt x": cbrt,
    "cbrt(1+x)": lambda x: cbrt(1 + x),
    "sinh x": sinh,
    "cosh x": cosh,
    "tanh x": tanh,
    "x coth(x/2)": lambda x: x / tanh(x / 2) if x else 2.0,
}
