"""What is told of a formula that is refused: why, and with 7 and 8 how wide its
interval may be."""

from decimal import Decimal
from fractions import Fraction
from math import ceil, floor

from formulas import admission
from number import ONE

BLANK = 14
WHY = {  # as the library has it; tests/words.sh holds the two together
    7: "the word range may be left on the way to an answer",
    8: "the divisor may reach 0",
    BLANK: "the formula is blank and could only answer 0: its coefficients, a "
           "rational's numerator, or a fraction's b0 and a1 are all 0",
}
PLACES = 8  # decimal places that tell one word from the next


def widest(formula):
    """The largest word A such that -A to A is admitted; None where none is.

    Admission asks for the larger of |lo| and |hi| alone, and its bounds only
    grow with it: what lies inside -A to A is admitted, and nothing else.
    """
    def admitted(a):
        return admission(formula._replace(lo=-a, hi=a)) == 0

    if not admitted(0):
        return None
    inside, outside = 0, max(abs(formula.lo), abs(formula.hi))
    while outside - inside > 1:
        middle = (inside + outside) // 2
        if admitted(middle):
            inside = middle
        else:
            outside = middle
    return inside


def decimal(word, rounded):
    """A word in decimals, rounded by floor or ceil."""
    places = rounded(Fraction(word * 10 ** PLACES, ONE))
    return f"{Decimal(places).scaleb(-PLACES).normalize():f}"


def interval(lo, hi):
    """An interval in decimals which becomes these words again when typed."""
    return f"[{decimal(lo, floor)}, {decimal(hi, ceil)}]"


def admitted_told(formula):
    """Which intervals are admitted with the numbers of a formula."""
    a = widest(formula)
    if a is None:
        return "no interval is admitted with these numbers"
    lo, hi = max(formula.lo, -a), min(formula.hi, a)
    part = interval(lo, hi) if lo <= hi else "nothing"
    return (f"any interval inside {interval(-a, a)} is admitted; "
            f"of the one that was typed, {part}")


def refusal_told(refused, formula):
    """Why a formula is refused by 14, 7 or 8, and what would help."""
    told = f"refused {refused}, {WHY[refused]}"
    if refused == BLANK:
        return f"{told}; a number nearer to 0 than 1/{2 * ONE} becomes 0"
    return f"{told}: {admitted_told(formula)}"
