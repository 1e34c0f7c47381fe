"""Valvepigeon from Python: formula sheets, and the fixed-point arithmetic behind them.

A word is a whole number from -2147483647 to 2147483647, and stands for itself
divided by 2^24. Every function takes any bytes; it gives its answer or raises
`Refused`. "The sheet's own" refusals are 1 to 9 and 14, which comes directly
after 6. With the repository's own sheets:

    >>> import valvepigeon
    >>> with open("sheets/square-root.sheet", "rb") as file:
    ...     sheet = file.read()
    >>> valvepigeon.count(sheet)
    4
    >>> valvepigeon.evaluate(sheet, 161, 33554432)
    Worked(word=23726566, steps=5, exact=False)
    >>> valvepigeon.evaluate_double(sheet, 161, 2.0).value
    1.4142135381698608
    >>> valvepigeon.interval(sheet, 161)
    Ends(low=0.0, high=2.0)
    >>> valvepigeon.evaluate_double(sheet, 161, 2.5)
    Traceback (most recent call last):
        ...
    valvepigeon.Refused: refused 10 at 0: ...

A root is worked by Heron's rule, and `steps` is the number of its steps, the
last one included: at most 7. The five above go from 2^25, which only by chance
is the argument too, to 25165824, 23767722, 23726602 and 23726566; the fifth
changes nothing, and so ends it. For the argument 0, for every other kind, and
in sines and cosines `steps` is 0.

An answer is `exact` where no product and no quotient on the way to it was
rounded, and so is exactly the formula's value; a square of the argument that
the rule of the formula never uses does not count. A root is exact where its
square is the argument, both in ones.

    >>> valvepigeon.evaluate_double(sheet, 161, 0.25)
    Shown(value=0.5, steps=5, exact=True)
    >>> valvepigeon.evaluate_double(sheet, 161, 0.25 + 2**-54).exact
    False

The second double is no whole number of steps of 2^-24. It is rounded to one,
and no answer to it is exact.

An angle is a part of a turn, which has 2^32 of them. If it is no multiple of 64
it is rounded, and neither its sine nor its cosine is exact. The sine of an eighth is

    >>> with open("sheets/sine-quarter.sheet", "rb") as file:
    ...     valvepigeon.sine(file.read(), 14, 2**32 // 8).word / 2**24
    0.7071067690849304

A sheet is any bytes-like object, and its length counts in bytes. A number is an
int, the argument of `evaluate_double` an int or a float; anything else, a bool
too, is a TypeError. A number that C could not be given (a formula number
outside 0..65535, say) is an OverflowError; so add angles modulo 2^32.

`pip install ./bindings/python` installs it. The shared library, which
`./build-library` makes on x86-64 Linux, is looked for where the variable
VALVEPIGEON_LIBRARY says, else beside this module, in the repository or release
that it stands in, and where the system's loader looks. Its version has to be
2.2.0 or a later 2.x: an older library takes blank formulas, and one before
2.1.0 does not set `exact`.
"""

from __future__ import annotations

import ctypes
import sys
from dataclasses import dataclass
from typing import TYPE_CHECKING, Any, Optional, Tuple

from . import _library

if TYPE_CHECKING:
    from _typeshed import ReadableBuffer

# The kinds of formula records. The words of ODD are the coefficients of x, x^3,
# x^5, ..., those of EVEN the ones of 1, x^2, x^4, ...
POLYNOMIAL, RATIONAL, FRACTION, ROOT = 0x0010, 0x0011, 0x0012, 0x0013
ODD, EVEN = 0x0014, 0x0015

# The longest record and what a sheet adds to its run, in bytes; a sheet's limit.
LONGEST_RECORD, SHEET_ADDS, MOST_FORMULAS = 120, 16, 64

# The numbers of the refusals; `message` says what each means.
CUT_SHORT, WRONG_LENGTH, WRONG_KIND, WRONG_COUNT = 1, 2, 3, 4
NUMBER_NOT_ABOVE, WRONG_VALUE, RANGE_LEFT, DIVISOR_ZERO = 5, 6, 7, 8
BYTES_AFTER_END, ARGUMENT_OUTSIDE, NO_SUCH_FORMULA = 9, 10, 11
BUFFER_TOO_SHORT, NOT_FINITE, BLANK_FORMULA, NO_SINE = 12, 13, 14, 15


class Refused(Exception):
    """A refusal: its `number`, its `place`, and as `message` a sentence that
    says what is wrong and what to do."""

    def __init__(self, number: int, place: int, message: str = "") -> None:
        super().__init__(number, place, message)
        self.number = number
        self.place = place
        self.message = message

    def __str__(self) -> str:
        said = f"refused {self.number} at {self.place}"
        return f"{said}: {self.message}" if self.message else said


@dataclass(frozen=True)
class Fields:
    """A formula's fields; a field that the kind has not is 0.

    p is the count of a polynomial, odd and even ones included, the numerator's
    count or the depth, q the divisor's count. `words` are the coefficients in
    stored order, as many as the counts ask for: p of a polynomial, p + q of a
    rational, 2 p + 1 of a fraction, none of a root.
    """

    kind: int
    number: int
    lo: int
    hi: int
    p: int = 0
    q: int = 0
    mode: int = 0
    words: Tuple[int, ...] = ()


@dataclass(frozen=True)
class Worked:
    """A formula's answer, a word; the steps of a root, or 0; and whether it is
    exact, or else was rounded on the way."""

    word: int
    steps: int = 0
    exact: bool = False


@dataclass(frozen=True)
class Shown:
    """A formula's answer as a double, exactly the answer word divided by 2^24;
    its steps, and whether it is exact, as those of `Worked`."""

    value: float
    steps: int = 0
    exact: bool = False


@dataclass(frozen=True)
class Ends:
    """A formula's interval: each end exactly its word divided by 2^24."""

    low: float
    high: float


# ---- what C is given

def _int(value: int) -> int:
    if isinstance(value, bool) or not isinstance(value, int):
        raise TypeError(f"an int is asked for, not {type(value).__name__}")
    return value


def _within(value: int, low: int, high: int) -> int:
    """The value, if C can be given it: ctypes would cut off its upper bits."""
    if not low <= _int(value) <= high:
        raise OverflowError(f"an int from {low} to {high} is asked for")
    return value


def _u16(value: int) -> int:
    return _within(value, 0, 65535)


def _u32(value: int) -> int:
    return _within(value, 0, 4294967295)


def _i32(value: int) -> int:
    return _within(value, -2147483648, 2147483647)


def _double(value: float) -> float:
    return value if isinstance(value, float) else float(_int(value))


def _asked_for(kind: int, p: int, q: int) -> Optional[int]:
    """How many words the counts ask for; None where the kind is no formula's."""
    return {POLYNOMIAL: p, RATIONAL: p + q, FRACTION: 2 * p + 1, ROOT: 0,
            ODD: p, EVEN: p}.get(kind)


def _struct(fields: Fields) -> _library.FieldsStruct:
    if not isinstance(fields, Fields):
        raise TypeError(f"Fields are asked for, not {type(fields).__name__}")
    kind, p, q = _u16(fields.kind), _u16(fields.p), _u16(fields.q)
    words = [_i32(word) for word in fields.words]
    asked_for = _asked_for(kind, p, q)
    if asked_for is not None and len(words) != asked_for:
        raise ValueError(
            f"{len(words)} words, where the counts ask for {asked_for}")
    # More than fit go with a kind or count that is refused before any is read.
    return _library.FieldsStruct(
        kind, _u16(fields.number), _i32(fields.lo), _i32(fields.hi), p, q,
        _u16(fields.mode),
        (ctypes.c_int32 * _library.WORDS)(*words[:_library.WORDS]))


def _start(view: memoryview) -> Any:
    """A view's bytes as ctypes takes them: the address of what may be written,
    a bytes object itself, and a copy of anything else."""
    if not view.c_contiguous:
        return view.tobytes()
    if not view.readonly:
        return ctypes.addressof((ctypes.c_char * 0).from_buffer(view))
    if isinstance(view.obj, bytes) and view.nbytes == len(view.obj):
        return view.obj
    return view.tobytes()


def _called(function: str, *arguments: Any) -> Any:
    """Calls a function of the library; a refusal is raised."""
    result = getattr(_library.loaded(), function)(*arguments)
    if result.refused:
        raise Refused(result.refused, result.place,
                      _library.message(result.refused))
    return result


def _lent(function: str, content: ReadableBuffer, *arguments: Any) -> Any:
    """Calls a function that is lent bytes, for as long as the call takes."""
    with memoryview(content) as view:
        return _called(function, _start(view), view.nbytes, *arguments)


def _worked(function: str, sheet: ReadableBuffer, *arguments: int) -> Worked:
    """The answer of a function that gives a word."""
    answer = _lent(function, sheet, *arguments)
    return Worked(answer.word, answer.steps, bool(answer.exact))


# ---- the nine functions

def count(sheet: ReadableBuffer) -> int:
    """How many formulas the sheet has. The sheet's own refusals."""
    return _lent("vp_count", sheet).count


def formula(sheet: ReadableBuffer, number: int) -> Fields:
    """The formula of that number. The sheet's own refusals, then 11."""
    f = _lent("vp_formula", sheet, _u16(number)).fields
    return Fields(f.kind, f.number, f.lo, f.hi, f.p, f.q, f.mode,
                  tuple(f.words[:_asked_for(f.kind, f.p, f.q)]))


def evaluate(sheet: ReadableBuffer, number: int, argument: int) -> Worked:
    """The answer at a word. The sheet's own refusals, then 11, 10."""
    return _worked("vp_evaluate", sheet, _u16(number), _i32(argument))


def evaluate_double(sheet: ReadableBuffer, number: int,
                    argument: float) -> Shown:
    """The answer at a double, which is rounded to a word; if it had to be, the
    answer is not exact. The sheet's own refusals, then 11, 13, 10."""
    answer = _lent("vp_evaluate_double", sheet, _u16(number),
                   _double(argument))
    return Shown(answer.value, answer.steps, bool(answer.exact))


def sine(sheet: ReadableBuffer, number: int, angle: int) -> Worked:
    """The sine of an angle, 0 to 2^32 - 1, by an odd formula whose interval
    holds 0 to one, as those for sin(pi x/2). It can be exact at
    multiples of 64 only. The sheet's own refusals, then 11, 15."""
    return _worked("vp_sine", sheet, _u16(number), _u32(angle))


def cosine(sheet: ReadableBuffer, number: int, angle: int) -> Worked:
    """The cosine: the sine of a quarter more, with the same refusals."""
    return _worked("vp_cosine", sheet, _u16(number), _u32(angle))


def interval(sheet: ReadableBuffer, number: int) -> Ends:
    """A formula's interval. The sheet's own refusals, then 11."""
    ends = _lent("vp_interval", sheet, _u16(number))
    return Ends(ends.low, ends.high)


def write_record(fields: Fields, *, room: int = LONGEST_RECORD) -> bytes:
    """The bytes of a formula record, written to a buffer of so many bytes.

    Another number of words than the counts ask for is a ValueError. Refusals
    3; 2; 6; 14; 7 or 8; then 12, all at place 0.
    """
    out = ctypes.create_string_buffer(_within(room, 0, sys.maxsize))
    length = _called("vp_write_record", _struct(fields), out, room).length
    return out[:length]


def write_sheet(run: ReadableBuffer, *, room: Optional[int] = None) -> bytes:
    """A start, the run of records and an end, in a buffer of so many bytes.

    Without a room there is enough. Places count from the new sheet's first
    byte, so the run begins at 8. The sheet's own refusals but 9, then 12.
    """
    if room is None:
        room = memoryview(run).nbytes + SHEET_ADDS
    out = ctypes.create_string_buffer(_within(room, 0, sys.maxsize))
    length = _lent("vp_write_sheet", run, out, room).length
    return out[:length]
