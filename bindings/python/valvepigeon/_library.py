"""The shared library as C has it: where it is found, its structs, its functions."""

from __future__ import annotations

import ctypes
import functools
import os
import pathlib
from ctypes import (Structure, c_char_p, c_double, c_int32, c_size_t, c_uint16,
                    c_uint32, c_uint64, c_void_p)
from typing import Optional

NAME = "libvalvepigeon.so"
# With the version's first number, which moves when the structs do.
LOADER_NAME = NAME + ".2"
WORDS = 32


class FieldsStruct(Structure):
    _fields_ = [("kind", c_uint16), ("number", c_uint16), ("lo", c_int32),
                ("hi", c_int32), ("p", c_uint16), ("q", c_uint16),
                ("mode", c_uint16), ("words", c_int32 * WORDS)]


def _result(name: str, *values: tuple) -> type:
    head = [("refused", c_uint32), ("place", c_uint64)]
    return type(name, (Structure,), {"_fields_": head + list(values)})


_Counted = _result("_Counted", ("count", c_uint16))
_Found = _result("_Found", ("fields", FieldsStruct))
_Worked = _result("_Worked", ("word", c_int32), ("steps", c_uint16),
                  ("exact", c_uint16))
_Shown = _result("_Shown", ("value", c_double), ("steps", c_uint16),
                 ("exact", c_uint16))
_Ends = _result("_Ends", ("low", c_double), ("high", c_double))
_Written = _result("_Written", ("length", c_uint64))

STRUCTS = {"vp_fields": FieldsStruct, "vp_counted": _Counted,
           "vp_found": _Found, "vp_worked": _Worked, "vp_shown": _Shown,
           "vp_ends": _Ends, "vp_written": _Written}

_BYTES = [c_void_p, c_size_t]
_FUNCTIONS = {
    "vp_count": (_Counted, _BYTES),
    "vp_formula": (_Found, _BYTES + [c_uint16]),
    "vp_evaluate": (_Worked, _BYTES + [c_uint16, c_int32]),
    "vp_evaluate_double": (_Shown, _BYTES + [c_uint16, c_double]),
    "vp_sine": (_Worked, _BYTES + [c_uint16, c_uint32]),
    "vp_cosine": (_Worked, _BYTES + [c_uint16, c_uint32]),
    "vp_interval": (_Ends, _BYTES + [c_uint16]),
    "vp_write_record": (_Written, [FieldsStruct] + _BYTES),
    "vp_write_sheet": (_Written, _BYTES + _BYTES),
    "vp_message": (c_char_p, [c_uint32]),
}


def found() -> Optional[pathlib.Path]:
    """The library's file: what the variable says, or beside this module as pip
    puts it, or in the repository or the release that this module stands in."""
    said = os.environ.get("VALVEPIGEON_LIBRARY")
    if said:
        return pathlib.Path(said)
    here = pathlib.Path(__file__).resolve().parent
    top = here.parent.parent.parent
    for folder in (here, top / "target" / "staticlib", top / "lib"):
        if (folder / NAME).is_file():
            return folder / NAME
    return None


@functools.lru_cache(maxsize=None)
def loaded() -> ctypes.PyDLL:
    """The library, its functions declared. Where `found` has none the system's
    loader looks for it."""
    try:
        # CDLL would let other threads run during a call, and one of them could
        # change the bytes that are lent. A call is short.
        library = ctypes.PyDLL(str(found() or LOADER_NAME))
        for name, (result, arguments) in _FUNCTIONS.items():
            function = getattr(library, name)
            function.restype, function.argtypes = result, arguments
    except (OSError, AttributeError) as error:
        raise OSError(
            f"Valvepigeon's library cannot be loaded ({error}): run "
            "./build-library in the repository, which makes it on x86-64 Linux, "
            f"or set VALVEPIGEON_LIBRARY to the path of its {NAME}") from None
    return library


def message(refused: int) -> str:
    """What is wrong and what to do, in a sentence."""
    return loaded().vp_message(refused).decode()
