"""Holds the bindings against include/valvepigeon.h: each number that it names
has its name and value in both, and all of them say one version.

Needs bindings/python on PYTHONPATH; run it from the repository's root. Prints
each difference; the status is 0 where there is none.
"""

import re
import sys

import valvepigeon
from valvepigeon import _library

HEADER = "include/valvepigeon.h"
RUST = "bindings/rust/src/lib.rs"
VERSIONS = {HEADER: r'^#define VP_VERSION\w* "(.*)"',
            "bindings/python/pyproject.toml": r'^version = "(.*)"',
            "bindings/rust/Cargo.toml": r'^version = "(.*)"'}


def stated(path, pattern):
    with open(path, encoding="utf-8") as file:
        return re.findall(pattern, file.read(), re.MULTILINE)


def numbers(pairs):
    return {name: int(value, 0) for name, value in pairs}


header = numbers(stated(HEADER, r"^#define VP_(?!VERSION)(\w+) (\w+)"))
rust = numbers(stated(RUST, r"^pub const (\w+): \w+ = (\w+);"))
python = vars(valvepigeon)
faults = [f"VP_{name} is {value}; Python has {python.get(name)}, Rust has "
          f"{rust.get(name)}" for name, value in header.items()
          if not value == python.get(name) == rust.get(name)]
if len(header) < 20:
    faults.append(f"{HEADER} names {len(header)} numbers")
versions = [version for path, pattern in VERSIONS.items()
            for version in stated(path, pattern)]
if len(versions) != 3 or len(set(versions)) != 1:
    faults.append(f"versions {versions}")
if _library.LOADER_NAME != _library.NAME + "." + versions[0].split(".")[0]:
    faults.append(f"{_library.LOADER_NAME} is not that of {versions[0]}")
sys.exit("\n".join(faults) or None)
