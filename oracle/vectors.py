"""Makes the vectors: python3 oracle/vectors.py OUT

README.md has the format. OUT is compressed if its name ends in .xz. The bytes
depend on nothing but the seed and this folder.
"""

import lzma
import sys
from pathlib import Path
from random import Random
from struct import pack, unpack_from

import groups_blanks
import groups_halves
import groups_marks
import groups_numbers
import groups_roots
import groups_sheets
import groups_turns
import groups_writers
from questions import answer_to

SEED = 1967

GROUPS = (*groups_sheets.GROUPS, *groups_numbers.GROUPS,
          *groups_writers.GROUPS, *groups_turns.GROUPS, *groups_roots.GROUPS,
          *groups_halves.GROUPS, *groups_marks.GROUPS, *groups_blanks.GROUPS)


def vector(question, content):
    answer = answer_to(question, content)
    return (pack("<BH", question, len(content)) + content
            + pack("<H", len(answer)) + answer)


def group_vectors(group):
    """The vectors of one group, which has a seed of its own."""
    rng = Random(f"{SEED} {group.__name__}")
    return [vector(*question) for question in group(rng)]


def taken_apart(data):
    """Question, its bytes and the answer's, of each vector in a file."""
    place = 0
    while place < len(data):
        question, length = unpack_from("<BH", data, place)
        place += 3
        content = data[place:place + length]
        place += length
        length, = unpack_from("<H", data, place)
        place += 2
        yield question, content, data[place:place + length]
        place += length


def vectors_of(groups):
    """Those of some groups, taken apart."""
    return [vector for group in groups
            for vector in taken_apart(b"".join(group_vectors(group)))]


def main(path):
    data = b""
    total = 0
    print("  first  count  group")
    for group in GROUPS:
        made = group_vectors(group)
        title = group.__name__.replace("_", " ")
        print(f"{total:7}{len(made):7}  {title}")
        total += len(made)
        data += b"".join(made)
    print(f"{total} vectors, {len(data)} bytes")
    if path.suffix == ".xz":
        data = lzma.compress(data, preset=9 | lzma.PRESET_EXTREME)
    path.write_bytes(data)


if __name__ == "__main__":
    main(Path(sys.argv[1]))
