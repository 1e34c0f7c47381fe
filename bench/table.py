"""Prints a table of what bench/run has measured, with the bounds.

    python3 bench/table.py counts|times FOLDER COMPILER...

For each compiler of plain C the folder has COMPILER.counts, the rows' names and
numbers of calls as bench/measure.c prints them, with COMPILER.insns, the counts
of bench/insn.c; or COMPILER.times. The status is 1 where a ratio is above its
bound, or where our odd sine takes no fewer instructions than the same sine
padded to a polynomial.
"""

import sys
from pathlib import Path

# The rows of one sine: as an odd formula, and padded to a polynomial.
ODD, PADDED = "odd, sheet of 1", "polynomial, odd padded"
# Evaluations of a formula alone that have a bound of their own by clang; the
# polynomial's is tighter.
ALONE = {
    f"{kind}, sheet of 1" for kind in ("rational", "fraction", "root", "odd", "even")
}
# Calls that answer with a mark, which have a bound by gcc too.
MARKED = ("rational", "fraction", "root", "odd", "even", "double", "sine", "cosine")


def counted(folder, compiler):
    """Each row's name and the instructions of its mean call, of C and of ours."""
    insns = iter((folder / f"{compiler}.insns").read_text().split())
    for row in (folder / f"{compiler}.counts").read_text().splitlines():
        name, calls = row.split("\t")
        pairs = [(int(next(insns)), int(next(insns))) for _ in range(int(calls))]
        yield name, *(sum(side) / len(pairs) for side in zip(*pairs))


def timed(folder, compiler):
    """Each row's name and the ns of its best slice's call, of C and of ours."""
    for row in (folder / f"{compiler}.times").read_text().splitlines():
        name, plain, ours = row.split("\t")
        yield name, float(plain), float(ours)


def bound(what, compiler, name):
    """The largest ratio that a row may have, or None."""
    if what == "times":
        return 1.05 if name.startswith("reading") else None
    if name.startswith(("reading", "writing", "polynomial")):
        return {"clang": 1.00, "gcc": 1.05}[compiler]
    if compiler == "clang" and name in ALONE:
        return 1.05
    if name.startswith(MARKED):
        return 1.10
    return 1.15 if compiler == "clang" else None


def sine_above(odd, padded):
    """Whether our odd sine takes no fewer instructions than the padded one."""
    above = odd >= padded
    print(f"\n{'ours':24}{'padded':>9}{'odd':>10}{'ratio':>8}{'below':>9}")
    print(f"{'sine of six terms':24}{padded:9.1f}{odd:10.1f}{odd / padded:8.3f}"
          f"{1:9.2f}{' above' if above else ''}")
    return above


def main(what, folder, *compilers):
    first = second = " " * 24
    lines, every = {}, {}
    above = False
    for compiler in compilers:
        first += f"    {f'C by {compiler} -O3':38}"
        second += f"{'C':>9}{'ours':>10}{'ratio':>8}{'at most':>9}{'':6}"
        for name, plain, ours in {"counts": counted, "times": timed}[what](
            Path(folder), compiler
        ):
            ratio = ours / plain
            most = bound(what, compiler, name)
            mark = " above" if most and ratio > most else ""
            above = above or mark != ""
            every[name] = ours
            lines.setdefault(name, f"{name:24}")
            lines[name] += f"{plain:9.1f}{ours:10.1f}{ratio:8.3f}"
            lines[name] += f"{f'{most:.2f}' if most else '':>9}{mark:6}"
    for line in first, second, *lines.values():
        print(line.rstrip())
    if what == "counts":
        above |= sine_above(every[ODD], every[PADDED])
    return 1 if above else 0


if __name__ == "__main__":
    sys.exit(main(*sys.argv[1:]))
