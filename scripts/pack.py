"""Packs a folder as a tar whose bytes depend on the files' names, contents and
being programs alone.

    python3 scripts/pack.py FOLDER TAR
"""

import sys
import tarfile
from pathlib import Path

TIME = 946684800  # of every file: the year 2000, in seconds from 1970


def plain(entry):
    """An entry of the tar without owner, time and umask."""
    entry.uid = entry.gid = 0
    entry.uname = entry.gname = ""
    entry.mtime = TIME
    entry.mode = 0o755 if entry.isdir() or entry.mode & 0o100 else 0o644
    return entry


def main():
    folder, tar = map(Path, sys.argv[1:])
    with tarfile.open(tar, "w", format=tarfile.USTAR_FORMAT) as out:
        for path in [folder, *sorted(folder.rglob("*"))]:
            name = path.relative_to(folder.parent)
            out.add(path, str(name), recursive=False, filter=plain)


main()
