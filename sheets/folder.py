"""Sheets put into a folder, where nothing of anybody else's is lost.

Beside the sheets of a text stands a list with the sum and the name of each, as
sha256sum writes them. A sheet that has its listed sum is as this program made
it and may be replaced; any other file is somebody else's.
"""

import os
import re
from hashlib import sha256
from pathlib import Path
from tempfile import TemporaryDirectory

HEAD = "# Made by sheets/make.py, which knows its own sheets by these sums.\n"
LINE = re.compile(r"([0-9a-f]{64})  ([^/\n]+\.sheet)\n")


class Taken(Exception):
    """Files that this program did not make stand where its own would."""

    def __init__(self, paths):
        super().__init__(paths)
        self.paths = paths


def sum_of(content):
    return sha256(content).hexdigest()


def content_at(path):
    """The bytes of a file; None where there is none, or a folder or a link."""
    plain = path.is_file() and not path.is_symlink()
    return path.read_bytes() if plain else None


def list_of(sheets):
    """The list of these sheets, in bytes."""
    lines = [f"{sum_of(sheets[name])}  {name}\n" for name in sorted(sheets)]
    return (HEAD + "".join(lines)).encode()


def listed(path):
    """The sum of each sheet in the list at a path; none without a list."""
    if not os.path.lexists(path):
        return {}
    text = (content_at(path) or b"").decode("utf-8", "replace")
    if re.fullmatch(re.escape(HEAD) + f"(?:{LINE.pattern})*", text) is None:
        raise Taken([path])
    return {name: listed_sum for listed_sum, name in LINE.findall(text)}


def changed(folder, sheets, own):
    """The sheets that the folder has not; Taken where one would be lost."""
    missing, taken = {}, []
    for name, content in sheets.items():
        path = folder / name
        there = content_at(path)
        if there == content:
            continue
        missing[name] = content
        ours = there is not None and sum_of(there) == own.get(name)
        if os.path.lexists(path) and not ours:
            taken.append(path)
    if taken:
        raise Taken(taken)
    return missing


def left_over(folder, sheets):
    """The sheets in the folder that are not among these, by their names."""
    return {path.name: content_at(path)
            for path in sorted(folder.glob("*.sheet"))
            if path.name not in sheets}


def put(folder, files):
    """Puts files into a folder: none of them unless all have been written."""
    with TemporaryDirectory(prefix=".make-", dir=folder) as room:
        for name, content in files.items():
            with open(Path(room, name), "xb") as file:
                file.write(content)
                file.flush()
                os.fsync(file.fileno())
        for name in files:
            os.replace(Path(room, name), folder / name)


def put_sheets(folder, list_name, sheets, more):
    """Puts a text's sheets, their list and more files into a folder.

    Gives the names of the sheets that were written. A sheet of the text as it
    was before is left where it is, and stays on the list.
    """
    own = listed(folder / list_name)
    files = changed(folder, sheets, own)
    written = list(files)
    stale = {name: content for name, content in
             left_over(folder, sheets).items()
             if content is not None and sum_of(content) == own.get(name)}
    more = {**more, list_name: list_of({**sheets, **stale})}
    for name, content in more.items():
        if content_at(folder / name) != content:
            files[name] = content
    if files:
        put(folder, files)
    return written
