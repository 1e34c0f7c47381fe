#!/usr/bin/env python3
"""Brings the repository's own definitions and lemmas to the spelling of the
kit's style guide, once, after the kit's port.py.

usage: python3 tools/respell.py [--list]     at the top of the repository

A function is in snake case (halfUp becomes half_up), and so is a lemma
(ties-go-away becomes ties_go_away). A dash stays beside a type (Word-fits), and
between the names of two functions one of which is the kit's (length-words). A
lemma that would have a function's name gets _lem. Types, modules, and the names
of src/ keep their spelling. With --list it prints the pairs and what falls
together, and writes nothing.
"""

import glob
import re
import sys

# What antt reads as one word.
WORD = r"[^\s(){}.;,@\"«»\[\]\\`|]+"
TOKEN = re.compile(r"(?P<skip>--[^\n]*|//[^\n]*|\"[^\"\n]*\")|(?P<word>" + WORD + ")")
DECLARED = re.compile(r"^[ ]*((?:(?:abbrev|unfoldable|pub|record|data) )*)(" + WORD
                      + r")(?= :| \([^=]*\) : | \{[^=]*\} : )", re.M)
# Functions of the kit's library that own lemmas speak of.
KIT = set("length drop take get_or append set pos of_z to_z".split())


def text_of(path):
    with open(path, encoding="utf-8") as file:
        return file.read()


def without_comments(text):
    return re.sub(r"(?m)^\s*--.*$", "", text)


def stated():
    """The files of definitions and laws: all but the proofs of functions,
    which live in folders of the functions' names."""
    own = sorted(glob.glob("crates/*/specs/*.antt")
                 + glob.glob("crates/*/proofs/*.antt"))
    return [path for path in own if not path.endswith("/Lib.antt")]


def snake(part):
    part = re.sub(r"(?<=[a-z0-9])([A-Zℤℕ])", r"_\1", part)
    return "".join(c.lower() if c.isascii() else c for c in part)


def is_type(name):
    return name[:1].isupper()


def pairs():
    functions, lemmas = set(KIT), set()
    for path in stated():
        for marks, name in DECLARED.findall(without_comments(text_of(path))):
            if is_type(name) or "◌" in name:
                continue
            is_function = "abbrev" in marks or "unfoldable" in marks
            (functions if is_function else lemmas).add(name)
    plain = {snake(it).replace("-", "_") for it in functions}
    table = {}
    for name in sorted(functions | lemmas):
        parts = [snake(it) for it in re.split(r"-(?=.)", name)]
        one_by_one = len(parts) == 2 and set(parts) <= plain and set(parts) & KIT
        new = parts[0]
        for before, after in zip(parts, parts[1:]):
            joined = one_by_one or is_type(before) or is_type(after)
            new += ("-" if joined else "_") + after
        if name not in functions and new in plain:
            new += "_lem"
        if new != name:
            table[name] = new
    return table


def of_others(text, own):
    """What a file takes from modules that are not the repository's."""
    found = set()
    for path, words in re.findall(r"(?m)^(?:ghost |pub )*use ([^\s{]+)\.\{([^}]*)\}",
                                  text):
        parts = path.split(".")
        if not (parts[0] == "Rattle" and parts[1] in own):
            found.update(it.strip() for it in words.split(","))
    return found


def turned(text, table, marked):
    """The text with each word of the table respelled; in a comment only what
    stands in backquotes. `marked` says which fields may follow a dot."""
    def one(found):
        skip = found.group("skip")
        if skip is not None:
            if skip.startswith('"'):
                return skip
            return re.sub(r"`([^`]*)`", lambda it: "`" + turned(it[1], table, marked)
                          + "`", skip)
        word = found.group("word")
        before = text[found.start() - 1] if found.start() else ""
        if before == "." and word not in marked:
            return word
        return table.get(word, word)
    return TOKEN.sub(one, text)


def fields():
    found = set()
    for path in stated():
        for block in re.findall(r"(?ms)^ *(?:pub )?record .*?(?=\n\n|\Z)",
                                text_of(path)):
            found.update(re.findall(r"(?m)^ +pub (" + WORD + ") :", block))
    return found


def main():
    table, marked = pairs(), fields()
    paths = sorted(glob.glob("crates/*/src/**/*.rt", recursive=True)
                   + glob.glob("crates/*/specs/**/*.antt", recursive=True)
                   + glob.glob("crates/*/proofs/**/*.antt", recursive=True))
    if "--list" in sys.argv:
        for old, new in table.items():
            print(old, new)
        back = {}
        for old, new in table.items():
            back.setdefault(new, []).append(old)
        for path in paths:
            words = set(m.group("word") for m in TOKEN.finditer(text_of(path))
                        if m.group("word"))
            for new, olds in back.items():
                here = [it for it in olds if it in words]
                if len(here) + (new in words) > 1:
                    print("falls together:", path, here, new)
        return
    own = {it.split("/")[1] for it in glob.glob("crates/*/src")}
    for path in paths:
        text = text_of(path)
        others = of_others(text, own)
        here = {old: new for old, new in table.items() if old not in others}
        new = turned(text, here, marked)
        if new != text:
            with open(path, "w", encoding="utf-8") as file:
                file.write(new)


if __name__ == "__main__":
    main()
