"""Reads what the crates state, and prints what is missing.

contracts: every public function of the library's face has an `ensures` and no
           `requires`, and every `From` says what it gives.
named:     every public definition of specs/ is named by a worked example, by
           the statement of a law, or by docs/PROMISES.md; or it says what a
           function of a lower layer asks of its callers.

Run it from the repository's root, with one of the two words. Each line of
output is one thing that was read, 'right' or 'wrong' first.
"""

import glob
import re
import sys

FACE = ("sheet", "record_writer", "sheet_writer", "board", "turn", "desk",
        "c_answers", "valvepigeon", "lines")
COMMENT = re.compile(r"--.*$", re.MULTILINE)
# A declaration begins a line, perhaps inside a module, and is followed by a
# colon; a definition is marked, an example or a law of specs/ is not.
DECLARED = re.compile(r"^ *((?:abbrev |unfoldable |pub )*)((?:record )?)"
                      r"([^\s:(){}]+)(?= :| \(.*\) : Type)", re.MULTILINE)
NAME = re.compile(r"[^\s(){},.;]+")


def text_of(path):
    with open(path, encoding="utf-8") as file:
        return file.read()


def functions(source):
    """Each public function or method with what stands between its name and its
    body, which begins with a brace that ends a line."""
    for found in re.finditer(r'^ *pub (?:extern "C" )?fn (\w+)(.*?)(?:^ *| )\{$',
                             source, re.MULTILINE | re.DOTALL):
        yield found.group(1), found.group(2)


def contracts():
    for crate in FACE:
        paths = sorted(glob.glob(f"crates/{crate}/src/**/*.rt", recursive=True))
        if not any(list(functions(text_of(path))) for path in paths):
            yield False, f"crates/{crate}: no public function could be read"
        for path in paths:
            for name, stated in functions(text_of(path)):
                clauses = re.findall(r"\b(requires|ensures)\b", stated)
                if "requires" in clauses:
                    yield False, f"{path}: {name} asks something of its caller"
                elif "ensures" not in clauses:
                    yield False, f"{path}: {name} states nothing"
                else:
                    yield True, f"{path}: {name}"
            for found in re.finditer(r"^(impl From<.*?) \{$(.*?)^\}$", text_of(path),
                                     re.MULTILINE | re.DOTALL):
                stated = "ghost from_gives = {" in found.group(2)
                yield stated, f"{path}: {found.group(1)}" + ("" if stated else " states nothing")


def declarations(path):
    """Each declaration's marks, name, statement and whole text. The statement
    is all up to the first equation, so the names that it unfolds are in it."""
    text = COMMENT.sub("", text_of(path))
    found = list(DECLARED.finditer(text))
    for at, declared in enumerate(found):
        end = found[at + 1].start() if at + 1 < len(found) else len(text)
        name = declared.group(3)
        whole = text[declared.end():end]
        equation = re.search(r"^ *" + re.escape(name) + r"(?= ).*=", whole, re.MULTILINE)
        statement = whole[:equation.start()] if equation else whole
        yield declared.group(1) + declared.group(2), name, statement, whole


def asked(bodies):
    """The definitions by which functions say what they ask, and those by
    which these are said."""
    names = set()
    for path in glob.glob("crates/*/src/**/*.rt", recursive=True):
        for clause in re.findall(r"^ +requires\b.*$", text_of(path), re.MULTILINE):
            names.update(NAME.findall(clause))
    while True:
        more = {word for name in names & bodies.keys() for word in NAME.findall(bodies[name])
                if word in bodies and word[0].isupper()} - names
        if not more:
            return names
        names |= more


def named():
    cited = set()
    bodies = {}
    for line in text_of("docs/PROMISES.md").splitlines():
        cited.update(re.findall(r"`([^`]+)`", line))
    defined = []
    for path in sorted(glob.glob("crates/*/specs/*.antt")):
        for marks, name, statement, body in declarations(path):
            if "abbrev" in marks or "unfoldable" in marks or "record" in marks:
                if "pub" in marks:
                    defined.append((path, name))
                    bodies[name] = body
            else:
                cited.update(NAME.findall(statement))
    for path in glob.glob("crates/*/proofs/**/*.antt", recursive=True):
        if not path.endswith("/Proof.antt"):
            for _, _, statement, _ in declarations(path):
                cited.update(NAME.findall(statement))
    cited |= asked(bodies)
    for path, name in defined:
        yield name in cited, f"{path}: {name}"


for right, what in {"contracts": contracts, "named": named}[sys.argv[1]]():
    print("right" if right else "wrong", what)
