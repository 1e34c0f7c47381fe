"""Reads which multiplications the compiler is given, of the code that the kit
keeps of each library (mir.json).

    python3 tests/multiply.py KIT FUNCTION... <CODE

CODE is the code of our crates, a line of JSON for each, before any pass of the
compiler; KIT is that of the kit's own library, of which the functions that our
code reaches are read too. A multiplication may have two factors of 16 bits,
each a value of a 16-bit type or one that was widened from it, and stand in one
of the FUNCTIONs; or it is a place's, by 2, 4 or 8, the sizes of what is
counted. No doubles are multiplied. For each multiplication, and for each
FUNCTION that has none, there is a line on standard output: `right` or `wrong`,
the function, and what it multiplies. A function that is reached and stands in
neither is `wrong` too.
"""

import json
import sys


def below(tree):
    """Every part of the code, the whole first."""
    yield tree
    if isinstance(tree, dict):
        tree = tree.values()
    if not isinstance(tree, str) and hasattr(tree, "__iter__"):
        for part in tree:
            yield from below(part)


def nodes(tree, name):
    """What stands below a name in the code: nodes(.., "Op2") are the operations
    on two values."""
    for part in below(tree):
        if isinstance(part, dict) and name in part:
            yield part[name]


def reached(ours, kit):
    """Our functions, and those of the kit's that they reach; None for one that
    stands in neither."""
    found, todo = {}, list(ours)
    while todo:
        name = todo.pop()
        if name not in found:
            found[name] = ours.get(name, kit.get(name))
            todo += [called[0] for called in nodes(found[name], "Fn")]
    return found


def place(operand):
    """The number of the local that an operand is, whole, or None."""
    whole = operand.get("Copy") or operand.get("Move")
    return whole["local"] if whole and not whole["steps"] else None


def uses(item, local):
    """What a function does with a local, but for reading it."""
    for part in below(item["body"]):
        if not isinstance(part, dict):
            continue
        for does, with_what in part.items():
            parts = with_what if isinstance(with_what, list) else [with_what]
            if does not in ("Copy", "Move") and any(
                    isinstance(it, dict) and it.get("local") == local for it in parts):
                yield does, with_what


def widens(item, does, with_what):
    """Whether it assigns to a local what had 16 bits."""
    if does != "Assign" or "Cast" not in str(with_what[1].get("Op1", "")):
        return False
    given = place(with_what[1]["Op1"][1])
    return given is not None and item["locals"][given]["ty"] == {"Int": 16}


def sixteen(item, operand):
    """Whether an operand has 16 bits: by its type, or since nothing is done to
    its local but to widen 16 bits to it and to read it."""
    local = place(operand)
    if local is None:
        return False
    if item["locals"][local]["ty"] == {"Int": 16}:
        return True
    found = list(uses(item, local))
    return bool(found) and all(widens(item, *use) for use in found)


def step(operand):
    """Whether an operand is the size of what places are counted by."""
    return operand.get("Int", {}).get("value") in (2, 4, 8)


def shown(operand):
    return str(operand["Int"]["value"]) if "Int" in operand else f"local {place(operand)}"


def multiplications(code, allowed):
    """Each multiplication as a verdict, its function and its factors."""
    for name, item in sorted(code.items()):
        if item is None:
            yield "wrong", name, "cannot be read"
            continue
        for operation, *factors in nodes(item["body"], "Op2"):
            if "Mul" not in str(operation):
                continue
            halves = name in allowed and all(sixteen(item, f) for f in factors)
            placed = operation != "FloatMul" and any(map(step, factors))
            verdict = "right" if halves or placed else "wrong"
            yield verdict, name, " by ".join(map(shown, factors))


def main(kit, *allowed):
    ours = {name: item for line in sys.stdin if line.strip() for name, item in json.loads(line)}
    with open(kit, encoding="utf-8") as file:
        code = reached(ours, dict(json.load(file)))
    found = list(multiplications(code, allowed))
    for verdict in found:
        print(*verdict)
    for name in allowed:
        if name not in {function for _, function, _ in found}:
            print("wrong", name, "multiplies nothing")
    return 0 if found else 1


if __name__ == "__main__":
    sys.exit(main(*sys.argv[1:]))
