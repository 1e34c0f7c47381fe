"""Prints how many vectors each slip changes: python3 oracle/slips.py

Products from halves with a slip are tried on the groups in groups_halves.py:
with the slip in the product, and with it in the bound product alone. Marks
with a slip are tried on those in groups_marks.py, and checks for blank
formulas with a slip on those in groups_blanks.py.
"""

import groups_blanks
import groups_halves
import groups_marks
import slips_blanks
import slips_halves
import slips_marks
from vectors import vectors_of


def print_halves():
    vectors = vectors_of(groups_halves.GROUPS)
    print(f"{len(vectors)} vectors about halves")
    print("product  bound  slip")
    for slip, replaced in slips_halves.SLIPS.items():
        way = slips_halves.Way(**replaced)
        in_products = slips_halves.changed(vectors, other=way.product)
        in_bounds = slips_halves.changed(
            vectors, other_bound=way.bound_product)
        print(f"{in_products:7}{in_bounds:7}  {slip}")


def print_marks():
    answered = slips_marks.answered(vectors_of(groups_marks.GROUPS))
    print(f"{len(answered)} answered vectors about marks")
    print("   mark  slip")
    for slip, mark in slips_marks.SLIPS.items():
        print(f"{slips_marks.changed(answered, mark):7}  {slip}")


def print_blanks():
    vectors = vectors_of(groups_blanks.GROUPS)
    print(f"{len(vectors)} vectors about blank formulas")
    print("changed  slip")
    for slip, replaced in slips_blanks.SLIPS.items():
        print(f"{slips_blanks.changed(vectors, replaced):7}  {slip}")


if __name__ == "__main__":
    print_halves()
    print_marks()
    print_blanks()
