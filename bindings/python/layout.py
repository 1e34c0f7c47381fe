"""Prints each struct of the binding and where its fields stand, as
tests/layout.c prints those of the header."""

import ctypes

from valvepigeon._library import STRUCTS

for name, struct in STRUCTS.items():
    print(name, ctypes.sizeof(struct))
    for field, _ in struct._fields_:
        print("%s.%s %d" % (name, field, getattr(struct, field).offset))
