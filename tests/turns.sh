#!/usr/bin/env bash
# The README's table of errors of sine and cosine: at the angles that it names as the worst they are what it says, and at some
# thousands of others, of all four quarters, they are not above. sheets/turn-errors measures them all.
set -u
cd "$(dirname "$0")/.." || exit 2
. tests/lib.sh
need_library
python3 -B tests/turns.py
