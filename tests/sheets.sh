#!/usr/bin/env bash
# The ready sheets: each is what sheets/make.py makes of sheets/formulas.txt, is accepted, and answers as it should.
set -u
cd "$(dirname "$0")/.." || exit 2
python3 -B sheets/make.py --check
