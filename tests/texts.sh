#!/usr/bin/env bash
# Texts of formulas: what sheets/make.py says of a faulty one, and the words that it makes of a good one.
set -u
cd "$(dirname "$0")/.." || exit 2
python3 -B tests/texts.py
