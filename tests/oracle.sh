#!/usr/bin/env bash
# The second program: its own checks, and that the committed vectors are the ones that it makes, as many as the pages say.
set -u
cd "$(dirname "$0")/.." || exit 2
. tests/lib.sh

last=$(python3 -B oracle/check.py | tail -n 1)
if [[ $last =~ ^([0-9]+)\ passed,\ 0\ failed$ ]] && [ "${BASH_REMATCH[1]}" -gt 0 ]; then pass; else fail "oracle/check.py: $last"; fi
if python3 -B oracle/vectors.py "$room/vectors" >"$room/table" && python3 -c '
import lzma, sys
sys.exit(lzma.open("oracle/vectors.xz").read() != open(sys.argv[1], "rb").read())' "$room/vectors"; then
    pass
else
    fail 'oracle/vectors.xz is not what oracle/vectors.py makes'
fi

# the pages say how many there are
count=$(sed -nE 's/^([0-9]+)([0-9]{3}) vectors, .*/\1,\2/p' "$room/table")
for page in README.md docs/FORMAT.md; do right "$page says $count vectors" grep -qE "(^|[^0-9,])$count " "$page"; done
conclude
