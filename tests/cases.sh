#!/usr/bin/env bash
# The library through its C interface: the paper's hand-checked rows that are not proved, rows of a root's steps, of marks, of
# angles and of blank formulas, and every vector of the second program.
set -u
cd "$(dirname "$0")/.." || exit 2
. tests/lib.sh
groups='by hand|count|formula|evaluate|double|interval|record|sheet|sine|cosine'

if ./build-library >"$room/log" 2>&1; then pass; else tail -n 5 "$room/log"; fail './build-library'; fi
python3 -c 'import lzma, sys; sys.stdout.buffer.write(lzma.open("oracle/vectors.xz").read())' >"$room/vectors"
status=1
if link_c "$room/cases" tests/cases.c target/staticlib/libvalvepigeon.a; then
    run_x86 "$room/cases" "$room/vectors" | tee "$room/said"
    status=${PIPESTATUS[0]}
fi
if [ "$status" -eq 0 ]; then pass; else fail "cases ended with status $status"; fi

# each group agrees, and is not empty
while IFS= read -r group; do
    if grep -qE "^$group: ([1-9][0-9]*) of \1 agree$" "$room/said"; then pass; else fail "cases: $group"; fi
done < <(tr '|' '\n' <<<"$groups")
conclude
