#!/usr/bin/env bash
# docs/FORMAT.md cannot rot: every worked example on it is put to the second program, to the library through its C interface and
# to the listing program, and its commands for a checksum are run.
set -u
cd "$(dirname "$0")/.." || exit 2
. tests/lib.sh

if python3 -B tests/format.py "$room"; then pass; else fail 'docs/FORMAT.md and the second program'; fi

if ./build-library >"$room/log" 2>&1 && link_c "$room/cases" tests/cases.c target/staticlib/libvalvepigeon.a &&
    run_x86 "$room/cases" "$room/vectors"; then pass; else tail -n 5 "$room/log"; fail 'docs/FORMAT.md and the library'; fi

for input in "$room"/*.in; do
    if run_x86 target/bin/listing <"$input" >"$room/got" && cmp -s "${input%.in}.out" "$room/got"; then
        pass
    else
        fail "docs/FORMAT.md and the listing program, which prints $(head -c 200 "$room/got")"
    fi
done

# The page's two commands find a sheet unchanged, and one with a bit turned changed.
if command -v sha256sum >/dev/null; then
    mkdir "$room/sheets"
    cp sheets/tangent.sheet "$room/sheets"
    said=$(cd "$room" && bash -e commands)
    if [ "$said" = 'sheets/tangent.sheet: OK' ]; then pass; else fail "the checksum: $said"; fi
    printf '\1' | dd of="$room/sheets/tangent.sheet" bs=1 seek=40 conv=notrunc status=none
    if (cd "$room" && bash -e <(tail -n 1 commands)) >"$room/said" 2>&1; then fail "the checksum of a changed sheet: $(cat "$room/said")"; else pass; fi
else
    echo 'skipped: the checksum, for sha256sum is not here'
fi
conclude
