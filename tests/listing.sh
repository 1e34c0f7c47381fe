#!/usr/bin/env bash
# The built listing program: the paper's own sheet and what becomes of it, and the cases of tests/listings.py.
set -u
cd "$(dirname "$0")/.." || exit 2
. tests/lib.sh

prints() { # NAME EXPECTED-FILE; the input is standard input
    run_x86 target/bin/listing >"$room/got"
    local status=$?
    if [ "$status" -eq 0 ] && cmp -s "$2" "$room/got"; then
        pass
    else
        fail "listing, $1: status $status, printed $(head -c 200 "$room/got")"
    fi
}

says() { # NAME TEXT; the input is standard input
    printf '%s\n' "$2" >"$room/expected"
    prints "$1" "$room/expected"
}

paper_sheet >"$room/paper"
says "the paper's sheet" "$paper_listing" <"$room/paper"
says 'cut to 24' 'refused 1 at 24' < <(head -c 24 "$room/paper")
says 'cut to 31' 'refused 1 at 24' < <(head -c 31 "$room/paper")
says 'last 8 bytes zero' 'refused 2 at 24' < <(head -c 24 "$room/paper"; head -c 8 /dev/zero)
says 'empty input' 'refused 1 at 0' </dev/null
says 'a folder in place of a file' 'refused 1 at 0' <tests
says 'a byte at a time' "$paper_listing" < <(
    for at in $(seq 1 32); do tail -c +"$at" "$room/paper" | head -c 1; sleep 0.01; done)

run_x86 target/bin/listing <"$room/paper" 2>"$room/told" >/dev/full
if [ "$(cat "$room/told")" = 'the listing could not be written' ]; then pass; else fail "listing to a full disk: told $(head -c 200 "$room/told")"; fi

mkdir "$room/cases"
python3 -B tests/listings.py "$room/cases" || fail 'tests/listings.py'
for input in "$room"/cases/*.in; do prints "$(basename "$input" .in)" "${input%.in}.out" <"$input"; done
conclude
