#!/usr/bin/env bash
# The README's commands print what it shows: the listed sheet, the formula that is asked, the sines, the steps of roots, the marks, and from
# a typed formula to its answers, which are the paper's. What it and the other pages link to, and the folders that it names, are there;
# and CHANGELOG.md tells of the version.
set -u
cd "$(dirname "$0")/.." || exit 2
. tests/lib.sh
root=$PWD
export PYTHONDONTWRITEBYTECODE=1

# Runs commands; the README shows each, and what it prints, one below the other.
shows() { # COMMAND...
    local command said=
    for command; do said+="\$ $command"$'\n'$($command)$'\n' || fail "$command"; done
    page_shows "$root/README.md" "${said%$'\n'}"
}

page_shows README.md "$(./valvepigeon list sheets/tangent.sheet)"
shows './valvepigeon ask sheets/tangent.sheet 54 0.5 -0.25 8388608w'
shows './valvepigeon sine sheets/sine-quarter.sheet 14 30deg 0.125t 0x40000000'
shows './valvepigeon ask sheets/square-root.sheet 162 2 0 67108868w --steps'
shows './valvepigeon ask sheets/square-root.sheet 162 2 2.25 0 --exact'
shows './examples/run' './valvepigeon list target/desk.sheet'
ln -s "$root/sheets" "$root/valvepigeon" "$room"
cd "$room" || exit 2
printf 'sheet: desk\nnumber: 7\nkind: polynomial\ninterval: [-1, 1]\ncoefficients: 1, 1, 1/2\n' >mine.txt
shows 'cat mine.txt' 'sheets/make.py mine.txt --out desk' './valvepigeon ask desk/desk.sheet 7 0.5'
right 'both ways to the sheet' cmp desk/desk.sheet "$root/target/desk.sheet"

cd "$root" || exit 2
right "CHANGELOG.md names the header's version" grep -qF "$(sed -nE 's/^#define VP_VERSION_STRING "(.*)"/ \1/p' include/valvepigeon.h)" CHANGELOG.md
for page in README.md CHANGELOG.md docs/*.md docs/landings/*.md sheets/README.md; do
    for to in $(grep -oP '\]\(\K[^)#]+' "$page"); do right "$page links to $to" test -e "$(dirname "$page")/$to"; done
done
for folder in $(grep -oP '^\|[^|]*\|' README.md | grep -oP '`\K[^`]+/(?=`)'); do right "README.md names $folder" test -d "$folder"; done
conclude
