#!/usr/bin/env bash
# docs/PROMISES.md cannot rot: every file that it cites exists, every name that it cites after a file stands in that file,
# every must-fail edit that it cites exists, every must-fail edit that exists is cited, and so is every file of promises.
# A row says one thing: none is longer than three lines of 110 characters.
# In that page a citation is `crates/..` in backquotes; names in backquotes that follow on the same line belong to it.
set -u
cd "$(dirname "$0")/.." || exit 2
. tests/lib.sh
page=docs/PROMISES.md

# FILE NAME for each citation, one a line; NAME is '-' for the file alone.
citations() {
    python3 - "$page" <<'P'
import re, sys
for line in open(sys.argv[1], encoding='utf-8'):
    file = None
    for quoted in re.findall(r'`([^`]+)`', line):
        if re.match(r'(crates|tests|docs|bench|oracle|include|sheets)/', quoted):
            file = quoted
            print(file, '-')
        elif file:
            print(file, quoted)
P
}

# A name of a definition or theorem is declared in its file; anything else that is cited stands in it.
has() { # FILE NAME
    case $1 in
        *.antt) grep -qP -- "^\\s*((abbrev|unfoldable|pub|record) )*\\Q$2\\E( |\$)" "$1" ;;
        *) grep -qF -- "$2" "$1" ;;
    esac
}

citations >"$room/cited" && [ -s "$room/cited" ] || fail "$page: no citations could be read"
while read -r file name; do
    if [ "$name" = - ]; then
        if [ -e "$file" ]; then pass; else fail "$page cites $file, which is not there"; fi
    elif [ -e "$file" ] && has "$file" "$name"; then
        pass
    else
        fail "$page cites $name of $file, which does not have it"
    fi
done <"$room/cited"

for file in $(grep -rl '^-- Promise:' crates/*/proofs --include='*.antt'); do
    if grep -qF -- "\`$file\`" "$page"; then pass; else fail "$file is not cited in $page"; fi
done

for edit in crates/*/must-fail/*.edit; do
    if grep -qF -- "\`$edit\`" "$page"; then pass; else fail "$edit is not cited in $page"; fi
done

long=$(python3 -c '
import sys
for number, line in enumerate(open(sys.argv[1], encoding="utf-8"), 1):
    if line.startswith("|") and len(line.rstrip("\n")) > 330:
        print(number, end=" ")' "$page") || long=unread
if [ -z "$long" ]; then pass; else fail "$page: longer than three lines: $long"; fi
conclude
