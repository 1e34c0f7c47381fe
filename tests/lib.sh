# What the tests share; sourced by bash from the repository's root. Needs `rt` on the path.
passed=0 failed=0
pass() { passed=$((passed + 1)); }
fail() { failed=$((failed + 1)); printf 'FAILED: %s\n' "$*"; }

# A folder for what a test makes, which goes when the test ends.
room=$(mktemp -d) || exit 2
trap 'chmod -R u+w "$room"; rm -rf "$room"' EXIT

# The last line of every test.
conclude() {
    echo "$passed passed, $failed failed"
    [ "$failed" -eq 0 ] && [ "$passed" -gt 0 ]
}

is() { # WHAT GOT EXPECTED
    if [ "$2" = "$3" ]; then pass; else fail "$1: '$2' in place of '$3'"; fi
}

# The command ends well.
right() { # WHAT COMMAND...
    local what=$1 said
    shift
    if said=$("$@" 2>&1); then pass; else fail "$what: $(tail -n 20 <<<"$said")"; fi
}

# The command ends with this status, and says these words.
wrong() { # WHAT STATUS WORDS COMMAND...
    local what=$1 status=$2 words=$3 said got
    shift 3
    said=$("$@" 2>&1)
    got=$?
    if [ "$got" -eq "$status" ] && grep -qF -- "$words" <<<"$said"; then pass; else fail "$what: status $got, $(tail -n 20 <<<"$said")"; fi
}

# A page has this text as a block, which is set in by four blanks.
page_shows() { # PAGE TEXT
    local found='import sys; sys.exit("\n" + sys.argv[2] + "\n" not in open(sys.argv[1], encoding="utf-8").read())'
    if python3 -c "$found" "$1" "$(sed 's/^/    /' <<<"$2")"; then pass; else fail "$1 does not show: $2"; fi
}

# For a test that can do nothing without the library.
need_library() {
    local said
    said=$(./build-library 2>&1) && return
    fail "./build-library: $(tail -n 20 <<<"$said")"
    conclude
    exit 1
}

# Runs a command without the rights of root.
without_rights() { # COMMAND...
    if [ "$(id -u)" = 0 ]; then setpriv --reuid=65534 --regid=65534 --clear-groups "$@"; else "$@"; fi
}

# The paper's own sheet, one root on 0 to 2, and its listing.
paper_sheet() { printf '\10\0\0\0\1\0\1\0\20\0\0\0\23\0\1\0\0\0\0\0\0\0\0\2\10\0\0\0\377\377\1\0'; }
paper_listing=$'formulas 1\n1 root 0 33554432'

. scripts/kit.sh
