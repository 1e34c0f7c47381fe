#!/usr/bin/env bash
# The statements say enough: no public function of the library's face asks anything of its caller or states nothing, every public
# definition is named by an example, a law or a promise, sine and cosine stand on the statements below them, and nothing is assumed
# but the contracts of the C calls read and write.
set -u
cd "$(dirname "$0")/.." || exit 2
. tests/lib.sh

# Each thing that tests/statements.py has read is a pass or a failure.
count() { # WORD
    python3 tests/statements.py "$1" >"$room/read" && [ -s "$room/read" ] || fail "tests/statements.py $1 could not read the crates"
    while read -r verdict what; do
        if [ "$verdict" = right ]; then pass; else fail "$what"; fi
    done <"$room/read"
}
count contracts
count named

# `turn` sees what is below it through statements alone: the one definition that its proofs unfold is its own.
is "what turn's proofs unfold" "$(grep -rhoP '^ *unfolding \K.*' crates/turn/proofs | tr ' ' '\n' | sort -u)" span_fault

# No crate of ours may declare a C call, so only one that stands on a library of the kit can reach any: that is the program alone.
outside() {
    awk -F: '!/^#/ && NF { own[$1] = 1; line[NR] = $0 }
        END { for (n in line) { split(line[n], part, ":"); count = split(part[2], name, " ")
            for (k = 1; k <= count; k++) if (!(name[k] in own)) print part[1], name[k] } }' crates.txt
}
is "what stands on the kit's libraries" "$(outside)" "listing io"
if (cd crates/listing && rt check) >"$room/axioms" 2>&1; then pass; else fail "rt check: $(tail -n 20 "$room/axioms")"; fi
is "what is assumed" "$(sed -n 's/^axioms //p' "$room/axioms" | grep -v ': none reached of the' | sed 's/ (.*//')" "libc: libc::read, libc::write"
conclude
