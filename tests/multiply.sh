#!/usr/bin/env bash
# The library multiplies 16 by 16 bits: each multiplication that the compiler is given, and where the archive multiplies at all.
set -u
cd "$(dirname "$0")/.." || exit 2
. tests/lib.sh
need_library

judge() { python3 tests/multiply.py "$kit/rlibs/core.rlib/toolchain/mir.json" multiply::times; }

# The code before any pass of the compiler, since on a machine with a wide multiply it puts the halves together again: of each
# library that the archive is made of. Of the archive's own functions none is kept; they only call, as their source shows.
. scripts/build.sh
for crate in $(crates_below valvepigeon); do
    code=crates/$crate/out/rlib/$crate.rlib/toolchain/mir.json
    if [ -f "$code" ]; then cat "$code" && echo; elif [ "$crate" != valvepigeon ]; then fail "$crate: its code is not there"; fi
done >"$room/code"
judge <"$room/code" >"$room/read" || fail 'tests/multiply.py has read no multiplication'
while read -r verdict what; do
    if [ "$verdict" = right ]; then pass; else fail "$what"; fi
done <"$room/read"

own_code() { sed '/^ghost use/d; /^ *\(requires\|ensures\)/d; s://.*::' crates/valvepigeon/src/lib.rt; }
is "functions in the source of the archive's own" "$(own_code | grep -c 'extern "C" fn vp_')" 9
is "lines that multiply in it" "$(own_code | grep -cF '*')" 0

# The same code made wrong, where it first has the pattern, is told.
change='import re, sys; text = sys.stdin.read(); sys.stdout.write(re.sub(sys.argv[1], sys.argv[2], text, count=1))'
refused() { # WHAT PATTERN NEW
    python3 -c "$change" "$2" "$3" <"$room/code" >"$room/wrong"
    judge <"$room/wrong" >"$room/judged"
    if ! cmp -s "$room/code" "$room/wrong" && grep -q '^wrong' "$room/judged"; then pass; else fail "not told: $1"; fi
}
times='(\["multiply::times",.*?)'
value='\{"Copy":\{"local":\d+,"steps":\[\]\}\}'
refused 'factors of 32 bits' "$times"'"Int":16' '\1"Int":32'
refused 'a factor that a call gives' "$times"'\{"Assign":\[(\{"local":3,"steps":\[\]\}),\{"Op1":\[.*?\}\}\]\}\]\}' \
    '\1{"Call":[{"Fn":["word::magnitude",{"types":[],"dicts":[]}]},[],\2]}'
refused 'a multiplication that is an addition' "$times"'\{"Mul":"Unsigned"\}' '\1{"Add":"Unsigned"}'
refused 'a multiplication in another function' '\["multiply::times",' '["multiply::other",'
refused 'a sum of two numbers that is a product' '\{"Add":"Unsigned"\}'"(,$value,$value)" '{"Mul":"Unsigned"}\1'
refused 'a step of 16' '(\{"Mul":"Unsigned"\},[^]]*?\]?[^]]*?"value":)4\}' '\g<1>16}'
refused 'a call of what cannot be read' '"Fn":\["word::magnitude"' '"Fn":["word::other"'
refused 'a product of doubles' '"FloatDiv"' '"FloatMul"'

# A disassembler for x86-64, where there is one.
for reader in objdump x86_64-linux-gnu-objdump ''; do
    if [ -z "$reader" ] || "$reader" -i 2>/dev/null | grep -q '^elf64-x86-64'; then break; fi
done

# The functions of the archive that multiply whole numbers, by any instruction of x86-64 that does: in two of them the compiler has
# put halves together, and everywhere else, the C included, nothing multiplies.
multiplying() {
    "$reader" -d --no-show-raw-insn target/staticlib/libvalvepigeon.a |
        awk '/^[0-9a-f]+ <.*>:$/ { name = $2 } $2 ~ /^(i?mulx?|v?pmul|v?pmadd)/ && $2 !~ /^mul[sp][sd]$/ { print name }' |
        sed 's/^<//; s/>:$//' | sort -u
}
if [ -n "$reader" ]; then
    is 'what multiplies in the archive' "$(multiplying | tr '\n' ' ')" 'answering::answer_of records::formula_fault '
else
    echo 'skipped: the instructions of the archive, no objdump for x86-64 is here'
fi
conclude
