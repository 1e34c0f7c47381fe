#!/usr/bin/env bash
# The command ./valvepigeon: what it prints, what it tells on standard error, and its status. tests/built.sh has how it is built.
set -u
cd "$(dirname "$0")/.." || exit 2
. tests/lib.sh
root=$PWD
command=$root/valvepigeon
need_library

# Runs the command. Its output is exactly this text, its status this one, and standard error has this text, or nothing.
gives() { # STATUS OUTPUT TOLD WORD...
    local status=$1 output=$2 told=$3 got
    shift 3
    "$command" "$@" >"$room/out" 2>"$room/err"
    got=$?
    if [ "$got" -eq "$status" ] && printf %s "$output" | cmp -s - "$room/out" && told "$told"; then
        pass
    else
        fail "valvepigeon $*: status $got, printed '$(head -c 300 "$room/out")', told '$(head -c 300 "$room/err")'"
    fi
}

told() { # TEXT
    if [ -n "$1" ]; then grep -qF -- "$1" "$room/err"; else [ ! -s "$room/err" ]; fi
}

# The paper's sheet, and what becomes of it; a listing's lines are the paper's.
mkdir -p "$room/night line/deeper" "$room/empty"
cd "$room/night line" || exit 2
paper_sheet >good.sheet
head -c 24 good.sheet >'cut short.sheet'
{ head -c 24 good.sheet && head -c 8 /dev/zero; } >deeper/zeros.sheet
head -c 8193 /dev/zero >deeper/long
listed=$paper_listing$'\n'
see="see 'valvepigeon"

# ---- list
gives 0 "$listed" '' list good.sheet
gives 0 "$listed" '' list <good.sheet
gives 0 "$listed" '' list - <good.sheet
gives 0 "good.sheet:
$listed-:
$listed" '' list good.sheet - <good.sheet
gives 1 $'refused 1 at 24\n' 'cut short.sheet: refused 1 at 24: the bytes stop' list 'cut short.sheet'
gives 1 $'refused 2 at 24\n' 'standard input: refused 2 at 24: ' list <deeper/zeros.sheet
gives 1 $'refused 1 at 0\n' 'fetch it or write it again' list /dev/null
gives 1 $'too long\n' '8,192 bytes' list deeper/long
gives 1 '' 'absent: unreadable: No such file or directory' list absent
gives 1 '' 'deeper: unreadable: it is a folder' list deeper
gives 1 '' 'standard input: unreadable' list <&-
gives 1 "good.sheet:
$listed"$'deeper/long:\ntoo long\n' 'absent: unreadable' list good.sheet absent deeper/long
cp good.sheet ./-dash.sheet
gives 0 "$listed" '' list -- -dash.sheet
gives 2 '' "$see list" list -dash.sheet
gives 2 '' "$see list" list --loud good.sheet

# ---- check
gives 0 'good.sheet: ok, 1 formula
1 checked: 1 ok, 0 refused, 0 too long, 0 unreadable
' '' check good.sheet
"$command" check ../'night line' deeper/long ../empty absent - <good.sheet >"$room/out" 2>"$room/err"
status=$?
sed 's/: refused \([0-9]* at [0-9]*\): .*[.] .*[.]$/: refused \1, why and what to do/; s/\(too long\|unreadable\): .*[.]$/\1, why/' "$room/out" >"$room/seen"
if [ "$status" -eq 1 ] && [ ! -s "$room/err" ] && diff - "$room/seen" <<'T'; then pass; else fail "check of a folder: status $status"; fi
../night line/-dash.sheet: ok, 1 formula
../night line/cut short.sheet: refused 1 at 24, why and what to do
../night line/deeper/zeros.sheet: refused 2 at 24, why and what to do
../night line/good.sheet: ok, 1 formula
deeper/long: too long, why
../empty: unreadable, why
absent: unreadable, why
standard input: ok, 1 formula
8 checked: 3 ok, 2 refused, 1 too long, 2 unreadable
T
ln -s nowhere "$room/empty/gone.sheet"
gives 1 "../empty/gone.sheet: unreadable: No such file or directory.
1 checked: 0 ok, 0 refused, 0 too long, 1 unreadable
" '' check ../empty
gives 0 './-dash.sheet: ok, 1 formula
1 checked: 1 ok, 0 refused, 0 too long, 0 unreadable
' '' check -- -dash.sheet
# a folder that may not be read hides no sheet
mkdir "$room/half" "$room/half/locked"
cp good.sheet "$room/half"
chmod a+rx "$room" "$room/half" && chmod a= "$room/half/locked"
if without_rights test -x "$command"; then
    wrong 'check of a locked folder' 1 '2 checked: 1 ok, 0 refused, 0 too long, 1 unreadable' without_rights "$command" check "$room/half"
else
    echo 'skipped: check of a locked folder, as root cannot be nobody here'
fi
gives 2 '' "$see check" check
gives 2 '' "$see check" check --loud good.sheet

# ---- ask; the root of 2 is the paper's
gives 0 $'1.41421353816986083984375\n' '' ask good.sheet 1 2
gives 0 $'23726566\n4096\n' '' ask good.sheet --words 1 33554432w 1w
gives 0 $'number 1\nkind root\ninterval 0 2\n' '' ask good.sheet 1
gives 0 $'0\n' '' ask - 1 0 <good.sheet
# Half a step goes away from zero: at 0 to 1 and -1, below 2 to 2, above 2 out.
half=0000000298023223876953125
gives 1 $'4096\nrefused 10 at 0\n23726566\nrefused 10 at 0\n' "formula 1 at -0.$half: refused 10" \
    ask good.sheet 1 "0.$half" "-0.$half" 1.9999999701976776123046875 "2.$half" --words
gives 1 $'0\nrefused 10 at 0\n1\n' 'good.sheet, formula 1 at -0.5: refused 10 at 0: the argument' ask good.sheet 1 0 -0.5 1
gives 1 $'refused 11 at 0\n' 'refused 11 at 0: no formula has that number' ask good.sheet 2 0
gives 1 $'refused 1 at 24\n' 'refused 1 at 24: the bytes stop' ask 'cut short.sheet' 1 0 1
gives 1 $'too long\n' '8,192 bytes' ask deeper/long 1 0
gives 1 '' 'absent: unreadable: No such file' ask absent 1 0
gives 1 '' 'deeper: unreadable: Is a directory' ask deeper 1 0
for bad in 1e3 1,5 0x10 nan inf '' - . w 1ww '1 ' --; do gives 2 '' 'ask' ask good.sheet 1 0 "$bad"; done
for bad in 65536 -1 one 1.0 '' 100000; do gives 2 '' 'number' ask good.sheet "$bad" 0; done
for bad in --loud --step --stepss --exac --exactly --; do
    gives 2 '' "ask: '$bad' is no option of it; there are --words, --steps and --exact" ask good.sheet 1 0 "$bad"
done
gives 2 '' "$see ask" ask good.sheet
# Heron's rule by hand: 33554432, 25165824, 23767722, 23726602, 23726566 to the root of 2; 8192, 5120, 4198, 4097, 4096 to that of a step
gives 0 $'1.41421353816986083984375 5\n0 0\n' '' ask good.sheet 1 2 0 --steps
gives 0 $'23726566 5\n4096 5\n' '' ask --steps good.sheet --words 1 33554432w 1w
gives 1 $'0 0\nrefused 10 at 0\n1 5\n' 'at -0.5: refused 10 at 0' ask good.sheet 1 --steps 0 -0.5 1
gives 1 $'refused 11 at 0\n' 'refused 11 at 0' ask good.sheet 2 0 --steps
is "a script's answer and steps" "$("$command" ask good.sheet 1 2 --steps | { read -r answer steps && echo "$steps steps to $answer"; })" \
    '5 steps to 1.41421353816986083984375'
gives 2 '' "an ARGUMENT for --steps is missing; $see ask" ask good.sheet 1 --steps
# 4096 squared is 2^24, and 8388608 squared 4194304 times 2^24; no square of a whole number is twice another
gives 0 $'1.41421353816986083984375 rounded\n0 exact\n1 exact\n0.5 exact\n' '' ask good.sheet 1 2 0 1 0.25 --exact
gives 0 $'23726566 5 rounded\n4096 5 exact\n' '' ask --exact good.sheet --words 1 33554432w 1w --steps
gives 1 $'0 exact\nrefused 10 at 0\n1 exact\n' 'at -0.5: refused 10 at 0' ask good.sheet 1 --exact 0 -0.5 1
gives 1 $'refused 11 at 0\n' 'refused 11 at 0' ask good.sheet 2 0 --exact
# a decimal that is rounded has no exact answer: half a step is taken as one, a quarter and a little more as a quarter
gives 0 $'4096 rounded\n8388608 rounded\n8388608 exact\n' '' \
    ask good.sheet 1 "0.$half" 0.2500000000000000000000000000000000000001 0.2500000000000000000000000000000000000000 --words --exact
gives 2 '' "an ARGUMENT for --exact is missing; $see ask" ask good.sheet 1 --exact
gives 2 '' "an ARGUMENT for --steps is missing; $see ask" ask good.sheet 1 --exact --steps

# ---- sine and cosine, by x - x^3/6 on -1 to 1: at one it is 16777216 - 2796203, at 0, 1 and 2 steps its argument
printf '\10\0\0\0\1\0\1\0\30\0\0\0\24\0\5\0\0\0\0\377\0\0\0\1\0\0\0\1\125\125\325\377\10\0\0\0\377\377\1\0' >odd.sheet
gives 0 $'0\n13981013\n0\n-13981013\n' '' sine odd.sheet 5 0 0x40000000 2147483648 0xC0000000 --words
gives 0 $'13981013\n0\n-13981013\n0\n' '' cosine --words odd.sheet 5 0 0x40000000 2147483648 0xC0000000
gives 0 $'13981013\n13981013\n-13981013\n-13981013\n0\n' '' sine odd.sheet 5 --words 90deg 450deg -90deg -1.25t 123456789012345678901234567890.5t
gives 0 $'0\n1\n1\n2\n-1\n-1\n' '' sine odd.sheet 5 --words 31 32 95 96 0xffffffe0 0x80000020    # 32 and 96 are ties
gives 0 $'0.833333313465118408203125\n-0.833333313465118408203125\n' '' cosine - 5 360deg 0.5t <odd.sheet
gives 0 $'0.833333313465118408203125 0\n' '' ask odd.sheet 5 1 --steps
# at one nothing is rounded; at one half the last product is 8039082.5, and at a step its square is 2^-24
gives 0 $'0.833333313465118408203125 exact\n0.479166686534881591796875 rounded\n' '' ask odd.sheet 5 1 0.5 --exact
gives 0 $'0 exact\n13981013 exact\n-13981013 exact\n8039083 rounded\n1 rounded\n0 rounded\n' '' \
    sine odd.sheet 5 0 90deg 0xC0000000 0.125t 64 31 --words --exact
gives 0 $'0.833333313465118408203125 exact\n0.833333313465118408203125 rounded\n' '' cosine --exact odd.sheet 5 0 1
# x itself, of which a step has 64 parts of a turn; a twelfth of a turn has 357913941.3 parts, and is taken as 5592405.3 steps
printf '\10\0\0\0\1\0\1\0\24\0\0\0\24\0\5\0\0\0\0\377\0\0\0\1\0\0\0\1\10\0\0\0\377\377\1\0' >itself.sheet
gives 0 $'1 exact\n1 rounded\n1 rounded\n16777215 exact\n16777215 rounded\n-1 exact\n' '' \
    sine itself.sheet 5 64 63 65 0x40000040 0x40000041 0xffffffc0 --words --exact
gives 0 $'0.5 exact\n0.5 exact\n0.5 rounded\n0.5 rounded\n-0.25 exact\n' '' \
    sine itself.sheet 5 45deg 0.125t 0.1250000000000000000000000000000000000001t 45.00000000001deg -22.5deg --exact
gives 0 $'5592405 rounded\n' '' sine itself.sheet 5 30deg --words --exact
gives 0 $'1 exact\n1 rounded\n0 exact\n' '' cosine itself.sheet 5 --exact 0 1 90deg
gives 1 $'refused 15 at 0\n' 'refused 15 at 0: ' sine good.sheet 1 0 --exact
gives 1 $'refused 15 at 0\n' 'good.sheet, formula 1: refused 15 at 0: the formula is not of the kind odd' sine good.sheet 1 0 1 2
gives 1 $'refused 15 at 0\n' 'refused 15 at 0: ' cosine good.sheet 1 0
gives 1 $'refused 11 at 0\n' 'refused 11 at 0: no formula has that number' sine odd.sheet 4 0 1
gives 1 $'refused 1 at 24\n' 'refused 1 at 24: the bytes stop' cosine 'cut short.sheet' 1 0 1
gives 1 $'too long\n' '8,192 bytes' sine deeper/long 1 0
gives 1 '' 'absent: unreadable: No such file' cosine absent 1 0
gives 2 '' "is no angle: write degrees as 30deg" sine odd.sheet 5 0 30d
gives 2 '' "cosine: '1.5' is no angle" cosine odd.sheet 5 0 1.5
for bad in 65536 -1 one ''; do gives 2 '' 'number' sine odd.sheet "$bad" 0; done
gives 2 '' "cosine: '--loud' is no option of it; there are --words and --exact" cosine odd.sheet 5 0 --loud
gives 2 '' "sine: '--steps' is no option of it; there are --words and --exact" sine odd.sheet 5 0 --steps
gives 2 '' "ANGLE is missing; $see sine" sine odd.sheet 5
gives 2 '' "ANGLE is missing; $see cosine" cosine odd.sheet 5 --exact
gives 2 '' "a formula's number and angles; $see cosine" cosine odd.sheet

# ---- a blank formula: the odd one with zeros for its coefficients
printf '\10\0\0\0\1\0\1\0\30\0\0\0\24\0\5\0\0\0\0\377\0\0\0\1\0\0\0\0\0\0\0\0\10\0\0\0\377\377\1\0' >blank.sheet
gives 1 $'refused 14 at 8\n' 'blank.sheet: refused 14 at 8: the formula is blank and could only answer 0' list blank.sheet
wrong 'check of a blank formula' 1 'blank.sheet: refused 14 at 8: the formula is blank' "$command" check blank.sheet
wrong 'what to do about a blank formula' 1 'Load no board from this file' "$command" check blank.sheet
gives 1 $'refused 14 at 8\n' 'blank.sheet, formula 5: refused 14 at 8: the formula is blank' ask blank.sheet 5 0 1
gives 1 $'refused 14 at 8\n' 'refused 14 at 8: ' ask blank.sheet 4
gives 1 $'refused 14 at 8\n' 'blank.sheet, formula 5: refused 14 at 8: the formula is blank' sine blank.sheet 5 0 1
gives 1 $'refused 14 at 8\n' 'refused 14 at 8: ' cosine blank.sheet 4 0 --exact

# ---- a name stays on one line, whatever it is
odd=$'a: ok, 1 formula\n\e[1mb' shown='a: ok, 1 formula??[1mb'
cp 'cut short.sheet' "$odd"
gives 1 "$shown:"$'\nrefused 1 at 24\ngood.sheet:\n'"$listed" "valvepigeon: $shown: refused 1 at 24: " list "$odd" good.sheet
gives 1 $'refused 1 at 24\n' "valvepigeon: $shown, formula 1: refused 1 at 24: " ask "$odd" 1 0
gives 1 "${shown}c: unreadable: No such file or directory.
1 checked: 0 ok, 0 refused, 0 too long, 1 unreadable
" '' check "${odd}c"
rm "$odd"

# ---- what cannot be written
full() { # WORD...
    "$command" "$@" >/dev/full 2>"$room/err"
    local status=$?
    if [ "$status" -eq 1 ] && told 'could not be written'; then pass; else fail "valvepigeon $* to a full disk: status $status"; fi
}
full list good.sheet
full check good.sheet
full ask good.sheet 1 2
full sine odd.sheet 5 0

# ---- wrong calls, and help, which is printed and nothing else
gives 2 '' "$see --help" load good.sheet
gives 2 '' "$see --help"
for words in --help 'list --help' 'check --help' 'ask --help' 'sine --help' 'cosine --help'; do
    # shellcheck disable=SC2086
    if "$command" $words >"$room/out" 2>"$room/err" && [ ! -s "$room/err" ] && grep -q '^usage: valvepigeon ' "$room/out"; then
        pass
    else
        fail "valvepigeon $words"
    fi
done
for words in 'ask --words' 'ask --steps' 'ask --exact' 'sine --words' 'sine --exact' 'cosine --words' 'cosine --exact'; do
    right "the help of $words" grep -q "^usage: valvepigeon ${words% *} .*\[${words#* }\]" <("$command" "${words% *}" --help)
done

# ---- through links, one beside another
mkdir "$room/a bin"
ln -s "$command" "$room/a bin/first"
ln -s 'a bin/first' "$room/second"
command="$room/second" gives 0 "$listed" '' list good.sheet

# ---- the cases of tests/listings.py, tests/asked.py and tests/angles.py
cd "$root" || exit 2
mkdir "$room/cases"
python3 -B tests/listings.py "$room/cases" || fail 'tests/listings.py'
for input in "$room"/cases/*.in; do
    case $(head -n 1 "${input%.in}.out") in
        'formulas '*) status=0 text= ;;
        'refused '[3-8]' '*) status=1 text='its bytes are damaged' ;;
        'refused 14 '*) status=1 text='Load no board from this file: zeros stand where coefficients should be' ;;
        'refused '*) status=1 text='refused' ;;
        *) status=1 text='too long' ;;
    esac
    gives "$status" "$(cat "${input%.in}.out")"$'\n' "$text" list "$input"
done
gives 0 "$room/cases/odd-and-even.in: ok, 5 formulas
1 checked: 1 ok, 0 refused, 0 too long, 0 unreadable
" '' check "$room/cases/odd-and-even.in"
python3 -B tests/asked.py "$room/cases" || fail 'tests/asked.py'
for input in "$room"/cases/*.args; do
    mapfile -t words <"$input"
    if grep -q refused "${input%.args}.out"; then status=1 text=refused; else status=0 text=; fi
    gives "$status" "$(cat "${input%.args}.out")"$'\n' "$text" ask "${words[@]}"
done

mkdir "$room/angles"
python3 -B tests/angles.py "$room/angles" || fail 'tests/angles.py'
for input in "$room"/angles/*.args; do
    mapfile -t words <"$input"
    gives 0 "$(cat "${input%.args}.out")"$'\n' '' "${words[@]}"
done
# how angles are taken, part by part
right 'command/angle.c' compile_c "$room/angle.o" command/angle.c
right 'command/typed.c' compile_c "$room/typed.o" command/typed.c
right 'tests/angles.c' link_c "$room/taken" tests/angles.c "$room/angle.o" "$room/typed.o"
mapfile -t words <"$room/angles/texts"
run_x86 "$room/taken" "${words[@]}" >"$room/out"
right 'the angles that texts are taken for' diff "$room/angles/taken" "$room/out"

# ---- processor time, the least of five
least() { # WORD...
    local time best=9999 TIMEFORMAT='%U %S'
    for _ in 1 2 3 4 5; do
        time=$({ time "$command" "$@" >"$room/out"; } 2>&1 | awk '{ print int(1000 * ($1 + $2) + 0.5) }')
        [ "$time" -ge "$best" ] || best=$time
    done
    echo "$best"
}
if [ "$(uname -m)" = x86_64 ]; then
    time=$(least list sheets/tangent.sheet)
    if [ "$time" -lt 100 ]; then pass; else fail "list took $time ms of processor time"; fi
    time=$(least check sheets)
    if [ "$time" -lt 500 ]; then pass; else fail "check of sheets/ took $time ms of processor time"; fi
else
    echo "skipped: the processor time, this is $(uname -m)"
fi
conclude
