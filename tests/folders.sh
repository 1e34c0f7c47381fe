#!/usr/bin/env bash
# What sheets/make.py writes and what it leaves alone: all or nothing, nothing of anybody else's, from any folder.
set -u
cd "$(dirname "$0")/.." || exit 2
. tests/lib.sh
root=$PWD
mkdir "$room/here" && cd "$room/here" || exit 2

text() { # SHEET COEFFICIENTS
    printf 'sheet: %s\nnumber: 7\nkind: polynomial\ninterval: [-1, 1]\ncoefficients: %s\n' "$1" "$2"
}

state() { # FOLDER; every file below it with its bytes
    find "$1" -type f -exec sha256sum {} + | sort
    find "$1" ! -type f | sort
}

gives() { # STATUS WORDS ARGUMENT...; WORDS stand on standard error, which is empty where they are
    local status=$1 words=$2 got
    shift 2
    python3 -BS "${program:-$root/sheets/make.py}" "$@" >../out 2>../err
    got=$?
    if [ "$got" -eq "$status" ] && ! grep -q Traceback ../err && if [ -n "$words" ]; then grep -qF -- "$words" ../err; else [ ! -s ../err ]; fi; then
        pass
    else
        fail "make.py $*: status $got, not $status with '$words': $(cat ../err)"
    fi
}

refused() { # FOLDER WORDS ARGUMENT...; status 1, and all below FOLDER stays as it was
    local before folder=$1 words=$2
    shift 2
    before=$(state "$folder")
    gives 1 "$words" "$@"
    if [ "$before" = "$(state "$folder")" ]; then pass; else fail "make.py $*: $folder is not as it was"; fi
}

same() { # FILE FILE
    if cmp -s "$1" "$2"; then pass; else fail "$1 is not $2"; fi
}

# A foreign file stays, is told where it looks like a sheet, and is never replaced.
mkdir desk
echo 'mine' >desk/notes.txt
echo 'mine too' >desk/theirs.sheet
text desk '1, 1, 1/2' >mine.txt
gives 0 'desk/theirs.sheet: not of this text; left as it is' mine.txt --out desk
same desk/notes.txt <(echo 'mine')
same desk/theirs.sheet <(echo 'mine too')
text theirs '1, 1' >theirs.txt
refused desk 'desk/theirs.sheet: this program did not make it' theirs.txt --out desk
rm desk/theirs.sheet

# Its own sheet is replaced; the sheet of another text, a link, a folder, or what was changed since is not.
cp desk/desk.sheet first
gives 0 '' mine.txt --out desk
same desk/desk.sheet first
text desk '1, 1, 1/4' >mine.txt
gives 0 '' mine.txt --out desk
if cmp -s desk/desk.sheet first; then fail 'the changed text gives the old sheet'; else pass; fi
text desk '1, 1' >other.txt
refused desk 'desk/desk.sheet: this program did not make it' other.txt --out desk
text desk '1, 1, 1/8' >mine.txt
mv desk/desk.sheet moved
ln -s ../moved desk/desk.sheet
refused . 'desk/desk.sheet: this program did not make it' mine.txt --out desk
rm desk/desk.sheet
mkdir desk/desk.sheet
refused desk 'desk/desk.sheet: this program did not make it' mine.txt --out desk
rmdir desk/desk.sheet
mv moved desk/desk.sheet
printf 'x' >>desk/desk.sheet
refused desk 'desk/desk.sheet: this program did not make it' mine.txt --out desk
rm desk/desk.sheet

# A sheet that is no longer in the text is told and left, and is still known when it comes back.
gives 0 '' mine.txt --out desk
text late '1, 1' >mine.txt
gives 0 'desk/desk.sheet: not of this text; left as it is' mine.txt --out desk
text desk '1' >mine.txt
gives 0 'desk/late.sheet: not of this text; left as it is' mine.txt --out desk
if (cd desk && sha256sum --quiet -c mine.sha256) && [ "$(grep -c sheet$ desk/mine.sha256)" -eq 2 ]; then pass; else fail "the list: $(cat desk/mine.sha256)"; fi
echo 'a list of mine' >desk/list.sha256
text fresh '1' >list.txt
refused desk 'desk/list.sha256: this program did not make it' list.txt --out desk

# Texts that cannot be read, folders that cannot be written, a full disk.
refused . 'absent.txt: cannot be read: No such file' absent.txt --out new
refused . 'desk: cannot be read: Is a directory' desk --out new
refused . 'mine.txt: cannot be written: File exists' mine.txt --out mine.txt
refused . 'mine.txt/new: cannot be written: Not a directory' mine.txt --out mine.txt/new
text fresh '1' >mine.txt
before=$(state desk)
said=$(ulimit -f 0; python3 -B "$root/sheets/make.py" mine.txt --out desk 2>&1)
if [ $? -eq 1 ] && [ "$said" = 'desk: cannot be written: File too large' ] && [ "$before" = "$(state desk)" ]; then pass; else fail "a full disk: $said"; fi
said=$(env -u PYTHONUNBUFFERED python3 -B "$root/sheets/make.py" mine.txt --out fresh 2>&1 >/dev/full)
if [ $? -eq 1 ] && [ "$said" = 'standard output: No space left on device' ]; then pass; else fail "no room for what is told: $said"; fi

# Calls.
gives 2 'needs --out FOLDER' mine.txt
gives 2 'expected one argument' mine.txt --out
gives 2 'names no folder' mine.txt --out ''
gives 2 'unrecognized arguments' mine.txt theirs.txt --out new
gives 2 'unrecognized arguments' --all
gives 2 'stands alone' --check --out new
gives 0 '' --help
if grep -q '^usage: make.py' ../out && [ ! -e new ]; then pass; else fail "--help: $(cat ../out)"; fi
mkdir 'my folder'
ln -s "$root/sheets/make.py" 'my folder/make sheets'
cp mine.txt 'my folder/my text.txt'
program='my folder/make sheets' gives 0 '' 'my folder/my text.txt' --out 'my folder/new/sheets of mine'
same 'my folder/new/sheets of mine/fresh.sheet' fresh/fresh.sheet

# The ready sheets, somewhere else.
gives 0 '' --out ready
for sheet in "$root"/sheets/*.sheet "$root/sheets/formulas.sha256"; do same "ready/${sheet##*/}" "$sheet"; done

# The ready sheets in their own folder: here a copy, with a text of one formula. README.md keeps what stands above its table.
mkdir copy
cp -r "$root/sheets" "$root/oracle" copy
text sine '1, 1, 1/2' >copy/sheets/formulas.txt
program=copy/sheets/make.py refused copy 'formulas.txt:1: missing: function, source'
printf 'function: e^x\nsource: none\n' >>copy/sheets/formulas.txt
program=copy/sheets/make.py gives 0 'copy/sheets/all.sheet: not of this text; left as it is'
same copy/sheets/sine.sheet first
for sheet in "$root"/sheets/*.sheet; do [ "${sheet##*/}" = sine.sheet ] || same "copy/sheets/${sheet##*/}" "$sheet"; done
same <(sed '/^## The formulas$/,$d' copy/sheets/README.md) <(sed '/^## The formulas$/,$d' "$root/sheets/README.md")
if [ "$(sed '1,/^## The formulas$/d' copy/sheets/README.md | grep -c '^| ')" -eq 2 ] && grep -q '^| sine | 7 | e^x | polynomial | \[-1, 1\] | none |' copy/sheets/README.md; then pass; else fail "README.md's table: $(tail -n 5 copy/sheets/README.md)"; fi

# What sheets/README.md shows of a call: its text, what is printed, its fault, the interval that is admitted, and a blank formula.
shown() { page_shows "$root/sheets/README.md" "$1"; } # TEXT
{ echo '# e^x, to see how it goes'; text desk '1, 1, 1/2' | sed 's/^kind/function: e^x\n&/'; } >mine.txt
shown "$(cat mine.txt)"
gives 0 '' mine.txt --out shown
shown "$(printf '$ sheets/make.py mine.txt --out desk\n'; cat ../out)"
sed -i 's/1, 1,/1 1,/' mine.txt
gives 1 'mine.txt:7: ' mine.txt --out shown
shown "$(printf '$ sheets/make.py mine.txt --out desk\n'; cat ../err)"
sed -i 's/1 1,/1, 1,/; s/\[-1, 1\]/[-20, 20]/' mine.txt
gives 1 'mine.txt:6: refused 7, ' mine.txt --out shown
shown "$(cat ../err)"
sed -i 's/1, 1, 1.2$/0, 0, 0/' mine.txt
gives 1 'mine.txt:7: refused 14, ' mine.txt --out shown
shown "$(cat ../err)"
conclude
