#!/usr/bin/env bash
# How the command comes to be built: on a fresh copy of the sources, by a stand-in for rt that proves nothing, takes what it
# builds from this checkout, and notes each call.
set -u
cd "$(dirname "$0")/.." || exit 2
. tests/lib.sh
need_library
paper_sheet >"$room/sheet"
copy="$room/a copy"
mkdir "$copy" "$room/stand-in" "$room/notes"
tar -c --exclude=out crates crates.txt command include library scripts valvepigeon build-library | tar -x -C "$copy"

export BUILT=$PWD NOTES=$room/notes RATTLE_HOME=$kit REFUSE=
cat >"$room/stand-in/rt" <<'R'
#!/usr/bin/env bash
# Stands in for `rt lib` and `rt run` in a crate's folder.
echo "$1 ${PWD##*/}" >>"$NOTES/calls"
mkdir "$NOTES/busy" || echo "$1" >>"$NOTES/overlaps"
sleep 0.05
mkdir -p out
case "$1 ${PWD##*/}" in
    'run listing') cp "$BUILT/target/command/listing" out ;;
    'lib valvepigeon') cp "$BUILT/target/staticlib/libvalvepigeon.a" out ;;
esac && [ -z "$REFUSE" ]
status=$?
rmdir "$NOTES/busy"
exit $status
R
chmod +x "$room/stand-in/rt"
path=$room/stand-in:$PATH    # what the command finds its tools by

calls() { cat "$NOTES/calls" 2>/dev/null | tr '\n' ' '; }

# Lists the sheet: it is listed, or with a text it is told why not, with status 1.
lists() { # WHAT [TOLD]
    local got status
    got=$(env PATH="$path" "$copy/valvepigeon" list "$room/sheet" 2>"$room/told")
    status=$?
    if [ $# -eq 1 ]; then is "$1" "$status $got" "0 $paper_listing"; else is "$1" "$status $got" '1 '; fi
    if [ $# -eq 1 ] || grep -qF -- "$2" "$room/told"; then pass; else fail "$1: told $(tail -n 3 "$room/told")"; fi
}

# What rt is called for when all is built: each crate that the two stand on, the lowest first.
python3 - >"$room/once" <<'P'
below = {}
for line in open("crates.txt"):
    name, colon, rest = line.partition("#")[0].partition(":")
    if colon:
        below[name.split()[0]] = rest.split()
needed, todo = set(), ["listing", "valvepigeon"]
while todo:
    name = todo.pop()
    if name in below and name not in needed:
        needed.add(name)
        todo += below[name]
for name in below:
    if name in needed:
        print("run" if name == "listing" else "lib", name)
P
once=$(tr '\n' ' ' <"$room/once")

# Several calls at once all end right, and build once.
at_once() { # CALLS
    local call
    for call in $(seq "$1"); do
        { env PATH="$path" "$copy/valvepigeon" list "$room/sheet" || echo "status $?"; } >"$room/out.$call" 2>"$room/told.$call" &
    done
    wait
    for call in $(seq "$1"); do is "call $call of $1" "$(cat "$room/out.$call")" "$paper_listing"; done
    is "$1 calls at once: what rt was called for" "$(calls)" "$once"
    is "$1 calls at once: calls of rt that overlap" "$(cat "$NOTES/overlaps" 2>&1)" "cat: $NOTES/overlaps: No such file or directory"
}

# ---- ten calls on the fresh copy, with a line of progress for each crate that the two stand on
at_once 10
cut -d' ' -f2 "$room/once" | LC_ALL=C sort >"$room/crates"
number=$(wc -l <"$room/crates")
cat "$room"/told.* | sed -n "s/^valvepigeon: \([0-9]*\) of $number: \([a-z_]*\) proved\$/\1 \2/p" >"$room/progress"
is 'the numbers of the progress' "$(cut -d' ' -f1 "$room/progress" | tr '\n' ' ')" "$(seq -s ' ' "$number") "
is 'the crates of the progress' "$(cut -d' ' -f2 "$room/progress" | LC_ALL=C sort)" "$(cat "$room/crates")"

# ---- nothing is built anew for files that are newer but the same, or for other files
find "$copy" -name target -prune -o -type f -exec touch {} +
echo other >"$copy/README.md"
echo other >"$copy/target/bin/listing"
rm "$NOTES/calls"
lists 'touched sources'
is 'touched sources: what rt was called for' "$(calls)" ''
env PATH="$path" "$copy/build-library" >"$room/out" 2>&1
is './build-library: what rt was called for' "$(calls)" ''

# ---- a folder that may not be written to, and a path without the toolchain
mkdir "$room/tools"
on_path() { # NAME...: puts tools on it
    local name
    for name; do ln -sf "$(type -P "$name")" "$room/tools/"; done
}
on_path bash env cat cmp find mkdir readlink sed sha256sum sort uname xargs
if [ "$(uname -m)" != x86_64 ]; then
    echo "skipped: the command without the toolchain, this is $(uname -m)"
elif ! without_rights true; then
    echo 'skipped: the command in a folder that may not be written to, as root cannot be nobody here'
else
    chmod -R a-w,a+rX "$copy" && chmod a+rx "$room"
    is 'without the toolchain' "$(without_rights env PATH="$room/tools" "$copy/valvepigeon" list <"$room/sheet" 2>&1)" "$paper_listing"
    chmod -R u+w "$copy"
fi

# ---- what is built is gone, or is something else: it is built again, and the shared library has no name of an earlier version
echo other >"$copy/target/staticlib/libvalvepigeon.a"
ln -s libvalvepigeon.so "$copy/target/staticlib/libvalvepigeon.so.0"
lists 'another archive'
is 'the names of the shared library' "$(cd "$copy/target/staticlib" && echo libvalvepigeon.so.*)" \
    "libvalvepigeon.so.$(sed -n 's/^#define VP_VERSION_STRING "\([0-9]*\).*/\1/p' include/valvepigeon.h)"
rm "$copy/target/command/verbs"
lists 'a program is gone'
is 'twice something else: what rt was called for' "$(calls)" "$once$once"

# ---- changed sources: without rt, without a proof, and then built, by calls at once that have no flock
echo '// changed' >>"$copy/crates/listing/src/main.rt"
on_path awk basename cp cut ln mv rm rmdir seq sleep tail tr
ln -s "$(python3 -c 'import sys; print(sys.executable)')" "$room/tools/python3"
path=$room/tools
lists 'changed sources without rt' "'rt' on the path"
ln -s "$room/stand-in/rt" "$room/tools"
REFUSE=yes lists 'not proved' 'it could not be built'
rm "$NOTES/calls"
at_once 3
conclude
