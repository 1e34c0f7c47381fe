#!/usr/bin/env bash
# ./release: twice the same bytes, whatever the hour, the umask, the user and what lies about; and what is unpacked works.
set -u
cd "$(dirname "$0")/.." || exit 2
. tests/lib.sh
need_library

right './release' ./release "$room/first"
# a copy of what the second is made of, with other times, which may not be written to; somebody else makes it
mkdir "$room/copy" "$room/copy/target" "$room/second" "$room/temporary"
cp -R bindings command crates crates.txt include install library oracle release scripts sheets valvepigeon "$room/copy"
cp -R target/command target/staticlib "$room/copy/target"
mkdir -p "$room/copy/bindings/python/__pycache__" "$room/copy/oracle/__pycache__" "$room/copy/bindings/rust/target"
: >"$room/copy/bindings/python/__pycache__/left.pyc"
: >"$room/copy/oracle/__pycache__/left.pyc"
: >"$room/copy/bindings/rust/target/left"
sleep 1    # a tar's times are in seconds
find "$room/copy" -type f -exec touch -d 2001-02-03 {} +
chmod -R a-w,a+rX "$room/copy" && chmod a+rx "$room" && chmod a+rwx "$room/second" "$room/temporary"
somebody=without_rights
without_rights test -x "$room/copy/release" || { echo 'skipped: a release by somebody else, whom root cannot be here'; somebody=env; }
right './release of the copy' "$somebody" env TMPDIR="$room/temporary" TZ=Asia/Tokyo LC_ALL=C.UTF-8 bash -c 'umask 077 && "$1" "$2"' bash "$room/copy/release" "$room/second"
is 'what it leaves behind' "$(ls "$room/temporary")" ''
right 'the same bytes' cmp "$room"/first/*.tar "$room"/second/*.tar
is 'what is made' "$(ls "$room/first")" "$(basename "$room"/first/*.tar)"

mkdir "$room/unpacked"
right 'unpacking' python3 -m tarfile -e "$room"/first/*.tar "$room/unpacked"
cd "$room"/unpacked/* || exit 2
right 'the checksums' sha256sum -c SHA256SUMS
for file in README include/valvepigeon.h lib/libvalvepigeon.a lib/libvalvepigeon.so libexec/valvepigeon/listing bindings/python bindings/rust; do
    right "$file" test -e "$file"
done
right 'every sheet' diff <(cd "$OLDPWD/sheets" && sha256sum ./*.sheet) <(cd sheets && sha256sum ./*.sheet)
right "the sheets' own checksums" bash -c 'cd sheets && sha256sum -c formulas.sha256'
printf 'sheet: desk\nnumber: 7\nkind: root\ninterval: [0, 2]\n' >"$room/mine.txt"
right 'the released maker of sheets' sheets/make.py "$room/mine.txt" --out "$room/mine"
right 'every file but the checksums has one' diff <(find . -type f ! -name SHA256SUMS | LC_ALL=C sort) <(cut -c 67- SHA256SUMS)
if [ "$(uname -m)" = x86_64 ]; then
    right 'the released command' env PATH=/usr/bin:/bin ./valvepigeon check sheets
else
    echo "skipped: the released command, it is for x86-64 and this is $(uname -m)"
fi

cd "$OLDPWD" || exit 2
wrong './release --loud' 2 'usage: ./release' ./release --loud
: >"$room/file"
wrong './release where nothing can be written' 1 'could not be made' ./release "$room/file"
conclude
