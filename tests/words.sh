#!/usr/bin/env bash
# The words for the refusals are the same in the library, in the header's comments, in the README's table and in sheets/make.py.
set -u
cd "$(dirname "$0")/.." || exit 2
. tests/lib.sh

need_library
link_c "$room/words" tests/words.c target/staticlib/libvalvepigeon.a && run_x86 "$room/words" 99 >"$room/messages"
is 'the messages of 0 to 99' "$(wc -l <"$room/messages")" 100
right 'the words differ' python3 -B tests/words.py "$room/messages"
conclude
