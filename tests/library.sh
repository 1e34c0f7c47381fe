#!/usr/bin/env bash
# The library as C has it: the header's constants, what the archive asks for from outside, and what ./install puts below a prefix.
set -u
cd "$(dirname "$0")/.." || exit 2
. tests/lib.sh
need_library
prefix=$room/prefix
version=$(sed -n 's/^#define VP_VERSION_STRING "\(.*\)"/\1/p' include/valvepigeon.h)

right 'the constants' link_c "$room/constants" tests/constants.c target/staticlib/libvalvepigeon.a
right 'the constants' run_x86 "$room/constants"

# All of the archive, linked without a C library: it asks for memcpy, and for nothing else.
cat >"$room/memcpy.c" <<'C'
#include <stddef.h>
void *memcpy(void *to, const void *from, size_t n) {
    for (size_t i = 0; i < n; i++) ((volatile char *)to)[i] = ((const char *)from)[i];
    return to;
}
C
bare() { # OBJECT...
    "$tools/bin/ld.lld" -m elf_x86_64 -e vp_count -o "$room/bare" --whole-archive target/staticlib/libvalvepigeon.a --no-whole-archive "$@"
}
right 'memcpy' compile_c "$room/memcpy.o" "$room/memcpy.c"
right 'the archive with memcpy alone' bare "$room/memcpy.o"
wrong 'the archive without it' 1 'undefined symbol: memcpy' bare

right './install' ./install "$prefix"
right './install again' ./install "$prefix"
for word in '' --loud; do wrong "./install '$word'" 2 'usage: ./install PREFIX' ./install "$word"; done
: >"$room/file"
wrong './install where nothing can be written' 1 'could not be written' ./install "$room/file/below"
right 'no path of this machine' test -z "$(grep -rlF -e "$PWD" -e "$prefix" -e "$kit" "$prefix")"
cp valvepigeon "$room/valvepigeon"
wrong 'a command without its programs' 1 'install it again' "$room/valvepigeon" list
is 'half-written files' "$(find "$prefix" -name '*.new')" ''

paper_sheet >"$room/sheet"
cat >"$room/program.c" <<'C'
#include <stdio.h>
#include <valvepigeon.h>
int main(void) {
    uint8_t sheet[32];
    FILE *file = fopen("sheet", "rb");
    size_t length = file ? fread(sheet, 1, sizeof sheet, file) : 0;
    vp_worked root = vp_evaluate(sheet, length, 1, 33554432), one = vp_evaluate(sheet, length, 1, 16777216);
    vp_shown shown = vp_evaluate_double(sheet, length, 1, 2), one_shown = vp_evaluate_double(sheet, length, 1, 1);
    if (root.refused) puts(vp_message(root.refused));
    else printf("%s: %d after %u steps, %.8f after %u\n", VP_VERSION_STRING, root.word, root.steps, shown.value, shown.steps);
    printf("exact: %u %u, %u %u\n", root.exact, shown.exact, one.exact, one_shown.exact);
    return vp_evaluate(sheet, length, 1, -1).refused != VP_ARGUMENT_OUTSIDE;
}
C

prints() { # WHAT PROGRAM: the root of 2 is the paper's, and rounded; that of 1 is exact
    is "$1" "$(cd "$room" && LD_LIBRARY_PATH=$prefix/lib "$2" 2>&1)" \
        "$version: 23726566 after 5 steps, 1.41421354 after 5"$'\nexact: 0 0, 1 1'
}

# Compiles the program through pkg-config, as C and as C++, with the shared library; and with the archive.
compiled() {
    local flags
    flags=$(PKG_CONFIG_PATH=$prefix/lib/pkgconfig pkg-config --cflags --libs valvepigeon)
    # shellcheck disable=SC2086
    right 'cc through pkg-config' cc -std=c99 -pedantic -Wall -Wextra -Werror -o "$room/shared" "$room/program.c" $flags
    right 'the name that the program has of the shared library' grep -q "libvalvepigeon[.]so[.]${version%%.*}" "$room/shared"
    prints 'with the shared library' "$room/shared"
    mv "$prefix/lib/libvalvepigeon.so" "$room"
    prints 'with the shared library by its own name alone' "$room/shared"
    right 'cc with the archive' cc -I "$prefix/include" -o "$room/static" "$room/program.c" "$prefix/lib/libvalvepigeon.a"
    prefix=nowhere prints 'with the archive' "$room/static"
    is 'the version of pkg-config' "$(PKG_CONFIG_PATH=$prefix/lib/pkgconfig pkg-config --modversion valvepigeon)" "$version"
    if command -v c++ >"$room/log"; then
        right 'c++' c++ -Wall -Wextra -Werror -I "$prefix/include" -o "$room/plus" -x c++ "$room/program.c" -x none "$prefix/lib/libvalvepigeon.a"
        prints 'as C++' "$room/plus"
    else
        echo 'skipped: the header in C++, no c++ is here'
    fi
}

if [ "$(uname -m)" != x86_64 ]; then
    echo "skipped: what is installed, it is for x86-64 and this is $(uname -m)"
else
    is 'the installed command' "$(PATH=/usr/bin:/bin "$prefix/bin/valvepigeon" ask "$room/sheet" 1 2 1 --words --steps --exact 2>&1)" \
        $'23726566 5 rounded\n16777216 5 exact'
    if command -v cc >"$room/cc" && command -v pkg-config >"$room/pkg-config"; then
        compiled
    else
        echo 'skipped: a program through pkg-config, cc or pkg-config is not here'
    fi
fi
conclude
