# The kit's own tools, for bash; needs `rt` on the path. What rt compiles is for x86-64; on another machine it runs
# under the kit's emulator, which rattle-kit-13f has not.
kit=${RATTLE_HOME:-$(dirname "$(dirname "$(readlink -f "$(command -v rt)")")")}
tools=$kit/toolchain

run_x86() { # PROGRAM WORD...
    local emulator=$tools/bin/qemu-x86_64
    [ -x "$emulator" ] || emulator=
    ${emulator:+"$emulator"} "$tools/lib/ld-linux-x86-64.so.2" --library-path "$tools/lib" "$@"
}

# Compiles a C file for x86-64. The kit has no C headers; scripts/c/ has what is needed of them.
compile_c() { # OBJECT SOURCE
    "$tools/bin/clang" --target=x86_64-unknown-linux-gnu -std=c99 -O2 -fPIC -Wall -Werror -nostdinc -isystem scripts/c -I include -c -o "$1" "$2"
}

link_objects() { # PROGRAM OBJECT-OR-ARCHIVE...
    local program=$1
    shift
    "$kit/bin/rattle-link" --target x86_64-unknown-linux-gnu --toolchain "$tools" -o "$program" "$@" >"$program.log" 2>&1 ||
        { cat "$program.log"; return 1; }
}

# Compiles a C program for x86-64 and links it with archives.
link_c() { # PROGRAM SOURCE ARCHIVE...
    local program=$1 source=$2
    shift 2
    compile_c "$program.o" "$source" && link_objects "$program" "$program.o" "$@"
}

# Links all of an archive as a shared library, which programs look for by its name.
link_shared() { # LIBRARY NAME ARCHIVE
    "$tools/bin/ld.lld" -m elf_x86_64 -shared -soname "$2" -z now --build-id -o "$1" --whole-archive "$3" --no-whole-archive "$tools/lib/libc.so.6"
}
