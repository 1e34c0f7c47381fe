#!/usr/bin/env bash
# The bindings: their structs and numbers are the header's, on any machine; where the library runs, on x86-64, they call it, found
# in the repository, installed, by the variable and by the loader.
set -u
cd "$(dirname "$0")/.." || exit 2
. tests/lib.sh
export PYTHONDONTWRITEBYTECODE=1 PIP_CONFIG_FILE=/dev/null RUSTFLAGS=-Dwarnings
unset VALVEPIGEON_LIBRARY VALVEPIGEON_LIBRARY_DIR
version=$(sed -n 's/^#define VP_VERSION_STRING "\(.*\)"/\1/p' include/valvepigeon.h)

here() { command -v "$@" >"$room/where"; } # PROGRAM...: one of them is on the path
rust_version=$(rustc --version 2>"$room/where" | sed -n 's/^rustc 1[.]\([0-9]*\)[.].*/\1/p')
rust_since() { here cc && [ "${rust_version:-0}" -ge "$1" ]; } # NUMBER: Rust 1.NUMBER or later is here, with a linker

# ---- structs and numbers

# One line of the header's layout for each struct and field, and none is empty.
link_c "$room/layout" tests/layout.c && run_x86 "$room/layout" >"$room/header"
if [ "$(grep -c '^vp_' "$room/header")" -ge 30 ]; then pass; else fail 'the layout of include/valvepigeon.h'; fi

laid_out() { # LANGUAGE COMMAND...
    local language=$1
    shift
    if "$@" >"$room/$language" && diff "$room/header" "$room/$language"; then pass; else fail "the layout of bindings/$language"; fi
}

rust_layout() {
    rustc --edition 2021 -D warnings -o "$room/layout-rs" bindings/rust/layout.rs && "$room/layout-rs"
}

laid_out python python3 bindings/python/layout.py
right 'numbers and version' env PYTHONPATH=bindings/python python3 tests/same_numbers.py
wrong 'bindings/python without the library' 1 'run ./build-library' \
    env PYTHONPATH=bindings/python VALVEPIGEON_LIBRARY="$room/none.so" python3 -c 'import valvepigeon; valvepigeon.count(b"")'
if rust_since 82; then laid_out rust rust_layout; else echo 'skipped: bindings/rust, no rustc from 1.82 on or no linker is here'; fi
if rust_since 85; then
    right 'bindings/rust in edition 2024' rustc --edition 2024 -D warnings --crate-type lib --emit metadata -o "$room/lib.rmeta" bindings/rust/src/lib.rs
else
    echo 'skipped: bindings/rust in edition 2024, no rustc from 1.85 on is here'
fi

# ---- calls

# The binding's tests, from a folder that has no package beside them.
tests_away() { # VARIABLE=VALUE...
    cp bindings/python/test.py "$room/test.py" && env "$@" python3 "$room/test.py"
}

installed() {
    python3 -m pip install --no-index --target "$room/site" ./bindings/python &&
        [ -f "$room/site/valvepigeon/libvalvepigeon.so" ] && tests_away PYTHONPATH="$room/site"
}

# A release, with a blank in its name: lib/ and bindings/. Elsewhere a package alone, and a library of another version.
release="$room/the release" alone=$room/alone other=$room/other

# The library in a folder where pkg-config knows it by a version.
known() { # FOLDER VERSION
    mkdir -p "$1/lib/pkgconfig" && cp target/staticlib/libvalvepigeon.* "$1/lib"
    printf '%s\n' 'Name: valvepigeon' 'Description: for the test' "Version: $2" >"$1/lib/pkgconfig/valvepigeon.pc"
}

call_python() {
    cp target/staticlib/libvalvepigeon.so "$room/named.so" && cp target/staticlib/libvalvepigeon.so "$room/libvalvepigeon.so.${version%%.*}"
    right 'bindings/python in the repository' python3 bindings/python/test.py
    right 'bindings/python in a release' tests_away PYTHONPATH="$release/bindings/python"
    right 'bindings/python by the variable' tests_away PYTHONPATH="$alone/python" VALVEPIGEON_LIBRARY="$room/named.so"
    right 'bindings/python by the loader' tests_away PYTHONPATH="$alone/python" LD_LIBRARY_PATH="$room"
    if python3 -m pip --version >"$room/where" 2>&1; then
        right 'bindings/python installed' installed
    else
        echo 'skipped: bindings/python installed, no pip is here'
    fi
}

# Each call begins from nothing: cargo would take the package in one folder for what it has built of it in another.
cargo_in() { # FOLDER WORD...
    local folder=$1
    shift
    cargo "$@" --offline --locked --target-dir "$(mktemp -d -p "$room")" --manifest-path "$folder/Cargo.toml"
}

call_rust() {
    right 'bindings/rust in the repository' cargo_in bindings/rust test
    right 'bindings/rust in a release' cargo_in "$release/bindings/rust" build
    if here pkg-config; then
        local number first=${version%%.*} rest=${version#*.}
        for number in 1.3.0 "$first.$((${rest%%.*} - 1)).9" "$((first + 1)).9.0"; do
            known "$other" "$number"
            PKG_CONFIG_PATH="$other/lib/pkgconfig" wrong "bindings/rust with the library $number" 101 'run ./build-library' cargo_in "$alone/rust" build
        done
        PKG_CONFIG_PATH="$release/lib/pkgconfig" right 'bindings/rust by pkg-config' cargo_in "$alone/rust" build
        known "$other" "$first.10.0"
        PKG_CONFIG_PATH="$other/lib/pkgconfig" right 'bindings/rust with a later library' cargo_in "$alone/rust" build
    else
        echo 'skipped: bindings/rust by pkg-config, which is not here'
    fi
    VALVEPIGEON_LIBRARY_DIR=$room/none wrong 'bindings/rust without the library' 101 'run ./build-library' cargo_in bindings/rust build
}

if [ "$(uname -m)" = x86_64 ]; then
    right './build-library' ./build-library
    known "$release" "$version" && cp -R bindings "$release" && cp -R bindings "$alone"
    if [ -f target/staticlib/libvalvepigeon.so ]; then call_python; else echo 'skipped: the calls of bindings/python, no shared library is here'; fi
    if here cargo && rust_since 82; then call_rust; else echo 'skipped: the calls of bindings/rust, no cargo from 1.82 on or no linker is here'; fi
else
    echo "skipped: the calls of bindings/python and bindings/rust, the library is for x86-64 and this is $(uname -m)"
fi
conclude
