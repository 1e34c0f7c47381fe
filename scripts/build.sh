# Builds the library and the command, for bash: proved first, then compiled. Sourced where `root` is the repository.
# `ensure_built` is what others call. What is built is kept with the checksums of all that it was built of.
archive=target/staticlib/libvalvepigeon.a shared=target/staticlib/libvalvepigeon.so
own=target/command
products=("$archive" "$shared" "$own/listing" "$own/verbs")

tell() { printf 'valvepigeon: %s\n' "$*" >&2; }

version() { sed -n 's/^#define VP_VERSION_STRING "\(.*\)"$/\1/p' "$root/include/valvepigeon.h"; }
# The name that programs have the shared library by; it moves with the version's first number.
shared_name() { echo "${shared##*/}.$(version | cut -d. -f1)"; }

checksums() { # NAME...: a line for each, and for each file below a folder, but for what is no source
    find "$@" \( -name must-fail -o -name out \) -prune -o -type f -print0 | LC_ALL=C sort -z | xargs -0 sha256sum
}

source_checksums() { (cd "$root" && checksums crates crates.txt command include library scripts); }
product_checksums() { (cd "$root" && checksums "${products[@]}"); }

# Whether what is built was built of these very sources.
is_built() {
    [ -f "$root/$own/built" ] && { source_checksums && product_checksums; } 2>/dev/null | cmp -s - "$root/$own/built"
}

# The crates that some stand on, and they themselves, one a line, in the order of crates.txt: the lowest first.
crates_below() { # CRATE...
    local -A below=() seen=()
    local name rest order=()
    while IFS=': ' read -r name rest; do
        below[$name]=${rest#staticlib: }
        order+=("$name")
    done < <(sed 's/#.*//; /^[ \t]*$/d' crates.txt)
    while [ $# -gt 0 ]; do
        name=$1
        shift
        [ -n "${below[$name]+listed}" ] && [ -z "${seen[$name]-}" ] || continue
        seen[$name]=yes
        # shellcheck disable=SC2086
        set -- "$@" ${below[$name]}
    done
    for name in "${order[@]}"; do if [ -n "${seen[$name]-}" ]; then echo "$name"; fi; done
}

# Proves a crate and has rt compile it: a program is run by that, on no input, and otherwise a library comes of it.
prove_crate() { # CRATE
    if [ -f "crates/$1/src/main.rt" ]; then (cd "crates/$1" && rt run); else (cd "crates/$1" && rt lib); fi
}

# Proves the crates, the lowest first, and takes what rt has compiled: the listing program and the library's archive.
prove() {
    local crates crate count=0
    mapfile -t crates < <(crates_below valvepigeon listing)
    : >"$own/log" || return 1
    for crate in "${crates[@]}"; do
        prove_crate "$crate" >>"$own/log" 2>&1 </dev/null || return 1
        tell "$((count += 1)) of ${#crates[@]}: $crate proved"
    done
    mkdir -p target/bin "${archive%/*}" && cp crates/listing/out/listing target/bin && cp "crates/valvepigeon/out/${archive##*/}" "$archive"
}

# Adds the C files to what rt has compiled, in a folder of its own until all of it is there.
compile() {
    local new=$own/new library=$own/new/${archive##*/} source objects=()
    rm -rf "$new" && mkdir "$new" && cp target/bin/listing "$archive" "$new" || return 1
    compile_c "$new/message.o" library/message.c && "$tools/bin/llvm-ar" rcsD "$library" "$new/message.o" || return 1
    for source in command/*.c; do
        objects+=("$new/$(basename "$source" .c).o")
        compile_c "${objects[-1]}" "$source" || return 1
    done
    link_objects "$new/verbs" "${objects[@]}" "$library" && link_shared "$new/${shared##*/}" "$(shared_name)" "$library" || return 1
    mv "$new/listing" "$new/verbs" "$own" && mv "$library" "$new/${shared##*/}" "${archive%/*}" || return 1
    # A name of an earlier version would give this one to programs that were compiled for that. A copy, since rt takes no links.
    rm -f "$shared".* && cp "$shared" "${shared%/*}/$(shared_name)" && rm -r "$new"
}

build() {
    local sources
    command -v rt >/dev/null || { tell "it is not built, or the sources have changed since: building it needs the Rattle kit's 'rt' on the path"; return 1; }
    . scripts/kit.sh
    sources=$(source_checksums)
    tell 'proving and building, which takes some minutes where nothing is proved yet'
    if prove && compile >>"$own/log" 2>&1; then
        { printf '%s\n' "$sources" && product_checksums; } >"$own/built.new" && mv "$own/built.new" "$own/built"
    else
        tail -n 20 "$own/log" >&2
        tell "it could not be built; $root/$own/log has it all"
        return 1
    fi
}

# Waits for the lock on a descriptor. The lock goes with the last process that has the descriptor, however that ends.
lock() { # DESCRIPTOR
    if command -v flock >/dev/null; then
        flock -n "$1" || { tell 'waiting for another call, which is building'; flock "$1"; }
    else
        python3 -c 'import fcntl, sys; fcntl.flock(int(sys.argv[1]), fcntl.LOCK_EX)' "$1"
    fi
}

# Builds what is not built of these sources. Calls at the same time wait for one another.
ensure_built() {
    is_built && return
    (
        { cd "$root" && mkdir -p "$own" && exec 9>"$own/lock"; } 2>/dev/null || { tell "$root may not be written to, and it has to be built there"; exit 1; }
        lock 9 || exit 1
        is_built || build
    )
}
