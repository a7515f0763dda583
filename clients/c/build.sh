#!/bin/sh
# Builds libfunnel.a and libfunnel.so into the folder `out` beside this file. The engine's calls for C are compiled from the libraries that
# the gate proved. Where these are not there, or a source is newer, they are proved first, with `rt`, the command of the Rattle kit. The
# kit's C runtime, three calls of the allocator, is linked in.
here=$(dirname "$(readlink -f "$0")")
root=$(readlink -f "$here/../..")
kit=$(dirname "$(rt doc)")
out=$here/out
proved=$root/crates/funnel_c/out/libfunnel_c.a
parts=$(mktemp -d) || exit
trap 'rm -rf "$parts"' EXIT

# The first file that is newer than this one, if there is one.
newer_source() {
    find "$root/crates.txt" "$root/HANDLES" "$root"/crates/*/src "$root"/crates/*/specs "$root"/crates/*/proofs \
        -type f -newer "$1" | head -n 1
}

is_made() {
    [ -e "$1" ] && [ -z "$(newer_source "$1")" ]
}

# Proves the calls for C once more, over the libraries that stand in the crates' folders, and compiles them. What is said of that is told
# where it fails.
compile() {
    cd "$root/crates/funnel_c" || return
    set -- build --crate-name funnel_c src/lib.rt -L "dependency=$kit/rlibs" --extern "std=$kit/rlibs/std.rlib"
    for it in $(sed -n 's/^funnel_c staticlib: //p' "$root/crates.txt"); do
        folder=$kit/rlibs
        [ -d "$root/crates/$it" ] && folder=$root/crates/$it/out/rlib
        set -- "$@" --extern "$it=$folder/$it.rlib"
    done
    for it in "$root"/crates/*/out/rlib; do
        set -- "$@" -L "dependency=$it"
    done
    mkdir -p out
    "$kit/bin/rattle" "$@" --antt-project "$kit/rattle/logic/antt-project.json" --logic-built "$kit/logic_built" \
        --links funnel_c= --crate-type staticlib --backend llvm --toolchain "$kit/toolchain" -o "$proved" >"$parts/log" 2>&1 ||
        { cat "$parts/log" >&2; return 1; }
}

if ! is_made "$proved"; then
    if is_made "$root/crates/engine/out/rlib/engine.rlib"; then
        compile || exit 70
    else
        python3 -B "$root/.ci/build.py" funnel_c </dev/null >&2 && touch "$proved" || exit 70
    fi
fi
mkdir -p "$out" && cd "$parts" && ar x "$proved" && ar x "$kit/c/liblibc_c.a" && ar rcs libfunnel.a ./*.o &&
    ${CC:-cc} -shared -Wl,-z,defs -Wl,--exclude-libs,liblibc_c.a -o libfunnel.so \
        -Wl,--whole-archive "$proved" -Wl,--no-whole-archive "$kit/c/liblibc_c.a" &&
    mv libfunnel.a libfunnel.so "$out"
