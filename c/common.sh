# Sourced by c/archive, c/test and c/bench: finds the toolchain, builds the archive, compiles, links and runs programs in C.
#
# Archive and toolchain are for Linux on x86-64 alone. CC says which compiler is taken: a command, or `kit` for the
# toolchain's own, with which the programs run under the toolchain's loader and C library.
set -uo pipefail

fail() {
    printf '%s: %s\n' "$name" "$*" >&2
    exit 1
}

here=$(dirname -- "$(readlink -f -- "${BASH_SOURCE[0]}")")
root=$(dirname -- "$here")
build=$root/target/c
machine=$(uname -m)

command -v rt >/dev/null || fail "there is no rt on the path: the Rattle toolchain is needed"
guide=$(rt doc) || fail "rt does not say where its toolchain is"
kit=$(dirname -- "$guide")
tools=$kit/toolchain
loader=$tools/lib/ld-linux-x86-64.so.2
[ -e "$loader" ] || fail "the toolchain at $kit has no loader for programs"
[ "$machine" = x86_64 ] || fail "the archive is for x86_64, and this machine is $machine"

# The compiler that is taken where CC does not say: the machine's own, where there is one.
machine_compiler() {
    for compiler in cc gcc clang; do
        command -v "$compiler" >/dev/null && echo "$compiler" && return
    done
    echo kit
}

# Proves and builds the archive where it is not up to date. It is as old as the beginning of its build, so that what is
# changed meanwhile is newer. ARCHIVE names another one to take.
build_archive() {
    archive=${ARCHIVE:-$root/target/staticlib/libneftolek.a}
    [ -z "${ARCHIVE:-}" ] || return 0
    if [ -f "$archive" ] && [ -z "$(find "$root"/crates/*/* "$root/crates.txt" "$kit/KIT-ID" \
        -name out -prune -o -newer "$archive" -print -quit)" ]; then
        return 0
    fi
    echo "$name: proving and building the archive with 'rt lib' in crates/neftolek_c; from nothing this takes some minutes" >&2
    mkdir -p "$build" "$(dirname -- "$archive")"
    touch "$build/began"
    (cd "$root/crates/neftolek_c" && rt lib) >"$build/archive.log" 2>&1 ||
        fail "the archive was not built: target/c/archive.log says why"
    cp "$root/crates/neftolek_c/out/libneftolek_c.a" "$archive" && touch -r "$build/began" "$archive" ||
        fail "the archive cannot be written to $archive"
}

compile() { # SOURCE OBJECT FLAGS.., the flags say how far it is optimised
    local source=$1 object=$2 compiler=("$CC")
    shift 2
    if [ "$CC" = kit ]; then
        compiler=("$tools/bin/clang" --target=x86_64-unknown-linux-gnu -nostdinc -I"$here/libc")
    fi
    "${compiler[@]}" "$@" -Wall -Wextra -pedantic -Werror -I"$here" -I"$here/model" -I"$here/tests" \
        -c "$source" -o "$object" || fail "$source does not compile"
}

link_program() { # PROGRAM OBJECT..
    local program=$1
    shift
    if [ "$CC" = kit ]; then
        "$kit/bin/rattle-link" --target x86_64-unknown-linux-gnu --toolchain "$tools" -o "$program" "$@" \
            "$archive" 2>"$program.log" || fail "$program does not link: $program.log says why"
    else
        "$CC" -o "$program" "$@" "$archive" || fail "$program does not link"
    fi
}

run_program() { # PROGRAM WORDS..
    if [ "$CC" = kit ]; then
        "$loader" --library-path "$tools/lib" "$@"
    else
        "$@"
    fi
}
