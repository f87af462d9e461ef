# Read by the scripts of tests/, bench/, fuzz/ and tools/, from the repository's root: builds and runs programs that link the proved library.
#
# The library and the printing programs are for x86-64 Linux. On another processor the C programs over the library are compiled and linked
# by the kit's own compiler, with this machine's C headers, and run under the kit's emulator, without sanitizers.

script=$(basename "$0")

fail() {
    echo "$script: $*" >&2
    exit 1
}

need() {
    for tool in "$@"; do
        command -v "$tool" >/dev/null 2>&1 || fail "$tool is missing"
    done
}

library=target/staticlib/libilvrotse.a
replay=target/bin/replay
drawer=target/bin/replay_drawer

# need_built OUT CRATE MADE WORD: OUT, a copy of what `rt WORD` leaves as out/MADE in that crate, built anew where a source is newer. It is given
# the time at which the build began, so that a source changed meanwhile is newer still.
need_built() {
    built=$1 crate=$2 made=crates/$2/out/$3 word=$4
    [ ! -f "$built" ] || [ -n "$(find crates.txt crates/*/* -name out -prune -o -newer "$built" -print -quit)" ] || return 0
    need rt
    echo "proving and building $built: some minutes where nothing is proved yet" >&2
    mkdir -p "$(dirname "$built")"
    : >target/begun
    rm -f target/failed "$made"
    { (cd "crates/$crate" && rt "$word" </dev/null) 2>&1 || : >target/failed; } | tee target/said | sed -un '/^rt: /p' >&2
    [ ! -f target/failed ] || { cat target/said >&2; fail "rt $word failed in crates/$crate"; }
    [ -f "$made" ] || fail "rt $word makes no $made"
    cp "$made" "$built"
    touch -r target/begun "$built"
}

need_library() { need_built "$library" ilvrotse libilvrotse.a lib; }
need_replay() { need_built "$replay" replay replay run; }
need_drawer() { need_built "$drawer" replay_drawer replay_drawer run; }

processor=$(uname -m)
emulated=no
if [ "$processor" != x86_64 ]; then
    emulated=yes
    need rt
    guide=$(rt doc) || fail "rt doc does not say where the kit is"
    kit=$(dirname "$(dirname "$guide")")/on/$processor
    for part in bin/rattle-link toolchain/bin/clang toolchain/bin/qemu-x86_64 toolchain/lib/ld-linux-x86-64.so.2; do
        [ -x "$kit/$part" ] || fail "the kit has no $part for $processor"
    done
fi

# headers: where this machine's C headers are, for the kit's compiler.
headers() {
    echo | gcc -E -Wp,-v - 2>&1 | sed -n 's/^ /-isystem /p' | tr '\n' ' '
}

# c_program OUT SOURCE ARCHIVE [WORDS..]: compiles and links; the words go to the compiler.
c_program() {
    out=$1 source=$2 archive=$3
    shift 3
    need gcc
    if [ "$emulated" = no ]; then
        gcc -std=c99 -Wall -Wextra -Wpedantic -Werror -I include "$@" -o "$out" "$source" $archive
    else
        # shellcheck disable=SC2086
        "$kit/toolchain/bin/clang" --target=x86_64-linux-gnu -nostdinc $(headers) -std=c99 -Wall -Wextra -Wpedantic -Werror -I include \
            -fPIE "$@" -c -o "$out.o" "$source" &&
            "$kit/bin/rattle-link" --target x86_64-unknown-linux-gnu --toolchain "$kit/toolchain" -o "$out" "$out.o" $archive 2>"$out.linked"
    fi || fail "$source is not built"
}

# launcher OUT PROGRAM: a script that runs an x86-64 program here.
launcher() {
    tools=
    if [ "$emulated" = yes ]; then
        tools="'$kit/toolchain/bin/qemu-x86_64' '$kit/toolchain/lib/ld-linux-x86-64.so.2' --library-path '$kit/toolchain/lib' "
    fi
    printf '#!/bin/sh\nexec %s"%s" "$@"\n' "$tools" "$2" >"$1"
    chmod +x "$1"
}
