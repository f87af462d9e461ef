#!/bin/sh
# Installs the library, builds the examples over what is installed, and holds what they print to the printing program, on every recording of
# the repository, on refused ones, and on drawers of them. Run from the repository's root. Writes only under target/.
set -eu
cd "$(dirname "$0")/.."
. tests/lib/machine.sh

need gcc cmp head wc
need_replay
build=target/tests/example
rm -rf "$build"
mkdir -p "$build"

# What is installed.
prefix=$PWD/$build/prefix
tools/install "$prefix" 2>"$build/installed.txt" || { cat "$build/installed.txt"; fail "tools/install failed"; }
cmp include/ilvrotse.h "$prefix/include/ilvrotse.h"
cmp "$library" "$prefix/lib/libilvrotse.a"
flags="-I$prefix/include"
if command -v pkg-config >/dev/null 2>&1; then
    export PKG_CONFIG_PATH="$prefix/lib/pkgconfig"
    pkg-config --validate ilvrotse
    flags=$(pkg-config --cflags ilvrotse)
    for word in $(pkg-config --libs ilvrotse); do
        case $word in
        -L*) [ -f "${word#-L}/libilvrotse.a" ] || fail "$word has no library" ;;
        -lilvrotse) ;;
        *) fail "$word is no word that links the library" ;;
        esac
    done
    # The file stands by its own place, so that the tree can be moved.
    mv "$prefix" "$prefix-moved"
    PKG_CONFIG_PATH="$prefix-moved/lib/pkgconfig" pkg-config --cflags ilvrotse | grep -q "prefix-moved" || fail "a moved tree is not found"
    mv "$prefix-moved" "$prefix"
else
    echo "example.sh: pkg-config is not here, and is not tried"
fi

# The examples, against the header and the library that are installed; tools/build-host builds them as README says.
ways="installed host"
[ "$emulated" = yes ] || ways="$ways plain sanitized"
for way in $ways; do
    mkdir "$build/$way"
done
for example in print_report print_drawer; do
    # shellcheck disable=SC2086
    gcc -std=c99 -Wall -Wextra -Wpedantic -Werror $flags -fsyntax-only "examples/$example.c"
    c_program "$build/installed/$example-program" "examples/$example.c" "$prefix/lib/libilvrotse.a" -O2
    launcher "$build/installed/$example" "$build/installed/$example-program"
    tools/build-host "examples/$example.c" "$build/host/$example"
    if [ "$emulated" = no ]; then
        # shellcheck disable=SC2086
        gcc $flags -o "$build/plain/$example" "examples/$example.c" -L"$prefix/lib" -lilvrotse
        c_program "$build/sanitized/$example" "examples/$example.c" "$library" -fsanitize=address,undefined -fno-sanitize-recover=all
    fi
done
launcher "$build/replay" "$replay"

# Recordings that are refused: empty, cut short, a byte changed, one that is too long.
: >"$build/empty.rec"
head -c 30 recordings/c.rec >"$build/cut.rec"
printf '\001\000\000\000\004\001\002\002\002' >"$build/process.rec"
printf '\001\000\000\000\007\001\002\002\000\002\002\000' >"$build/busy.rec"
{ head -c 6 recordings/c.rec && head -c 65532 /dev/zero; } >"$build/long.rec"

# prints EXAMPLE FILE: built in each way, the example prints what is in printed.txt.
prints() {
    for way in $ways; do
        "$build/$way/$1" "$2" >"$build/example.txt" || fail "$1 ($way) failed on $2"
        cmp "$build/printed.txt" "$build/example.txt" || fail "$1 ($way) prints $2 otherwise"
    done
}

seen=0
for recording in recordings/*.rec "$build"/*.rec; do
    seen=$((seen + 1))
    "$build/replay" <"$recording" >"$build/printed.txt"
    prints print_report "$recording"
done
[ "$seen" -ge 11 ] || fail "only $seen recordings"
for pair in empty:1 cut:3 process:7 busy:8 long:4; do
    "$build/installed/print_report" "$build/${pair%:*}.rec" | grep -q "^refused ${pair#*:} " || fail "${pair%:*}.rec is not refused by ${pair#*:}"
done

# A drawer, each line of it as the printing program's first for that recording alone: accepted ones, and some with a refusal of their own.
printf '\001\000\000\000\000' >"$build/five.rec"
count=0 offset=0
: >"$build/shift.drawer"
: >"$build/printed.txt"
for recording in recordings/a.rec "$build/busy.rec" recordings/b.rec "$build/five.rec" "$build/process.rec" recordings/f.rec; do
    count=$((count + 1))
    echo "recording $count offset $offset $("$build/replay" <"$recording" | head -n 1)" >>"$build/printed.txt"
    cat "$recording" >>"$build/shift.drawer"
    offset=$(wc -c <"$build/shift.drawer" | tr -d ' ')
done
prints print_drawer "$build/shift.drawer"
for line in "1 offset 0 operations 2 counter 5" "2 offset 37 refused 8 9" "4 offset 117 refused 1 0" "6 offset 131 operations 2 counter 12"; do
    grep -qx "recording $line" "$build/example.txt" || fail "shift.drawer has no line: recording $line"
done

# Drawers that are refused as a whole: L passes the end, four bytes are left, a byte too many; and the empty one, which is not.
refused() { # refused NAME LINE
    echo "$2" >"$build/printed.txt"
    prints print_drawer "$build/$1.drawer"
}
cat recordings/a.rec "$build/cut.rec" >"$build/passes.drawer"
{ cat recordings/a.rec recordings/c.rec && head -c 4 recordings/b.rec; } >"$build/left.drawer"
head -c 16777217 /dev/zero >"$build/long.drawer"
refused passes "refused 12 37"
refused left "refused 12 74"
refused long "refused 19 0"
: >"$build/empty.drawer"
: >"$build/printed.txt"
prints print_drawer "$build/empty.drawer"
echo "$seen recordings, a drawer of $count, drawers that are refused"
