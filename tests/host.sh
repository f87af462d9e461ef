#!/bin/sh
# Builds the C host against the proved library and runs it; compiles the header alone as C and as C++. On x86-64 the host is built with the
# sanitizers. Run from the repository's root. Writes only under target/.
set -eu
cd "$(dirname "$0")/.."
. tests/lib/machine.sh

need gcc g++
need_library

build=target/tests
mkdir -p "$build"
warnings="-Wall -Wextra -Wpedantic -Werror"
gcc -std=c99 $warnings -fsyntax-only -x c include/ilvrotse.h
g++ -std=c++11 $warnings -fsyntax-only -x c++ include/ilvrotse.h
if [ "$emulated" = no ]; then
    c_program "$build/host-program" tests/host.c "$library" -g -pthread -fsanitize=address,undefined -fno-sanitize-recover=all
else
    echo "host.sh: on $processor the host runs under the kit's emulator and without sanitizers"
    c_program "$build/host-program" tests/host.c "$library" -g
fi
launcher "$build/host" "$build/host-program"
"$build/host" || fail "the host program failed"
