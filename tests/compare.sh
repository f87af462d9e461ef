#!/bin/sh
# Compares the proved library with the second program. Run from the repository's root; the words go to the program, see
# tests/compare/main.rs. Writes only under target/.
set -eu
cd "$(dirname "$0")/.."
. tests/lib/machine.sh

need rustc cc
need_library
need_replay
need_drawer

build=target/tests
mkdir -p "$build"
c_program "$build/caller-program" tests/compare/caller.c "$library" -O2
launcher "$build/caller" "$build/caller-program"
launcher "$build/replay" "$replay"
launcher "$build/replay_drawer" "$drawer"

rust="rustc --edition 2021 -C opt-level=3 -D warnings"
$rust --crate-type rlib --crate-name second -o "$build/libsecond.rlib" tests/second/lib.rs
$rust --crate-name compare --extern "second=$build/libsecond.rlib" -o "$build/compare" tests/compare/main.rs
exec "$build/compare" "$@"
