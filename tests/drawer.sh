#!/usr/bin/env bash
# tools/drawer at its edges: what it refuses to take, the refusals of a whole drawer, the lines on standard error, and an end that is not reached.
set -u
cd "$(dirname "$0")/.." || exit 2
. tests/lib/machine.sh
need_drawer
build=$PWD/target/tests/drawer
rm -rf "$build"
mkdir -p "$build"
launcher "$build/program" "$PWD/$drawer"
bad=0
wrong() { echo "tools/drawer: $*"; bad=1; }

# zeros COUNT: so many bytes; a piece of five of them is refused by 1
zeros() { head -c "$1" /dev/zero; }
# piece SIZE: a piece of so many bytes
piece() {
  printf "$(printf '%08x' $(($1 - 5)) | sed 's/\(..\)/\\x\1/g; s/^/\\x01/')"
  zeros $(($1 - 5))
}
# prints NAME TEXT [SAID]: what it prints of the file NAME, and what it says on standard error meanwhile
prints() {
  tools/drawer "$build/$1" >"$build/out" 2>"$build/said" || wrong "$1: it fails"
  printf %b "$2" | cmp -s - "$build/out" || { wrong "$1 is printed otherwise:"; head -c 500 "$build/out"; }
  printf %b "${3-}" | cmp -s - "$build/said" || { wrong "$1: it says otherwise:"; head -c 500 "$build/said"; }
}

# what it does not take
for words in '' 'recordings/shift.drawer recordings/shift.drawer' 'recordings' 'recordings/none.drawer'; do
  # shellcheck disable=SC2086
  tools/drawer $words >"$build/out" 2>"$build/said"
  [ $? -eq 2 ] && [ ! -s "$build/out" ] && [ -s "$build/said" ] || wrong "it takes '$words'"
done

# 12, and both sides of its line
: >"$build/empty"
prints empty ''
for n in 1 4; do
  zeros "$n" >"$build/short$n"
  prints "short$n" 'refused 12 0\n'
done
zeros 5 >"$build/five"
prints five 'recording 1 offset 0\nrefused 1 0\n'
zeros 9 >"$build/nine"
prints nine 'refused 12 5\n'
head -c -1 recordings/shift.drawer >"$build/cut"
prints cut 'refused 12 296\n'
piece 65537 >"$build/long"
prints long 'recording 1 offset 0\nrefused 4 0\n'

# 19, and both sides of its line; a drawer of 16,777,216 zeros leaves one of them at its last cut
zeros 16777217 >"$build/most1"
prints most1 'refused 19 0\n'
zeros 16777216 >"$build/most"
prints most 'refused 12 16777215\n'

# the lines, where there are more than 1,048,576 bytes
piece 1048576 >"$build/mib"
prints mib 'recording 1 offset 0\nrefused 4 0\n'
{ piece 1048571 && zeros 10; } >"$build/mib5"
prints mib5 'recording 1 offset 0\nrefused 4 0\nrecording 2 offset 1048571\nrefused 1 0\nrecording 3 offset 1048576\nrefused 1 0\n' 'drawer: 1 of 2 MiB\n'
piece 3145728 >"$build/mib3"
prints mib3 'recording 1 offset 0\nrefused 4 0\n' 'drawer: 1 of 3 MiB\ndrawer: 2 of 3 MiB\ndrawer: 3 of 3 MiB\n'

# texts that are written in several parts, each recording's at its place
for _ in {1..1200}; do cat recordings/shift.drawer; done >"$build/many"
awk -v size="$(wc -c <recordings/shift.drawer)" '{ line[NR] = $0 } END { for (i = 0; i < 1200; i++) for (k = 1; k <= NR; k++) {
  split(line[k], word, " ")
  if (word[1] == "recording") { n++; print "recording " n " offset " word[4] + i * size } else print line[k] } }' recordings/shift.txt >"$build/texts"
tools/drawer "$build/many" 2>/dev/null | cmp - "$build/texts" || wrong "many recordings are printed otherwise"

# a file that the argument names: as from standard input, or not there
"$build/program" recordings/shift.drawer </dev/null 2>"$build/said" | cmp -s - recordings/shift.txt || wrong "a file that is named is printed otherwise"
[ ! -s "$build/said" ] || wrong "it says something of a file that is named"
"$build/program" "$build/none" </dev/null >"$build/out" 2>"$build/said"
grep -qxF 'drawer: the file cannot be read' "$build/said" && [ ! -s "$build/out" ] || wrong "it takes a file that is not there"

# an end that is not reached: no file, a file that is emptied while it is printed, a text that cannot be written
says() { grep -qxF "drawer: $1" "$build/said" || { wrong "it does not say: $1"; head -c 500 "$build/said"; }; }
cat recordings/shift.drawer | "$build/program" >"$build/out" 2>"$build/said"
says 'standard input is not a file'
[ ! -s "$build/out" ] || wrong "it prints of a pipe"
"$build/program" <"$build/many" 2>"$build/said" | { head -c 1 && : >"$build/many" && cat; } >"$build/out"
says 'the file cannot be read'
cmp -s -n "$(wc -c <"$build/out")" "$build/out" "$build/texts" && [ "$(wc -c <"$build/out")" -lt "$(wc -c <"$build/texts")" ] ||
  wrong "it prints otherwise of a file that is emptied"
if [ -e /dev/full ]; then
  for name in five nine; do
    "$build/program" <"$build/$name" >/dev/full 2>"$build/said"
    says 'the text cannot be written'
  done
fi
exit "$bad"
