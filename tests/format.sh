#!/usr/bin/env bash
# docs/FORMAT.md: each recording and each drawer written there in bytes is printed, or reported, as the lines below it say, and each definition that
# it names is declared in the module it is named with; README.md shows what is printed.
set -u
cd "$(dirname "$0")/.." || exit 2
. tests/lib/machine.sh
need od awk
need_library
need_replay
need_drawer
build=target/tests/format
rm -rf "$build"
mkdir -p "$build"
c_program "$build/caller-program" tests/compare/caller.c "$library" -O2
launcher "$build/caller" "$build/caller-program"
launcher "$build/replay" "$replay"
launcher "$build/drawer" "$drawer"

bad=0
seen=0
bytes() { # bytes HEX: the bytes themselves
  local hex=$1 out=
  for ((i = 0; i < ${#hex}; i += 2)); do out+="\\x${hex:i:2}"; done
  printf "$out"
}
number() { printf '%08x' "$1" | sed 's/\(..\)\(..\)\(..\)\(..\)/\4\3\2\1/'; } # little-endian, for the caller
# report HEX: the report's bytes in hexadecimal, with what the answer and the bytes behind it show where it was not accepted
report() {
  local hex=$1 room=400
  bytes "$(number 0)$(number $((${#hex} / 2)))$(number 0)$(number 0)$hex$(number 4)$(number 0)$(number "$room")$(number 0)" >"$build/told"
  head -c "$room" /dev/zero >>"$build/told"
  "$build/caller" <"$build/told" | od -An -v -tx1 | tr -d ' \n'
}
# drawn HEX: answer, report buffer and marks of a drawer, in hexadecimal, both of 200 bytes that were 0
drawn() {
  local hex=$1 room=200
  bytes "$(number 0)$(number $((${#hex} / 2)))$(number 0)$(number 0)$hex$(number 6)$(number 0)$(number "$room")$(number 0)" >"$build/told"
  head -c "$room" /dev/zero >>"$build/told"
  bytes "$(number 8)$(number 0)$(number "$room")$(number 0)" >>"$build/told"
  head -c "$room" /dev/zero >>"$build/told"
  "$build/caller" <"$build/told" | od -An -v -tx1 | tr -d ' \n'
}
# filled HEX: the same in 200 bytes
filled() {
  local hex
  hex=$(printf %s "$1" | tr -d ' \n')
  while [ ${#hex} -lt 400 ]; do hex+=0; done
  printf %s "$hex"
}
try_drawer() { # try_drawer HEX OUT MARKS TEXT
  drawers=$((drawers + 1))
  local found
  bytes "$1" >"$build/file"
  found=$("$build/drawer" <"$build/file")
  [ "$found" = "$4" ] || { printf 'docs/FORMAT.md: drawer %s\nfound:\n%s\nthe page says:\n%s\n' "$1" "$found" "$4"; bad=1; }
  [ -n "$2" ] || return
  [ "$(drawn "$1")" = "$(printf '%016d' 0)$(filled "$2")$(filled "$3")" ] || { echo "docs/FORMAT.md: drawer $1 has other bytes in its buffers"; bad=1; }
}
try() { # try KIND HEX EXPECTED
  seen=$((seen + 1))
  local found expected
  if [ "$1" = prints ]; then
    found=$(bytes "$2" | "$build/replay")
    expected=$3
  else
    found=$(report "$2")
    expected=$(printf '%016d%s' 0 "$(printf %s "$3" | tr -d ' \n')")
    while [ ${#expected} -lt ${#found} ]; do expected+=0; done
  fi
  [ "$found" = "$expected" ] || { printf 'docs/FORMAT.md: %s\nfound:\n%s\nthe page says:\n%s\n' "$2" "$found" "$expected"; bad=1; }
}

mode='' hex='' text='' kind='' out='' marks='' drawers=0
while IFS= read -r line; do
  if [ "$line" = '```' ]; then
    case $kind in
    '') ;;
    drawer) try_drawer "$hex" "$out" "$marks" "${text%$'\n'}" ;;
    *) try "$kind" "$hex" "${text%$'\n'}" ;;
    esac
    mode='' hex='' text='' kind='' out='' marks=''
    continue
  fi
  case $line in
  'bytes  '*) mode=bytes ;;
  'drawer '*) mode=bytes kind=drawer ;;
  'out    '*) [ "$kind" = drawer ] && mode=out ;;
  'marks  '*) [ "$kind" = drawer ] && mode=marks ;;
  'prints '* | 'report '*)
    case $mode in
    bytes | out | marks) mode=after kind=${kind:-${line%% *}} ;;
    esac
    ;;
  '       '*) ;;
  *) mode= ;;
  esac
  case $mode in
  bytes) hex+=$(printf %s "${line:7}" | tr -d ' ') ;;
  out) out+=${line:7} ;;
  marks) marks+=${line:7} ;;
  after) text+=${line:7}$'\n' ;;
  esac
done <docs/FORMAT.md
[ "$seen" -ge 20 ] && [ "$drawers" -ge 3 ] || { echo "only $seen recordings and $drawers drawers are worked out"; bad=1; }

# The names: in a paragraph that begins with "Carried by", a module and the definitions after it.
names=0
while IFS=$'\t' read -r module name; do
  names=$((names + 1))
  file=crates/${module%/*}/specs/${module#*/}.antt
  grep -qE "^[[:space:]]*((unfoldable|abbrev) )*pub (data |record )?$name( |:|$)" "$file" || { echo "$module declares no $name"; bad=1; }
done < <(awk '/^Carried by/ { on = 1 } /^$/ { on = 0 } on {
  rest = $0
  while (match(rest, /`[^`]+`/)) {
    word = substr(rest, RSTART + 1, RLENGTH - 2); rest = substr(rest, RSTART + RLENGTH)
    if (word ~ /^[a-z_]+\/[A-Z][A-Za-z]*$/) module = word; else print module "\t" word
  } }' docs/FORMAT.md)
[ "$names" -ge 60 ] || { echo "only $names names"; bad=1; }

# README shows what the command prints for recordings/c.rec.
shown=$(awk '/tools\/replay recordings\/c.rec/ { on = 1; next } on && /^    / { print substr($0, 5); lines++; next } lines { exit }' README.md)
[ "$shown" = "$(cat recordings/c.txt)" ] || { echo "README.md shows another text for recordings/c.rec"; bad=1; }
# And the first lines for recordings/shift.drawer.
shown=$(awk '/tools\/drawer recordings\/shift.drawer/ { on = 1; next } on && /^    / { print substr($0, 5); lines++; next } lines { exit }' README.md)
lines=$(printf '%s\n' "$shown" | wc -l)
[ "$lines" -ge 6 ] && [ "$shown" = "$(head -n "$lines" recordings/shift.txt)" ] || { echo "README.md shows another text for recordings/shift.drawer"; bad=1; }
echo "$seen recordings, $drawers drawers, $names names"
exit "$bad"
