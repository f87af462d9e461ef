#!/usr/bin/env bash
# Every definition and function that docs/ARCHITECTURE.md names beside its module is declared there.
set -u
cd "$(dirname "$0")/.." || exit 2
bad=0
seen=0
declared() { # declared FILE NAME
  grep -qE "^[[:space:]]*((unfoldable|abbrev) )*pub (data |record |fn )?$2( |\(|:|$)" "$1"
}
while IFS=$'\t' read -r module name; do
  seen=$((seen + 1))
  file=crates/${module%/*}/specs/${module#*/}.antt
  [ -f "$file" ] || { echo "no module $module"; bad=1; continue; }
  [ -z "$name" ] || declared "$file" "$name" || { echo "$module declares no $name"; bad=1; }
done < <(awk -F'|' '/^## From a rule/ { on = 1 } /^## What a later/ { on = 0 } on && NF > 3 {
  rest = $3; module = ""
  while (match(rest, /`[^`]+`/)) {
    word = substr(rest, RSTART + 1, RLENGTH - 2); rest = substr(rest, RSTART + RLENGTH)
    if (word ~ /^[a-z_]+\/[A-Z][A-Za-z0-9]*$/) { module = word; print module "\t" }
    else if (word !~ /^crates\// && module != "" && word != "starred") print module "\t" word
  } }' docs/ARCHITECTURE.md)
while IFS= read -r name; do
  seen=$((seen + 1))
  crate=${name%%::*}
  grep -qE "(pub )?(extern \"C\" )?fn ${name##*::}(\(|<)" crates/"$(printf %s "$crate" | tr '[:upper:]' '[:lower:]')"/src/*.rt ||
    { echo "no function $name"; bad=1; }
done < <(awk -F'|' '/^## From a rule/ { on = 1 } /^## What a later/ { on = 0 } on && NF > 3 {
  rest = $4
  while (match(rest, /`[A-Za-z_]+::[a-z_]+`/)) { print substr(rest, RSTART + 1, RLENGTH - 2); rest = substr(rest, RSTART + RLENGTH) } }' docs/ARCHITECTURE.md)
[ "$seen" -gt 80 ] || { echo "read only $seen names"; bad=1; }
exit "$bad"
