#!/usr/bin/env bash
# docs/TRUST.md: each line count beside a file is that file's; the definitions listed add up to the sum it gives; every module of definitions
# of the five crates that carry the rules is listed.
set -u
cd "$(dirname "$0")/.." || exit 2
page=docs/TRUST.md
bad=0
seen=0
sum=0
wrong() { echo "$page: $*"; bad=1; }
while IFS=$'\t' read -r part file lines; do
  seen=$((seen + 1))
  [ -f "$file" ] || { wrong "there is no $file"; continue; }
  found=$(wc -l <"$file" | tr -d ' ')
  [ "$lines" = "$found" ] || wrong "$file has $found lines, not $lines"
  [ "$part" != 1 ] || sum=$((sum + found))
done < <(awk -F' *[|] *' '/^## / { part = 0 } /^## The definitions/ { part = 1 } /^These are for further/ { part = 2 }
  $2 ~ /^`[^`]+`$/ && $3 ~ /^[0-9]+$/ { file = $2; gsub(/`/, "", file); print part "\t" file "\t" $3 }' "$page")
[ "$seen" -ge 20 ] || wrong "only $seen files"
grep -q "| $sum lines, listed below |" "$page" || wrong "the definitions listed have $sum lines together"
for module in crates/{sets,cell,refusals,recording,meaning}/specs/*.antt; do
  [ "${module##*/}" = Lib.antt ] || grep -qF "\`$module\`" "$page" || wrong "$module is not listed"
done
for program in crates/replay/src/main.rt crates/replay_drawer/src/main.rt; do
  lines=$(wc -l <"$program" | tr -d ' ')
  grep -q "\`$program\`, $lines lines" "$page" || wrong "$program has $lines lines"
done
exit "$bad"
