#!/usr/bin/env bash
# docs/PROMISES.md: every public function of the crates has its entry there; each entry but the printing programs' names two wrong answers or
# more; every edit and every theorem that the page names exists.
set -u
cd "$(dirname "$0")/.." || exit 2
page=docs/PROMISES.md
bad=0
wrong() { echo "$page: $*"; bad=1; }

# name TEXT: the crate and the last part of a function's name, as crate::function
entries=$(sed -n 's/^### `\(.*\)`$/\1/p' "$page" | awk -F:: '{ print $1 "::" $NF }')
seen=0
for source in crates/*/src/*.rt; do
  crate=${source#crates/}
  crate=${crate%%/*}
  while read -r name; do
    seen=$((seen + 1))
    grep -qxF "$crate::$name" <<<"$entries" || wrong "$crate::$name is not there"
  done < <(sed -nE 's/^ *pub (extern "C" )?fn ([a-z_0-9]+)[(<].*/\2/p; s/^fn (main)\(.*/\1/p' "$source")
done
[ "$seen" -ge 30 ] || wrong "only $seen functions"
while read -r entry; do
  crate=${entry%%::*}
  grep -qE "fn ${entry##*::}[(<]" crates/"$crate"/src/*.rt 2>/dev/null || wrong "there is no function $entry"
done <<<"$entries"

# Two wrong answers for each.
while read -r name count; do
  [ "${name#replay*::}" = main ] || [ "$count" -ge 2 ] || wrong "$name has $count wrong answers"
done < <(awk '/^##/ { if (name) print name, count; name = ""; count = 0 } /^### / { name = $2; gsub(/`/, "", name) }
  { count += gsub(/must-fail\//, "&") } END { if (name) print name, count }' "$page")

# The edits.
while read -r edit; do
  [ -f "$edit" ] || wrong "there is no $edit"
done < <(grep -oE 'crates/[a-z_]+/must-fail/[a-z_0-9]+\.edit' "$page")

# The theorems: a name, then its file in brackets; "and" may join two names.
theorems=0
while IFS=$'\t' read -r name file; do
  theorems=$((theorems + 1))
  grep -qE "^ *pub $name " "$file" 2>/dev/null || wrong "$file has no $name"
done < <(tr '\n' ' ' <"$page" | grep -oE '`[a-zA-Z0-9_-]+`( and `[a-zA-Z0-9_-]+`)? +(\(|in )`crates/[a-z_]+/proofs/[A-Za-z]+\.antt`' |
  awk '{ n = split($0, part, "`"); for (i = 2; i < n - 2; i += 2) print part[i] "\t" part[n - 1] }')
[ "$theorems" -ge 15 ] || wrong "only $theorems theorems"
echo "$seen functions, $theorems theorems"
exit "$bad"
