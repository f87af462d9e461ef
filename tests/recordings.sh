#!/usr/bin/env bash
# Each recording and each drawer that the repository ships is printed as the text beside it says.
set -u
cd "$(dirname "$0")/.." || exit 2
seen=0
bad=0
for recording in recordings/*.rec; do
  seen=$((seen + 1))
  tools/replay "$recording" | cmp - "${recording%.rec}.txt" || { echo "$recording is printed otherwise"; bad=1; }
done
for drawer in recordings/*.drawer; do
  seen=$((seen + 1))
  tools/drawer "$drawer" | cmp - "${drawer%.drawer}.txt" || { echo "$drawer is printed otherwise"; bad=1; }
done
[ "$seen" -ge 7 ] || { echo "only $seen recordings and drawers"; bad=1; }
exit "$bad"
