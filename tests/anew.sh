#!/bin/sh
# tools/replay, tools/drawer and tools/install build anew where a source is newer than what was built, and only there; where that fails they
# answer nothing.
# Tried in a copy whose rt copies what is built here, so that it takes no time. Run from the repository's root. The copy is
# a temporary folder: rt reads every crates.txt below the root.
set -eu
cd "$(dirname "$0")/.."
. tests/lib/machine.sh

need_library
need_replay
need_drawer
here=$PWD
copy=$(mktemp -d)
trap 'rm -rf "$copy"' EXIT
mkdir -p "$copy/path" "$copy/tests" "$copy/crates/engine/src" "$copy/crates/ilvrotse" "$copy/crates/replay" "$copy/crates/replay_drawer"
cp -R tools include recordings crates.txt "$copy"
cp -R tests/lib "$copy/tests"

# The copy's rt: it notes each build, and fails where there is a file named `unproved`.
real=$(command -v rt || echo false)
cat >"$copy/path/rt" <<RT
#!/bin/sh
[ "\$1" != doc ] || exec "$real" doc
echo "\$*" >>"$copy/asked"
[ ! -f "$copy/unproved" ] || exit 1
mkdir -p out
case \$(basename "\$PWD")' '\$* in
'ilvrotse lib') cp "$here/$library" out/libilvrotse.a ;;
'replay run') cp "$here/$replay" out/replay ;;
'replay_drawer run') cp "$here/$drawer" out/replay_drawer ;;
*) exit 2 ;;
esac
RT
chmod +x "$copy/path/rt"
PATH=$copy/path:$PATH
cd "$copy"
: >asked

# asks COUNT COMMAND..: the command succeeds, and rt has then been asked for that many builds in all.
asks() {
    wanted=$1
    shift
    "$@" >out 2>said || { cat said >&2; fail "$* failed"; }
    found=$(wc -l <asked)
    [ "$found" -eq "$wanted" ] || fail "after $*: $found builds, not $wanted"
}
builds=0
for source in crates/engine/src/lib.rt crates.txt; do
    sleep 0.1 # a file's time may be coarse
    touch "$source"
    asks $((builds + 1)) tools/replay recordings/c.rec
    cmp out recordings/c.txt
    asks $((builds + 1)) tools/replay recordings/c.rec
    asks $((builds + 2)) tools/drawer recordings/shift.drawer
    cmp out recordings/shift.txt
    asks $((builds + 2)) tools/drawer recordings/shift.drawer
    asks $((builds + 3)) tools/install prefix
    asks $((builds + 3)) tools/install prefix
    builds=$((builds + 3))
done

sleep 0.1
touch crates/engine/src/lib.rt unproved
for command in 'tools/replay recordings/c.rec' 'tools/drawer recordings/shift.drawer' 'tools/install prefix'; do
    if $command >out 2>said || [ -s out ]; then fail "$command answers by what is older than a source that is not proved"; fi
done
