#!/usr/bin/env bash
# The program `box` as real processes: beside the second program; connected with loss, doubling, delay and kill -9; its file cut and
# changed at every byte; and when the disk, a sync, memory or its arguments fail.
# Usage: tests/boxes.sh [RUNS [TICKS]]
set -euo pipefail
cd "$(dirname "$0")/.."
runs=${1:-8} ticks=${2:-2000}
root=$PWD
cargo build --quiet --release --offline --manifest-path reference/Cargo.toml --target-dir target/reference
mkdir -p target/bin
cp crates/signal_box/out/signal_box target/bin/box
box=$root/target/bin/box

target/reference/release/reference compare-box "$box" 200
target/reference/release/carrier "$box" 1 "$runs" "$ticks"
target/reference/release/carrier "$box" 101 1 "$ticks" 2 3
target/reference/release/carrier cuts "$box" 201 1500
target/reference/release/carrier cuts "$box" 202 1500

# What fails by itself, in a folder of its own.
work=$(mktemp -d)
trap 'rm -rf "$work"' EXIT
cd "$work"
fail() { echo "tests/boxes.sh: $1" >&2; exit 1; }

# Runs the box on some lines; its status has to be 1, its complaint as said, and nothing may have been printed.
refused() {
  local complaint=$1 status=0
  shift
  "$@" > out 2> err || status=$?
  [ "$status" = 1 ] || fail "$complaint: status $status"
  [ "$(cat err)" = "$complaint" ] || fail "'$complaint' expected, and not: $(cat err)"
  [ ! -s out ] || fail "$complaint: something was said"
}
begins_to_take() { for e in 0 1 2; do echo "take $e 1:$e"; done | "$@"; }

for arguments in "" "0" "0 0" "0 65" "0 3 0" "0 3 17" "3 3 3" "0 3 3 3" "x 3" "+0 3" "0 003"; do
  refused "usage: box NUMBER ENGINES [BOXES]" "$box" $arguments < /dev/null
done
[ ! -e yard ] || fail "wrong arguments left a file"

# the disk is full: a file may have 1024 bytes
for i in $(seq 100); do echo "take 0 0:$((i % 64))"; echo "free 0 0:$((i % 64))"; done > many
full() { (trap '' XFSZ; ulimit -f 1; "$box" 0 3 1 < many); }
refused "box: yard: can't be written" full
"$box" 0 3 1 < /dev/null || fail "no opening after a full disk"
rm yard

# the first sync is the opening's, the second that of the lines: it fails, and nothing is said
rustc --edition 2024 -O --crate-type cdylib -o libfailing_sync.so "$root/tests/faults/failing_sync.rs"
failing() { FAIL_AT=$1 LD_PRELOAD=$work/libfailing_sync.so "$box" 0 3 2; }
refused "box: yard: can't be synced" begins_to_take failing 1
rm yard
refused "box: yard: can't be synced" begins_to_take failing 2
rm yard
[ "$(begins_to_take failing 3 | wc -l)" = 3 ] || fail "with a sync that succeeds two takes are sent and one is refused"
rm yard

# memory ends: a line that never does
endless() { (ulimit -v 20000; head -c 60000000 /dev/zero | "$box" 0 3 1); }
refused "box: no memory" endless

# a damaged file is named and left as it is
printf '\1\0\0\0\0\0\0\1\4' > yard
cp yard before
refused "box: yard: damage at byte 8" "$box" 0 3 1 < /dev/null
cmp -s yard before || fail "damage was changed"
printf '\1\0\0\0\0\0\0\1\1\0\0\0\0\0\0\3' > yard
cp yard before
refused "box: yard: damage at byte 8" "$box" 0 3 1 < /dev/null
cmp -s yard before || fail "a wrong record was changed"
echo "boxes: arguments, a full disk, failed syncs, no memory, damage: said, and nothing else"
