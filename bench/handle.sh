#!/usr/bin/env bash
# What one message costs a full box (64 engines, 63 of them in one queue), in instructions, beside the second program.
set -euo pipefail
cd "$(dirname "$0")/.."
mkdir -p target/bench
turns=$(scripts/program turns)
cargo build --quiet --release --offline --manifest-path reference/Cargo.toml --target-dir target/reference
reference=target/reference/release/reference
collected() { valgrind --tool=callgrind --callgrind-out-file=/dev/null "$@" 2>&1 > /dev/null | sed -n 's/.*Collected : //p'; }
proved() { echo "$1 $2" | collected "$turns"; }
plain() { collected "$reference" bench-handle "$1" "$2"; }
over=0
for kind in call repeat which change waits heard second; do
  came=$(echo "$kind 0" | "$turns")
  expected=$("$reference" bench-handle "$kind" 1)
  [ "$came" = "$expected" ] || { echo "handle $kind: '$came', the second program says '$expected'" >&2; exit 1; }
  a=$(proved "$kind" 100) b=$(proved "$kind" 1100) c=$(plain "$kind" 100) d=$(plain "$kind" 1100)
  awk -v k="$kind" -v p="$((b - a))" -v r="$((d - c))" 'BEGIN {
    printf "handle %-6s instructions: proved %8.1f, second program %8.1f, ratio %.2f\n", k, p / 1000, r / 1000, p / r
    exit p / r > 1.5
  }' || over=1
done
exit $over
