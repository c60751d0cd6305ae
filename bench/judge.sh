#!/usr/bin/env bash
# What `judge` does for a ring of 64 engines, in instructions, beside a list of one line: the difference is its own work.
set -euo pipefail
cd "$(dirname "$0")/.."
judge=$(scripts/program judge)
count() {
  valgrind --tool=callgrind --callgrind-out-file=/dev/null "$judge" 2>&1 > /dev/null | sed -n 's/.*Collected : //p'
}
full=$(for e in $(seq 0 63); do echo "$e $(((e + 1) % 64)) $((e + 64)) $((e + 64))"; done | count)
one=$(echo "0 - 0 0" | count)
echo "judge: $((full - one)) instructions for 64 engines in one ring, beyond those for a list of one line"
