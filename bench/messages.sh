#!/bin/sh
# One million messages through the proved codec and through plain Rust: ratio of times, then of instructions.
set -eu
cd "$(dirname "$0")/.."
mkdir -p target/bench
(cd crates/recode_c && rt lib) > target/bench/staticlib.log 2>&1 || { cat target/bench/staticlib.log; exit 1; }
cp crates/recode_c/out/librecode_c.a target/bench/librecode.a
rustc --edition 2024 -C opt-level=3 -o target/bench/messages bench/messages.rs -L native=target/bench -l static=recode
target/bench/messages
instructions() {
    valgrind --tool=callgrind --callgrind-out-file=/dev/null target/bench/messages "$1" 2>&1 | sed -n 's/.*Collected : //p'
}
none=$(instructions none)
plain=$(instructions plain)
proved=$(instructions proved)
awk -v n="$none" -v a="$plain" -v b="$proved" 'BEGIN {
    printf "messages: instructions: proved %d, plain %d, ratio %.2f\n", b - n, a - n, (b - n) / (a - n)
    exit (b - n) / (a - n) > 1.5
}'
