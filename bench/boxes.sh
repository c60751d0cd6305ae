#!/usr/bin/env bash
# The program `box` beside plain Rust (the second program): lines each second with group commit and with a sync for each line, memory over a
# million lines, opening a file of a million records. Needs a folder on a disk: BENCH_FOLDER, or target/bench.
set -euo pipefail
cd "$(dirname "$0")/.."
box=$(scripts/program signal_box)
cargo build --quiet --release --offline --manifest-path reference/Cargo.toml --target-dir target/reference
folder=${BENCH_FOLDER:-$PWD/target/bench}
mkdir -p "$folder" target/bench
rustc --edition 2024 -C opt-level=3 -o target/bench/boxes bench/boxes.rs
target/bench/boxes "$folder" "box=$box" "plain Rust=$PWD/target/reference/release/reference box"
