#!/usr/bin/env bash
# The proved program against the second one, written in plain Rust from docs/PROTOCOL.md alone: the same scripts, the same lines;
# and at every telling the second program looks at the sections itself.
# Usage: tests/compare.sh [SCRIPTS]
set -euo pipefail
cd "$(dirname "$0")/.."
scripts=${1:-400}
cargo_run() { cargo "$@" --quiet --release --offline --manifest-path reference/Cargo.toml --target-dir target/reference; }
cargo_run build
out=$(cargo_run test 2>&1) || { printf '%s\n' "$out"; exit 1; }
target/reference/release/reference compare crates/rehearse/out/rehearse "$scripts"
