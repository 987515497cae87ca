#!/usr/bin/env bash
# Builds the proved functions as a library, links them to the comparison, and runs it.
# It wants rt and rustc, writes only under out/ and target/, and is no part of the gate.
set -euo pipefail
cd "$(dirname "$0")/.."
(cd crates/bench_exports && rt lib >/dev/null 2>&1) || { echo "bench_exports is not proved: see rt check in crates/bench_exports" >&2; exit 1; }
mkdir -p target/bench
rustc --edition 2024 -O -o target/bench/compare bench/main.rs -L crates/bench_exports/out -l static=bench_exports
exec target/bench/compare
