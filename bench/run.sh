#!/bin/sh
# Builds the proved machine and the plain interpreter for release, and times both.
# bench/run.sh [ROUNDS]
set -eu
cd "$(dirname "$0")/.."
mkdir -p target/bench
(cd crates/bench_run && rt lib) >target/bench/staticlib.log 2>&1 || { cat target/bench/staticlib.log; exit 1; }
rustc --edition 2024 -C opt-level=3 -C codegen-units=1 -L native=crates/bench_run/out --crate-name bench bench/src/main.rs -o target/bench/bench
exec target/bench/bench "$@"
