#!/usr/bin/env bash
# Builds the benchmarks and prints their tables: all rows, or those that hold every given word, as
# `run.sh update 'recording off'`. The static libraries are taken as they stand; build_library of tests/lib/built.sh makes them.
set -euo pipefail
cd "$(dirname "$0")/../.."
export CARGO_TARGET_DIR=${CARGO_TARGET_DIR:-$PWD/target/bench}
export GATEWAY_LIBRARY_DIR=${GATEWAY_LIBRARY_DIR:-$PWD/target/staticlib}
cargo build --quiet --offline --profile timed --manifest-path oracle/Cargo.toml -p bench
"$CARGO_TARGET_DIR/timed/bench" "$@"
