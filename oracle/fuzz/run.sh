#!/usr/bin/env bash
# Fuzzes the comparison of the port with the original Rust, in one process: run.sh [SECONDS]
# It needs the port's static library (build_library of tests/lib/built.sh) and clang with its runtimes, of which libFuzzer is taken.
# README.md tells what is compared, and where the results are.
set -euo pipefail
seconds=${1:-1260}
cd "$(dirname "$0")"
top=$(cd ../.. && pwd)
export CARGO_TARGET_DIR=${CARGO_TARGET_DIR:-$top/target/fuzz}
export GATEWAY_LIBRARY_DIR=${GATEWAY_LIBRARY_DIR:-$top/target/staticlib}
machine=x86_64-unknown-linux-gnu
program=$CARGO_TARGET_DIR/release/corpus
target=$CARGO_TARGET_DIR/$machine/release/target
found=$CARGO_TARGET_DIR/found
failed=$CARGO_TARGET_DIR/failed
kept=$CARGO_TARGET_DIR/kept

cargo build --quiet --release --offline --bin corpus

# AddressSanitizer, and the coverage that libFuzzer reads, of all Rust in the target: the original and the callers.
flags=(
  -Zsanitizer=address
  -Ccodegen-units=1
  -Cpasses=sancov-module
  -Cllvm-args=-sanitizer-coverage-level=3
  -Cllvm-args=-sanitizer-coverage-inline-8bit-counters
  -Cllvm-args=-sanitizer-coverage-pc-table
  -Cllvm-args=-sanitizer-coverage-trace-compares
  "-Clink-arg=$(clang -print-file-name=libclang_rt.fuzzer-x86_64.a)"
  -Clink-arg=-lstdc++
)
# A sanitizer is an unstable option of rustc, which this variable permits.
RUSTC_BOOTSTRAP=1 RUSTFLAGS="${flags[*]}" \
  cargo build --quiet --release --offline --bin target --features libfuzzer --target "$machine"

rm -rf "$failed" "$kept"
mkdir -p "$found" "$failed" "$kept"
"$program" inputs "$found" <corpus
limits=(-max_len=4608 -timeout=10 -rss_limit_mb=2048)
if ! "$target" "${limits[@]}" -max_total_time="$seconds" -artifact_prefix="$failed/" -print_final_stats=1 "$found"; then
  echo "ended early; the requests that failed:"
  "$program" requests "$failed"
  exit 1
fi

# As few inputs as reach all that was reached.
"$target" "${limits[@]}" -set_cover_merge=1 -use_counters=0 "$kept" "$found"
"$program" requests "$kept" >"$CARGO_TARGET_DIR/corpus"
echo "to keep what was found: cp $CARGO_TARGET_DIR/corpus $PWD/corpus"
