#!/usr/bin/env bash
# The port compared with the oracle, which is the Rust, and for name words docs/FIELDS.md: comparison.sh [SEED [SCALE]].
#
# Oracle and static library are built and tested, fuzz target and benchmarks too, and the stored answers are made anew and
# held to the stored ones. Then over a million requests that follow from the seed are asked: scenes, lists of packets, updates,
# positions, validations, metadata, packets of new parents and the texts of name words of the library; scripts of fields and show
# files of the program replay, which rt ci has built. At the end stands how often each number occurs.
set -euo pipefail
cd "$(dirname "$0")/.."
seed=${1:-2}
scale=${2:-4}
source tests/lib/built.sh

# The Rust that answers is that of docs/src.
for file in model record config/{bits,drc,mod,model,parser,passive,passive_compression,passive_metadata,passive_renderer}; do
  cmp "oracle/apac/src/$file.rs" "docs/src/crates/apac-core/src/$file.rs"
done
build_oracle
build_library
manifest=oracle/Cargo.toml
port=$CARGO_TARGET_DIR/release/port
cargo test --quiet --release --offline --manifest-path "$manifest"
work=$(mktemp -d)
trap 'rm -rf "$work"' EXIT

"$oracle" sample 1 | "$oracle" record | cmp - crates/replay/stdin
echo "the stored answers are the oracle's"

cargo build --quiet --release --offline --manifest-path "$manifest" -p port
cargo test --quiet --release --offline --manifest-path "$manifest" -p port -p fuzz -p bench

# The fields of the stored answers, which are replayed by their words, are compared by the texts of their names too.
"$oracle" sample 1 | grep -Ev '^(fields|show) ' >"$work/requests"
"$oracle" answer <"$work/requests" >"$work/rust"
"$port" <"$work/requests" >"$work/port"
"$oracle" compare "$work/rust" "$work/port"

# What the fuzzer has kept.
corpus=oracle/fuzz/corpus
if [ -e "$corpus" ]; then
  "$port" compare <"$corpus"
fi

"$port" compare "$seed" "$scale" crates/replay/out/replay
