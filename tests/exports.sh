#!/usr/bin/env bash
# Holds include/gateway.h and the Rust declarations in include/gateway to the static library, which nothing else does: all
# three must have the same functions; exports.c, as C and as C++, finds out by calls which bytes the library reads and writes
# and what it answers; and the sizes, offsets and limits that it then prints must be the Rust's, whose tests are run too.
set -euo pipefail
cd "$(dirname "$0")/.."
source tests/lib/built.sh
build_library
export CARGO_TARGET_DIR=$PWD/target/gateway
library=$GATEWAY_LIBRARY_DIR/libgateway.a
crate=(--quiet --release --offline --manifest-path include/gateway/Cargo.toml)
work=$(mktemp -d)
trap 'rm -rf "$work"' EXIT

cc -E -P include/gateway.h | grep -oE '\bgateway_\w+' | sort >"$work/functions"
nm --defined-only --extern-only "$library" | grep -oE '\bgateway_\w+$' | sort | diff "$work/functions" -
grep -oE '\bfn gateway_\w+' include/gateway/src/raw.rs | sed 's/^fn //' | sort | diff "$work/functions" -

flags=(-Wall -Wextra -Werror -pedantic -O2 -Iinclude)
cc -std=c11 "${flags[@]}" -o "$work/c" tests/exports.c "$library"
c++ -std=c++11 "${flags[@]}" -o "$work/c++" -x c++ tests/exports.c -x none "$library"
"$work/c" >"$work/layout"
"$work/c++" | diff "$work/layout" -
cargo run "${crate[@]}" --example layout | diff "$work/layout" -
cargo test "${crate[@]}"
echo "$(wc -l <"$work/functions") functions and $(wc -l <"$work/layout") types, fields and limits agree"
