#!/usr/bin/env bash
# No function that a user calls asks anything of its caller, and each promises something. The prover cannot tell: nobody in the
# repository calls an exported function, so that a `requires` on it would be refused by nothing. The functions are those that
# docs/DECISIONS.md lists under "What a user calls", and all that gateway_c exports.
set -euo pipefail
cd "$(dirname "$0")/.."
work=$(mktemp -d)
trap 'rm -rf "$work"' EXIT

# contract CRATE [MODULE] FUNCTION: what stands between a function's name and its body, with its methods' type as a module.
contract() {
  local crate=$1 name=${*: -1} file=lib
  if [ $# = 3 ] && [ -e "crates/$crate/src/$2.rt" ]; then file=$2; fi
  awk -v name="$name" '
    $0 ~ "^ *pub (extern \"C\" )?fn " name "\\(" { inside = 1; found++ }
    inside { print }
    inside && /^ *\{$/ { inside = 0 }
    END { exit found != 1 }
  ' "crates/$crate/src/$file.rt"
}

{
  sed -n '/^## What a user calls$/,/^None of them asks/p' docs/DECISIONS.md | grep -oE '`[a-z_]+(::\w+)+`' | tr -d '`'
  sed -n 's/^pub extern "C" fn \(\w*\)(.*/gateway_c::\1/p' crates/gateway_c/src/lib.rt
} >"$work/functions"
while read -r path; do
  if ! contract ${path//::/ } >"$work/contract"; then
    echo "$path is not there, or more than once"
    exit 1
  fi
  if grep -q 'requires' "$work/contract" || ! grep -q 'ensures' "$work/contract"; then
    echo "$path asks something of its caller, or promises nothing:"
    cat "$work/contract"
    exit 1
  fi
done <"$work/functions"

# What C and Rust call has the clauses of the function of `gateway` that it calls.
sed -n 's/^pub extern "C" fn \(\w*\)(.*/\1/p' crates/gateway_c/src/lib.rt | while read -r name; do
  diff <(contract gateway "$name") <(contract gateway_c "$name" | sed 's/^pub extern "C" fn/pub fn/')
done
exported=$(grep -c '^#\[unsafe(no_mangle)\]$' crates/gateway_c/src/lib.rt)
[ "$(grep -c '^gateway_c::' "$work/functions")" = "$exported" ]
[ "$(wc -l <"$work/functions")" -gt "$((exported + 10))" ]
echo "$(wc -l <"$work/functions") functions that users call ask nothing of their callers"
