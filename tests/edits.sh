#!/usr/bin/env bash
# The table at the end of docs/DECISIONS.md is that of the edits that must fail.
set -euo pipefail
cd "$(dirname "$0")/.."
work=$(mktemp -d)
trap 'rm -rf "$work"' EXIT

tools/edits.sh >"$work/table"
sed -n '/^| shut out |/,$p' docs/DECISIONS.md | diff "$work/table" -
edits=(crates/*/must-fail/*.edit)
[ "$(wc -l <"$work/table")" = $((2 + ${#edits[@]})) ]
echo "docs/DECISIONS.md tells what each of ${#edits[@]} edits shuts out"
