#!/usr/bin/env bash
# Prints the table of the edits that must fail: what each shuts out, and the sentence that asks for it, as its first two lines
# say, in the order of crates.txt. docs/DECISIONS.md ends with it.
set -euo pipefail
cd "$(dirname "$0")/.."

echo "| shut out | edit | asked for by |"
echo "|---|---|---|"
sed -nE 's/^(\w+):.*/\1/p' crates.txt | while read -r crate; do
  for edit in crates/"$crate"/must-fail/*.edit; do
    [ -e "$edit" ] || continue
    {
      read -r line && shut=${line#\# }
      read -r line && asked=${line#\# asked by: }
    } <"$edit"
    if [ "$asked" = "$line" ]; then
      echo "$edit: its second line does not say what asks for it" >&2
      exit 1
    fi
    echo "| $shut | \`$crate/$(basename "$edit" .edit)\` | $asked |"
  done
done
