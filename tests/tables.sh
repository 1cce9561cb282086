#!/usr/bin/env bash
# Holds together what stands in the papers docs/FIELDS.md and docs/NUMBERS.md and, made from them, in code, definitions and the C
# header: tools/tables.py makes it anew and compares. That it finds what differs is shown on a copy.
set -euo pipefail
cd "$(dirname "$0")/.."
work=$(mktemp -d)
trap 'rm -rf "$work"' EXIT

tools/tables.py --check

# All that the script reads or writes.
table=(crates/name_table/src/lib.rt crates/name_table/specs/Table.antt)
blocks=(crates/rules/src/block.rt crates/rules/specs/Block.antt)
leaves=(crates/rules/src/leaf.rt crates/rules/specs/Leaf.antt)
numbers=(crates/numbers/src/lib.rt crates/numbers/specs/Meaning.antt)
header=include/gateway.h
made=("${table[@]}" "${blocks[@]}" "${leaves[@]}" "${numbers[@]}" "$header")
script=$work/copy/tools/tables.py

# edited FILE SCRIPT: a new copy, in which sed has changed a file.
edited() {
  rm -rf "$work/copy"
  mkdir "$work/copy"
  cp --parents tools/tables.py docs/FIELDS.md docs/NUMBERS.md "${made[@]}" "$work/copy"
  sed -i -E "$2" "$work/copy/$1"
  if cmp -s "$1" "$work/copy/$1"; then
    echo "$1: nothing is changed by $2"
    exit 1
  fi
}

# finds FILE: the check fails, with status 1, and what it says begins with this file.
finds() {
  local status=0
  "$script" --check >"$work/told" 2>&1 || status=$?
  [ "$status" = 1 ] && head -n 1 "$work/told" | grep -q "^$1:" && return
  echo "tools/tables.py --check: status $status where 1 was expected, with a line of $1:"
  cat "$work/told"
  exit 1
}

# changed PAPER SCRIPT FILE...: with this paper the check finds the first of these files, and they and no others are made anew.
changed() {
  local paper=$1 file
  edited "$paper" "$2"
  shift 2
  finds "$1"
  "$script" >/dev/null
  for file in docs/FIELDS.md docs/NUMBERS.md "${made[@]}"; do
    cmp -s "$file" "$work/copy/$file" || echo "$file"
  done | diff <(printf '%s\n' "$paper" "$@") -
}

changed docs/FIELDS.md 's/`range_update`/`range_updated`/' "${table[@]}" "${leaves[@]}"
changed docs/FIELDS.md 's/^(\| 65 .*) m to 2/\1 m to 3/' "${table[@]}"
changed docs/FIELDS.md 's/^(\| 23 .*) 2 \|$/\1 2, 6 |/' "${table[@]}"
changed docs/FIELDS.md 's/\.positions\[i\]/.places[i]/' "${table[@]}" "${blocks[@]}"
changed docs/FIELDS.md 's/^(\| leaf 41 .*)`code`/\1`codeword`/' "${leaves[@]}"
changed docs/NUMBERS.md 's/closes a circle/makes a circle/' "${numbers[@]}" "$header"
changed docs/NUMBERS.md 's/^(\| 23 .*) more /\1 over /' "${numbers[@]}"
changed docs/NUMBERS.md 's/(other number has the words `)a/\1the/' "${numbers[@]}"

# Any one file that is as before when the others are made anew.
edited docs/FIELDS.md 's/`range_update`/`range_updated`/; s/\.positions\[i\]/.places[i]/'
sed -i 's/closes a circle/makes a circle/' "$work/copy/docs/NUMBERS.md"
"$script" >/dev/null
"$script" --check
for file in "${made[@]}"; do
  mv "$work/copy/$file" "$work/made"
  cp "$file" "$work/copy/$file"
  finds "$file"
  mv "$work/made" "$work/copy/$file"
done

# A paper that is not sound.
edited docs/NUMBERS.md 's/^\| 8 /| 8a /'
finds docs/NUMBERS.md
edited docs/FIELDS.md 's/^\| 116 /| 117 /'
finds docs/FIELDS.md
edited docs/FIELDS.md '/^\| 14 /s/k to/m to/'
finds docs/FIELDS.md
edited docs/FIELDS.md 's/`range_update`/`range_encoded`/'
finds docs/FIELDS.md

# A header that lacks a number of the paper, and one with a number that the paper does not have or with that of a show file.
edited docs/NUMBERS.md '/^\| 39 /a | 40 | words |'
finds "$header"
edited "$header" '/GATEWAY_HRTF_TYPE/d'
finds "$header"
edited "$header" 's/(GATEWAY_UNKNOWN_WORD =) 25/\1 27/'
finds "$header"
edited "$header" '/GATEWAY_UNKNOWN_WORD/i GATEWAY_SHOW_SIZE = 23, /* show file of more than 65,536 bytes */'
finds "$header"
echo "${#made[@]} files have the names and the words of the papers"
