#!/usr/bin/env bash
# Runs replay on records of one operation, which refuses or stops a reading by a number: by any of 16 bits, also by one that no reading
# has, or that no reading refuses or stops by. Each record is right, and wrong once another number or outcome is told in it.
set -euo pipefail
cd "$(dirname "$0")/.."
program=crates/replay/out/replay

# record OUTCOME TOLD OPERATION NUMBER: a record of no bytes, not recorded, of one operation: 7 refuses, 8 stops. The answer has a byte
# for its outcome (1 refused, 2 stopped) and one for its number.
record() {
  local zeros=000000000000000000000000
  printf '%s' "00$zeros${zeros:0:10}0001$(printf '%02x%02x' "$1" "$2")$zeros" \
    "$(printf '%02x0001%08x' "$3" "$4")$zeros${zeros:0:8}" | python3 -c 'import sys; sys.stdout.buffer.write(bytes.fromhex(sys.stdin.read()))'
}

# told RUN WRONG: the records on standard input are so many, and so many of them wrong.
told() {
  local printed
  printed=$("$program")
  if [ "$printed" != "$1 replayed, $2 wrong" ]; then
    echo "replay: $printed, where $1 replayed, $2 wrong was expected"
    exit 1
  fi
}

for number in 0 7 27 31 39 40 200 255; do
  record 1 "$number" 7 "$number"
  record 2 "$number" 8 "$number"
done | told 16 0
for number in 0 27 31 255; do
  record 2 "$number" 7 "$number"
  record 1 "$number" 8 "$number"
  record 1 $((number ^ 1)) 7 "$number"
  record 1 "$number" 7 $((number + 256))
  record 0 0 8 "$number"
done | told 20 20
echo "replay: 36 records of refusals and stops by numbers"
