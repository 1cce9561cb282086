#!/usr/bin/env bash
# Counts the instructions of one call of each row of scenes, updates and metadata, by callgrind, and prints a line for each: the
# function of the port, the input, its fields, whether they are recorded, the instructions of the port, and of C if it is a scene.
# run.sh builds what is called; `GATEWAY_LIBRARY_DIR=... CARGO_TARGET_DIR=... count.sh` counts those of another library.
set -euo pipefail
cd "$(dirname "$0")/../.."
command -v valgrind >/dev/null || { echo "count.sh: valgrind is missing" >&2; exit 2; }
oracle/bench/run.sh 'cut after its count' 'recording off' >/dev/null
bench=${CARGO_TARGET_DIR:-$PWD/target/bench}/timed/bench

# counted FUNCTION ROW: the instructions of a call of the function, and of all that it calls.
counted() {
  valgrind --tool=callgrind --callgrind-out-file=/dev/null --collect-atstart=no --toggle-collect="$1" "$bench" --once "$2" 2>&1 |
    grep -oP 'Collected : \K[0-9]+'
}

for ((row = 0; ; row++)); do
  line=$("$bench" --once "$row") || { [ $? = 1 ] && break; exit 2; }
  function=${line%%|*}
  line+="|$(counted "$function" "$row")"
  [ "$function" != gateway_scene ] || line+="|$(counted scene_by_hand "$row")"
  echo "$line"
done
