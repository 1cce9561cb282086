#!/usr/bin/env bash
# Runs scene-show as people do: on the shipped example, from a file, from a pipe, on input that is empty, cut, slow or too long,
# where reading or writing fails, and where bits follow the end of a part; and then on every show of some samples, whose text must
# be the oracle's.
set -euo pipefail
cd "$(dirname "$0")/.."
program=bin/scene-show
source tests/lib/program.sh

echo "file refused 23" >"$work/23"
echo "file refused 24" >"$work/24"
worked=crates/scene_show/stdout
cmp docs/worked.show crates/scene_show/stdin
# One launcher serves every program.
cmp bin/scene-show bin/scene-fields

expect 0 "" "$worked" <docs/worked.show
expect 0 "" "$worked" < <(cat docs/worked.show)
expect 0 "" "$worked" < <(head -c 10 docs/worked.show && sleep 0.2 && tail -c +11 docs/worked.show)
expect 0 "" "$work/24" </dev/null
expect 0 "" "$work/24" < <(head -c 17 docs/worked.show)
expect 0 "" "$work/24" < <(head -c 65536 /dev/zero)
expect 0 "" "$work/23" < <(head -c 65537 /dev/zero)
expect 0 "" "$work/23" < <(head -c 100000000 /dev/zero)
expect 1 "scene-show: standard input: Is a directory" "$work/nothing" <docs
expect 1 "scene-show: standard input: Bad file descriptor" "$work/nothing" <&-
unprinted docs/worked.show
expect 2 "usage: scene-show < FILE" "$work/nothing" docs/worked.show </dev/null

# shown LINE...: these lines must be printed for standard input.
shown() {
  printf '%s\n' "$@" >"$work/lines"
  expect 0 "" "$work/lines"
}

# Two zero bits follow a scene of no positions in its byte. A byte more is one too many, and then no line follows that of part 0.
shown "part 0 read 6 fields 1" "deepest 0" < <(printf '\0\1\0\0\0\6\0')
shown "part 0 refused 39 at 6" < <(printf '\0\1\0\0\0\6\0\0')
shown "part 0 refused 39 at 6" < <(printf '\0\2\0\0\0\12\0\0\0\14\0\0')
# Where there are no positions an update has no bits.
shown "part 0 read 6 fields 1" "part 1 read 0 fields 0" "deepest 0" < <(printf '\0\2\0\0\0\12\0\0\0\13\0')
shown "part 0 read 6 fields 1" "part 1 refused 39 at 0" "deepest 0" < <(printf '\0\2\0\0\0\12\0\0\0\13\0\0')

# The scene of the shipped example, then its last two packets as one part, and the last of them once more. The first of the two
# would free position 2, and so the last one closes a circle.
shown "part 0 read 48 fields 20" "part 1 refused 39 at 7" "part 2 refused 9 at 13" "position 1 parent 0 rank 1" \
  "position 2 parent 1 rank 2" "deepest 2" \
  < <(printf '\0\3\0\0\0\16\0\0\0\24\0\0\0\27' && head -c 24 docs/worked.show | tail -c 6 &&
    tail -c 3 docs/worked.show && tail -c 2 docs/worked.show)
# The shipped example with a 1 as the last bit of part 2, and with a newline at its end.
shown "part 0 read 48 fields 20" "part 1 refused 9 at 13" "part 2 refused 39 at 7" "part 3 refused 9 at 13" \
  "position 1 parent 0 rank 1" "position 2 parent 1 rank 2" "deepest 2" \
  < <(head -c 26 docs/worked.show && printf '\161' && tail -c 2 docs/worked.show)
shown "part 0 read 48 fields 20" "part 1 refused 9 at 13" "part 2 read 7 fields 7" "part 3 refused 39 at 13" \
  "position 1 parent 0 rank 1" "position 2 parent 0 rank 1" "deepest 1" < <(cat docs/worked.show && echo)

# The shows of the samples, one by one. In an answer's line each newline is written as a slash.
build_oracle
samples 14 | grep '^show ' >"$work/shows"
"$oracle" answer <"$work/shows" >"$work/answers"
count=0
while read -r _ file <&3 && read -r _ _ _ _ _ _ _ _ text <&4; do
  hex=${file#-}
  printf "$(sed 's/../\\x&/g' <<<"$hex")" >"$work/file"
  printf '%s' "${text//\//$'\n'}" >"$work/expected"
  expect 0 "" "$work/expected" <"$work/file"
  count=$((count + 1))
done 3<"$work/shows" 4<"$work/answers"
[ "$count" = "$(wc -l <"$work/shows")" ]
echo "$count shows printed as the oracle does"
