#!/usr/bin/env bash
# Runs scene-fields as people do: the recorded runs, from a file, from a pipe, on input that is empty, slow or too long, where
# reading or writing fails, where bits follow the end of a part, with wrong arguments; the greatest listings against the clock; and
# then on every scene, every metadata and every part of a show of some samples, whose listing must be the oracle's.
set -euo pipefail
cd "$(dirname "$0")/.."
program=bin/scene-fields
source tests/lib/program.sh

# A text of these lines, under a name.
text() {
  printf '%s\n' "${@:2}" >"$work/$1"
}

missing="the bits asked for are not there"
text missing "refused 3 at 0: $missing"
text 23 "refused 23 at 0: show file of more than 65,536 bytes"
text 24 "refused 24 at 0: header of the show file not sound"
worked=docs/worked.fields

# The recorded runs, which docs/SCENE-FIELDS.md shows, and the first of them README too.
cmp docs/worked.show crates/scene_fields/stdin
cmp docs/worked.fields crates/scene_fields/stdout
expect 0 "" "$worked" part 1 <docs/worked.show
expect 0 "" docs/damaged.fields part 3 <docs/damaged.show
cmp docs/damaged.show <(head -c 28 docs/worked.show)
for shown in docs/SCENE-FIELDS.md:worked docs/SCENE-FIELDS.md:damaged README.md:worked; do
  page=${shown%:*} run=${shown#*:}
  if [[ $(<"$page") != *"$(sed 's/^/    /' "docs/$run.fields")"* ]]; then
    echo "$page does not show docs/$run.fields"
    exit 1
  fi
done

# Other ways to say and to give the same.
expect 0 "" "$worked" part 1 0 <docs/worked.show
expect 0 "" "$worked" part 000000000000000001 000000000000000000 <docs/worked.show
expect 0 "" "$worked" part 1 < <(cat docs/worked.show)
expect 0 "" "$worked" part 1 < <(head -c 10 docs/worked.show && sleep 0.2 && tail -c +11 docs/worked.show)

# Nothing to read, and places that are not there.
expect 0 "" "$work/missing" scene </dev/null
expect 0 "" "$work/missing" metadata </dev/null
expect 0 "" "$work/24" part 0 </dev/null
expect 0 "" "$work/24" part 7 5 </dev/null
expect 0 "" "$work/missing" scene 999999999999999999 <docs/worked.show
expect 0 "" "$work/missing" part 1 999999999999999999 <docs/worked.show
expect 1 "scene-fields: no such part in the show" "$work/nothing" part 4 <docs/worked.show
expect 1 "scene-fields: no such part in the show" "$work/nothing" part 999999999999999999 <docs/worked.show

# What follows the end of a part: a scene of no positions with a byte more, as a part and as a scene.
followed="eight or more bits follow, or one of them is 1"
count=ancillary.scene_graph.count
text longer "0 6 0 $count" "refused 39 at 6: $followed"
text alone "0 6 0 $count" "read 6 fields 1"
printf '\0\2\0\0\0\12\0\0\0\14\0\0' >"$work/longer.show"
expect 0 "" "$work/longer" part 0 <"$work/longer.show"
expect 1 "scene-fields: part 0 of the show is not read, so no update is" "$work/nothing" part 1 <"$work/longer.show"
expect 0 "" "$work/alone" scene < <(printf '\0\0')

# The scene of the shipped example, then its last two packets as one part, and the last of them once more. The fields of the first
# of the two are listed. It would free position 2, and so the last one closes a circle, as part 1 of the example does.
position=ancillary.scene_graph.positions
text joined "0 1 0 ${position}[0].updated" "1 1 1 ${position}[1].updated" "2 1 1 ${position}[1].parent_update" \
  "3 1 1 ${position}[1].absolute_parent" "4 1 0 ${position}[1].position_present" "5 1 0 ${position}[1].rotation_present" \
  "6 1 0 ${position}[1].extensions_present" "refused 39 at 7: $followed"
{
  printf '\0\3\0\0\0\16\0\0\0\24\0\0\0\27'
  head -c 24 docs/worked.show | tail -c 6
  tail -c 3 docs/worked.show
  tail -c 2 docs/worked.show
} >"$work/joined.show"
expect 0 "" "$work/joined" part 1 <"$work/joined.show"
expect 0 "" "$worked" part 2 <"$work/joined.show"
# The shipped example with a 1 as the last bit of part 2, and with a newline at its end.
expect 0 "" "$work/joined" part 2 < <(head -c 26 docs/worked.show && printf '\161' && tail -c 2 docs/worked.show)
{
  head -n 8 "$worked"
  echo "refused 39 at 13: $followed"
} >"$work/newline"
expect 0 "" "$work/newline" part 3 < <(cat docs/worked.show && echo)
# From another bit of a part the bits after the end are looked at too: from bit 1 on the part reads to bit 7, and a 1 follows.
text later "1 1 1 ${position}[0].updated" "2 1 0 ${position}[0].parent_update" "3 1 0 ${position}[0].position_present" \
  "4 1 0 ${position}[0].rotation_present" "5 1 0 ${position}[0].extensions_present" "6 1 0 ${position}[1].updated" \
  "refused 39 at 7: $followed"
expect 0 "" "$work/later" part 3 1 <docs/worked.show

# Reading or writing fails.
for words in scene metadata "part 1"; do
  expect 1 "scene-fields: standard input: Is a directory" "$work/nothing" $words <docs
  expect 1 "scene-fields: standard input: Bad file descriptor" "$work/nothing" $words <&-
  unprinted docs/worked.show $words
done

# Wrong arguments.
wrong() {
  expect 2 "usage: scene-fields scene|metadata|part K [BIT] < FILE" "$work/nothing" "$@" <docs/worked.show
}
digits=$(printf '%05000d' 0)
letters=${digits//0/s}
wrong
for word in "" " " scenes scen Scene SCENE show fields update -h --help -- 0 1 "scene 0" "part 1" $'scene\n' \
  "$letters" "$digits"; do
  wrong "$word"
  wrong "$word" 0
  wrong "$word" 1 0
done
wrong part
wrong scene 0 0
wrong metadata 0 0
wrong part 1 0 0
wrong scene part 1
# One that is too long for a word or a number stays in its place, as none.
wrong part "${digits:0:40}" 1
wrong part 1 "${digits:0:40}"
wrong part "${digits:0:40}" ""
for number in "" " " x 1x x1 0x1 1e1 - -1 +1 1.0 1,000 " 1" "1 " "1 0" $'1\n' $'\n1' $'\xb9' '*' \
  0000000000000000001 1000000000000000000 18446744073709551616 "$digits" "$letters"; do
  wrong scene "$number"
  wrong metadata "$number"
  wrong part "$number"
  wrong part "$number" 0
  wrong part 1 "$number"
done

# The greatest input, and longer ones.
greatest=4194304
end=$((8 * greatest))
zeros() {
  head -c "$1" /dev/zero
}
zeros "$greatest" >"$work/greatest"
text first "0 6 0 $count" "read 6 fields 1"
text last "$((end - 6)) 6 0 $count" "read $end fields 1"
text cut "refused 3 at $((end - 5)): $missing"
text end "refused 3 at $end: $missing"
expect 0 "" "$work/first" scene <"$work/greatest"
expect 0 "" "$work/first" scene < <(zeros "$greatest")
expect 0 "" "$work/last" scene "$((end - 6))" <"$work/greatest"
expect 0 "" "$work/cut" scene "$((end - 5))" <"$work/greatest"
expect 0 "" "$work/end" metadata "$end" <"$work/greatest"
expect 0 "" "$work/missing" metadata "$((end + 1))" <"$work/greatest"
expect 0 "" "$work/23" part 0 <"$work/greatest"
expect 0 "" "$work/23" part 1 < <(zeros 65537)
expect 0 "" "$work/24" part 1 < <(zeros 65536)
# The program as a whole takes less than 8 MiB for it.
(ulimit -v 8192 && exec crates/scene_fields/out/scene_fields scene "$((end - 6))" <"$work/greatest") | cmp - "$work/last"
for words in scene "metadata 1" "part 0"; do
  for bytes in $((greatest + 1)) 100000000; do
    expect 1 "scene-fields: standard input: more than 4,194,304 bytes" "$work/nothing" $words < <(zeros "$bytes")
  done
done

# The cases of the samples: case N has its arguments in N.args, its input in N.in, and what standard output and standard
# error must get in N.out and N.report.
build_oracle
cases=$work/cases
mkdir "$cases"
samples 7 | "$oracle" listings "$cases" >"$work/told"
read -r total _ <"$work/told"

# quickly CASE INPUT: runs a case on this input in under a second.
quickly() {
  local arguments start took
  read -r -a arguments <"$cases/$1.args"
  start=${EPOCHREALTIME/[.,]/}
  expect 0 "" "$cases/$1.out" "${arguments[@]}" <"$2"
  took=$((${EPOCHREALTIME/[.,]/} - start))
  [ "$took" -lt 1000000 ] && return
  echo "scene-fields ${arguments[*]}: $took microseconds for case $1"
  exit 1
}

# The greatest listings, those of 16,384 fields, some of them refused with 4, and with zeros after them up to the greatest
# input. The bits after a scene or metadata are not looked at, so that these are listed as without them; none of them is a part.
quick=0
refused=0
for listing in $(find "$cases" -name '*.out' -size +1000000c); do
  n=$(basename "$listing" .out)
  if [[ $(<"$cases/$n.args") == part* ]]; then
    echo "case $n is a part of a show, which cannot have zeros after it"
    exit 1
  fi
  [ "$(wc -l <"$listing")" = 16385 ]
  if [[ $(tail -n 1 "$listing") == "refused 4 at "* ]]; then refused=$((refused + 1)); fi
  cp "$cases/$n.in" "$work/greatest"
  truncate -s "$greatest" "$work/greatest"
  quickly "$n" "$cases/$n.in"
  quickly "$n" "$work/greatest"
  quick=$((quick + 2))
done
[ "$refused" -gt 0 ]
[ "$refused" -lt $((quick / 2)) ]

# A reader that has enough after the first line of such a listing.
read -r -a arguments <"$cases/$n.args"
into_pipe "${arguments[@]}" <"$cases/$n.in" | head -n 1 | cmp - <(head -n 1 "$cases/$n.out")
failed "$(cat "$work/status")" 1 "scene-fields: standard output: Broken pipe"

# Every case, half of them beside the other: the program itself, without its launcher, which the runs above have used. Its
# status is 2 if it told how it is called, 1 with any other report, and 0 with none.
mkdir "$work/ran"
replay() {
  local n arguments report status expected
  for ((n = $1; n <= total; n += 2)); do
    read -r -a arguments <"$cases/$n.args"
    read -r -d '' report <"$cases/$n.report" || true
    case $report in
      "") expected=0 ;;
      usage:*) expected=2 ;;
      *) expected=1 ;;
    esac
    status=0
    crates/scene_fields/out/scene_fields "${arguments[@]}" <"$cases/$n.in" >"$work/ran/$n.out" 2>"$work/ran/$n.report" || status=$?
    if [ "$status" != "$expected" ]; then
      echo "case $n, scene-fields ${arguments[*]}: status $status where $expected was expected"
      exit 1
    fi
  done
}
replay 1 &
odd=$!
replay 2 &
even=$!
wait "$odd"
wait "$even"

if ! diff -r -x '*.args' -x '*.in' "$cases" "$work/ran" >"$work/differences"; then
  echo "scene-fields prints something other than the oracle, here < is the oracle's:"
  head -n 20 "$work/differences"
  exit 1
fi
echo "$quick of the greatest listings in under a second, $total listings printed as the oracle does"
