#!/usr/bin/env bash
# The launchers of bin/ in a folder where nothing is built, with a stand-in for rt: the program is built first, once, and gets standard
# input and its arguments untouched; and where the build fails, or there is no rt, that is reported.
set -euo pipefail
cd "$(dirname "$0")/.."
work=$(mktemp -d)
trap 'rm -rf "$work"' EXIT

# One launcher serves every program.
cmp bin/scene-show bin/scene-fields

# fresh PROGRAM: a repository of this program alone, whose crate is as it stands but for its code.
fresh() {
  name=$1
  crate=${name/-/_}
  rm -rf "$work/fresh"
  mkdir -p "$work/fresh/bin" "$work/fresh/crates/$crate"
  cp bin/"$name" "$work/fresh/bin/"
  for file in stdin stdout args; do
    [ ! -e "crates/$crate/$file" ] || cp "crates/$crate/$file" "$work/fresh/crates/$crate/"
  done
}

# The stand-in tells what it was asked and given, and makes a program that tells its arguments and repeats its input.
mkdir "$work/kit" "$work/bare"
cat >"$work/kit/rt" <<'RT'
#!/bin/sh
crate=$(basename "$PWD")
echo "rt $*, given $(cksum)" >>"$ASKED"
{
  echo "rt: chose --jobs 2 for low"
  echo "fn low::a: proved"
  echo "statements core: modules loaded=1 checked=0"
  echo "fn $crate::main: proved"
} >&2
if [ -n "${BROKEN:-}" ]; then
  echo "src/main.rt:1:1: error[unknown-name]: cannot find a name" >&2
  exit 1
fi
mkdir -p out
printf '#!/bin/sh\necho "ran with $*"\nexec cat\n' >out/"$crate"
chmod +x out/"$crate"
echo "what the example prints"
RT
chmod +x "$work/kit/rt"
for tool in sh basename dirname readlink mktemp cat rm grep tail; do
  ln -s "$(command -v "$tool")" "$work/bare/$tool"
done
export ASKED=$work/asked

# launched STATUS PATH [ARGUMENT...]: runs the launcher, and holds its status, what it printed and its report to those that are expected.
launched() {
  local status=0
  PATH=$2 "$work/fresh/bin/$name" "${@:3}" >"$work/printed" 2>"$work/report" || status=$?
  if [ "$status" != "$1" ] || ! cmp -s "$work/printed" "$work/text" || ! cmp -s "$work/report" "$work/told"; then
    echo "$name ${*:3}: status $status where $1 was expected, and the text and the report, here < is what is expected:"
    diff "$work/text" "$work/printed" || true
    diff "$work/told" "$work/report" || true
    exit 1
  fi
}

building() {
  printf '%s\n' "$name: not built yet: rt now proves it and all that it calls, once, which may take a quarter of an hour" \
    "$name: proving low" "$name: proving $crate" "$@" >"$work/told"
}

: >"$work/nothing"
for name in scene-show scene-fields; do
  fresh "$name"
  words=(a "b c" "")
  : >"$ASKED"
  building
  { echo "ran with ${words[*]}" && cat docs/worked.show; } >"$work/text"
  launched 0 "$work/kit:$PATH" "${words[@]}" <docs/worked.show
  # It was built by its own example, and only once.
  cp "$work/nothing" "$work/told"
  launched 0 "$work/kit:$PATH" "${words[@]}" < <(cat docs/worked.show)
  arguments=$(cat "crates/$crate/args" 2>/dev/null || true)
  echo "rt run --${arguments:+ ${arguments//$'\n'/ }}, given $(cksum <"crates/$crate/stdin")" | diff - "$ASKED"

  # From a pipe, from nothing, and from nowhere; through a link in another folder.
  for input in pipe nothing closed; do
    fresh "$name"
    building
    case $input in
      pipe) { echo "ran with x" && cat docs/worked.show; } >"$work/text" && launched 0 "$work/kit:$PATH" x < <(cat docs/worked.show) ;;
      nothing) echo "ran with x" >"$work/text" && launched 0 "$work/kit:$PATH" x </dev/null ;;
      closed)
        echo "ran with x" >"$work/text"
        status=0
        PATH=$work/kit:$PATH "$work/fresh/bin/$name" x <&- >"$work/printed" 2>"$work/report" || status=$?
        head -n 3 "$work/report" | diff "$work/told" -
        cmp "$work/text" "$work/printed"
        [ "$status" = 1 ]
        ;;
    esac
  done
  mkdir -p "$work/elsewhere"
  ln -sf "$work/fresh/bin/$name" "$work/elsewhere/$name"
  echo "ran with y" | diff - <(PATH=$work/kit:$PATH "$work/elsewhere/$name" y </dev/null)

  # The build fails; there is no rt; nothing can be printed, which is told before anything is built.
  fresh "$name"
  building "$name: not built: rt run failed in crates/$crate, and said last:" "rt: chose --jobs 2 for low" \
    "src/main.rt:1:1: error[unknown-name]: cannot find a name"
  cp "$work/nothing" "$work/text"
  BROKEN=1 launched 1 "$work/kit:$PATH" <docs/worked.show
  [ ! -e "$work/fresh/crates/$crate/out" ]
  echo "$name: not built: there is no command rt, which proves and builds it" >"$work/told"
  launched 1 "$work/bare" <docs/worked.show
  : >"$ASKED"
  status=0
  PATH=$work/kit:$PATH "$work/fresh/bin/$name" <docs/worked.show >&- 2>"$work/report" || status=$?
  [ "$status" = 1 ]
  echo "$name: standard output: closed" | diff - "$work/report"
  cmp "$work/nothing" "$ASKED"
done
echo "both launchers build what they run"
