# What the tests of the programs share. Source it with the program's path set in `program`; it makes the folder `work`.
source tests/lib/built.sh
work=$(mktemp -d)
trap 'rm -rf "$work"' EXIT
: >"$work/nothing"
name=$(basename "$program")

# expect STATUS REPORT TEXT [ARGUMENT...]: runs the program with these arguments on this standard input, and holds its status,
# its report and what it printed to these. TEXT is a file.
expect() {
  local status=0
  "$program" "${@:4}" >"$work/printed" 2>"$work/report" || status=$?
  if [ "$status" != "$1" ] || [ "$(cat "$work/report")" != "$2" ] || ! cmp -s "$work/printed" "$3"; then
    echo "$name ${*:4}: status $status where $1 was expected, the report, and where the text differs:"
    cat "$work/report"
    diff "$3" "$work/printed" | head -n 20 || true
    exit 1
  fi
}

# failed STATUS EXPECTED REPORT: where the text is not looked at, this must be the status, and the program's report this one.
failed() {
  [ "$1" = "$2" ] && [ "$(cat "$work/report")" = "$3" ] && return
  echo "$name: status $1 where $2 was expected, and the report:"
  cat "$work/report"
  exit 1
}

# Runs the program into a pipe whose reader goes away, and keeps its status.
into_pipe() {
  local status=0
  "$program" "$@" 2>"$work/report" || status=$?
  echo "$status" >"$work/status"
}

# unprinted FILE [ARGUMENT...]: where nothing can be printed, that is reported, with status 1.
unprinted() {
  local file=$1 status
  shift
  status=0
  "$program" "$@" <"$file" 2>"$work/report" >/dev/full || status=$?
  failed "$status" 1 "$name: standard output: No space left on device"
  status=0
  "$program" "$@" <"$file" 2>"$work/report" >&- || status=$?
  failed "$status" 1 "$name: standard output: closed"
  { sleep 0.2; into_pipe "$@" <"$file"; } | :
  failed "$(cat "$work/status")" 1 "$name: standard output: Broken pipe"
}
