# What the scripts that run the built program from outside have in common. A script sets program and sources this.
# shellcheck shell=bash disable=SC2154
passed=0
failed=0
work=$(mktemp -d)
trap 'rm -rf "$work"' EXIT

# count NAME PROBLEM: counts one check, which failed where there is a problem
count() {
  if [ -z "$2" ]; then
    passed=$((passed + 1))
  else
    failed=$((failed + 1))
    echo "$1: $2"
  fi
}

# lines TEXT: the text with a line feed for each slash
lines() { printf '%s' "$1" | tr '/' '\n'; }

# repeat N TEXT: the text N times
repeat() { for ((i = 0; i < $1; i++)); do printf '%s' "$2"; done; }

# run WORD..: the program on the file in; leaves its output, standard error and exit status
run() {
  "$program" "$@" < "$work/in" > "$work/out" 2> "$work/err"
  status=$?
}

# expect NAME STATUS ERROR: the last run had this exit status, and wrote this to standard error
expect() {
  local problem=
  [ "$status" = "$2" ] || problem="status $status"
  [ "$(cat "$work/err")" = "$3" ] || problem="$problem standard error: $(cat "$work/err")"
  count "$1" "$problem"
}

# holds NAME COMMAND..: the command succeeds
holds() {
  local problem=
  "${@:2}" || problem='not so'
  count "$1" "$problem"
}

last_line() { [ "$(tail -n 1 "$work/out")" = "$1" ]; }
last_line_begins() { [[ "$(tail -n 1 "$work/out")" == "$1"* ]]; }
is_empty() { [ ! -s "$work/out" ]; }
has_bytes() { [ "$(stat -c %s "$work/out")" = "$1" ]; }

# refused NAME LINE WHY: the file in is refused so, and nothing is written
refused() {
  run run
  expect "$1" 2 "bad workload: line $2: why $3"
  holds "$1: nothing written" is_empty
}

# The last line of the script: how many checks passed and failed.
finish() {
  echo "$passed passed, $failed failed"
  [ "$failed" = 0 ]
}
