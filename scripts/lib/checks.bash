# shellcheck shell=bash
# Read by the scripts that check something. What they print begins with the script's name, and `failures` counts what is wrong.
shopt -s lastpipe # so that `report` counts in this shell
checker=${0##*/} failures=0

fail() { # what is wrong, and lines that show it
  echo "$checker: $1"; shift
  [ $# -eq 0 ] || printf '%s\n' "$@" | head -n "${most_lines:-20}" | sed 's/^/  /'
  failures=$((failures + 1))
}
report() { # fails where standard input has lines
  local lines; lines=$(cat)
  [ -z "$lines" ] || fail "$1" "$lines"
}
skip() { echo "$checker: skipped: $1"; }
