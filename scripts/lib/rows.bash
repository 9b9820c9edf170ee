# shellcheck shell=bash
# Read by scripts/check-rows and scripts/check-why: tries rows of scripts/rows, whose form scripts/awk/rows.awk knows.

# Runs the program with the words and files of each row, in folders of the room, and prints each row with another answer than
# the one that is wanted. How many rows there are stands in ROOM/count. The name of the script is `told`.
try_rows() { # the room, the program, its name in what is printed, and the files
  local room=$1 program=$2 called=$3 number file line words other part
  shift 3
  mkdir "$room/wanted" "$room/given" "$room/others"
  # A folder for each run; a few rows are run several times.
  seq $(($(cat "$@" | wc -l) + 500)) | (cd "$room" && xargs mkdir) || return 1
  awk -v room="$room" -f scripts/awk/rows.awk "$@" >"$room/rows" || return 1
  while IFS=$'\t' read -r number file line words; do
    (
      cd "$room/$number" || exit 1
      # shellcheck disable=SC2086 # the words have no blanks
      "$program" $words >"$room/given/$number.out" 2>"$room/given/$number.err"
      echo $? >"$room/given/$number.status"
    )
    if [ -e "$room/wanted/$number.again" ]; then "$program" fmt "$room/given/$number.out" >"$room/given/$number.again" 2>&1; fi
    for other in "$room/others/$number".*.out; do # another answer that is as good
      if [ -e "$other" ] && cmp -s "$other" "$room/given/$number.out" && cmp -s "${other%.out}.err" "$room/given/$number.err"; then
        for part in status out err; do cp "${other%.out}.$part" "$room/wanted/$number.$part"; done
      fi
    done
  done <"$room/rows"
  (
    cd "$room" || exit 1
    diff -rq wanted given | sed -E 's,^(Files |Only in )(wanted|given)[/:] ?,,; s/\..*//' | sort -un | while read -r number; do
      IFS=$'\t' read -r _ file line words < <(grep -P "^$number\t" rows)
      echo "${told:?}: $file line $line: $called $words"
      for part in status out err again; do
        [ ! -e "wanted/$number.$part" ] || diff "wanted/$number.$part" "given/$number.$part" | head -n 8 | sed 's/^/  /'
      done
    done
  )
}
