# Completion of gp2 for bash. In a clone `. completions/gp2.bash` gives it to ./gp2 too.
# Made by `scripts/words bash` from scripts/lib/words.table.
_gp2() {
  local word=${COMP_WORDS[COMP_CWORD]} command=${COMP_WORDS[1]} arguments=() options=() given=' ' count=0 at it
  COMPREPLY=()
  if [ "$COMP_CWORD" -eq 1 ]; then
    mapfile -t COMPREPLY < <(compgen -W "run demo check fmt step" -- "$word")
    return
  fi
  case $command in
    run) arguments=(PROGRAM HOST) options=(--workers --bound --fan --seed --journal --batch) ;;
    demo) arguments=(KIND SIZE SEED) options=(--workers --fan --batch) ;;
    check) arguments=(PROGRAM HOST TRACE RESULT) ;;
    fmt) arguments=(PROGRAM) ;;
    step) arguments=(PROGRAM HOST SCRIPT) options=(--bound --seed) ;;
    *) return ;;
  esac
  # The words before this one: a value follows its option, as a word of its own or behind `=`.
  for ((at = 2; at < COMP_CWORD; at++)); do
    it=${COMP_WORDS[at]}
    case $it in
      --) options=() count=$((count + COMP_CWORD - at - 1)); break ;;
      --workers | --bound | --fan | --seed | --batch)
        given+="$it "
        at=$((at + 1))
        [ "${COMP_WORDS[at]-}" != = ] || at=$((at + 1))
        [ "$at" -lt "$COMP_CWORD" ] || return ;; # a number
      -?*) given+="${it%%=*} " ;;
      *) count=$((count + 1)) ;;
    esac
  done
  if [[ $word == -* || $count -ge ${#arguments[@]} ]]; then
    for it in ${options[@]+"${options[@]}"}; do
      [[ $given == *" $it "* || $it != "$word"* ]] || COMPREPLY+=("$it")
    done
    return
  fi
  case ${arguments[count]} in
    PROGRAM) _gp2_files '*.gp2' "$word" ;;
    HOST) _gp2_files '*.host' "$word" ;;
    TRACE) _gp2_files '*' "$word" ;;
    RESULT) _gp2_files '*' "$word" ;;
    SCRIPT) _gp2_files '*' "$word" ;;
    KIND) mapfile -t COMPREPLY < <(compgen -W "closure colour tree" -- "$word") ;;
    SIZE) ;;
    SEED) ;;
  esac
}
_gp2_files() { # the pattern, and the word
  compopt -o filenames 2>/dev/null
  mapfile -t COMPREPLY < <(compgen -f -X "!$1" -- "$2"; [ "$1" = '*' ] || compgen -d -- "$2")
}
complete -F _gp2 gp2
