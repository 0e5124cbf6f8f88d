# Completions of comfusy for bash.
_comfusy() {
  local word=${COMP_WORDS[COMP_CWORD]} command=${COMP_WORDS[1]} kind=cf
  COMPREPLY=()
  if [ "$COMP_CWORD" = 1 ]; then
    mapfile -t COMPREPLY < <(compgen -W 'compile pre check run exec prove emit verify gen --help --version' -- "$word")
  elif [[ $word == -* ]]; then
    case $command in
      compile) mapfile -t COMPREPLY < <(compgen -W '- --plain --stats' -- "$word") ;;
      run) mapfile -t COMPREPLY < <(compgen -W '--plain --stats --key --jsonl' -- "$word") ;;
      exec) mapfile -t COMPREPLY < <(compgen -W '--key --jsonl' -- "$word") ;;
      check) mapfile -t COMPREPLY < <(compgen -W '- --strict --unique' -- "$word") ;;
      emit) mapfile -t COMPREPLY < <(compgen -W '- --main --name' -- "$word") ;;
      pre | prove) mapfile -t COMPREPLY < <(compgen -W '-' -- "$word") ;;
    esac
  elif [ "$command" = emit ] && [ "$COMP_CWORD" = 2 ]; then
    mapfile -t COMPREPLY < <(compgen -W 'c python js rust smt' -- "$word")
  elif [ "$command" != gen ]; then
    [ "$command" != exec ] || kind=target
    [[ $command != verify || $COMP_CWORD = 2 ]] || kind=steps
    mapfile -t COMPREPLY < <(compgen -f -X "!*.$kind" -- "$word"; compgen -d -- "$word")
    compopt -o filenames 2>/dev/null
  fi
}
complete -F _comfusy comfusy
