# Completion for bash: the words of the programs and the tools, and files for them. Source it, or put it where bash-completion looks, under the name
# of each command. Tested, not proved.
_oa_words() { # WORD, and the words that it may become
  mapfile -t COMPREPLY < <(compgen -W "$2" -- "$1")
}
_oa_files() { # WORD, and how the names of files end: these and folders
  local word=$1 name ending
  shift
  COMPREPLY=()
  compopt -o filenames 2>/dev/null
  while IFS= read -r name; do
    if [ -d "$name" ]; then
      COMPREPLY+=("$name")
    else
      for ending in "$@"; do [[ $name != *"$ending" ]] || COMPREPLY+=("$name"); done
    fi
  done < <(compgen -f -- "$word")
}
_oa() {
  local word=${COMP_WORDS[COMP_CWORD]} before=${COMP_WORDS[COMP_CWORD - 1]} program=${COMP_WORDS[0]##*/}
  COMPREPLY=()
  if [[ $before == '<' ]]; then
    if [ "$program" = oax ]; then _oa_files "$word" .cert; else _oa_files "$word" .oa .cert; fi
  elif [[ $before == '>' || $program == oac ]]; then
    [[ $before != '>' ]] || _oa_files "$word" .oa .cert .oat .h
  elif [ "$COMP_CWORD" -eq 1 ]; then
    if [ "$program" = oax ]; then _oa_words "$word" 'proper --help --version'; else _oa_words "$word" 'check compile epochs judge replay run show upgrade workload'; fi
  elif [ "${COMP_WORDS[1]}" = judge ] && [ "$COMP_CWORD" -eq 2 ]; then
    _oa_words "$word" 'check make'
  elif [ "${COMP_WORDS[1]}" = workload ] && [ "$COMP_CWORD" -eq 3 ]; then
    _oa_words "$word" '1 2 3 4 5 6 7 8'
  fi
}
_oa_tool() {
  local word=${COMP_WORDS[COMP_CWORD]} before=${COMP_WORDS[COMP_CWORD - 1]} tool=${COMP_WORDS[0]##*/}
  COMPREPLY=()
  if [[ $word == -* ]]; then
    case $tool in
      oa2c) _oa_words "$word" '--help --runtime' ;;
      oa-compare) _oa_words "$word" '--help --oa --runs' ;;
      oa-fuzz) _oa_words "$word" '--callers --help --into --oa --oax --object --runs --seconds --seed' ;;
      oa-labels) _oa_words "$word" '--back --help' ;;
      oa-legal) _oa_words "$word" '--help --show --states' ;;
      oa-each | oa-lint) _oa_words "$word" '--help --oa' ;;
      oa-timeline) _oa_words "$word" '--help --html --oa' ;;
      *) _oa_words "$word" '--help' ;;
    esac
    return
  fi
  case $tool$before in
    oa-each*each) _oa_words "$word" 'check compile epochs judge replay run show upgrade' ;;
    oa-eachjudge) _oa_words "$word" 'check make' ;;
    oa-fuzz--object | oa-legaloa-legal | oa-legal*/oa-legal | oa-legal--show) _oa_words "$word" 'counter map queue set stack' ;;
    oa-legal'<') _oa_files "$word" .cert .out ;;
    *--oa | *--oax) mapfile -t COMPREPLY < <(compgen -c -- "$word") ;;
    oa-timeline*) _oa_files "$word" .cert ;;
    oa2c*) [[ $before != '<' ]] || _oa_files "$word" .oat ;;
    *) _oa_files "$word" .oa .oal .cert ;;
  esac
}
complete -F _oa oa oac oax ./oa ./oac ./oax
complete -F _oa_tool oa2c oa-compare oa-each oa-fuzz oa-labels oa-legal oa-lint oa-timeline
