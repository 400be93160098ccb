#compdef oa oac oax oa2c oa-compare oa-each oa-fuzz oa-labels oa-legal oa-lint oa-timeline
# Completion for zsh: put it into a folder of $fpath, under the name _oa. Tested, not proved.
local documents='*.(oa|oal|cert)'
case ${service:t} in
  oa)
    if [[ $CURRENT -eq 2 ]]; then compadd check compile epochs judge replay run show upgrade workload
    elif [[ $words[2] == judge && $CURRENT -eq 3 ]]; then compadd check make
    elif [[ $words[2] == workload && $CURRENT -eq 4 ]]; then compadd 1 2 3 4 5 6 7 8
    else _files -g $documents; fi ;;
  oax) if [[ $CURRENT -eq 2 ]]; then compadd -- proper --help --version; else _files -g '*.cert'; fi ;;
  oac) _files -g $documents ;;
  oa2c) _arguments '--help[what it does]' '--runtime[the folder with oa_rt.h]' ':NAME: ' ;;
  oa-compare) _arguments '--help[what it does]' '--oa[the program]:program:_command_names -e' '--runs[how many runs of each]:count: ' ":document:_files -g '*.oa'" ;;
  oa-each)
    if [[ $CURRENT -eq 2 ]]; then compadd check compile epochs judge replay run show upgrade
    elif [[ $words[2] == judge && $CURRENT -eq 3 ]]; then compadd check make
    else _files -g $documents; fi ;;
  oa-fuzz)
    _arguments '--help[what it does]' '--seed[of the random numbers]:number: ' '--runs[how many]:count: ' '--seconds[how long]:count: ' '--callers[at most]:count: ' \
      '--object[that gives the replies]:object:(counter map queue set stack)' '--into[the name of the files]:name: ' '--oa[the program]:program:_command_names -e' \
      '--oax[the program]:program:_command_names -e' ":text:_files -g '*.oa'" ;;
  oa-labels) _arguments '--help[what it does]' '--back[numbers become labels]' ":text:_files -g '*.(oa|oal)'" ;;
  oa-legal) _arguments '--help[what it does]' '--show[the class of an object]' '--states[how many at most]:count: ' ':object:(counter map queue set stack)' ;;
  oa-lint) _arguments '--help[what it does]' '--oa[the program that says what is refused]:program:_command_names -e' "*:text:_files -g '*.(oa|oal)'" ;;
  oa-timeline) _arguments '--help[what it does]' '--html[a page in place of a picture]' '--oa[the program]:program:_command_names -e' ":certificate:_files -g '*.cert'" ;;
esac
