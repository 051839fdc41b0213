# Completes the words of goheap in bash; `source` it. Made by launcher/pages.py from launcher/words.txt.
_goheap() {
  local current=${COMP_WORDS[COMP_CWORD]} word=${COMP_WORDS[1]}
  COMPREPLY=()
  if [ "$COMP_CWORD" -eq 1 ]; then
    mapfile -t COMPREPLY < <(compgen -W 'run watch check heap demo gen classes --build --version help' -- "$current")
    return
  fi
  if [ "${COMP_WORDS[COMP_CWORD - 1]}" = -o ]; then
    word=-o
  fi
  local options='' files=''
  case $word in
  -o) files=1 ;;
  run) options='--each --background= -o' files=1 ;;
  watch) options='-o' files=1 ;;
  check) options='--pieces= -o' files=1 ;;
  heap) options='-o' files=1 ;;
  demo) options='-o' ;;
  gen) options='-o' ;;
  classes) options='-o' ;;
  --build) options='' ;;
  --version) options='' ;;
  help) options='run watch check heap demo gen classes --build --version help' ;;
  esac
  mapfile -t COMPREPLY < <(compgen -W "$options" -- "$current"; [ -z "$files" ] || compgen -f -- "$current")
  [[ ${COMPREPLY[*]} != *= ]] || compopt -o nospace 2>/dev/null
  [ -z "$files" ] || compopt -o filenames 2>/dev/null
  return 0
}
complete -F _goheap goheap ./goheap
# The options of a tool are those that its --help has.
_goheap_tool() {
  local current=${COMP_WORDS[COMP_CWORD]} options=''
  COMPREPLY=()
  [[ $current != -* ]] || options=$("${COMP_WORDS[0]}" --help 2>/dev/null | grep -o -e '--[a-z][a-z-]*' | sort -u)
  [ -z "$options" ] || mapfile -t COMPREPLY < <(compgen -W "$options" -- "$current")
}
complete -o default -F _goheap_tool goheap-record recorder/record ./recorder/record goheap-facts recorder/facts ./recorder/facts goheap-pair recorder/pair ./recorder/pair goheap-look recorder/look ./recorder/look goheap-leaks recorder/leaks ./recorder/leaks goheap-pins recorder/pins ./recorder/pins goheap-goroutines recorder/goroutines ./recorder/goroutines goheap-picture recorder/picture ./recorder/picture goheap-explain recorder/explain ./recorder/explain goheap-compare recorder/compare ./recorder/compare goheap-pprof recorder/pprof ./recorder/pprof
