# Completion of alma for bash: source this file, or put it into bash-completion's folder under the name alma.
# What `help` tells: the faults of docs/FAULTS.md beside the script, commands, pages, and words of the language.
_alma_topics() {
  echo check run trace compile list exec sample all link pool back why replay tutorial idioms language commands faults
  echo EITHER ORELSE SOME FORALL COMMIT NOT KNOWN FOR WHILE REPEAT CASE IF VAR MIX READ WRITE WRITELN RETURN DIV MOD ORD CHR
  sed -n 's/^### \([A-Za-z]*\).*/\1/p' "$(dirname "$(readlink -f "$(command -v "${COMP_WORDS[0]}")")")/docs/FAULTS.md" 2>/dev/null
}

# Those of the options that are not given yet; --watch may be given again.
_alma_options() {
  local option
  for option in "$@"; do
    if [ "$option" = --watch= ] || [[ " ${COMP_WORDS[*]:0:COMP_CWORD} " != *" ${option%=} "* ]]; then echo "$option"; fi
  done
}

_alma() {
  local word=${COMP_WORDS[COMP_CWORD]} command=${COMP_WORDS[1]} place=$COMP_CWORD
  COMPREPLY=()
  # `=` is a word of its own here: behind it stands a number or a name.
  if [ "$word" = = ] || [ "${COMP_WORDS[COMP_CWORD - 1]}" = = ]; then return; fi
  if [ "$command" = why ] && [ "$place" -gt 1 ]; then command=${COMP_WORDS[2]} place=$((place - 1)); fi
  case $place,$command in
  1,*) mapfile -t COMPREPLY < <(compgen -W "check run trace compile list exec sample all link pool back why replay help --help --version" -- "$word") ;;
  2,check | 2,run | 2,trace | 2,compile | 2,replay | 2,all) mapfile -t COMPREPLY < <(compgen -o plusdirs -f -X '!*.al' -- "$word") ;;
  2,link) mapfile -t COMPREPLY < <(compgen -W 'run compile' -- "$word") ;;
  3,link) # the name of an object is no source's
    if [ "${COMP_WORDS[COMP_CWORD - 1]}" = compile ]; then
      mapfile -t COMPREPLY < <(compgen -f -- "$word")
    else
      mapfile -t COMPREPLY < <(compgen -o plusdirs -f -X '!*.al' -- "$word")
    fi
    ;;
  *,link) mapfile -t COMPREPLY < <(compgen -o plusdirs -f -X '!*.al' -- "$word") ;;
  2,list | 2,exec | 3,compile | *,pool | 2,back | 3,back) mapfile -t COMPREPLY < <(compgen -f -- "$word") ;;
  2,help) mapfile -t COMPREPLY < <(compgen -W "$(_alma_topics)" -- "$word") ;;
  *,replay)
    case ${COMP_WORDS[COMP_CWORD - 1]} in
    --input | -o) mapfile -t COMPREPLY < <(compgen -f -- "$word") ;;
    *) mapfile -t COMPREPLY < <(compgen -W "$(_alma_options --input --steps= -o)" -- "$word") ;;
    esac
    ;;
  *,run | *,exec) mapfile -t COMPREPLY < <(compgen -W "$(_alma_options --steps= --stats)" -- "$word") ;;
  *,all) mapfile -t COMPREPLY < <(compgen -W "$(_alma_options --steps=)" -- "$word") ;;
  *,trace) mapfile -t COMPREPLY < <(compgen -W "$(_alma_options --steps= --watch=)" -- "$word") ;;
  esac
  case ${COMPREPLY[0]-} in
  --*=) compopt -o nospace ;;
  --*) ;;
  *) if [ "$place" -gt 1 ]; then compopt -o filenames; fi ;;
  esac
}
complete -F _alma alma ./alma
