# Completion of the words of raml and explain for bash.

# The functions of the first program among the words.
_raml_functions() {
  local word
  for word in "${COMP_WORDS[@]:2}"; do
    [[ $word == *.raml ]] || continue
    raml types "$word" 2>/dev/null | cut -d ' ' -f 1
    return
  done
}

# The operands before the word, those behind the command, without options and their values.
_raml_operands() {
  local i count=0
  for ((i = 2; i < COMP_CWORD; i++)); do
    case ${COMP_WORDS[i]} in
      --degree | --pivot | --steps | --cells) i=$((i + 1)) ;;
      -*) ;;
      *) count=$((count + 1)) ;;
    esac
  done
  echo "$count"
}

_raml() {
  local word=${COMP_WORDS[COMP_CWORD]} before=${COMP_WORDS[COMP_CWORD - 1]} words=''
  if [ "$COMP_CWORD" -eq 1 ]; then
    words='analyse certify verify run priced spend compare contract powers types code trial'
  elif [ "$before" = --degree ]; then
    words='1 2 3 4'
  elif [ "$before" = --pivot ]; then
    words='least greatest'
  elif [[ $word == -* ]]; then
    case ${COMP_WORDS[1]} in
      analyse | certify) words='--degree --pivot' ;;
      run) words='--degree --steps --cells' ;;
      spend) words='--steps --cells' ;;
      priced | compare | contract | powers) words='--degree' ;;
    esac
  elif [[ ${COMP_WORDS[1]}:$(_raml_operands) == @(run:1|spend:2) ]]; then
    words=$(_raml_functions)
  fi
  mapfile -t COMPREPLY < <(compgen -W "$words" -- "$word")
}

_explain() {
  local word=${COMP_WORDS[COMP_CWORD]} before=${COMP_WORDS[COMP_CWORD - 1]} words=''
  if [ "$COMP_CWORD" -eq 1 ]; then
    words='check bounds budget verify why plot profile lsp help --help --version'
  elif [ "${COMP_WORDS[1]}" = help ]; then
    words='check bounds budget verify why plot profile lsp help'
  elif [ "$before" = --degree ]; then
    words='1 2 3 4'
  elif [ "$before" = --function ] || [[ ${COMP_WORDS[1]}:$before == check:--data ]]; then
    words=$(_raml_functions)
  elif [ "$before" = --meter ]; then
    words='ticks cells work'
  elif [ "$before" = --within ]; then
    words='ticks= cells= work='
    compopt -o nospace
  elif [[ $word == -* ]]; then
    case ${COMP_WORDS[1]} in
      check) words='--data --help' ;;
      bounds) words='--degree --function --at --within --width --json --help' ;;
      budget) words='--write --degree --json --force --help' ;;
      verify) words='--help' ;;
      why) words='--function --meter --degree --write --force --help' ;;
      plot) words='--sizes --seed --data --of --degree --meter --output --force --help' ;;
      profile) words='--function --degree --at --help' ;;
      lsp) words='--degree --budget --log --help' ;;
    esac
  elif [[ ${COMP_WORDS[1]}:$(_raml_operands) == plot:1 ]]; then
    words=$(_raml_functions)
  fi
  mapfile -t COMPREPLY < <(compgen -W "$words" -- "$word")
}

complete -o default -F _raml raml
complete -o default -F _explain explain
