# Completion of the words of oat, for bash. The commands are those of the usage line, which the program puts where it is called without words.

_oat() {
  local word=${COMP_WORDS[COMP_CWORD]} usage command
  local -a commands=()
  usage=$("${COMP_WORDS[0]}" 2>&1)
  while read -r command _; do commands+=("$command"); done < <(tr '|' '\n' <<<"${usage#usage: oat }")
  if [ "$COMP_CWORD" -eq 1 ]; then
    mapfile -t COMPREPLY < <(compgen -W "${commands[*]}" -- "$word")
  elif [ "${COMP_WORDS[1]}" = drill ]; then
    COMPREPLY=()
  else
    compopt -o filenames
    mapfile -t COMPREPLY < <(compgen -f -- "$word")
    if [ "${COMP_WORDS[1]} $COMP_CWORD" = "attest 2" ]; then
      mapfile -t -O "${#COMPREPLY[@]}" COMPREPLY < <(compgen -W "--json" -- "$word")
    fi
  fi
}
complete -F _oat oat
