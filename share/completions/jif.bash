# Completion in bash for the programs of jifsplit: their commands, and the files that each word names.

# The files whose names end so, and folders.
_jif_files() {
  local file
  COMPREPLY=()
  compopt -o filenames 2>/dev/null
  while IFS= read -r file; do
    COMPREPLY+=("$file")
  done < <(compgen -f -X "!*$1" -- "$2"; [ -z "$1" ] || compgen -d -- "$2")
}

# The words of a list that begin with the word.
_jif_words() {
  COMPREPLY=($(compgen -W "$1" -- "$2"))
}

_jifsplit() {
  local word=${COMP_WORDS[COMP_CWORD]}
  COMPREPLY=()
  case "$COMP_CWORD ${COMP_WORDS[1]}" in
    '1 '*) _jif_words 'check split run replay drive compare make' "$word" ;;
    *' make') ;;
    '2 '*) _jif_files .jif "$word" ;;
    '3 '*) _jif_files .toml "$word" ;;
    '4 split' | '4 run' | '4 replay' | '4 drive' | '4 compare' | '5 compare') _jif_files '' "$word" ;;
  esac
}

_jifhost() {
  local word=${COMP_WORDS[COMP_CWORD]} hosts='' at
  COMPREPLY=()
  case ${COMP_WORDS[COMP_CWORD - 1]} in
    --program) _jif_files .jif "$word" ;;
    --hosts) _jif_files .toml "$word" ;;
    --code | --start | --seals) _jif_files '' "$word" ;;
    --turns) ;;
    --host)
      for ((at = 1; at + 1 < ${#COMP_WORDS[@]}; at++)); do
        [ "${COMP_WORDS[at]}" != --hosts ] || hosts=${COMP_WORDS[at + 1]}
      done
      [ ! -f "$hosts" ] || _jif_words "$(_jif_hosts "$hosts")" "$word"
      ;;
    *) _jif_words '--program --code --hosts --host --start --turns --seals' "$word" ;;
  esac
}

# The names of the hosts of a host file.
_jif_hosts() {
  sed -n '/^\[\[host\]\]/,/^\[\[link\]\]/s/^name *= *"\([A-Za-z0-9_]*\)".*/\1/p' "$1"
}

# The files that the words behind a program's name are, one after the other, by how their names end.
_jif_in_order() {
  local at=$((COMP_CWORD - 1)) endings=("$@")
  COMPREPLY=()
  [ "$at" -ge "${#endings[@]}" ] || _jif_files "${endings[at]}" "${COMP_WORDS[COMP_CWORD]}"
}

_jifrun() {
  _jif_in_order .jif .toml ''
}

_jifmerge() {
  local -a journals=()
  local at
  for ((at = 3; at <= COMP_CWORD; at++)); do journals+=(''); done
  _jif_in_order .jif .toml "${journals[@]}"
}

_jiffields() {
  local word=${COMP_WORDS[COMP_CWORD]} first=1
  COMPREPLY=()
  [ "${COMP_WORDS[1]}" != --program ] || [ "$COMP_CWORD" -eq 1 ] || first=2
  case $((COMP_CWORD - first)) in
    0)
      case $word in
        --*) _jif_words --program "$word" ;;
        *) [ "$first" -eq 2 ] && _jif_files .jif "$word" || _jif_files '' "$word" ;;
      esac
      ;;
    1) _jif_files .toml "$word" ;;
    2) [ ! -f "${COMP_WORDS[first + 1]}" ] || _jif_words "$(_jif_hosts "${COMP_WORDS[first + 1]}")" "$word" ;;
    3 | 4) _jif_files '' "$word" ;;
  esac
}

# The names of the fields and methods of a program, where each is declared at the beginning of a line.
_jif_parts() {
  sed -nE 's/^(void|int *\{[^}]*\}) *([A-Za-z_][A-Za-z0-9_]*).*/\2/p' "$1"
}

_jifexplain() {
  local program=${COMP_WORDS[1]}
  _jif_in_order .jif .toml
  [ "$COMP_CWORD" -ne 3 ] || [ ! -f "$program" ] || _jif_words "$(_jif_parts "$program")" "${COMP_WORDS[3]}"
}

_jifpicture() {
  _jif_in_order .jif .toml ''
}

_jiftokens() {
  _jif_in_order .jif
}

_jifkeys() {
  local word=${COMP_WORDS[COMP_CWORD]}
  COMPREPLY=()
  case $COMP_CWORD in
    1) _jif_files .toml "$word" ;;
    2) [ ! -f "${COMP_WORDS[1]}" ] || _jif_words "$(_jif_hosts "${COMP_WORDS[1]}")" "$word" ;;
    3) _jif_files '' "$word" ;;
  esac
}

complete -F _jifsplit jifsplit
complete -F _jifhost jifhost
complete -F _jifrun jifrun
complete -F _jifmerge jifmerge
complete -F _jiffields jiffields
complete -F _jifexplain jifexplain
complete -F _jifpicture jifpicture
complete -F _jiftokens jiftokens
complete -F _jifkeys jifkeys
