# shellcheck shell=bash
# Completion of the words of fab in bash: source tools/fab.bash
# Commands, options and the endings of files are those of docs/COMMANDS.txt. For a file those with its ending are offered,
# and all files where there is none; for a number nothing is.

# Of each command its words and options, as [map]="FABRIC BLIF OUT --pcf FILE"; of each file its ending, as [BLIF]=.blif.
declare -A _fab_forms=() _fab_endings=()

_fab_read_page() {
  local line brackets='[][]'
  while IFS= read -r line; do
    if [[ $line =~ ^'  '([[:lower:]]+)((' '[[:upper:]]+)*(' [--'[[:lower:]]+' '[[:upper:]]+']')*)$ ]]; then
      _fab_forms[${BASH_REMATCH[1]}]=${BASH_REMATCH[2]//$brackets/}
    elif [[ $line =~ ^'  '([[:upper:]]+)(' ('([.][[:lower:]]+)')')?$ ]]; then
      _fab_endings[${BASH_REMATCH[1]}]=${BASH_REMATCH[3]}
    fi
  done <"$(dirname "$(readlink -f "${BASH_SOURCE[0]}")")/../docs/COMMANDS.txt"
}
_fab_read_page

# _fab_offer WORD..: offers those of the words that go on as what is typed
_fab_offer() {
  compopt +o default
  mapfile -t COMPREPLY < <(compgen -W "$*" -- "$typed")
}

# _fab_offer_value NAME: offers what may stand for a name of the page: commands, or files. Where there is no file, bash offers
# all.
_fab_offer_value() {
  if [ "$1" = COMMAND ]; then
    _fab_offer "${!_fab_forms[@]}"
    return
  fi
  if [ -z "${_fab_endings[$1]+file}" ]; then
    compopt +o default
    return
  fi
  compopt -o filenames
  mapfile -t COMPREPLY < <(compgen -f -X "!*${_fab_endings[$1]}" -- "$typed" && compgen -d -- "$typed")
}

_fab() {
  # bash takes `=` for a word of its own
  local typed=${COMP_WORDS[COMP_CWORD]#=} at=1 first=(--help --version --proved --unproved) word left value=''
  COMPREPLY=()
  if [ "$COMP_CWORD" -gt 1 ] && [[ ${COMP_WORDS[1]} == --proved || ${COMP_WORDS[1]} == --unproved ]]; then
    at=2 first=(--help --version)
  fi
  if [ "$COMP_CWORD" -eq "$at" ]; then
    _fab_offer "${!_fab_forms[@]}" "${first[@]}"
    return
  fi
  # what is left of the command's form, with blanks round each word; and behind an option the name of its value
  left="${_fab_forms[${COMP_WORDS[at]}]-} "
  for word in "${COMP_WORDS[@]:at+1:COMP_CWORD-at-1}"; do
    if [ "$word" = = ]; then
      continue
    elif [ -n "$value" ]; then
      value=
    elif [[ $word == --* && $left =~ " $word "([[:upper:]]+)' ' ]]; then
      value=${BASH_REMATCH[1]}
      left=${left/"$word $value "/}
    elif [[ $left == ' '[[:upper:]]* ]]; then
      left=" ${left# * }"
    fi
  done
  if [ -n "$value" ]; then
    _fab_offer_value "$value"
  elif [[ $left == ' '[[:upper:]]* && $typed != -* ]]; then
    word=${left# }
    _fab_offer_value "${word%% *}"
  else
    mapfile -t first < <(grep -o -e '--[a-z]*' <<<"$left")
    _fab_offer "${first[@]}"
  fi
}
complete -o default -F _fab fab
