# shellcheck shell=bash
# Judges the words of the command line by docs/COMMANDS.txt, before anything is built or run. For the script `fab`.
#
# What is refused here is what the program would refuse: with the same status, and the same report on standard output.
# Lines on standard error say more. Two things are refused here alone: an output that would replace an input of the same
# command, and a text of a fabric that would replace Verilog of another kind.

page=$(dirname "$(readlink -f "${BASH_SOURCE[0]}")")/../docs/COMMANDS.txt
commands=()
# Of each command its form behind the name, and the names in its lines `Reads:` and `Stores:`. Of each number, as `sample N`
# or `--seed`, the least and the greatest.
declare -A form=() reads=() stores=() bounds=()
# Of the words that were judged: the value of each name of the form, as [FABRIC]=f.csv, and of each option, as [--pcf]=p.pcf.
declare -A value=()

# names_in TEXT: the words of the text that are in capitals, also with an ending, as BASE.v
names_in() {
  local words word found=()
  read -ra words <<<"$1"
  for word in "${words[@]}"; do
    word=${word%[,.;]}
    if [[ $word =~ ^[A-Z]+([.][a-z]+)?$ ]]; then
      found+=("$word")
    fi
  done
  echo "${found[*]-}"
}

# bounds_in ENTRY TEXT: what the text says of the numbers of a command or of an option
bounds_in() {
  local rest=$2
  if [[ $1 == --* && $rest =~ From\ ([0-9]+)\ to\ ([0-9]+) ]]; then
    bounds[$1]="${BASH_REMATCH[1]} ${BASH_REMATCH[2]}"
  fi
  while [[ $1 != --* && $rest =~ ([A-Z]+)\ [a-z\ ]*from\ ([0-9]+)\ to\ ([0-9]+)(.*) ]]; do
    bounds[$1 ${BASH_REMATCH[1]}]="${BASH_REMATCH[2]} ${BASH_REMATCH[3]}"
    rest=${BASH_REMATCH[4]}
  done
}

# Reads the page. A title has no margin, an entry a margin of 2 blanks, and what is said of it one of 6.
read_page() {
  local line part='' entry='' it
  local is_command='^  ([a-z]+)(( [A-Z]+)*( \[--[a-z]+ [A-Z]+\])*)$' is_option='^  (--[a-z]+) [A-Z]+$'
  local -A text=()
  while IFS= read -r line; do
    case $line in
      [A-Z]*) part=$line entry='' ;;
      '      Reads: '*) reads[$entry]=$(names_in "$line") ;;
      '      Stores: '*) stores[$entry]=$(names_in "$line") ;;
      '      '*) [ -z "$entry" ] || text[$entry]+=" ${line#      }" ;;
      *)
        if [[ $part == COMMANDS && $line =~ $is_command ]]; then
          entry=${BASH_REMATCH[1]}
          commands+=("$entry")
          form[$entry]=${BASH_REMATCH[2]# }
        elif [[ $part == OPTIONS && $line =~ $is_option ]]; then
          entry=${BASH_REMATCH[1]}
        fi
        ;;
    esac
  done <"$page"
  for it in "${!text[@]}"; do
    bounds_in "$it" "${text[$it]}"
  done
}

# entry_of NAME: the lines of the page on a command or an option
entry_of() {
  awk -v name="$1" '
    /^[A-Z]/ { is_on = /^(COMMANDS|OPTIONS)$/ }
    /^  [a-z-]/ { is_found = is_on && $1 == name }
    is_found && /^  / { print }
  ' "$page"
}

# show_command COMMAND: what the page says of the command and of its options
show_command() {
  local option
  entry_of "$1"
  for option in $(options_of "$1"); do
    echo
    entry_of "$option"
  done
  printf '\nfab --help prints the whole page.\n'
}

options_of() {
  grep -o -e '--[a-z]*' <<<"${form[$1]}"
}

say() {
  printf 'fab: %s\n' "$@" >&2
}

# refuse STATUS REPORT LINE..: ends with the status. The report goes to standard output, the lines to standard error.
refuse() {
  printf '%s\n' "$2"
  say "${@:3}"
  exit "$1"
}

# refuse_words LINE: the words are faulty; shows the form that the command has
refuse_words() {
  refuse 1 usage "$1" "the form is: fab $command${form[$command]:+ ${form[$command]}}"
}

# distance WORD WORD: how many letters have to be changed, added or left out to make one word of the other
distance() {
  local at to cost least row=() above
  for ((to = 0; to <= ${#2}; to++)); do
    row[to]=$to
  done
  for ((at = 1; at <= ${#1}; at++)); do
    above=("${row[@]}")
    row[0]=$at
    for ((to = 1; to <= ${#2}; to++)); do
      cost=1
      if [ "${1:at-1:1}" = "${2:to-1:1}" ]; then
        cost=0
      fi
      least=$((above[to - 1] + cost))
      least=$((above[to] + 1 < least ? above[to] + 1 : least))
      row[to]=$((row[to - 1] + 1 < least ? row[to - 1] + 1 : least))
    done
  done
  echo "${row[${#2}]}"
}

# hint WORD CANDIDATE..: asks whether the nearest of the candidates was meant, where one is near
hint() {
  local least=3 nearest='' it now
  # nobody misspells a short word so that it gets long, and a long word takes long here
  if [ "${#1}" -le 24 ]; then
    for it in "${@:2}"; do
      now=$(distance "$1" "$it")
      if [ "$now" -lt "$least" ]; then
        least=$now nearest=$it
      fi
    done
  fi
  if [ -n "$nearest" ]; then
    echo "; did you mean $nearest?"
  fi
}

refuse_command() {
  if [[ $1 == -* ]]; then
    refuse 1 usage "'$1' stands where the command has to be; options stand behind it" "there are: ${commands[*]}"
  fi
  refuse 1 usage "there is no command '$1'$(hint "$1" "${commands[@]}")" \
    "there are: ${commands[*]} (fab help COMMAND tells more)"
}

# not_above NUMBER NUMBER: whether the first is at most the second. Both may have 20 digits, which the shell cannot count.
not_above() {
  [ "${#1}" -lt "${#2}" ] || { [ "${#1}" -eq "${#2}" ] && [[ ! $1 > $2 ]]; }
}

# judge_number NAME WORD ENTRY: the word has to be a number in the bounds of the entry
judge_number() {
  local digits=$2 least=${bounds[$3]% *} most=${bounds[$3]#* } LC_ALL=C
  if [[ $digits =~ ^[0-9]{1,20}$ ]]; then
    digits=${digits#"${digits%%[!0]*}"}
    digits=${digits:-0}
    if not_above "$least" "$digits" && not_above "$digits" "$most"; then
      return
    fi
  fi
  refuse_words "$1 is a number from $least to $most, and not '$2'"
}

# take_option OPTION WORD: takes the word as the option's value
take_option() {
  if [ -n "${value[$1]+given}" ]; then
    refuse_words "$1 stands twice"
  fi
  value[$1]=$2
  if [ -n "${bounds[$1]-}" ]; then
    judge_number "$1" "$2" "$1"
  fi
}

# judge_option OPTION: the command has to have it
judge_option() {
  local had it
  mapfile -t had < <(options_of "$command")
  for it in ${had[@]+"${had[@]}"}; do
    [ "$it" != "$1" ] || return 0
  done
  case $1 in
    --proved | --unproved) refuse_words "$1 stands in front of the command: fab $1 $command .." ;;
  esac
  if [ ${#had[@]} -eq 0 ]; then
    refuse_words "$command has no options, and no '$1'"
  fi
  refuse_words "$command has no option '$1'$(hint "$1" "${had[@]}")"
}

# judge_grammar WORD..: the words behind the command have to be those of its form. They go to `value`.
judge_grammar() {
  local names word option=''
  read -ra names <<<"${form[$command]%%[[]*}"
  local count=0 all=${#names[@]}
  for word in "$@"; do
    if [ -n "$option" ]; then
      if [[ -z $word || $word == -* ]]; then
        refuse_words "$option has to be followed by its value, which does not begin with a dash, and not by '$word'"
      fi
      take_option "$option" "$word"
      option=
    elif [[ $word == --*=* ]]; then
      judge_option "${word%%=*}"
      if [ -z "${word#*=}" ]; then
        refuse_words "nothing stands behind '$word'"
      fi
      if [[ $word == --reset=-* ]]; then
        refuse_words "a port does not begin with a dash, as '${word#*=}' does"
      fi
      take_option "${word%%=*}" "${word#*=}"
    elif [[ $word == -* ]]; then
      judge_option "$word"
      option=$word
    elif [ -z "$word" ]; then
      refuse_words "a word of $command is empty"
    else
      if [ "$count" -eq "$all" ]; then
        refuse_words "$command takes ${all/#0/no} words, and '$word' is one too many"
      fi
      value[${names[count]}]=$word
      count=$((count + 1))
    fi
  done
  if [ -n "$option" ]; then
    refuse_words "nothing stands behind $option"
  fi
  if [ "$count" -lt "$all" ]; then
    refuse_words "$command takes $all words, and was given $count; missing: ${names[*]:count}"
  fi
  for word in "${names[@]}"; do
    if [ -n "${bounds[$command $word]-}" ]; then
      judge_number "$word" "${value[$word]}" "$command $word"
    fi
  done
}

# judge_stem: `matrix` names the module by the stem of LIST
judge_stem() {
  local stem=${value[LIST]##*/} LC_ALL=C
  stem=${stem%.*}
  if [[ ! $stem =~ ^[A-Za-z_][A-Za-z0-9_]*$ ]]; then
    refuse_words "the module is named by the file of LIST, and '$stem' is no name: letters, digits and _, with no digit in front"
  fi
}

# judge_columns: `partial` takes the columns from FIRST to LAST
judge_columns() {
  if [ $((10#${value[FIRST]})) -gt $((10#${value[LAST]})) ]; then
    refuse_words "FIRST is not above LAST, and ${value[FIRST]} is above ${value[LAST]}"
  fi
}

# The files of the command that are read, as far as its words name them.
inputs() {
  local name
  for name in ${reads[$command]}; do
    # the page calls the file of --pcf FILE
    [ "$name" != FILE ] || name=--pcf
    if [ -n "${value[$name]+given}" ]; then
      printf '%s\0' "${value[$name]}"
    fi
  done
}

# The files that the command stores.
outputs() {
  local name ending
  for name in ${stores[$command]}; do
    ending=${name#"${name%%.*}"}
    printf '%s\0' "${value[${name%%.*}]}$ending"
  done
}

judge_input() {
  if [ ! -e "$1" ]; then
    refuse 2 "missing $1" "there is no file '$1'"
  fi
  if [ -d "$1" ]; then
    refuse 11 "read fault $1" "'$1' is a folder, and a file is wanted"
  fi
}

# judge_output FILE: it can be stored there, as far as one can tell before
judge_output() {
  local folder=.
  if [[ $1 == */* ]]; then
    folder=${1%/*}
  fi
  folder=${folder:-/}
  if [ -d "$1" ]; then
    refuse 12 "write fault $1" "'$1' is a folder, and a file would be stored under that name"
  elif [ -e "$1" ]; then
    [ -w "$1" ] || refuse 12 "write fault $1" "the file '$1' is there and cannot be written"
  elif [ ! -d "$folder" ]; then
    refuse 12 "write fault $1" "there is no folder '$folder', where '$1' would be stored: make it first"
  elif [ ! -w "$folder" ]; then
    refuse 12 "write fault $1" "nothing can be written into the folder '$folder', where '$1' would be stored"
  fi
}

# tells_fit COMMAND: whether it is said what an implementation takes of its fabric: where the program tells what it does
tells_fit() {
  [ "${FAB_PROGRESS-}" = 1 ] || [ -t 2 ] || return
  case $1 in
    flow | map | assemble) return 0 ;;
  esac
  return 1
}

# is_fabric_text FILE: whether fab wrote it, or began to: an interrupted run may leave the first part. Such a text begins
# with the look-up table, the pad or the multiplexer tree, or with a tile where the grid has none of them.
is_fabric_text() {
  local first=''
  IFS= read -r first <"$1"
  case $first in
    'module LUT4c_frame_config (' | 'module IO_1_bidirectional_frame_config_pass (' | 'module MUX8LUT_frame_config (') return 0 ;;
  esac
  [ ! -s "$1" ] || { grep -q -e '^module ConfigLoader ($' -e '^  input fab_chain_i,$' "$1" && grep -q '^module eFPGA ($' "$1"; }
}

# judge_loss OUTPUT INPUT..: storing it may not destroy what the caller wrote
judge_loss() {
  local input
  [ -f "$1" ] || return 0
  for input in "${@:2}"; do
    if [ "$1" -ef "$input" ]; then
      refuse_words "'$1' is read, and would then be replaced; give the output another name"
    fi
  done
  if [ "$command" = flow ] && [[ $1 == *.v ]] && ! is_fabric_text "$1"; then
    refuse_words "'$1' is there and is no text of a fabric; flow would replace it, so give BASE another name"
  fi
}

judge_files() {
  local files=() file
  mapfile -d '' -t files < <(inputs)
  for file in ${files[@]+"${files[@]}"}; do
    judge_input "$file"
  done
  while IFS= read -r -d '' file; do
    judge_output "$file"
    judge_loss "$file" ${files[@]+"${files[@]}"}
  done < <(outputs)
}

# judge_words COMMAND WORD..: ends with a status where the words are surely refused
judge_words() {
  command=$1
  if [ -z "${form[$command]+known}" ]; then
    refuse_command "$command"
  fi
  judge_grammar "${@:2}"
  if [ "$command" = matrix ]; then
    judge_stem
  elif [ "$command" = partial ]; then
    judge_columns
  fi
  judge_files
}
