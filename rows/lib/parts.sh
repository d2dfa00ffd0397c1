# shellcheck shell=bash disable=SC2154
# Rows of texts that are wrong at each of their places in turn: cut off there, or with a NUL byte inserted.
# The tables of rows/ that need it source it.

# Compares the last run, with the name $1, with the escaped text $2. If that begins like the line of an error,
# it is compared with standard error, and the status must be 1. Otherwise it is compared with standard output;
# for `plan` with the lines after the header.
parts_compare() {
  local answer
  printf '%b' "$2" >"$work/answer.wanted"
  IFS= read -r -d '' -n 8 answer <"$work/answer.wanted"
  if [ "$answer" = "agenda: " ]; then
    compare "$1" /dev/null "$work/answer.wanted" 1
  elif [ "${ran[1]}" = plan ]; then
    compare_agenda "$1" "$work/answer.wanted"
  else
    compare "$1" "$work/answer.wanted" /dev/null 0
  fi
}

# Rows from standard input: a part of a text, and after a bar the escaped answer for each place in it, as in
# parts_compare. The parts together are the text. Its file is $2, and the arguments from $3 on pass it to the
# program. If $1 says so, the places of a part are:
#   cut    after each of its bytes: the text ends there. An empty part is the place between its neighbours
#   zero   before each of its bytes: a NUL byte is inserted there. An empty part is the place between its neighbours
parts_rows() {
  local how=$1 file=$2 part answer row place first=0 begin=0 whole=''
  local -a parts=() answers=()
  shift 2
  [ "$how" = zero ] || first=1
  while IFS='|' read -r part answer; do
    printf -v part '%b' "$part"
    parts+=("$part")
    answers+=("$answer")
    whole+=$part
  done
  for row in "${!parts[@]}"; do
    part=${parts[row]}
    [ -n "$part" ] || parts_place "$how" "$begin" "$@"
    for ((place = begin + first; place < begin + first + ${#part}; place++)); do
      parts_place "$how" "$place" "$@"
    done
    begin=$((begin + ${#part}))
  done
}

# Checks that the place $2 of the text of parts_rows has the answer of its row.
parts_place() {
  local how=$1 place=$2 name
  shift 2
  if [ "$how" = zero ]; then
    printf '%s\0%s' "${whole:0:place}" "${whole:place}" >"$file"
    name="$(basename "$file") with a byte 0 behind $place bytes"
  else
    printf '%s' "${whole:0:place}" >"$file"
    name="the first $place bytes of $(basename "$file")"
  fi
  run_in "$(dirname "$file")" agenda "$@"
  parts_compare "$name" "${answers[row]}"
}
