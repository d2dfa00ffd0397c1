#!/usr/bin/env bash
# Makes one agenda of many machines: plans a span for each directory with a machine's files, several in parallel, and
# merges the answers by time.
#
# Usage: fleet.sh [--limit COUNT] SINCE UPTO DIRECTORY ..
#
# SINCE and UPTO are times as `agenda machine plan` reads them. COUNT is the maximum number of starts of a machine. Texts
# of times are read in UTC, and rules in the time zone of their machine. A line has the time in UTC, the machine, the
# job and what it runs, separated by tabs. There is no header. A machine has the name of its directory. Lines with the
# same time are in the order of the directories, and lines of one machine stay in its order.
#
# Messages about a machine go to standard error, each line after the machine's name. What is invalid or can't be read
# is skipped, and the agenda has the other starts of the machine. If a machine has no answer, a line says why. The
# status is 1 if there was an error on any machine, 2 for a usage error, and 3 if the answers can't be kept or merged.
# An error of the span or of the limit ends the script with the status of agenda.
set -uf -o pipefail
export LC_ALL=C

limit=10000
# The temporary directory, the process group that plans or merges, and the signals that end both with the script.
work=
child=
signals=(HUP INT QUIT PIPE TERM)

# Sets `name` to the name of the machine in the directory $1. Status 1: the name can't be part of a line.
find_name() {
  name=${1%"${1##*[!/]}"}
  name=${name##*/}
  [[ -n $name && $name != *[[:cntrl:]]* ]] && return
  name=${1@Q}
  return 1
}

# Writes the agenda of the machine in the directory $1, with its name in each line, with times in UTC and without the header.
# Makes the file $2 if there is a header: then the machine has an answer, even if something was skipped.
write_lines() {
  agenda machine plan --root="$1" --text --limit="$limit" --since="$since" --until="$upto" |
    NAME=$name HEADED=$2 awk -F '\t' '
      # Returns the days from 1970-01-01 to a date, where a year begins in March.
      function days(year, month, day) {
        if (month < 3) { year--; month += 12 }
        return 365 * year + int(year / 4) - int(year / 100) + int(year / 400) + int((153 * month - 457) / 5) + day - 719469
      }
      # Returns the local time, such as 2024-06-15T03:00:00+02:00, in UTC.
      function utc(time, offset, second, day, year, month) {
        if (time ~ /Z$/) return time
        offset = substr(time, 21, 2) * 3600 + substr(time, 24, 2) * 60 + substr(time, 27, 2)
        if (substr(time, 20, 1) == "+") offset = -offset
        second = substr(time, 12, 2) * 3600 + substr(time, 15, 2) * 60 + substr(time, 18, 2) + offset
        day = substr(time, 1, 10)
        if (second < 0 || second >= 86400) {
          day = days(substr(day, 1, 4), substr(day, 6, 2) + 0, substr(day, 9)) + (second < 0 ? -1 : 1)
          second += second < 0 ? 86400 : -86400
          year = 1970 + int(day / 365.2425)
          while (days(year + 1, 1, 1) <= day) year++
          while (days(year, 1, 1) > day) year--
          for (month = 12; days(year, month, 1) > day; month--) continue
          day = sprintf("%04d-%02d-%02d", year, month, day - days(year, month, 1) + 1)
        }
        return day sprintf("T%02d:%02d:%02dZ", int(second / 3600), int(second / 60) % 60, second % 60)
      }
      NR == 1 { printf "" >(ENVIRON["HEADED"]); next }
      $1 != last { last = $1; shown = utc($1) }
      { print shown "\t" ENVIRON["NAME"] substr($0, length($1) + 1) }'
}

# Writes the messages about a machine, which are on standard input. If there are none and its plan didn't end with
# status 0, a line has the status, $1.
write_said() {
  local line said=no
  while IFS= read -r line; do
    printf '%s: %s\n' "$name" "$line"
    said=yes
  done
  [[ $1 = 0 || $said = yes ]] || printf '%s: status %s\n' "$name" "$1"
}

# Plans the machine whose files are in the directory $2. Its lines go to $1/lines, and the messages about it to $1/said. If it has
# an answer, there is a file $1/done. If there was no error, there is also a file $1/whole.
plan_machine() {
  local own=$1 folder=$2 name status=1
  exec 2>"$own/errors" || return
  if ! find_name "$folder"; then
    echo "no name of a machine" >&2
  elif [[ -d $folder && ! (-r $folder && -x $folder) ]]; then
    echo "$folder: not readable" >&2
  else
    write_lines "$folder" "$own/headed" >"$own/lines"
    status=$?
  fi
  write_said "$status" <"$own/errors" >"$own/said"
  # with status 1 or 3 an answer is without what was skipped; any other status is a plan that was cut off
  [[ $status != [013] || ! -e $own/headed ]] || : >"$own/done"
  [[ $status != 0 ]] || : >"$own/whole"
}

# Plans the machines that are given from $5 on, each by its number and its directory. The directory of a machine's answer is
# $1/NUMBER. The span is $2 to $3, and the limit is $4.
plan_some() {
  local own=$1
  since=$2 upto=$3 limit=$4
  shift 4
  while [[ $# -ge 2 ]]; do
    plan_machine "$own/$1" "$2"
    shift 2
  done
}

# Reports a usage error, and ends the script.
refuse_words() {
  echo "Usage: fleet.sh [--limit COUNT] SINCE UPTO DIRECTORY .." >&2
  exit 2
}

# shellcheck disable=SC2317
clean() {
  local try=0
  # a process that got a signal may still write its last file
  until [[ -z $work ]] || rm -rf -- "$work" 2>/dev/null || ((++try > 20)); do
    sleep 0.1
  done
  work=
}

# Ends the script by the signal $1, after the processes that run for it.
# shellcheck disable=SC2317
die_by() {
  trap '' "${signals[@]}"
  if [[ -n $child ]]; then
    kill -- "-$child"
    wait "$child"
  fi 2>/dev/null
  clean
  trap - EXIT "$1"
  kill -s "$1" $$
  exit $((128 + $(kill -l "$1")))
}

# Makes the temporary directory, for all temporary files. It is removed when the script ends, also by a signal.
make_work() {
  local signal
  trap clean EXIT
  for signal in "${signals[@]}"; do
    # shellcheck disable=SC2064
    trap "die_by $signal" "$signal"
  done
  work=$(mktemp -d) || exit 3
  [[ $work = /* ]] || work=$PWD/$work
  mkdir -p -- "$work/none/etc" "$work/none/var/lib" "$work/temporary" || exit 3
  export TMPDIR=$work/temporary
}

# Runs a command in a process group of its own, so that the script obeys a signal at once and can end the whole group.
run() {
  set -m
  "$@" &
  child=$!
  wait "$child"
  local status=$?
  child=
  return "$status"
}

# Sets `since` and `upto` to the timestamps of the span, the same for all machines. They are those in the agenda of a
# machine without files.
settle_span() {
  local header
  header=$(agenda machine plan --utc --text --root="$work/none" --limit="$limit" --since="$since" --until="$upto") || exit
  IFS=$'\t' read -r _ since upto _ <<<"$header"
}

# Plans the machines in the directories $@, as many at a time as there are processors. A process plans up to 8 of them, one
# after the other, if that leaves some processes for each processor.
plan_machines() {
  local by=(xargs) number=0 folder self processors some
  [[ $(parallel --version 2>/dev/null) != 'GNU parallel'* ]] || by=(parallel --plain -q -u)
  self=$(readlink -f -- "$0") && processors=$(nproc) || exit 3
  some=$(($# / processors / 4))
  some=$((some < 1 ? 1 : some > 8 ? 8 : some))
  for folder in "$@"; do
    printf '%d\0%s\0' "$((++number))" "$folder"
  done >"$work/machines" || exit 3
  for ((; number > 0; number--)); do
    printf '%s\0' "$work/$number"
  done | xargs -0 mkdir -- || exit 3
  run "${by[@]}" -0 -n "$((2 * some))" -P "$processors" \
    bash "$self" --machines "$work" "$since" "$upto" "$limit" <"$work/machines"
}

# Lists the files with the lines of the machines $@, and those with the messages about them. Sets `failed`.
list_answers() {
  local number=0 folder own name
  for folder in "$@"; do
    own=$work/$((++number))
    [[ -e $own/whole ]] || failed=yes
    if [[ -e $own/done ]]; then
      printf '%s\0' "$own/lines" >&3
    elif [[ ! -s $own/said ]]; then
      # its process was ended
      find_name "$folder"
      printf '%s: no answer\n' "$name" >"$own/said"
    fi
    [[ ! -s $own/said ]] || printf '%s\0' "$own/said" >&4
  done 3>"$work/answers" 4>"$work/said"
}

# Prints the messages about the machines, and merges their lines. sort opens at most 16 files at once.
merge_answers() {
  xargs -0 -r cat -- <"$work/said" >&2
  [[ ! -s $work/answers ]] || run sort -m -s -t $'\t' -k 1,1 --batch-size=16 --files0-from="$work/answers"
}

if [[ ${1-} = --machines ]]; then
  plan_some "${@:2}"
  exit 0
fi
if [[ ${1-} = --limit && $# -ge 2 ]]; then
  limit=$2
  shift 2
fi
[[ $# -ge 3 && $1 != -* ]] || refuse_words
since=$1 upto=$2 failed=no
shift 2
make_work
settle_span
plan_machines "$@"
list_answers "$@" || exit 3
merge_answers || exit 3
[[ $failed = no ]]
