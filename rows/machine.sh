# shellcheck shell=bash disable=SC2154,SC2034,SC2016
# Rows about bin/agenda-machine: it runs `agenda machine` by the agenda next to it, with its own arguments, and with the
# width of the terminal as COLUMNS if that is unset.

# shellcheck source=/dev/null
. "$top/rows/lib/program.sh"

machine_bin=$machine_folder/bin

# Makes the directory `bin` with a copy of the script next to a stub for agenda, which prints COLUMNS, its arguments and its
# standard input, and ends with the status MACHINE_STATUS.
machine_make_stub() {
  mkdir -p "$machine_bin"
  cp -- "$top/bin/agenda-machine" "$machine_bin/"
  cat >"$machine_bin/agenda" <<'STUB'
#!/bin/sh
printf 'COLUMNS %s\n' "${COLUMNS-unset}"
[ $# = 0 ] || printf '<%s>\n' "$@"
[ -z "${MACHINE_READS-}" ] || cat
exit "${MACHINE_STATUS-0}"
STUB
  chmod 755 "$machine_bin/agenda"
}

# Rows from standard input: the script's arguments, with bars between them and escapes, and those of agenda after `machine`.
machine_words() {
  local row words word
  while IFS= read -r row; do
    printf -v row '%b' "$row"
    IFS='|' read -r -d '' -a words < <(printf '%s|\0' "$row")
    [ -n "$row" ] || words=()
    {
      echo 'COLUMNS unset'
      printf '<%s>\n' machine "${words[@]}"
    } >"$work/out.wanted"
    run_in "$machine_folder" env -u COLUMNS "$machine_bin/agenda-machine" "${words[@]}"
    compare "agenda-machine: arguments '$row'" "$work/out.wanted" /dev/null 0
  done
}

# Rows of what sets the size of the terminal, what sets COLUMNS, and the COLUMNS that agenda gets.
machine_widths() {
  local size given wanted command
  printf -v command '%q check' "$machine_bin/agenda-machine"
  while IFS='|' read -r size given wanted; do
    printf '%s\n' "COLUMNS $wanted" '<machine>' '<check>' >"$work/out.wanted"
    run_in "$machine_folder" env -u COLUMNS TERM=xterm SHELL=/bin/sh script -qec "$size unset COLUMNS; $given exec $command" /dev/null
    sed -i 's/\r$//' "$work/out"
    compare "agenda-machine: the width after '$size' and '$given'" "$work/out.wanted" /dev/null 0
  done
}

machine_make_stub
machine_words <<'ROWS'

check
--root|a b|--all
next|30 4 * * *|--count|1
next||--utc
plan|--since|tomorrow 02:00|--|-x
a\nb|\tc|*|$HOME|é
--help
--version
ROWS

# The status, the standard input and a COLUMNS that is given are passed on.
for machine_status in 0 1 2 3 77; do
  printf '%s\n' 'COLUMNS 33' '<machine>' '<quiet>' >"$work/out.wanted"
  run_in "$machine_folder" env COLUMNS=33 "MACHINE_STATUS=$machine_status" "$machine_bin/agenda-machine" quiet
  compare "agenda-machine: the status $machine_status" "$work/out.wanted" /dev/null "$machine_status"
done
printf '%s\n' 'COLUMNS unset' '<machine>' read >"$work/out.wanted"
run_in "$machine_folder" bash -c 'unset COLUMNS; echo read | MACHINE_READS=yes "$1"' reads "$machine_bin/agenda-machine"
compare "agenda-machine: standard input" "$work/out.wanted" /dev/null 0

# The agenda next to the script is run, also by a link to the script, and no other.
ln -s bin/agenda-machine "$machine_folder/by-link"
printf '%s\n' 'COLUMNS unset' '<machine>' '<sources>' >"$work/out.wanted"
run_in "$machine_folder" env -u COLUMNS ./by-link sources
compare "agenda-machine: a link to the script" "$work/out.wanted" /dev/null 0
run_in "$machine_bin" env -u COLUMNS PATH="$machine_bin:$PATH" agenda-machine sources
compare "agenda-machine: found by PATH" "$work/out.wanted" /dev/null 0
mkdir "$machine_folder/alone"
cp -- "$top/bin/agenda-machine" "$machine_folder/alone/"
run_in "$machine_folder" alone/agenda-machine sources
compare_texts "agenda-machine: no agenda" '' "agenda-machine: no agenda beside it: $(readlink -f "$machine_folder")/alone/agenda"$'\n' 3

# By the program itself: what it prints, its errors and its status.
program_make 'etc/crontab=0\x204\x20*\x20*\x20*\x20root\x20a\n C/b=x\n'
cp -- "$top/bin/agenda-machine" "$machine_folder/whole/"
for machine_question in sources check 'plan --since 2024-01-01T00:00:00Z --until 2024-01-02T00:00:00Z' 'next @daily --after @0' tomorrow --help; do
  read -r -a words <<<"$machine_question"
  [[ $machine_question = next* || $machine_question = --help ]] || words+=(--root root)
  program_run "${words[@]}"
  cp -- "$work/out" "$work/out.wanted"
  cp -- "$work/err" "$work/err.wanted"
  wanted=$status
  run_in "$machine_folder" "$machine_folder/whole/agenda-machine" "${words[@]}"
  compare "agenda-machine $machine_question" "$work/out.wanted" "$work/err.wanted" "$wanted"
done

# On a terminal: its width, unless COLUMNS is given.
if ! passed_over "agenda-machine: the rows on a terminal" script stty; then
  machine_widths <<'ROWS'
stty cols 40;||40
stty cols 200;||200
stty cols 40;|COLUMNS=200; export COLUMNS;|200
stty cols 40;|COLUMNS=x; export COLUMNS;|x
stty cols 40;|COLUMNS=; export COLUMNS;|40
ROWS
  # standard output is no terminal
  printf -v machine_command '%q check | cat' "$machine_bin/agenda-machine"
  printf '%s\n' 'COLUMNS unset' '<machine>' '<check>' >"$work/out.wanted"
  run_in "$machine_folder" env -u COLUMNS TERM=xterm SHELL=/bin/sh script -qec "unset COLUMNS; $machine_command" /dev/null
  sed -i 's/\r$//' "$work/out"
  compare "agenda-machine: a pipe on a terminal" "$work/out.wanted" /dev/null 0
  # the table of the program is cut there
  printf '%s\n' 'START                    JOB       RUNS' 'Tue 2024-01-02 04:00:00  system:1  root…' \
    '1 job after Mon 2024-01-01 12:00:00, UTC' >"$work/out.wanted"
  program_make 'etc/crontab=0\x204\x20*\x20*\x20*\x20root\x20abc\n'
  printf -v machine_command '%q --root root --utc --after 2024-01-01T12:00:00Z' "$machine_folder/whole/agenda-machine"
  run_in "$machine_folder" env -u COLUMNS TERM=xterm SHELL=/bin/sh script -qec "stty cols 40; unset COLUMNS; exec $machine_command" /dev/null
  sed -i 's/\r$//' "$work/out"
  compare "agenda-machine: a table on a terminal of 40 columns" "$work/out.wanted" /dev/null 0
fi
