# shellcheck shell=bash disable=SC2154,SC2034
# Rows of examples/fleet/fleet.sh, which plans many machines: by xargs, and by GNU parallel if it is installed.

# shellcheck source=/dev/null
. "$top/rows/lib/program.sh"

# This daemon ignores no crontab that agenda can read.
machine_daemon=usr/sbin/fcron

fleet_folder=$machine_folder/fleet
fleet_programs=$machine_folder/fleet-programs
fleet_script=$machine_folder/fleet.sh
fleet_temporary=$machine_folder/fleet-temporary
# The directory of agenda: the program of the other rows, or the stub.
fleet_bin=$machine_folder/whole

# Makes a directory with only the programs that the script needs, so that it finds no GNU parallel, and the
# stub for agenda. The stub answers with an agenda without lines. If the root has a crontab, it runs that as a
# script.
fleet_begin() {
  local name
  cp -- "$top/examples/fleet/fleet.sh" "$fleet_script"
  mkdir "$fleet_folder" "$fleet_programs" "$fleet_temporary" "$machine_folder/fleet-parallel" "$machine_folder/fleet-stub"
  for name in awk bash cat env mkdir mktemp nproc readlink rm sleep sort; do
    ln -s "$(command -v "$name")" "$fleet_programs/$name" || refuse "no program $name"
  done
  fleet_note xargs "$fleet_programs"
  cat >"$machine_folder/fleet-stub/agenda" <<'STUB'
#!/usr/bin/env bash
printf 'agenda 2\t2024-01-01T00:00:00Z\t2024-01-02T00:00:00Z\t0\n'
for word in "$@"; do
  [[ $word != --root=* || ! -e ${word#*=}/etc/crontab ]] || . "${word#*=}/etc/crontab"
done
STUB
  chmod 755 "$machine_folder/fleet-stub/agenda"
}

# Puts a program $1 into the directory $2 that records that it plans machines, and then runs this machine's program.
fleet_note() {
  cat >"$2/$1" <<STUB
#!/usr/bin/env bash
[[ " \$* " != *" --machines "* ]] || echo $1 >>"$machine_folder/fleet.by"
exec $(command -v "$1") "\$@"
STUB
  chmod 755 "$2/$1"
}

# Makes the machine $1 from the description $2.
fleet_make() {
  local machine_root="fleet/$1"
  program_make "$2"
}

# Runs the script with the arguments $@, by the program in fleet_by.
fleet_run() {
  local path=$fleet_bin:$fleet_programs
  [ "$fleet_by" = xargs ] || path=$fleet_bin:$machine_folder/fleet-parallel:$PATH
  rm -f "$machine_folder/fleet.by"
  TMPDIR=$fleet_temporary run_in "$fleet_folder" "${machine_by[@]}" env "PATH=$path" bash "$fleet_script" "$@"
  fleet_left=$(ls -A "$fleet_temporary")
}

# Compares the last run, with the name $1, with the files out.wanted and err.wanted and the status $2. It must
# have planned by the program $3, or by none if that is empty.
fleet_compare() {
  {
    diff -a -u --label "standard output wanted" --label "standard output" -- "$work/out.wanted" "$work/out"
    diff -a -u --label "standard error wanted" --label "standard error" -- "$work/err.wanted" "$work/err"
    [ "$status" = "$2" ] || echo "status $status, and not $2"
    [ -z "$fleet_left" ] || echo "left in the temporary folder: $fleet_left"
    [ "$(cat "$machine_folder/fleet.by" 2>/dev/null)" = "$3" ] || echo "planned by another program than '$3'"
  } >"$work/told" 2>&1
  count "fleet by $fleet_by: $1"
}

# Writes the files out.wanted and err.wanted from standard input. A line `! TEXT` is for standard error. A
# line `TIME|MACHINE|JOB|WHAT` is a start of the day.
fleet_want() {
  local line
  : >"$work/out.wanted"
  : >"$work/err.wanted"
  while IFS= read -r line; do
    case $line in
      '! '*) printf '%s\n' "${line#! }" >>"$work/err.wanted" ;;
      *) printf '2024-01-01T%s:00Z\t%s\n' "${line%%|*}" "${line#*|}" | sed 's/|/\t/g' >>"$work/out.wanted" ;;
    esac
  done
}

# The arguments from $3 on, after the span of a day, give the output on standard input and end with the status
# $2. $1 is their name.
fleet_day() {
  local name=$1 code=$2
  shift 2
  fleet_want
  fleet_run "${fleet_words[@]}" 2024-01-01T00:00:00Z 2024-01-02T00:00:00Z "$@"
  fleet_compare "$name" "$code" "$fleet_by"
}

# The machines of the rows. `one` and `two 2` start at the same time, and each has two starts then; `none` has no jobs.
fleet_machines() {
  fleet_make one 'etc/crontab=0\x201\x20*\x20*\x20*\x20root\x20b\n0\x201\x20*\x20*\x20*\x20root\x20a\n0\x203\x20*\x20*\x20*\x20root\x20c\n'
  fleet_make 'two 2' 'C/p=0\x201,2\x20*\x20*\x20*\x20root\x20d\n
    *t.timer U/t.timer=[Timer]\nOnCalendar=3:00\n E/t.timer.d/x.conf=[Timer]\nOnCalendar=1:00\n'
  fleet_make none x/
  fleet_make bad 'etc/crontab=@daily\x20root\x20x\n C/c=0\x2024\x20*\x20*\x20*\x20root\x20x\n S/d=A'
  fleet_make unread 'C/a/ C/b=0\x206\x20*\x20*\x20*\x20root\x20x\n'
  fleet_make many 'etc/crontab=*\x20*\x20*\x20*\x20*\x20root\x20x\n'
  fleet_make left 'C/a.b C/a=0\x204\x20*\x20*\x20*\x20root\x20e\n etc/localtime>nowhere'
  fleet_make sub/one 'etc/crontab=0\x205\x20*\x20*\x20*\x20root\x20f\n'
  fleet_make well 'etc/crontab=printf\x20"2024-01-01T07:00:00Z\\tx\\ty\\tz\\n"\n'
  fleet_make $'a\tb' x/
  fleet_make $'a\nb' x/
  echo >"$fleet_folder/file"
}

# One machine, several, and their order.
fleet_orders() {
  fleet_day "one machine" 0 one <<'LINES'
01:00|one|system:1|root b
01:00|one|system:2|root a
03:00|one|system:3|root c
LINES
  fleet_day "two machines" 0 one 'two 2' <<'LINES'
01:00|one|system:1|root b
01:00|one|system:2|root a
01:00|two 2|p:1|root d
01:00|two 2|t.timer|t.service
02:00|two 2|p:1|root d
03:00|one|system:3|root c
03:00|two 2|t.timer|t.service
LINES
  fleet_day "the other first" 0 'two 2' none one <<'LINES'
01:00|two 2|p:1|root d
01:00|two 2|t.timer|t.service
01:00|one|system:1|root b
01:00|one|system:2|root a
02:00|two 2|p:1|root d
03:00|two 2|t.timer|t.service
03:00|one|system:3|root c
LINES
  fleet_day "a machine without jobs" 0 none </dev/null
  fleet_day "folders with slashes" 0 ./sub//one// "$fleet_folder/sub/one" <<'LINES'
05:00|one|system:1|root f
05:00|one|system:1|root f
LINES
  fleet_day "what is left out, and a zone" 0 one left <<'LINES'
! left: agenda: skipped left/etc/cron.d/a.b: bad name
! left: agenda: the zone of left is unknown: rules are read as UTC
01:00|one|system:1|root b
01:00|one|system:2|root a
03:00|one|system:3|root c
04:00|left|a:1|root e
LINES
}

# Machines with errors: the others are in the answer, and so is what is valid.
fleet_faults() {
  local fleet_words=(--limit 1439)
  fleet_day "machines that fail in five ways" 1 gone one file bad many unread sub/one <<'LINES'
! gone: agenda: gone: not a directory
! file: agenda: file: not a directory
! bad: bad/etc/cron.d/c:1: error: hour '24': out of range 0-23 [OutOfRange]
! bad: bad/var/spool/cron/crontabs/d:1: error: expected NAME=VALUE, or five fields and a command [BadSetting]
! many: agenda: more than 1439 starts: give a shorter span, or --limit N [TooMany]
! unread: agenda: skipped unread/etc/cron.d/a: not readable
00:00|bad|system:1|root x
01:00|one|system:1|root b
01:00|one|system:2|root a
03:00|one|system:3|root c
05:00|one|system:1|root f
06:00|unread|b:1|root x
LINES
  fleet_day "machines that fail alone" 1 gone many <<'LINES'
! gone: agenda: gone: not a directory
! many: agenda: more than 1439 starts: give a shorter span, or --limit N [TooMany]
LINES
  fleet_day "folders that name no machine" 1 '' sub/one $'a\tb' / $'a\nb' <<'LINES'
! '': no name of a machine
! $'a\tb': no name of a machine
! '/': no name of a machine
! $'a\nb': no name of a machine
05:00|one|system:1|root f
LINES
  fleet_words=(--limit 1440)
  fleet_day "errors that come last" 1 one bad <<'LINES'
! bad: bad/etc/cron.d/c:1: error: hour '24': out of range 0-23 [OutOfRange]
! bad: bad/var/spool/cron/crontabs/d:1: error: expected NAME=VALUE, or five fields and a command [BadSetting]
00:00|bad|system:1|root x
01:00|one|system:1|root b
01:00|one|system:2|root a
03:00|one|system:3|root c
LINES
  fleet_run --limit 1440 2024-01-01T00:00:00Z 2024-01-02T00:00:00Z many
  : >"$work/err.wanted"
  printf '2024-01-01T%s:00Z\tmany\tsystem:1\troot x\n' {00..23}:{00..59} >"$work/out.wanted"
  fleet_compare "as many starts as the limit" 0 "$fleet_by"
}

# A directory that can't be read is an error.
fleet_locked() {
  local machine_by=() fleet_bin=$machine_folder/fleet-stub
  if ! machine_as_nobody; then
    echo "fleet: skipped a directory without rights, since setpriv can't drop those of root here"
    return
  fi
  chmod 1777 "$fleet_temporary"
  fleet_make locked 'etc/crontab=@daily\x20root\x20a\n'
  chmod 000 "$fleet_folder/locked"
  fleet_day "a folder that may not be read" 1 locked well <<'LINES'
! locked: locked: not readable
07:00|well|x|y|z
LINES
  chmod 755 "$fleet_folder/locked"
}

# Names of machines with special characters of shells, awk, sort or GNU parallel.
fleet_names() {
  # shellcheck disable=SC2016
  local name names=(-d '{}' '{1}' '%d' '$HOME' '`id`' "a'b" 'a"b' 'a\tb' 'a\\b' '&' '*' 'a;b' '~' '\0' 1e3 ' a ' ä '#')
  fleet_want </dev/null
  for name in "${names[@]}"; do
    mkdir -p -- "$fleet_folder/names/$name"/{etc,usr/sbin,var/lib,var/spool/cron}
    : >"$fleet_folder/names/$name/usr/sbin/fcron"
    echo '0 6 * * * root g' >"$fleet_folder/names/$name/etc/crontab"
    printf '2024-01-01T06:00:00Z\t%s\tsystem:1\troot g\n' "$name" >>"$work/out.wanted"
  done
  fleet_run 2024-01-01T00:00:00Z 2024-01-02T00:00:00Z "${names[@]/#/names/}"
  fleet_compare "names of machines" 0 "$fleet_by"
}

# More machines than sort keeps open, so that it merges several times: 40 machines, two of which fail, in the
# reverse order of their names.
fleet_forty() {
  local number folders=() hour
  fleet_want </dev/null
  for number in {40..01}; do
    folders+=("m$number")
    [ ! -d "$fleet_folder/m$number" ] || continue
    mkdir -p "$fleet_folder/m$number"/{etc,usr/sbin,var/lib,var/spool/cron}
    : >"$fleet_folder/m$number/usr/sbin/fcron"
    echo '0 1,2 * * * root h' >"$fleet_folder/m$number/etc/crontab"
  done
  echo '0 1,24 * * * root h' | tee "$fleet_folder/m07/etc/crontab" >"$fleet_folder/m33/etc/crontab"
  for hour in 01 02; do
    for number in {40..01}; do
      [ "$number" = 07 ] || [ "$number" = 33 ] ||
        printf '2024-01-01T%s:00:00Z\tm%s\tsystem:1\troot h\n' "$hour" "$number" >>"$work/out.wanted"
    done
  done
  printf "m%s: m%s/etc/crontab:1: error: hour '1,24': out of range 0-23 [OutOfRange]\n" 33 33 07 07 >"$work/err.wanted"
  fleet_run 2024-01-01T00:00:00Z 2024-01-02T00:00:00Z "${folders[@]}"
  fleet_compare "40 machines" 1 "$fleet_by"
}

# Arguments with which no machine is planned: the error is reported once. Each row: the arguments, the status,
# and the line of standard error.
fleet_refused() {
  local row code line words
  : >"$work/out.wanted"
  while IFS='>' read -r row code line; do
    row=${row//DAY/2024-01-01T00:00:00Z}
    IFS='|' read -r -a words <<<"$row"
    fleet_run "${words[@]}"
    cp "$work/err" "$work/err.wanted"
    [ "$(grep -cxF -- "$line" "$work/err")" = 1 ] || echo "once: $line" >>"$work/err.wanted"
    fleet_compare "refused '$row'" "$code" ''
  done
}

# The times are those of `agenda machine`, and all machines get the same ones.
fleet_moments() {
  fleet_want <<'LINES'
05:00|one|system:1|root f
LINES
  fleet_run '2024-01-01 05:00' '+1 second' sub/one
  fleet_compare "moments as texts" 0 "$fleet_by"
  : >"$work/out.wanted"
  fleet_run '2024-01-01 05:00' '+0 seconds' sub/one
  fleet_compare "an empty span" 0 "$fleet_by"
}

# What agenda may do: two lines of an error, half a line, messages before a success, the end by a signal, a
# script that is killed.
fleet_stubs() {
  local fleet_bin=$machine_folder/fleet-stub
  fleet_make 'two-lines' 'etc/crontab=echo\x20a\x20>&2\necho\x20b\x20>&2\nexit\x203\n'
  fleet_make 'half' 'etc/crontab=printf\x20"2024-01-01T07:00:00Z\\tx\\ty\\n"\nexit\x2077\n'
  fleet_make 'noisy' 'etc/crontab=echo\x20c\x20>&2\n'
  fleet_day "what agenda may say" 1 two-lines half well noisy <<'LINES'
! two-lines: a
! two-lines: b
! half: status 77
! noisy: c
07:00|well|x|y|z
LINES
  # agenda is killed
  # shellcheck disable=SC2016
  fleet_make 'killed' 'etc/crontab=kill\x20-9\x20$$\nsleep\x200.2\n'
  fleet_want <<<'07:00|well|x|y|z'
  fleet_run 2024-01-01T00:00:00Z 2024-01-02T00:00:00Z killed well
  sed 's/^\(killed: \).*/\1/' "$work/err" | uniq >"$work/err.one"
  cp "$work/err.one" "$work/err"
  echo 'killed: ' >"$work/err.wanted"
  fleet_compare "a machine that is killed" 1 "$fleet_by"
}

# The script ends by a signal, $1, while agenda runs: neither files nor processes are left.
fleet_signalled() {
  local fleet_bin=$machine_folder/fleet-stub process
  fleet_make sleeper "etc/crontab=echo\\x20\$\$\\x20>$machine_folder/fleet.sleeper\\nexec\\x20sleep\\x2020\\n"
  rm -f "$machine_folder/fleet.sleeper"
  # shellcheck disable=SC2016
  machine_by=(bash -c '
    set -m
    "${@:3}" &
    until [ -s "$2" ]; do sleep 0.05; done
    kill -s "$1" $!
    wait $!' signalled "$1" "$machine_folder/fleet.sleeper")
  fleet_run 2024-01-01T00:00:00Z 2024-01-02T00:00:00Z sleeper well
  machine_by=()
  [ "$status" = $((128 + $(kill -l "$1"))) ] || tell "status $status"
  [ ! -s "$work/out" ] || tell "something on standard output"
  [ -z "$fleet_left" ] || tell "left in the temporary folder: $fleet_left"
  process=$(cat "$machine_folder/fleet.sleeper")
  # it was sent the signal; otherwise it sleeps for 20 s
  for _ in {1..100}; do
    kill -0 "$process" 2>/dev/null || break
    sleep 0.05
  done
  ! kill -0 "$process" 2>/dev/null || tell "agenda runs on"
  count "fleet by $fleet_by: the signal $1"
}

# Its answer can't be written.
fleet_streams() {
  if [ -c /dev/full ]; then
    machine_by=(bash -c 'exec "$@" >/dev/full' full)
    fleet_run 2024-01-01T00:00:00Z 2024-01-02T00:00:00Z one
    machine_by=()
    [ "$status" = 3 ] || tell "status $status"
    [ -s "$work/err" ] || tell "nothing on standard error"
    [ -z "$fleet_left" ] || tell "left in the temporary folder: $fleet_left"
    count "fleet by $fleet_by: a device that is full"
  fi
}

# All rows, by the program $1.
fleet_all() {
  local fleet_by=$1 fleet_words=() signal
  fleet_orders
  fleet_faults
  fleet_locked
  fleet_names
  fleet_forty
  fleet_moments
  fleet_refused <<'ROWS'
>2>Usage: fleet.sh [--limit COUNT] SINCE UPTO DIRECTORY ..
DAY>2>Usage: fleet.sh [--limit COUNT] SINCE UPTO DIRECTORY ..
DAY|DAY>2>Usage: fleet.sh [--limit COUNT] SINCE UPTO DIRECTORY ..
--limit|5|DAY|DAY>2>Usage: fleet.sh [--limit COUNT] SINCE UPTO DIRECTORY ..
--limit>2>Usage: fleet.sh [--limit COUNT] SINCE UPTO DIRECTORY ..
--help|DAY|DAY|one>2>Usage: fleet.sh [--limit COUNT] SINCE UPTO DIRECTORY ..
frob|DAY|one|sub/one>1>agenda: --since: not a time: 'frob' (such as 'tomorrow 02:00', '+8h', '2026-12-01 22:00') [BadTime]
DAY|2023-12-31T00:00:00Z|one|sub/one>1>agenda: --until is before --since (2024-01-01T00:00:00+00:00) [Backwards]
ROWS
  fleet_stubs
  for signal in HUP INT QUIT TERM; do
    fleet_signalled "$signal"
  done
  fleet_streams
}

fleet_begin
fleet_machines
fleet_all xargs
if ! passed_over "fleet by GNU parallel" parallel; then
  if [[ $(parallel --version 2>/dev/null) = 'GNU parallel'* ]]; then
    fleet_note parallel "$machine_folder/fleet-parallel"
    fleet_all parallel
  else
    echo "fleet by GNU parallel: skipped, since parallel is another program here"
  fi
fi
