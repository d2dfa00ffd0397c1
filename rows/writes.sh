# shellcheck shell=bash disable=SC2154
# Rows of bin/check-examples: how many writes a run makes. The line of an error takes one write, whatever
# reports it, and so do all findings of a check. An agenda is written in pieces of up to 65,536 bytes, each as
# full as possible. The kernel counts the calls of a shell and of the processes that it waited for in
# /proc/self/io. If it doesn't, these rows are skipped.

writes_folder="$work/writes"
mkdir "$writes_folder"
printf '@daily a\n@daily\n' >"$writes_folder/crontab"
printf '@daily a\n\n* * * * * root\n' >"$writes_folder/system"
printf '[Timer]\nOnCalendar=daily\n' >"$writes_folder/d.timer"
printf '[Timer]\nOnCalendar=25:00\n' >"$writes_folder/faulty.timer"
printf '[Unit]\n' >"$writes_folder/none.timer"
printf 'mailbox 1 1\ngive\n' >"$writes_folder/script"
printf '* * * * * x\n' >"$writes_folder/minutes"
yes '* * * * * x' | head -n 1001 >"$writes_folder/many"
writes_day=(--since 2024-01-01T00:00:00Z --upto 2024-01-02T00:00:00Z)

# Runs the command, and keeps the number of its writes in the file `writes`.
writes_run() {
  # shellcheck disable=SC2016
  run_in "$writes_folder" bash -c '
    count() {
      local name value
      while read -r name value; do
        [ "$name" != syscw: ] || calls=$value
      done </proc/self/io
    }
    count
    before=$calls
    "$@"
    ended=$?
    count
    echo $((calls - before)) >writes
    exit $ended' writes "$@"
}

# The last run, with the name $1, made at least $2 writes and at most $3.
writes_between() {
  local writes
  writes=$(cat "$writes_folder/writes")
  { [ "$writes" -ge "$2" ] && [ "$writes" -le "$3" ]; } >"$work/told" 2>&1 || echo "$writes writes, and not $2 to $3" >>"$work/told"
  count "$1"
}

# Rows from standard input: arguments, the status, and the error, whose line takes one write.
writes_faults() {
  local words wanted fault
  while IFS='>' read -r words wanted fault; do
    IFS='|' read -ra words <<<"$words"
    [ "${words[0]}" != plan ] || words=(plan "${writes_day[@]}" "${words[@]:1}")
    writes_run agenda "${words[@]}"
    is_refused "$fault" "$fault" "$wanted"
    writes_between "'$fault' by one write" 1 1
  done
}

# The agenda of the user's crontab $1 up to the time $2 has $3 starts. The header has 52 bytes besides the
# digits of their number (9 for `agenda 2` and a tab, 21 for each timestamp and a tab, and the newline), and
# each line has 30. Both are written in parts of at most 21 bytes. A piece is written before the end if the
# next part doesn't fit. So each piece except the last has 65,516 to 65,536 bytes.
writes_agenda() {
  local bytes wanted=$((52 + ${#3} + 30 * $3))
  writes_run agenda plan --since 2024-01-01T00:00:00Z --upto "$2" --limit 1000000 --crontab "$1"
  bytes=$(stat -c %s "$work/out")
  [ "$status" = 0 ] || bytes=0
  writes_between "an agenda of $wanted bytes" $(((wanted + 65535) / 65536)) $((1 + (wanted - 1) / 65516))
  { [ "$bytes" = "$wanted" ] || echo "$bytes bytes"; } >"$work/told"
  count "the bytes of an agenda of $wanted"
}

writes_rows() {
  writes_faults <<'ROWS'
next|--after|2024|--cron|@daily>1>after: BadForm
next|--after|2024-01-01T00:00:00Z|--count|0|--cron|@daily>1>count: BadCount
next|--after|2024-01-01T00:00:00Z|--calendar|daily Europe/Oslo>1>rule: part 8: Zone
plan|--crontab|crontab>1>crontab: line 2: NoCommand
plan|--system-crontab|system>1>system crontab: line 1: NoCommand
plan|faulty.timer>1>faulty.timer: line 2: part 5: OutOfRange
plan|none.timer>1>none.timer: line 0: NoTimerSection
plan|d.timer|d.timer>1>job d.timer: SameName
plan|--crontab|many>1>jobs: Full
plan|d.timer|--room|0>1>plan: BadSize
plan|--crontab|minutes|--limit|1>1>plan: TooMany
steps|script>1>script: line 2: BadLine
plan|--crontab|nothing>3>nothing: Device
upcoming|--after|2024-01-01T00:00:00Z|--crontab|crontab>1>crontab: line 2: NoCommand
quiet|--since|2024-01-01T00:00:00Z|--upto|2024-01-02T00:00:00Z|--least|0>1>quiet: BadLeast
downtime|--since|2024-01-01T00:00:00Z|--until|2024-01-02T00:00:00Z|d.timer|--limit|0>1>plan: BadLimit
clear|--since|2024-01-01T00:00:00Z|--until|2024-01-02T00:00:00Z|--crontab|nothing>3>nothing: Device
changes|nothing>3>nothing: Device
changes|script>1>script:1: not a line of agenda plan [BadBaseline]
week|--since|2024-01-01T00:00:00Z|--until|2024-01-02T00:00:00Z|d.timer|d.timer>1>job d.timer: SameName
check|d.timer|nothing>3>nothing: Device
ROWS
  writes_run agenda check --crontab crontab --system-crontab system faulty.timer none.timer
  compare_texts "findings of four sources" $'crontab:2: error: no command [NoCommand]
system:1: error: expected a user and a command [NoCommand]
system:3: error: expected a user and a command [NoCommand]
faulty.timer:2: error: hour in \'25:00\': out of range 0-23 [OutOfRange]
none.timer: error: no [Timer] section [NoTimerSection]\n' '' 1
  writes_between "findings of four sources by one write" 1 1
  writes_run agenda check d.timer
  writes_between "no finding without a write" 0 0
  # 65,536 bytes are the longest line that takes one write; 17 of them are before and after the path
  writes_run agenda steps "$(yes p | tr -d '\n' | head -c 65519)"
  writes_between "an error line of 65,536 bytes by one write" 1 1
  writes_run agenda steps "$(yes p | tr -d '\n' | head -c 65520)"
  writes_between "an error line of 65,537 bytes by two writes" 2 2
  # these have 53, 83, 1,854, 43,256 and 3,931,258 bytes
  writes_agenda minutes 2024-01-01T00:00:00Z 0
  writes_agenda minutes 2024-01-01T00:01:00Z 1
  writes_agenda minutes 2024-01-01T01:00:00Z 60
  writes_agenda minutes 2024-01-02T00:00:00Z 1440
  writes_agenda minutes 2024-04-01T00:00:00Z 131040
}

writes_run /bin/echo counted 2>/dev/null
[ "$(cat "$writes_folder/writes")" != 1 ] || writes_rows
