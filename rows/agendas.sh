# shellcheck shell=bash disable=SC2154
# Rows of bin/check-examples: what `agenda plan` writes, for any number of planners and any capacity. The
# agendas have one piece or many, up to the largest. Invalid limits and sizes are rejected.

agendas_folder="$work/agendas"

# Plans from the start of 2024 to the time $1, in the directory of the files, with these further arguments.
agendas_plan() {
  local upto=$1
  shift
  run_in "$agendas_folder" agenda plan --since 2024-01-01T00:00:00Z --upto "$upto" "$@"
}

# Makes the files for the rows below.
agendas_files() {
  mkdir -p "$agendas_folder"
  printf '# nightly\nMAILTO=x\n@reboot a\n@daily b\n' >"$agendas_folder/nightly"
  printf '[Timer]\nOnCalendar=daily\n' >"$agendas_folder/rot.timer"
  printf '17 * * * * root cd / && run-parts x' >"$agendas_folder/root"
  printf '# no job\n' >"$agendas_folder/none"
  printf '* * * * * x' >"$agendas_folder/minutes"
  yes '* * * * * x' | head -n 1000 >"$agendas_folder/thousand"
  yes '@daily x' | head -n 100 >"$agendas_folder/hundred"
  printf '[Timer]\nOnCalendar=*:*:*\n' >"$agendas_folder/s.timer"
  # a reset empties the list, and two events at the same second are one start
  printf '[Timer]\nOnCalendar=hourly\nOnCalendar=\nOnCalendar=daily\nOnCalendar=*-*-* 00:00:00\n' \
    >"$agendas_folder/backup.timer"
}

# Compares the plan up to the time $1 with the lines of the file `agenda.wanted`, after the header, for each
# number of planners in $2 and each capacity in $3, with these further arguments.
agendas_same() {
  local upto=$1 planners=$2 places=$3 many place
  shift 3
  for many in $planners; do
    for place in $places; do
      agendas_plan "$upto" --planners "$many" --room "$place" "$@"
      compare_agenda "an agenda by $many planners, room $place, up to $upto: $*" "$work/agenda.wanted"
    done
  done
}

# Rows from standard input: the start and the end of the span, further arguments, and the whole output with the header.
agendas_whole() {
  local since upto words text
  while IFS='|' read -r since upto words text; do
    # shellcheck disable=SC2086
    run_in "$agendas_folder" agenda plan --since "$since" --upto "$upto" $words
    printf '%b' "$text" >"$work/agenda.wanted"
    compare "the whole agenda from $since to $upto: $words" "$work/agenda.wanted" /dev/null 0
  done
}

# Rows from standard input: a number of starts, and the time up to which the timer of each second has that
# number. The header has the number.
agendas_counted() {
  local starts upto
  while IFS='|' read -r starts upto; do
    agendas_plan "$upto" --limit 1000000 s.timer
    tail -n +2 "$work/out" | wc -l >"$work/behind"
    head -n 1 "$work/out" | cat - "$work/behind" >"$work/counted"
    mv "$work/counted" "$work/out"
    compare_texts "a header of $starts starts" \
      "agenda 2${tab}2024-01-01T00:00:00Z$tab$upto$tab$starts"$'\n'"$starts"$'\n' '' 0
  done
}

# Rows from standard input: the end of the span, further arguments, and the agenda's lines after the header,
# with an @ for the first day of 2024. Every number of planners makes the same agenda.
agendas_written() {
  local upto words agenda
  while IFS='|' read -r upto words agenda; do
    printf '%b' "${agenda//@/2024-01-01T}" >"$work/agenda.wanted"
    # shellcheck disable=SC2086
    agendas_same "${upto/@/2024-01-01T}" "1 2 3 4 5 6 7 8" "1 1024" $words
  done
}

# Rows from standard input: the end of the span, further arguments, and the error of the plan.
agendas_refused() {
  local upto words cause
  while IFS='|' read -r upto words cause; do
    # shellcheck disable=SC2086
    agendas_plan "$upto" $words
    is_refused "no agenda up to $upto: $words" "plan: $cause" 1
  done
}

# A start in each minute of an hour, with a limit of that number and with the largest limit.
agendas_of_an_hour() {
  local minute
  for minute in {00..59}; do
    echo "2024-01-01T00:$minute:00Z${tab}cron:1${tab}x"
  done >"$work/agenda.wanted"
  agendas_same 2024-01-01T01:00:00Z "1 2 8" 1 --limit 60 --crontab minutes
  agendas_same 2024-01-01T01:00:00Z "1 2 8" 1 --limit 1000000 --crontab minutes
}

# A day with a start in every second: 84 pieces of 1,024 starts, and one of 384.
agendas_of_every_second() {
  local hour minute second
  for hour in {00..23}; do
    for minute in {00..59}; do
      for second in {00..59}; do
        echo "2024-01-01T$hour:$minute:${second}Z${tab}s.timer${tab}s.service"
      done
    done
  done >"$work/agenda.wanted"
  agendas_same 2024-01-02T00:00:00Z "1 2 8" "1 1024" --limit 86400 s.timer
}

# The largest agenda: 1,000 jobs that start in each of 1,000 minutes. Without the names, each minute has
# 24,000 bytes. It has 9 names of 6 bytes, 90 of 7, 900 of 8 and one of 9. With a header of 59 bytes that is
# 31,893,059 in total.
agendas_of_a_thousand_jobs() {
  awk 'BEGIN {
    for (minute = 0; minute < 1000; minute++) {
      moment = sprintf("2024-01-01T%02d:%02d:00Z", int(minute / 60), minute % 60)
      for (job = 1; job <= 1000; job++)
        print moment "\tcron:" job "\tx"
    }
  }' >"$work/agenda.wanted"
  agendas_same 2024-01-01T16:40:00Z "1 8" 1 --limit 1000000 --crontab thousand
  run_in "$work" wc -c agenda.headed
  compare_texts "the bytes of the largest agenda" $'31893059 agenda.headed\n' '' 0
}

# A long command, between two short ones. The output buffer holds 65,536 bytes. A line has 29 bytes besides
# its command, and what comes after the time and its tab has 8. So the commands make a line of exactly the
# buffer's size, one that is longer by a byte, the same for what comes after the time, and a line of three
# buffers.
agendas_of_a_long_line() {
  local long bytes moment="2024-01-01T00:00:00Z"
  for bytes in 65507 65508 65528 65529 196579; do
    long=$(head -c "$bytes" /dev/zero | tr '\0' x)
    printf '@daily a\n@daily %s\n@daily c\n' "$long" >"$agendas_folder/long-$bytes"
    printf '%s\tcron:%d\t%s\n' "$moment" 1 a "$moment" 2 "$long" "$moment" 3 c >"$work/agenda.wanted"
    agendas_same 2024-01-02T00:00:00Z "1 2 8" 1 --limit 3 --crontab "long-$bytes"
  done
}

agendas_files

# The rows: a crontab and a timer; an empty span, which has only a header; a span without a start; neither a
# job nor a start at the ends of the years.
agendas_whole <<'END'
2024-01-01T00:00:00Z|2024-01-02T00:00:00Z|--crontab nightly rot.timer|agenda 2\t2024-01-01T00:00:00Z\t2024-01-02T00:00:00Z\t2\n2024-01-01T00:00:00Z\tcron:4\tb\n2024-01-01T00:00:00Z\trot.timer\trot.service\n
2024-01-01T00:00:00Z|2024-01-01T00:00:00Z|--crontab nightly rot.timer|agenda 2\t2024-01-01T00:00:00Z\t2024-01-01T00:00:00Z\t0\n
2024-01-01T00:00:01Z|2024-01-01T23:59:59Z|--crontab nightly rot.timer|agenda 2\t2024-01-01T00:00:01Z\t2024-01-01T23:59:59Z\t0\n
1970-01-01T00:00:00Z|3000-01-01T00:00:00Z||agenda 2\t1970-01-01T00:00:00Z\t3000-01-01T00:00:00Z\t0\n
3000-01-01T00:00:00Z|3000-01-01T00:00:00Z|--crontab minutes|agenda 2\t3000-01-01T00:00:00Z\t3000-01-01T00:00:00Z\t0\n
END

# The minimum and the maximum of each number of digits, up to the largest agenda.
agendas_counted <<'END'
0|2024-01-01T00:00:00Z
1|2024-01-01T00:00:01Z
9|2024-01-01T00:00:09Z
10|2024-01-01T00:00:10Z
99|2024-01-01T00:01:39Z
100|2024-01-01T00:01:40Z
999|2024-01-01T00:16:39Z
1000|2024-01-01T00:16:40Z
9999|2024-01-01T02:46:39Z
10000|2024-01-01T02:46:40Z
99999|2024-01-02T03:46:39Z
100000|2024-01-02T03:46:40Z
999999|2024-01-12T13:46:39Z
1000000|2024-01-12T13:46:40Z
END

# The rows: a crontab and a timer; an empty span; a system crontab; a timer with a reset; no jobs.
agendas_written <<'END'
2024-01-02T00:00:00Z|--limit 10 --crontab nightly rot.timer|@00:00:00Z\tcron:4\tb\n@00:00:00Z\trot.timer\trot.service\n
@00:00:00Z|--limit 10000 --crontab nightly rot.timer|
@02:00:00Z|--limit 2 --system-crontab root|@00:17:00Z\tsystem:1\troot cd / && run-parts x\n@01:17:00Z\tsystem:1\troot cd / && run-parts x\n
2024-01-02T00:00:00Z|--limit 1 backup.timer|@00:00:00Z\tbackup.timer\tbackup.service\n
2024-01-02T00:00:00Z|--limit 1 --crontab none|
END

agendas_of_an_hour
agendas_of_every_second
agendas_of_a_thousand_jobs
agendas_of_a_long_line

# Sizes are checked before limits, and both before the plan. One start more than the limit is rejected. The
# limit may be exceeded long before the planners have sent all starts. The last row has a minute more than the
# largest agenda.
agendas_refused <<'END'
2024-01-02T00:00:00Z|--limit 0 --planners 0 --room 1 --crontab nightly rot.timer|BadSize
2024-01-02T00:00:00Z|--limit 0 --planners 9 --room 1 --crontab nightly rot.timer|BadSize
2024-01-02T00:00:00Z|--limit 0 --planners 1 --room 0 --crontab nightly rot.timer|BadSize
2024-01-02T00:00:00Z|--limit 0 --planners 1 --room 1025 --crontab nightly rot.timer|BadSize
2024-01-02T00:00:00Z|--limit 0 --planners 8 --room 1024 --crontab nightly rot.timer|BadLimit
2024-01-02T00:00:00Z|--limit 1000001 --planners 1 --room 1 --crontab nightly rot.timer|BadLimit
2024-01-02T00:00:00Z|--limit 1 --planners 2 --room 1 --crontab nightly rot.timer|TooMany
2024-01-01T01:00:00Z|--limit 59 --crontab minutes|TooMany
2024-01-01T01:00:00Z|--limit 1 --crontab minutes|TooMany
2024-01-01T01:00:00Z|--limit 0 --crontab minutes|BadLimit
2024-01-01T01:00:00Z|--limit 1000001 --crontab minutes|BadLimit
2024-01-01T00:01:00Z|--limit 2 --planners 1 --room 1 --crontab thousand|TooMany
2024-01-01T00:01:00Z|--limit 2 --planners 2 --room 1 --crontab thousand|TooMany
2024-01-01T00:01:00Z|--limit 2 --planners 8 --room 1 --crontab thousand|TooMany
2024-01-01T00:01:00Z|--limit 999 --planners 2 --room 1024 --crontab thousand|TooMany
2024-01-02T00:00:00Z|--limit 40 --crontab hundred|TooMany
2024-01-02T00:00:00Z|--limit 40 --planners 1 --room 1 --crontab hundred|TooMany
2024-01-02T00:00:00Z|--limit 40 --planners 2 --room 1 --crontab hundred|TooMany
2024-01-02T00:00:00Z|--limit 99 --planners 8 --room 1 --crontab hundred|TooMany
2024-01-02T00:00:00Z|--limit 86399 s.timer|TooMany
2024-01-01T16:41:00Z|--limit 1000000 --crontab thousand|TooMany
END
