# shellcheck shell=bash disable=SC2154
# Rows of bin/check-examples: what the program does with a request: which error comes first, which of a plan's
# sources are read, and to which stream the answer goes.

answers_folder="$work/answers"
answers_begin="2024-01-01T00:00:00Z"
mkdir -p "$answers_folder/t"
printf '* * * * * x\n' >"$answers_folder/minutes"
printf '# nightly\nMAILTO=x\n@reboot a\n@daily b\n' >"$answers_folder/nightly"
printf '17 * * * * root cd / && run-parts x\n' >"$answers_folder/hourly"
printf '[Timer]\nOnCalendar=hourly\nOnCalendar=\nOnCalendar=daily\nOnCalendar=*-*-* 00:00:00\n' >"$answers_folder/t/backup.timer"
printf '\n60 * * * * x\n' >"$answers_folder/c"
printf '* * * * * root\n' >"$answers_folder/s"
printf '[Timer]\nOnCalendar=Mon 12:00:00.5\n' >"$answers_folder/t/bad.timer"
: >"$answers_folder/t/a@b.timer"
yes '* * * * * x' | head -n 1001 >"$answers_folder/many"

# Rows from standard input: the arguments of `next`, with bars between them, and the output.
answers_of_next() {
  local words starts
  while IFS='>' read -r words starts; do
    IFS='|' read -ra words <<<"$words"
    run_in "$answers_folder" agenda next "${words[@]}"
    compare_texts "next ${words[*]}" "${starts// /$'\n'}"$'\n' '' 0
  done
}

# Rows from standard input: arguments, with bars between them, and the error.
answers_refused() {
  local words fault
  while IFS='>' read -r words fault; do
    IFS='|' read -ra words <<<"$words"
    run_in "$answers_folder" agenda "${words[@]}"
    is_refused "${words[*]}" "$fault" 1
  done
}

# Rows from standard input: the time at which a plan from the start of 2024 ends, its other arguments, and its
# lines after the header, with a `;` after each and a `,` for each tab. Each line begins with the time of day.
answers_of_plan() {
  local upto words lines
  while IFS='>' read -r upto words lines; do
    read -ra words <<<"$words"
    run_in "$answers_folder" agenda plan --since "$answers_begin" --upto "$upto" "${words[@]}"
    printf '%s' "$lines" | tr ';,' "\n$tab" | sed 's/^/2024-01-01T/' >"$work/agenda.wanted"
    compare_agenda "plan up to $upto ${words[*]}" "$work/agenda.wanted"
  done
}

# Rows from standard input: the other arguments of a plan of the first day of 2024, and its error.
answers_refused_plan() {
  local words fault
  while IFS='>' read -r words fault; do
    read -ra words <<<"$words"
    run_in "$answers_folder" agenda plan --since "$answers_begin" --upto 2024-01-02T00:00:00Z "${words[@]}"
    is_refused "plan ${words[*]}" "$fault" 1
  done
}

# One text is a cron rule but not a calendar event, one a calendar event but not a cron rule. Weeks begin on a
# Sunday in one and on a Monday in the other. Nothing starts after the end of the years.
answers_of_next <<'END'
--calendar|*-02~03|--count|2|--after|2024-01-01T00:00:00Z>2024-02-27T00:00:00Z 2025-02-26T00:00:00Z
--after|2024-01-01T00:00:00Z|--calendar|weekly>2024-01-08T00:00:00Z
--after|2024-01-01T00:00:00Z|--cron|@weekly>2024-01-07T00:00:00Z
--after|3000-01-01T00:00:00Z|--cron|@daily>none
END

# The timestamp is checked before the count and the rule, and the count before the rule. In a span, the start
# is checked before the end, the end before their order, and all of that before any file.
answers_refused <<'END'
next|--after|2024|--cron|* * * * *>after: BadForm
next|--after|2024-02-30T00:00:00Z|--count|0|--cron|x>after: NoSuchDate
next|--after|1969-12-31T23:59:59Z|--count|0|--cron|x>after: OutOfYears
next|--after|3000-01-01T00:00:01Z|--cron|@daily>after: OutOfYears
next|--after|2024-01-01T00:00:00Z|--count|0|--cron|x>count: BadCount
next|--after|2024-01-01T00:00:00Z|--count|1001|--calendar|x>count: BadCount
next|--after|2024-01-01T00:00:00Z|--cron|weekly>rule: part 0: WrongParts
plan|--since|2024|--upto|x|there is no file>since: BadForm
plan|--since|2024-01-01T00:00:00Z|--upto|2024-02-30T00:00:00Z|--crontab|there is no file>upto: NoSuchDate
plan|--since|3000-01-01T00:00:01Z|--upto|3000-01-01T00:00:01Z>since: OutOfYears
plan|--since|2999-12-31T23:59:59Z|--upto|3000-01-01T00:00:01Z>upto: OutOfYears
plan|--since|2024-01-01T00:00:00Z|--upto|2023-12-31T23:59:59Z|--crontab|there is no file>span: Backwards
END

# The rows: an empty span; a reset that empties a timer's list; a system crontab; a user's crontab and the system's.
answers_of_plan <<'END'
2024-01-01T00:00:00Z>--crontab nightly>
2024-01-02T00:00:00Z>t/backup.timer>00:00:00Z,backup.timer,backup.service;
2024-01-01T02:00:00Z>--system-crontab hourly>00:17:00Z,system:1,root cd / && run-parts x;01:17:00Z,system:1,root cd / && run-parts x;
2024-01-01T01:00:00Z>--crontab nightly --system-crontab hourly>00:00:00Z,cron:4,b;00:17:00Z,system:1,root cd / && run-parts x;
END

# Sixty starts in an hour: a limit of 60 is enough.
seq -f "2024-01-01T00:%02.0f:00Z${tab}cron:1${tab}x" 0 59 >"$work/agenda.wanted"
run_in "$answers_folder" agenda plan --since "$answers_begin" --upto 2024-01-01T01:00:00Z --limit 60 --crontab minutes
compare_agenda "a limit of as many starts as there are" "$work/agenda.wanted"
run_in "$answers_folder" agenda plan --since "$answers_begin" --upto 2024-01-01T01:00:00Z --limit 59 --crontab minutes
is_refused "a limit of one start less" "plan: TooMany" 1

# The sources are checked before the numbers, and the sizes before the limit. The user's crontab comes first,
# then the system's.
answers_refused_plan <<'END'
--planners 0 --crontab minutes>plan: BadSize
--planners 9 --crontab minutes>plan: BadSize
--room 0 --crontab minutes>plan: BadSize
--room 1025 --crontab minutes>plan: BadSize
--limit 0 --crontab minutes>plan: BadLimit
--limit 1000001 --crontab minutes>plan: BadLimit
--limit 0 --room 0 --crontab minutes>plan: BadSize
--crontab many --room 0>jobs: Full
--crontab c --system-crontab s t/bad.timer>crontab: line 2: part 1: OutOfRange
--system-crontab s t/bad.timer>system crontab: line 1: NoCommand
t/bad.timer>bad.timer: line 2: part 7: Fraction
t/a@b.timer>a@b.timer: line 0: BadTimerName
--crontab nightly t/backup.timer t/backup.timer>job backup.timer: SameName
END
