# shellcheck shell=bash disable=SC2154
# Rows of bin/check-examples: what `agenda upcoming` prints for each job, in which order, and what it rejects.
# It is compared with what `agenda plan` and `agenda next` print for the same jobs, too.

# shellcheck source=/dev/null
. "$top/rows/lib/questions.sh"

# The end of all years.
upcoming_end=3000-01-01T00:00:00Z

# Requests the starts after the time $1 with these further arguments.
upcoming_run() {
  local after=$1
  shift
  run_in "$questions_folder" agenda upcoming --after "$after" "$@"
}

# Rows from standard input: a time, arguments, and the whole output about the jobs: for each the time or
# `none`, the name and the command, with spaces between them and a semicolon between jobs. An @ is the first
# day of 2024, and a + the start of the second.
upcoming_rows() {
  local after written jobs words
  while IFS='|' read -r after written jobs; do
    read -r -a words <<<"$written"
    after=${after/@/2024-01-01T}
    upcoming_run "$after" "${words[@]}"
    jobs=${jobs//@/2024-01-01T}
    printf '%s' "${jobs:+$jobs;}" | sed "s/+/2024-01-02T00:00:00Z/g; y/;/\n/" | sed "s/ /$tab/; s/ /$tab/" >"$work/upcoming.wanted"
    compare "upcoming after $after: $written" "$work/upcoming.wanted" /dev/null 0
  done
}

# Rows from standard input: a time, a later one, the names of jobs that never start, and arguments. What
# starts after the first time is in the agenda of the span between them. The first line of each job there is
# its next start. The jobs that never start are last, with `none`.
upcoming_as_plan() {
  local after upto names written words
  while IFS='|' read -r after upto names written; do
    read -r -a words <<<"$written"
    run_in "$questions_folder" agenda plan --limit 1000000 --since "$(upcoming_second_after "$after")" --upto "$upto" "${words[@]}"
    awk -F '\t' 'NR > 1 && !($2 in told) { told[$2] = 1; print }' "$work/out" >"$work/upcoming.wanted"
    [ -s "$work/upcoming.wanted" ] || tell "nothing starts"
    count "the agenda from $after to $upto: $written"
    printf '%s' "${names:+$names }" | tr ' ' '\n' | sed "s/^/none$tab/" >>"$work/upcoming.wanted"
    upcoming_run "$after" "${words[@]}"
    sed -i "s/^\(none${tab}[^$tab]*\)$tab.*/\1/" "$work/out"
    compare "upcoming after $after as plan has it: $written" "$work/upcoming.wanted" /dev/null 0
  done
}

# Prints the timestamp one second after $1.
upcoming_second_after() {
  date -u -d "@$(($(date -u -d "$1" +%s) + 1))" +%Y-%m-%dT%H:%M:%SZ
}

# Rows from standard input: rules of the option --$1 of `next`, each of which is a job here. Their next starts
# after each of these times are those that `next` prints for one rule after the other.
upcoming_as_next() {
  local option=$1 number=0 rule after
  local -a rules words=()
  mapfile -t rules
  for rule in "${rules[@]}"; do
    number=$((number + 1))
    if [ "$option" = calendar ]; then
      printf '[Timer]\nOnCalendar=%s\n' "$rule" >"$questions_folder/$number.timer"
      words+=("$number.timer")
    fi
  done
  if [ "$option" = cron ]; then
    printf '%s x\n' "${rules[@]}" >"$questions_folder/rules"
    words=(--crontab rules)
  fi
  for after in 1970-01-01T00:00:00Z 2024-02-28T23:59:59Z 2024-02-29T00:00:00Z 2099-12-31T12:34:56Z 2999-12-30T23:59:59Z "$upcoming_end"; do
    for number in "${!rules[@]}"; do
      run_in "$questions_folder" agenda next --after "$after" "--$option=${rules[number]}"
      printf '%s\t%s\n' "$(cat "$work/out")" "$((number + 1))"
    done | sort -s -t "$tab" -k 1,1 | if [ "$option" = cron ]; then
      sed "s/$tab/${tab}cron:/; s/\$/${tab}x/"
    else
      sed "s/$tab\(.*\)/$tab\1.timer$tab\1.service/"
    fi >"$work/upcoming.wanted"
    upcoming_run "$after" "${words[@]}"
    compare "upcoming after $after as next has it, of ${#rules[@]} rules of --$option" "$work/upcoming.wanted" /dev/null 0
  done
}

# A thousand jobs, which is the maximum. They start in the minutes of an hour in turn, so that the jobs of one
# minute are together, in the order of their lines. The time is that of minute 30, whose jobs come last.
upcoming_of_a_thousand_jobs() {
  awk 'BEGIN { for (line = 1; line <= 1000; line++) print line % 60 " * * * * x" }' >"$questions_folder/minutes"
  awk 'BEGIN {
    for (place = 31; place <= 90; place++)
      for (line = 1; line <= 1000; line++)
        if (line % 60 == place % 60)
          printf "2024-01-01T%02d:%02d:00Z\tcron:%d\tx\n", int(place / 60), place % 60, line
  }' >"$work/upcoming.wanted"
  upcoming_run 2024-01-01T00:30:00Z --crontab minutes
  compare "upcoming: a thousand jobs" "$work/upcoming.wanted" /dev/null 0
}

questions_file rules.mixed '# six rules\n30 4 1,15 * 5 rotate\n0 0 29 2 *    leap\n0 0 31 2 * never\n@hourly h\n* * * * * m\n@reboot r\n'
questions_file two.timer '[Timer]\nOnCalendar=Fri 12:00\nOnCalendar=*-*-3 06:00\n'
questions_file reset.timer '[Timer]\nOnCalendar=hourly\nOnCalendar=\nOnCalendar=daily\nUnit=own.target\n'
questions_file emptied.timer '[Timer]\nOnCalendar=hourly\nOnCalendar=\n'
questions_file never.timer '[Timer]\nOnCalendar=*-2-30\n'
questions_file either.timer '[Timer]\nOnCalendar=*-2-30\nOnCalendar=2200-1-1\n'
questions_file s.timer '[Timer]\nOnCalendar=*:*:*\n'
questions_file minutes.one '* * * * * m\n'
questions_file mixed '@reboot r1\n@daily d1\n0 0 31 2 * n1\n@hourly h1\n'
questions_file cron.d/mixed '@daily root d2\n@reboot root r2\n'
questions_file spool/other '@reboot r3\n@hourly h3\n'
{ yes '@daily a' | head -n 12; } >"$questions_folder/dozen"

# A start at the time itself isn't later. 2024-01-01 is a Monday. Each of six rules has its own next start.
# The line of `@reboot` has none, and neither has that of the 31st of February; 2100 has no leap day.
upcoming_rows <<'ROWS'
2023-12-31T23:59:59Z|--crontab daily|@00:00:00Z cron:1 a
@00:00:00Z|--crontab daily|+ cron:1 a
@00:00:01Z|--crontab daily|+ cron:1 a
@00:00:00Z|--crontab rules.mixed|@00:01:00Z cron:6 m;@01:00:00Z cron:5 h;@04:30:00Z cron:2 rotate;2024-02-29T00:00:00Z cron:3 leap;none cron:4 never;none cron:7 r
@04:30:00Z|--crontab rules.mixed|@04:31:00Z cron:6 m;@05:00:00Z cron:5 h;2024-01-05T04:30:00Z cron:2 rotate;2024-02-29T00:00:00Z cron:3 leap;none cron:4 never;none cron:7 r
2096-02-28T23:59:59Z|--crontab rules.mixed|2096-02-29T00:00:00Z cron:3 leap;2096-02-29T00:00:00Z cron:5 h;2096-02-29T00:00:00Z cron:6 m;2096-03-01T04:30:00Z cron:2 rotate;none cron:4 never;none cron:7 r
2096-02-29T00:00:00Z|--crontab rules.mixed|2096-02-29T00:01:00Z cron:6 m;2096-02-29T01:00:00Z cron:5 h;2096-03-01T04:30:00Z cron:2 rotate;2104-02-29T00:00:00Z cron:3 leap;none cron:4 never;none cron:7 r
@00:00:00Z|two.timer|2024-01-03T06:00:00Z two.timer two.service
2024-01-03T06:00:00Z|two.timer|2024-01-05T12:00:00Z two.timer two.service
@00:00:00Z|reset.timer|+ reset.timer own.target
@00:00:00Z|either.timer|2200-01-01T00:00:00Z either.timer either.service
2024-02-28T23:59:59Z|s.timer|2024-02-29T00:00:00Z s.timer s.service
ROWS

# Jobs that start at the same time are in their own order, which is the same as in a plan, and not in the
# order of their names. Those without a further start come last, in their own order.
upcoming_rows <<'ROWS'
@00:00:00Z|d.timer --spool spool/anna --cron-d cron.d/php --system-crontab system --crontab daily|+ cron:1 a;+ system:1 root b;+ php:3 www-data clean  all;+ anna:1 mail -s x;+ d.timer d.service
@00:00:00Z|reset.timer d.timer --spool spool/anna --cron-d two/x --cron-d cron.d/php|+ x:2 u b;+ php:3 www-data clean  all;+ anna:1 mail -s x;+ reset.timer own.target;+ d.timer d.service
@00:00:00Z|--crontab dozen|+ cron:1 a;+ cron:2 a;+ cron:3 a;+ cron:4 a;+ cron:5 a;+ cron:6 a;+ cron:7 a;+ cron:8 a;+ cron:9 a;+ cron:10 a;+ cron:11 a;+ cron:12 a
@00:00:00Z|--crontab mixed|@01:00:00Z cron:4 h1;+ cron:2 d1;none cron:1 r1;none cron:3 n1
@00:00:00Z|--crontab mixed --cron-d cron.d/mixed --spool spool/other never.timer empty.timer s.timer emptied.timer|@00:00:01Z s.timer s.service;@01:00:00Z cron:4 h1;@01:00:00Z other:2 h3;+ cron:2 d1;+ mixed:1 root d2;none cron:1 r1;none cron:3 n1;none mixed:2 root r2;none other:1 r3;none never.timer never.service;none empty.timer empty.service;none emptied.timer emptied.service
@23:59:59Z|--crontab mixed --spool spool/other|+ cron:2 d1;+ cron:4 h1;+ other:2 h3;none cron:1 r1;none cron:3 n1;none other:1 r3
@00:00:00Z|--crontab reboot empty.timer|none cron:1 a;none empty.timer empty.service
@00:00:00Z|empty.timer never.timer emptied.timer|none empty.timer empty.service;none never.timer never.service;none emptied.timer emptied.service
@00:00:00Z|emptied.timer never.timer empty.timer|none emptied.timer emptied.service;none never.timer never.service;none empty.timer empty.service
ROWS

# The last starts of all years, and the end of all years, after which every job has `none`; and the end of another year.
upcoming_rows <<'ROWS'
2200-01-01T00:00:00Z|--crontab daily either.timer|2200-01-02T00:00:00Z cron:1 a;none either.timer either.service
2999-12-31T23:58:59Z|--crontab minutes.one s.timer|2999-12-31T23:59:00Z cron:1 m;2999-12-31T23:59:00Z s.timer s.service
2999-12-31T23:59:00Z|--crontab minutes.one s.timer|2999-12-31T23:59:01Z s.timer s.service;none cron:1 m
2999-12-31T23:59:58Z|--crontab minutes.one s.timer|2999-12-31T23:59:59Z s.timer s.service;none cron:1 m
2999-12-31T23:59:59Z|--crontab minutes.one s.timer|none cron:1 m;none s.timer s.service
3000-01-01T00:00:00Z|--crontab minutes.one s.timer|none cron:1 m;none s.timer s.service
3000-01-01T00:00:00Z|d.timer --spool spool/other --cron-d cron.d/mixed --system-crontab system --crontab mixed|none cron:1 r1;none cron:2 d1;none cron:3 n1;none cron:4 h1;none system:1 root b;none mixed:1 root d2;none mixed:2 root r2;none other:1 r3;none other:2 h3;none d.timer d.service
1970-01-01T00:00:00Z|--crontab daily s.timer|1970-01-01T00:00:01Z s.timer s.service;1970-01-02T00:00:00Z cron:1 a
ROWS

# Without jobs nothing is written.
upcoming_rows <<'ROWS'
@00:00:00Z||
@00:00:00Z|--crontab none|
3000-01-01T00:00:00Z|--crontab none --cron-d none --spool none|
ROWS

# The command is everything up to the end of the line, with its tabs and blanks.
questions_file blanks '@daily\t a\tb  c % d \n@reboot \te\t\n'
upcoming_run 2024-01-01T00:00:00Z --crontab blanks
compare_texts "upcoming: what runs holds tabs" \
  "2024-01-02T00:00:00Z${tab}cron:1${tab}a${tab}b  c % d "$'\n'"none${tab}cron:2${tab}e${tab}"$'\n' '' 0

# A pipe as crontab.
run_in "$questions_folder" bash -c "printf '@daily a\n@reboot b' | agenda upcoming --after 2024-01-01T00:00:00Z --crontab /dev/stdin"
compare_texts "upcoming: a pipe as crontab" "2024-01-02T00:00:00Z${tab}cron:1${tab}a"$'\n'"none${tab}cron:2${tab}b"$'\n' '' 0

upcoming_of_a_thousand_jobs

# The time is checked before all files, and so before errors in their texts.
questions_refused upcoming <<'ROWS'
--after 2024-01-01|after: BadForm
--after 2024-02-30T00:00:00Z|after: NoSuchDate
--after 1969-12-31T23:59:59Z|after: OutOfYears
--after 3000-01-01T00:00:01Z|after: OutOfYears
--after 2024 --crontab nothing|after: BadForm
--after 2024 --crontab part|after: BadForm
--crontab nothing nothing.timer --after 2023-02-29T00:00:00Z|after: NoSuchDate
ROWS
questions_refuse_sources upcoming --after 2024-01-01T00:00:00Z
questions_refuse_sources upcoming --after "$upcoming_end"

# Spans in which each job that has a start starts.
upcoming_as_plan <<ROWS
2024-01-01T00:00:00Z|2024-03-01T00:00:00Z|cron:4 cron:7|--crontab rules.mixed two.timer reset.timer
2023-12-31T23:59:59Z|2024-01-09T00:00:00Z|cron:1 cron:3 mixed:2 other:1 never.timer|--crontab mixed --cron-d cron.d/mixed --spool spool/other never.timer two.timer d.timer
2024-06-28T22:00:00Z|2024-10-01T00:00:00Z||--system-crontab $top/examples/server-and-timers/etc-crontab $top/examples/server-and-timers/scrub.timer $top/examples/server-and-timers/trim-disks.timer
2024-05-14T23:30:00Z|2024-10-01T00:00:00Z|cron:7|--crontab $top/examples/described-server/jobs $top/examples/friday-the-13th/friday.timer
ROWS
upcoming_as_next cron <<'ROWS'
30 4 1,15 * 5
0 0 29 2 *
0 0 31 2 *
59 23 31 12 *
@reboot
@yearly
@weekly
*/7 */5 * * *
0 0 */2 * 1
* * * * *
0 9-17/4 * jan,Mar MON-fri
ROWS
upcoming_as_next calendar <<'ROWS'
*-*~1..3/2 12:00
Mon *-05~07/1
*:*:*
2200-1-1
quarterly
Sat,Mon..Tue 10-1..7/3 8..9:0/30:15
*-2-30
Fri *-*-13 12:00
2999-12-31 23:59:59
1970-1-1 0:0:1
ROWS
