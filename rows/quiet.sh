# shellcheck shell=bash disable=SC2154
# Rows of bin/check-examples: the gaps that `agenda quiet` lists, their minimum length, and what is rejected,
# in which order. Its gaps are compared with those that awk finds in the agenda of the same sources and span,
# too.

# shellcheck source=/dev/null
. "$top/rows/lib/questions.sh"

quiet_day=(--since 2024-01-01T00:00:00Z --upto 2024-01-02T00:00:00Z)

# Rows from standard input: the span, arguments, and the whole output: the start, the end and the seconds of
# each gap, with spaces between them and a semicolon between gaps. An @ is the first day of 2024, and a + the
# start of the second.
quiet_rows() {
  local since upto written gaps words
  while IFS='|' read -r since upto written gaps; do
    read -r -a words <<<"$written"
    since=${since/@/2024-01-01T}
    upto=${upto/@/2024-01-01T}
    run_in "$questions_folder" agenda quiet --since "$since" --upto "${upto/+/2024-01-02T00:00:00Z}" "${words[@]}"
    gaps=${gaps//@/2024-01-01T}
    printf '%s' "${gaps:+$gaps;}" | sed "s/+/2024-01-02T00:00:00Z/g; s/ /$tab/g; y/;/\n/" >"$work/gaps.wanted"
    compare "quiet from $since to $upto: $written" "$work/gaps.wanted" /dev/null 0
  done
}

# Prints the gaps of at least $1 seconds in the agenda on standard input, whose header has the ends of the span.
quiet_gaps() {
  awk -F '\t' -v least="$1" '
    function seconds(moment, year, month, days) {
      year = substr(moment, 1, 4)
      month = substr(moment, 6, 2) + 0
      # March is the first month here, so that a leap day ends a year
      year -= month < 3
      month = (month + 9) % 12
      days = 365 * year + int(year / 4) - int(year / 100) + int(year / 400) + int((153 * month + 2) / 5) + substr(moment, 9, 2)
      return ((days * 24 + substr(moment, 12, 2)) * 60 + substr(moment, 15, 2)) * 60 + substr(moment, 18, 2)
    }
    function tell(moment, gap) {
      gap = seconds(moment) - seconds(before)
      if (gap >= least) printf "%s\t%s\t%.0f\n", before, moment, gap
      before = moment
    }
    NR == 1 { before = $2; upto = $3; next }
    { tell($1) }
    END { tell(upto) }'
}

# Rows from standard input: the span, numbers of seconds with blanks between them, and sources. The gaps of at
# least each of these lengths are those of the agenda.
quiet_as_plan() {
  local since upto leasts written least words
  while IFS='|' read -r since upto leasts written; do
    read -r -a words <<<"$written"
    words=(--limit 1000000 --since "$since" --upto "$upto" "${words[@]}")
    run_in "$questions_folder" agenda plan "${words[@]}"
    cp -- "$work/out" "$work/agenda"
    [ "$status" = 0 ] || tell "status $status"
    count "the agenda from $since to $upto: $written"
    for least in $leasts; do
      quiet_gaps "$least" <"$work/agenda" >"$work/gaps.wanted"
      run_in "$questions_folder" agenda quiet --least "$least" "${words[@]}"
      compare "quiet as plan has it, from $since to $upto, at least $least seconds: $written" "$work/gaps.wanted" /dev/null 0
    done
  done
}

# Any number of planners with any capacity finds the same gaps. 60 jobs start at the first 50 minutes of each
# hour, sometimes two at once. After the last of them, 11 minutes remain to the next hour, or to the end.
quiet_by_planners() {
  local planners places
  awk 'BEGIN { for (job = 0; job < 60; job++) print job % 50 " * * * * x" }' >"$questions_folder/fifty"
  awk 'BEGIN {
    for (hour = 0; hour < 24; hour++)
      printf "2024-01-01T%02d:49:00Z\t2024-01-%02dT%02d:00:00Z\t660\n", hour, hour < 23 ? 1 : 2, (hour + 1) % 24
  }' >"$work/gaps.wanted"
  for planners in 1 2 3 8; do
    for places in 1 16 1024; do
      run_in "$questions_folder" agenda quiet "${quiet_day[@]}" --least 61 --planners "$planners" --room "$places" --crontab fifty
      compare "quiet by $planners planners, room $places" "$work/gaps.wanted" /dev/null 0
    done
  done
}

questions_file hourly '0 * * * * h\n'
questions_file halves '*/30 * * * * h\n'
questions_file nines '*/29 * * * * n\n'
questions_file night '0 2 * * * a\n0 2 * * * b\n30 2 * * * c\n'
questions_file noon.timer '[Timer]\nOnCalendar=12:00\n'
questions_file s.timer '[Timer]\nOnCalendar=*:*:*\n'
questions_file leap '0 0 29 2 * l\n'
questions_file minutes.one '* * * * * m\n'
questions_file two.timer '[Timer]\nOnCalendar=Fri 12:00\nOnCalendar=*-*-3 06:00:15\n'

# Neighbours among --since, the starts and --upto, at least 1,800 seconds apart by default. No gap comes
# before a start at --since, and the last one ends at --upto, whether or not something starts then.
quiet_rows <<'ROWS'
@00:00:00Z|@03:00:00Z|--crontab hourly|@00:00:00Z @01:00:00Z 3600;@01:00:00Z @02:00:00Z 3600;@02:00:00Z @03:00:00Z 3600
@00:30:00Z|@02:30:00Z|--crontab hourly|@00:30:00Z @01:00:00Z 1800;@01:00:00Z @02:00:00Z 3600;@02:00:00Z @02:30:00Z 1800
@00:30:01Z|@02:29:59Z|--crontab hourly|@01:00:00Z @02:00:00Z 3600
@00:00:00Z|@01:00:00Z|--crontab halves|@00:00:00Z @00:30:00Z 1800;@00:30:00Z @01:00:00Z 1800
@00:00:00Z|@02:00:00Z|--crontab nines|
@00:00:00Z|@02:00:00Z|--least 1740 --crontab nines|@00:00:00Z @00:29:00Z 1740;@00:29:00Z @00:58:00Z 1740;@01:00:00Z @01:29:00Z 1740;@01:29:00Z @01:58:00Z 1740
@00:58:00Z|@01:00:01Z|--least 1 --crontab nines|@00:58:00Z @01:00:00Z 120;@01:00:00Z @01:00:01Z 1
@01:59:59Z|@02:30:01Z|--crontab night|@02:00:00Z @02:30:00Z 1800
@02:00:00Z|@03:00:00Z|--crontab night|@02:00:00Z @02:30:00Z 1800;@02:30:00Z @03:00:00Z 1800
@02:00:00Z|@02:30:00Z|--crontab night|@02:00:00Z @02:30:00Z 1800
2023-12-31T23:00:00Z|+|--crontab daily|2023-12-31T23:00:00Z @00:00:00Z 3600;@00:00:00Z + 86400
ROWS

# The starts of all sources count together, and two in the same second are one. A job without a start changes nothing.
quiet_rows <<'ROWS'
@00:00:00Z|+|--crontab night noon.timer|@00:00:00Z @02:00:00Z 7200;@02:00:00Z @02:30:00Z 1800;@02:30:00Z @12:00:00Z 34200;@12:00:00Z + 43200
@00:00:00Z|+|--crontab night noon.timer empty.timer --spool reboot|@00:00:00Z @02:00:00Z 7200;@02:00:00Z @02:30:00Z 1800;@02:30:00Z @12:00:00Z 34200;@12:00:00Z + 43200
@00:00:00Z|+|noon.timer --spool night --system-crontab system|@00:00:00Z @02:00:00Z 7200;@02:00:00Z @02:30:00Z 1800;@02:30:00Z @12:00:00Z 34200;@12:00:00Z + 43200
@00:00:00Z|+|--least 1 --crontab night --cron-d cron.d/php|@00:00:00Z @02:00:00Z 7200;@02:00:00Z @02:30:00Z 1800;@02:30:00Z + 77400
@00:00:00Z|+|--least 7200 --crontab night noon.timer|@00:00:00Z @02:00:00Z 7200;@02:30:00Z @12:00:00Z 34200;@12:00:00Z + 43200
@00:00:00Z|+|--least 7201 --crontab night noon.timer|@02:30:00Z @12:00:00Z 34200;@12:00:00Z + 43200
@00:00:00Z|+|--least 34200 --crontab night noon.timer|@02:30:00Z @12:00:00Z 34200;@12:00:00Z + 43200
@00:00:00Z|+|--least 34201 --crontab night noon.timer|@12:00:00Z + 43200
@00:00:00Z|+|--least 43200 --crontab night noon.timer|@12:00:00Z + 43200
@00:00:00Z|+|--least 43201 --crontab night noon.timer|
2096-02-28T23:59:59Z|2104-03-01T00:00:00Z|--crontab leap|2096-02-29T00:00:00Z 2104-02-29T00:00:00Z 252374400;2104-02-29T00:00:00Z 2104-03-01T00:00:00Z 86400
ROWS

# A span in which nothing starts is one gap, if it is long enough. An empty span has none, whether or not
# something starts then. If each second has a start, the gaps have one second.
quiet_rows <<'ROWS'
@00:00:01Z|@23:59:59Z|--crontab daily|@00:00:01Z @23:59:59Z 86398
@00:00:00Z|+||@00:00:00Z + 86400
@00:00:00Z|+|--crontab none|@00:00:00Z + 86400
@00:00:00Z|+|--crontab reboot empty.timer|@00:00:00Z + 86400
@00:00:00Z|+|--least 86400 --crontab reboot|@00:00:00Z + 86400
@00:00:00Z|+|--least 86401 --crontab reboot|
@00:00:00Z|@00:30:00Z||@00:00:00Z @00:30:00Z 1800
@00:00:00Z|@00:29:59Z||
@00:00:00Z|@00:00:00Z|--least 1|
@00:00:00Z|@00:00:00Z|--least 1 --crontab daily s.timer|
@00:00:00Z|@00:00:01Z|--least 1|@00:00:00Z @00:00:01Z 1
@00:00:00Z|@00:00:01Z|--least 1 --crontab daily s.timer|@00:00:00Z @00:00:01Z 1
@23:59:58Z|2024-01-02T00:00:01Z|--least 1 --crontab daily s.timer|@23:59:58Z @23:59:59Z 1;@23:59:59Z + 1;+ 2024-01-02T00:00:01Z 1
@23:59:58Z|2024-01-02T00:00:01Z|--least 2 s.timer|
3000-01-01T00:00:00Z|3000-01-01T00:00:00Z|--least 1 s.timer|
2999-12-31T23:00:00Z|3000-01-01T00:00:00Z|--crontab daily|2999-12-31T23:00:00Z 3000-01-01T00:00:00Z 3600
ROWS

# Numbers of seconds up to the maximum, which is 2^32 - 1, and gaps that are longer.
quiet_rows <<'ROWS'
@00:00:00Z|@01:00:00Z|--least 1800 --crontab halves|@00:00:00Z @00:30:00Z 1800;@00:30:00Z @01:00:00Z 1800
@00:00:00Z|@01:00:00Z|--least=0001800 --crontab halves|@00:00:00Z @00:30:00Z 1800;@00:30:00Z @01:00:00Z 1800
@00:00:00Z|@01:00:00Z|--least 1801 --crontab halves|
@00:00:00Z|@01:00:00Z|--least 65537 --crontab hourly|
1970-01-01T00:00:00Z|2106-02-07T06:28:14Z|--least 4294967295|
1970-01-01T00:00:00Z|2106-02-07T06:28:15Z|--least 4294967295|1970-01-01T00:00:00Z 2106-02-07T06:28:15Z 4294967295
1970-01-01T00:00:00Z|2106-02-07T06:28:16Z|--least 4294967295|1970-01-01T00:00:00Z 2106-02-07T06:28:16Z 4294967296
1970-01-01T00:00:00Z|2106-02-07T06:28:17Z||1970-01-01T00:00:00Z 2106-02-07T06:28:17Z 4294967297
1970-01-01T00:00:00Z|3000-01-01T00:00:00Z|--least 4294967295 empty.timer|1970-01-01T00:00:00Z 3000-01-01T00:00:00Z 32503680000
ROWS

# The limit counts all starts, also those in the same second. Its default is 1,000,000. With 1,000,000 starts
# in as many seconds, no gap has two seconds. A span that is a second longer has one more start.
quiet_rows <<'ROWS'
@00:00:00Z|@02:30:00Z|--limit 2 --crontab night|@00:00:00Z @02:00:00Z 7200;@02:00:00Z @02:30:00Z 1800
@00:00:00Z|+|--limit 1 --crontab daily|@00:00:00Z + 86400
@00:00:00Z|+|--limit=007 --crontab daily|@00:00:00Z + 86400
@00:00:00Z|2024-01-12T13:46:40Z|--least 2 s.timer|
@00:00:00Z|2024-01-12T13:46:40Z|--least 2 --limit 1000000 s.timer|
@00:00:00Z|2024-01-01T02:46:41Z|--least 2 s.timer|
ROWS
questions_refused quiet --since 2024-01-01T00:00:00Z <<'ROWS'
--upto 2024-01-01T02:30:00Z --limit 1 --crontab night|plan: TooMany
--upto 2024-01-02T00:00:00Z --limit 2 --crontab night|plan: TooMany
--upto 2024-01-12T13:46:41Z s.timer|plan: TooMany
--upto 2024-01-12T13:46:41Z --limit 1000000 --planners 8 s.timer|plan: TooMany
--upto 2024-01-12T13:46:40Z --limit 999999 s.timer|plan: TooMany
--upto 2024-01-01T16:41:00Z --crontab thousand|plan: TooMany
--upto 2024-01-01T00:00:01Z --limit 999 --crontab thousand|plan: TooMany
ROWS

# The timestamps are checked first, then their order, then the files.
questions_refused quiet <<'ROWS'
--since 2024 --upto x|since: BadForm
--since 2024-02-30T00:00:00Z --upto x|since: NoSuchDate
--since 3000-01-01T00:00:01Z --upto 3000-01-01T00:00:01Z|since: OutOfYears
--since 2024-01-01T00:00:00Z --upto 2024|upto: BadForm
--since 2024-01-01T00:00:00Z --upto 2024-01-01T24:00:00Z|upto: NoSuchDate
--since 2999-12-31T23:59:59Z --upto 3000-01-01T00:00:01Z|upto: OutOfYears
--since 2024-01-01T00:00:00Z --upto 2023-12-31T23:59:59Z|span: Backwards
--since 2024 --upto 2024 --least 0 --crontab nothing|since: BadForm
--since 2024-01-01T00:00:00Z --upto 2024 --least 0 --crontab nothing|upto: BadForm
--since 2024-01-01T00:00:01Z --upto 2024-01-01T00:00:00Z --least 0 --crontab nothing|span: Backwards
--since 2024-01-01T00:00:01Z --upto 2024-01-01T00:00:00Z --planners 0 --limit 0 --crontab part|span: Backwards
ROWS
questions_refuse_sources quiet "${quiet_day[@]}"
questions_refuse_sources quiet --since 2024-01-01T00:00:00Z --upto 2024-01-01T00:00:00Z

# A gap of 0 seconds is rejected after the files are read, and before their texts and all other numbers are checked.
questions_refused quiet "${quiet_day[@]}" --least <<'ROWS'
0|quiet: BadLeast
00|quiet: BadLeast
0 --crontab nothing|nothing: Device
0 --crontab daily nothing.timer|nothing.timer: Device
0 --crontab part nothing.timer|nothing.timer: Device
0 --crontab daily|quiet: BadLeast
0 --crontab part|quiet: BadLeast
0 --crontab latin|quiet: BadLeast
0 --crontab /dev/zero|quiet: BadLeast
0 --cron-d one/a.b|quiet: BadLeast
0 daily|quiet: BadLeast
0 unit.timer|quiet: BadLeast
0 d.timer d.timer|quiet: BadLeast
0 --crontab many|quiet: BadLeast
0 --planners 0 --room 0 --limit 0|quiet: BadLeast
0 --crontab thousand --limit 1|quiet: BadLeast
ROWS

# The sources are checked before the sizes, the sizes before the limit, and the limit before the plan.
questions_refused quiet "${quiet_day[@]}" <<'ROWS'
--planners 0|plan: BadSize
--planners 9|plan: BadSize
--planners 65537|plan: BadSize
--planners 4294967295|plan: BadSize
--room 0|plan: BadSize
--room 1025|plan: BadSize
--room 65537|plan: BadSize
--room 4294967295|plan: BadSize
--limit 0|plan: BadLimit
--limit 1000001|plan: BadLimit
--limit 4294967295|plan: BadLimit
--planners 9 --limit 0|plan: BadSize
--room 1025 --limit 1000001|plan: BadSize
--planners 0 --crontab part|crontab: line 2: part 1: OutOfRange
--limit 0 unit.timer|unit.timer: line 0: NoTimerSection
--room 0 --crontab many|jobs: Full
--room 0 --crontab nothing|nothing: Device
--room 0 --limit 1 --crontab thousand|plan: BadSize
--limit 0 --crontab thousand|plan: BadLimit
ROWS

quiet_by_planners

# A pipe as crontab.
run_in "$questions_folder" bash -c "printf '@daily a\n0 6 * * * b' | agenda quiet ${quiet_day[*]} --crontab /dev/stdin"
compare_texts "quiet: a pipe as crontab" "2024-01-01T00:00:00Z${tab}2024-01-01T06:00:00Z${tab}21600
2024-01-01T06:00:00Z${tab}2024-01-02T00:00:00Z${tab}64800
" '' 0

quiet_as_plan <<ROWS
2024-01-01T00:00:00Z|2024-01-08T00:00:00Z|1 1740 1800 3600 3601 43200 86400|--crontab nines --spool night noon.timer two.timer
2023-12-31T23:59:59Z|2024-01-08T06:00:01Z|1 1799 1800 1801 7200 259200|--crontab night two.timer
2024-01-01T00:00:00Z|2024-01-01T00:10:00Z|1 2 60|--crontab minutes.one s.timer
1999-12-31T12:00:00Z|2000-03-01T12:00:00Z|1 3600 86400 604800|noon.timer two.timer
2088-01-01T00:00:00Z|2408-01-01T00:00:00Z|1 86400 126144000 126230400 126230401 252374400|--crontab leap
2024-06-28T22:00:00Z|2024-07-10T00:00:00Z|60 480 600 1320 3600|--system-crontab $top/examples/server-and-timers/etc-crontab $top/examples/server-and-timers/scrub.timer
2024-05-14T23:30:00Z|2024-05-20T00:00:00Z|1 300 600 1200|--crontab $top/examples/described-server/jobs
2024-01-01T00:00:00Z|2026-01-01T00:00:00Z|1 86400 2592000 7776000|$top/examples/friday-the-13th/friday.timer $top/examples/last-days-of-months/month-end.timer
ROWS
