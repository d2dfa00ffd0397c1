# shellcheck shell=bash disable=SC2154,SC2034,SC2119,SC2120
# Rows of the times and lengths that questions about a machine read, at times at which the clock of the program stands still: on
# both sides of clock changes, in UTC and in zones of this machine. Expected times are worked out by hand.

# shellcheck source=/dev/null
. "$top/rows/lib/program.sh"

if ! program_still 0; then
  echo "agenda machine: skipped the times that people type, since no C compiler is here"
  return 0
fi

# Lets the clock stand still at the timestamp $1.
times_at() {
  program_still "$(date -u -d "$1" +%s)"
}

# Runs a plan of the present root with the options $@, and sets `from` and `to` to the timestamps of the span in its header.
times_span() {
  local first
  program_run plan --root root "$@"
  IFS=$tab read -r first from to _ <"$work/out"
  from=$(date -u -d "$from" +%Y-%m-%dT%H:%M:%SZ)
  to=$(date -u -d "$to" +%Y-%m-%dT%H:%M:%SZ)
  [ "$status" = 0 ] || tell "status $status: $(cat "$work/err")"
}

# Rows of the time of the clock, the text of a time, and its timestamp. It is that of --since, and of --until too, unless it is
# counted from --since: a span, a time of day, or a weekday. The options are $@.
times_read() {
  local now text wanted from to
  while IFS='|' read -r now text wanted; do
    times_at "$now"
    times_span "$@" "--since=$text"
    [ "$from" = "$wanted" ] || tell "since $from, not $wanted"
    count "agenda machine: --since '$text' at $now $*"
    [[ $text != [+-]* && $text != [0-9][0-9]:* ]] || continue
    times_span "$@" --since @0 "--upto=$text"
    [ "$to" = "$wanted" ] || tell "until $to, not $wanted"
    count "agenda machine: --upto '$text' at $now $*"
  done
}

# Rows of the time of the clock, the text of --since, that of --until, and the timestamps of both. An empty text isn't given. The
# options are $@.
times_spans() {
  local now since until wanted_from wanted_to from to
  local -a words
  while IFS='|' read -r now since until wanted_from wanted_to; do
    times_at "$now"
    words=("$@")
    [ -z "$since" ] || words+=("--since=$since")
    [ -z "$until" ] || words+=("--until=$until")
    times_span "${words[@]}"
    [ "$from|$to" = "$wanted_from|$wanted_to" ] || tell "$from|$to, not $wanted_from|$wanted_to"
    count "agenda machine: --since '$since' --until '$until' at $now $*"
  done
}

# Rows of texts that are no times.
times_no() {
  local text
  times_at 2025-03-29T11:00:00Z
  while IFS= read -r text; do
    echo "agenda: --after: not a time: '$text' (such as 'tomorrow 02:00', '+8h', '2026-12-01 22:00') [BadTime]" >"$work/err.wanted"
    program_run upcoming --root root "--after=$text"
    program_compare "no time '$text'" /dev/null "$work/err.wanted" 1
  done
}

# ---- on both sides of clock changes

# The day before clocks are put forward, at 12:00 local time, and at 00:30, when UTC still has the date before. At 02:00
# of the next day they show 03:00.
program_make etc/localtime=CET
times_read <<'ROWS'
2025-03-29T11:00:00Z|2025-03-30T20:00:00Z|2025-03-30T20:00:00Z
2025-03-29T11:00:00Z|now|2025-03-29T11:00:00Z
2025-03-29T11:00:00Z|today|2025-03-28T23:00:00Z
2025-03-29T11:00:00Z|tomorrow|2025-03-29T23:00:00Z
2025-03-29T11:00:00Z|yesterday|2025-03-27T23:00:00Z
2025-03-29T11:00:00Z|Tomorrow|2025-03-29T23:00:00Z
2025-03-29T11:00:00Z|NOW|2025-03-29T11:00:00Z
2025-03-29T11:00:00Z|YESTERDAY 18:00|2025-03-28T17:00:00Z
2025-03-28T23:30:00Z|today|2025-03-28T23:00:00Z
2025-03-28T23:30:00Z|tomorrow|2025-03-29T23:00:00Z
2025-03-28T23:30:00Z|yesterday|2025-03-27T23:00:00Z
2025-03-29T11:00:00Z|+30s|2025-03-29T11:00:30Z
2025-03-29T11:00:00Z|+90min|2025-03-29T12:30:00Z
2025-03-29T11:00:00Z|+8h|2025-03-29T19:00:00Z
2025-03-29T11:00:00Z|+24h|2025-03-30T11:00:00Z
2025-03-29T11:00:00Z|+1d|2025-03-30T11:00:00Z
2025-03-29T11:00:00Z|+1w|2025-04-05T11:00:00Z
2025-03-29T11:00:00Z|-30s|2025-03-29T10:59:30Z
2025-03-29T11:00:00Z|-90min|2025-03-29T09:30:00Z
2025-03-29T11:00:00Z|-1d|2025-03-28T11:00:00Z
2025-03-29T11:00:00Z|-1w|2025-03-22T11:00:00Z
2025-03-29T11:00:00Z|+8 hours|2025-03-29T19:00:00Z
2025-03-29T11:00:00Z|+1 month|2025-04-28T21:30:00Z
2025-03-29T11:00:00Z|+8y|2033-03-29T11:00:00Z
2025-03-29T11:00:00Z|+8m|2025-03-29T11:08:00Z
2025-03-29T11:00:00Z|+1h30min|2025-03-29T12:30:00Z
2025-03-29T11:00:00Z|-1h30min|2025-03-29T09:30:00Z
2025-03-29T11:00:00Z|+1.5h|2025-03-29T12:30:00Z
2025-03-29T11:00:00Z|+1d 90 min|2025-03-30T12:30:00Z
2025-03-29T11:00:00Z|+0s|2025-03-29T11:00:00Z
2025-03-29T11:00:00Z|18:00|2025-03-29T17:00:00Z
2025-03-29T11:00:00Z|today 18:00|2025-03-29T17:00:00Z
2025-03-29T11:00:00Z|tomorrow 01:59|2025-03-30T00:59:00Z
2025-03-29T11:00:00Z|tomorrow 02:00|2025-03-30T01:00:00Z
2025-03-29T11:00:00Z|tomorrow 03:00|2025-03-30T01:00:00Z
2025-03-29T11:00:00Z|tomorrow 18:00|2025-03-30T16:00:00Z
2025-03-29T11:00:00Z|yesterday 18:00|2025-03-28T17:00:00Z
2025-03-29T11:00:00Z|3 hours ago|2025-03-29T08:00:00Z
2025-03-29T11:00:00Z|2025-03-30 04:00|2025-03-30T02:00:00Z
2025-03-29T11:00:00Z|2025-03-30 02:30|2025-03-30T01:00:00Z
ROWS

# The day on which they are put forward, and the night before that.
times_read <<'ROWS'
2025-03-30T10:00:00Z|now|2025-03-30T10:00:00Z
2025-03-30T10:00:00Z|today|2025-03-29T23:00:00Z
2025-03-30T10:00:00Z|tomorrow|2025-03-30T22:00:00Z
2025-03-30T10:00:00Z|yesterday|2025-03-28T23:00:00Z
2025-03-30T10:00:00Z|-8h|2025-03-30T02:00:00Z
2025-03-30T10:00:00Z|-1d|2025-03-29T10:00:00Z
2025-03-30T10:00:00Z|01:00|2025-03-30T00:00:00Z
2025-03-30T10:00:00Z|02:30|2025-03-30T01:00:00Z
2025-03-30T10:00:00Z|03:00|2025-03-30T01:00:00Z
2025-03-30T10:00:00Z|yesterday 18:00|2025-03-29T17:00:00Z
2025-03-30T00:59:59Z|+1s|2025-03-30T01:00:00Z
2025-03-30T00:59:59Z|today|2025-03-29T23:00:00Z
2025-03-30T00:30:00Z|+1h|2025-03-30T01:30:00Z
2025-03-30T01:00:00Z|-1s|2025-03-30T00:59:59Z
2025-03-30T01:00:00Z|today|2025-03-29T23:00:00Z
ROWS

# The day before clocks are put back, at 12:00 local time, and the day itself. They show 02:00 to 03:00 twice.
times_read <<'ROWS'
2025-10-25T10:00:00Z|today|2025-10-24T22:00:00Z
2025-10-25T10:00:00Z|tomorrow|2025-10-25T22:00:00Z
2025-10-25T10:00:00Z|yesterday|2025-10-23T22:00:00Z
2025-10-25T10:00:00Z|+1d|2025-10-26T10:00:00Z
2025-10-25T10:00:00Z|+1w|2025-11-01T10:00:00Z
2025-10-25T10:00:00Z|tomorrow 01:59|2025-10-25T23:59:00Z
2025-10-25T10:00:00Z|tomorrow 03:00|2025-10-26T02:00:00Z
2025-10-25T10:00:00Z|tomorrow 18:00|2025-10-26T17:00:00Z
2025-10-25T10:00:00Z|2025-10-26 02:30:00+0100|2025-10-26T01:30:00Z
2025-10-26T11:00:00Z|today|2025-10-25T22:00:00Z
2025-10-26T11:00:00Z|tomorrow|2025-10-26T23:00:00Z
2025-10-26T11:00:00Z|yesterday|2025-10-24T22:00:00Z
2025-10-26T11:00:00Z|-1d|2025-10-25T11:00:00Z
2025-10-26T11:00:00Z|-1w|2025-10-19T11:00:00Z
2025-10-26T11:00:00Z|yesterday 18:00|2025-10-25T16:00:00Z
2025-10-26T00:30:00Z|now|2025-10-26T00:30:00Z
2025-10-26T00:30:00Z|today|2025-10-25T22:00:00Z
2025-10-26T00:30:00Z|+1h|2025-10-26T01:30:00Z
2025-10-26T00:30:00Z|-1h|2025-10-25T23:30:00Z
2025-10-26T00:30:00Z|02:30|2025-10-26T00:30:00Z
2025-10-26T01:30:00Z|now|2025-10-26T01:30:00Z
2025-10-26T01:30:00Z|today|2025-10-25T22:00:00Z
2025-10-26T01:30:00Z|+1h|2025-10-26T02:30:00Z
2025-10-26T01:30:00Z|-1h|2025-10-26T00:30:00Z
2025-10-26T01:30:00Z|02:30|2025-10-26T00:30:00Z
ROWS

# Spans: the end is counted from the start, and a day of a span has 24 hours.
times_spans <<'ROWS'
2025-03-29T11:00:00Z|||2025-03-29T11:00:00Z|2025-03-30T11:00:00Z
2025-03-29T11:00:00Z|2024-03-30 22:00||2024-03-30T21:00:00Z|2024-03-31T21:00:00Z
2025-03-29T11:00:00Z|2024-10-26 22:00||2024-10-26T20:00:00Z|2024-10-27T20:00:00Z
2025-03-29T11:00:00Z||2025-04-01|2025-03-29T11:00:00Z|2025-03-31T22:00:00Z
2025-03-29T11:00:00Z||18:00|2025-03-29T11:00:00Z|2025-03-29T17:00:00Z
2025-03-29T11:00:00Z||12:00|2025-03-29T11:00:00Z|2025-03-30T10:00:00Z
2025-03-29T11:00:00Z||02:30|2025-03-29T11:00:00Z|2025-03-30T01:00:00Z
2025-03-29T11:00:00Z|tomorrow|+8h|2025-03-29T23:00:00Z|2025-03-30T07:00:00Z
2025-03-29T11:00:00Z|tomorrow|+1d|2025-03-29T23:00:00Z|2025-03-30T23:00:00Z
2025-03-29T11:00:00Z|tomorrow|-0s|2025-03-29T23:00:00Z|2025-03-29T23:00:00Z
2025-03-29T11:00:00Z|tomorrow 22:00|+8 hours|2025-03-30T20:00:00Z|2025-03-31T04:00:00Z
2025-03-29T11:00:00Z|yesterday 18:00|today 08:00|2025-03-28T17:00:00Z|2025-03-29T07:00:00Z
2025-03-29T11:00:00Z|yesterday 18:00|3 hours ago|2025-03-28T17:00:00Z|2025-03-29T08:00:00Z
2025-03-29T11:00:00Z|now|tomorrow|2025-03-29T11:00:00Z|2025-03-29T23:00:00Z
2025-03-29T11:00:00Z|-1d|now|2025-03-28T11:00:00Z|2025-03-29T11:00:00Z
2025-03-29T11:00:00Z|-1d|+1d|2025-03-28T11:00:00Z|2025-03-29T11:00:00Z
2025-03-29T11:00:00Z|+1d|+1d|2025-03-30T11:00:00Z|2025-03-31T11:00:00Z
2025-03-29T11:00:00Z|fri|mon|2025-04-03T22:00:00Z|2025-04-06T22:00:00Z
2025-10-25T10:00:00Z|tomorrow|+1d|2025-10-25T22:00:00Z|2025-10-26T22:00:00Z
2025-10-25T10:00:00Z|tomorrow|+1w|2025-10-25T22:00:00Z|2025-11-01T22:00:00Z
2025-10-25T10:00:00Z|tomorrow 02:30|tomorrow 02:30|2025-10-26T00:30:00Z|2025-10-26T01:30:00Z
2025-10-25T10:00:00Z|tomorrow 02:30|02:30|2025-10-26T00:30:00Z|2025-10-26T01:30:00Z
2025-10-26T00:30:00Z|now|+1h|2025-10-26T00:30:00Z|2025-10-26T01:30:00Z
2025-10-26T01:30:00Z|now|+90min|2025-10-26T01:30:00Z|2025-10-26T03:00:00Z
ROWS

# Clocks skip midnight of 2018-11-04, as they did in Brazil: the day begins at 01:00. Summer time is this zone's standard time,
# since it is the one of January 1970.
machine_zone_text -7200 -02 '<-02>2<-03>3,M2.3.0/0,M11.1.0/0'
program_make "etc/localtime=$tzif"
times_read <<'ROWS'
2018-11-03T15:00:00Z|today|2018-11-03T03:00:00Z
2018-11-03T15:00:00Z|tomorrow|2018-11-04T03:00:00Z
2018-11-04T15:00:00Z|today|2018-11-04T03:00:00Z
2018-11-04T15:00:00Z|tomorrow|2018-11-05T02:00:00Z
2018-11-05T15:00:00Z|yesterday|2018-11-04T03:00:00Z
ROWS

# ---- in UTC, and in other zones

# With --utc, and without a zone. What the caller's TZ says changes nothing.
program_make etc/localtime=CET
times_spans --utc <<'ROWS'
2025-03-29T11:00:00Z|tomorrow||2025-03-30T00:00:00Z|2025-03-31T00:00:00Z
ROWS
program_make x/
export TZ=EST5EDT,M3.2.0,M11.1.0
times_spans <<'ROWS'
2025-03-29T11:00:00Z|2024-02-29 12:00||2024-02-29T12:00:00Z|2024-03-01T12:00:00Z
2025-03-29T11:00:00Z|2024-02-29||2024-02-29T00:00:00Z|2024-03-01T00:00:00Z
2025-03-29T11:00:00Z|2024-02-29 12:00:00+0200||2024-02-29T10:00:00Z|2024-03-01T10:00:00Z
2025-03-29T11:00:00Z|2024-01-01T00:00:00z|2024-01-01t00:00:00-01:00|2024-01-01T00:00:00Z|2024-01-01T01:00:00Z
2025-03-29T11:00:00Z|2024-01-01T00:00:00+01:00||2023-12-31T23:00:00Z|2024-01-01T23:00:00Z
2025-03-29T11:00:00Z|2024-01-01|2024-01-31 06:00|2024-01-01T00:00:00Z|2024-01-31T06:00:00Z
2025-03-29T11:00:00Z|2024-01-01|+8 hours|2024-01-01T00:00:00Z|2024-01-01T08:00:00Z
2025-03-29T11:00:00Z|2024-02-28 23:00|+90 min|2024-02-28T23:00:00Z|2024-02-29T00:30:00Z
2025-03-29T11:00:00Z|2024-01-31|+1 month|2024-01-31T00:00:00Z|2024-03-01T10:30:00Z
2025-03-29T11:00:00Z|2024-01-01|+1 week|2024-01-01T00:00:00Z|2024-01-08T00:00:00Z
2025-03-29T11:00:00Z|2024-03-09 12:00|@1720000000|2024-03-09T12:00:00Z|2024-07-03T09:46:40Z
2025-03-29T11:00:00Z||2999-01-01T00:00:00Z|2025-03-29T11:00:00Z|2999-01-01T00:00:00Z
ROWS
unset TZ
if ! passed_over "agenda machine: the times in zones" /usr/share/zoneinfo/Pacific/Apia; then
  times_spans --zone Europe/Oslo <<'ROWS'
2025-03-29T11:00:00Z|2024-01-01 12:00|2024-07-01 12:00|2024-01-01T11:00:00Z|2024-07-01T10:00:00Z
2025-03-29T11:00:00Z|2024-07-01T12:00:00|2024-07-02|2024-07-01T10:00:00Z|2024-07-01T22:00:00Z
2025-03-29T11:00:00Z|2024-01-01|2024-03-31 01:59:59|2023-12-31T23:00:00Z|2024-03-31T00:59:59Z
2025-03-29T11:00:00Z|2024-03-31 03:00|2024-10-27 01:59:59|2024-03-31T01:00:00Z|2024-10-26T23:59:59Z
2025-03-29T11:00:00Z|2024-10-27 02:30:00+0200|2024-10-27 02:30:00+0100|2024-10-27T00:30:00Z|2024-10-27T01:30:00Z
2025-03-29T11:00:00Z|2024-10-27 03:00|+10 seconds|2024-10-27T02:00:00Z|2024-10-27T02:00:10Z
ROWS
  # in December 2011 Samoa had no 30th; on Lord Howe clocks are put forward by half an hour
  times_spans --zone Pacific/Apia <<'ROWS'
2025-03-29T11:00:00Z|2011-12-29 12:00|2011-12-31 00:00|2011-12-29T22:00:00Z|2011-12-30T10:00:00Z
2025-03-29T11:00:00Z|2011-12-30|2011-12-30 12:00|2011-12-30T10:00:00Z|2011-12-30T10:00:00Z
2011-12-29T22:00:00Z|today|tomorrow|2011-12-29T10:00:00Z|2011-12-30T10:00:00Z
ROWS
  times_spans --zone Australia/Lord_Howe <<'ROWS'
2025-03-29T11:00:00Z|2024-10-05 12:00|2024-10-06 12:00|2024-10-05T01:30:00Z|2024-10-06T01:00:00Z
ROWS
fi

# The file of a zone, by its path.
printf '%b' "$machine_east" >"$machine_folder/east"
for times_zone in ./east ../machine/east "$machine_folder/east"; do
  times_spans --zone "$times_zone" <<'ROWS'
2025-03-29T11:00:00Z|2024-07-01 12:00|13:00|2024-07-01T07:00:00Z|2024-07-01T08:00:00Z
ROWS
done

# ---- what is no time

times_no <<'ROWS'
tomorow
next month
last monday
monday next week
noon
8pm
1 feb 2024
20240101
01/02/2024
2024-01-01T00:00Z
2024-01-01T00:00:00ZZ
2024-02-29 12:00 +0200
2024-07-01 12:00 CEST
13:00 2024-07-01
TZ="UTC0" 2024-07-01 12:00
tomorrow+1h
today 22
3 hours
+8x
+frob
-frob
+h
+99999999999999999999h
ago
ROWS

# ---- the other options

times_at 2025-03-29T11:00:00Z
program_make 'etc/localtime=CET S/u=@daily\x20a\n'
printf '2025-03-30T00:00:00+01:00\tu:1\ta\n' >"$work/out.wanted"
program_run upcoming --root root
program_compare "upcoming, from now" "$work/out.wanted" /dev/null 0
printf '2025-03-31T00:00:00+02:00\tu:1\ta\n' >"$work/out.wanted"
program_run upcoming --root root --after tomorrow
program_compare "upcoming, from tomorrow" "$work/out.wanted" /dev/null 0
printf '2025-03-30T00:00:00Z\n' >"$work/out.wanted"
program_run next @daily --utc --count 1
program_compare "next, from now" "$work/out.wanted" /dev/null 0
printf '2025-03-31T00:00:00Z\n' >"$work/out.wanted"
program_run next @daily --utc --count 1 --after tomorrow
program_compare "next, from tomorrow" "$work/out.wanted" /dev/null 0
machine_by=()

# Lengths.
program_make x/
while IFS='|' read -r text seconds; do
  printf '1970-01-01T00:00:00Z\t%s\t%s\n' "$(date -u -d "@$seconds" +%Y-%m-%dT%H:%M:%SZ)" "$seconds" >"$work/out.wanted"
  program_run quiet --root root --utc --since @0 --until "@$seconds" --least "$text"
  program_compare "--least '$text'" "$work/out.wanted" /dev/null 0
  program_run quiet --root root --utc --since @0 --until "@$((seconds - 1))" --least "$text"
  printf 'agenda: no gap of %s: the longest is %s\n' "$(program_length "$seconds")" \
    "$(program_length $((seconds - 1)))" >"$work/err.wanted"
  program_compare "--least '$text' and a shorter gap" /dev/null "$work/err.wanted" 0
done <<'ROWS'
45s|45
2d|172800
08h|28800
1.5h|5400
1m|60
2 hours 5 minutes|7500
4294967295s|4294967295
ROWS
while IFS= read -r text; do
  echo "agenda: --least: not a length: '$text' (such as '90min' or '2h') [BadLength]" >"$work/err.wanted"
  program_run quiet --root root --least "$text"
  program_compare "no length '$text'" /dev/null "$work/err.wanted" 1
done <<'ROWS'
4294967296s
99999999999999999999h
+1 x
h
1h 30x
ROWS
