# shellcheck shell=bash disable=SC2154,SC2034
# Rows of the times and lengths that questions about a machine read: the options --after, --since, --until and --least. Expected
# times are worked out by hand: in Berlin clocks are put forward on 29 March 2026 at 02:00, and back on 25 October at 03:00.

# shellcheck source=/dev/null
. "$top/rows/lib/program.sh"

spans_zone=Europe/Berlin
spans_file=/usr/share/zoneinfo/$spans_zone

# Compares the header of a plan of the present root with the times $3 and $4. Its span is --since $1 and --until $2.
spans_are() {
  printf 'agenda 2 %s\t%s\t%s\t0\n' "$spans_zone" "$3" "$4" >"$work/out.wanted"
  program_run plan --root root --zone "$spans_zone" --since "$1" --until "$2"
  program_compare "--since '$1' --until '$2'" "$work/out.wanted" /dev/null 0
}

# Rows from standard input: the fields of spans_are.
spans_rows() {
  local since until from to
  while IFS='|' read -r since until from to; do
    spans_are "$since" "$until" "$from" "$to"
  done
}

# Compares what the present root answers to the other arguments with the line $1: an error, and nothing on standard output.
spans_error() {
  printf '%s\n' "$1" >"$work/err.wanted"
  shift
  program_run "$@" --root root
  program_compare "$*" /dev/null "$work/err.wanted" 1
}

# Rows from standard input: texts that are no times, of each of the options.
spans_no_times() {
  local text option words
  local as=" (such as 'tomorrow 02:00', '+8h', '2026-12-01 22:00') [BadTime]"
  while IFS= read -r text; do
    for option in 'upcoming --after' 'plan --since' 'quiet --until'; do
      read -r -a words <<<"$option"
      spans_error "agenda: ${words[1]}: not a time: '$text'$as" "${words[0]}" "${words[1]}=$text"
    done
    spans_error "agenda: --until: not a time: '$text'$as" plan "--upto=$text"
  done
}

# Rows from standard input: the text of a length, and its seconds. A gap of the length is printed. A shorter one is not, and a line says how long it is.
spans_lengths() {
  local text seconds
  while IFS='|' read -r text seconds; do
    printf '1970-01-01T00:00:00Z\t%s\t%s\n' "$(date -u -d "@$seconds" +%Y-%m-%dT%H:%M:%SZ)" "$seconds" >"$work/out.wanted"
    program_run quiet --root root --utc --since @0 --until "@$seconds" --least "$text"
    program_compare "--least '$text'" "$work/out.wanted" /dev/null 0
    program_run quiet --root root --utc --since @0 --until "@$((seconds - 1))" --least "$text"
    printf 'agenda: no gap of %s: the longest is %s\n' "$(program_length "$seconds")" \
      "$(program_length $((seconds - 1)))" >"$work/err.wanted"
    program_compare "--least '$text' and a shorter gap" /dev/null "$work/err.wanted" 0
  done
}

# Rows from standard input: the text of a day, as --since and date read it. The day may change between the two.
spans_days() {
  local text before after
  while IFS= read -r text; do
    before=$(TZ=$spans_zone date -d "$text 00:00" +%Y-%m-%dT%H:%M:%S%:z)
    program_run plan --root root --zone "$spans_zone" --since "$text"
    after=$(TZ=$spans_zone date -d "$text 00:00" +%Y-%m-%dT%H:%M:%S%:z)
    [ "$(cut -f 2 "$work/out")" = "$before" ] || [ "$(cut -f 2 "$work/out")" = "$after" ] || tell "$(cat "$work/out" "$work/err")"
    count "agenda machine: --since $text"
  done
}

program_make x/
if ! passed_over "rows/machine-spans.sh, zones" "$spans_file"; then
  # a date and a time of day, each alone, with seconds, in UTC, with an offset, and in any case
  spans_rows <<'ROWS'
2026-03-27 22:00|2026-03-28 06:00|2026-03-27T22:00:00+01:00|2026-03-28T06:00:00+01:00
2026-03-27T22:00|2026-03-28t6:00:59|2026-03-27T22:00:00+01:00|2026-03-28T06:00:59+01:00
 2026-03-27   22:00 |2026-03-28|2026-03-27T22:00:00+01:00|2026-03-28T00:00:00+01:00
2026-03-27|2026-03-28|2026-03-27T00:00:00+01:00|2026-03-28T00:00:00+01:00
Fri 2026-03-27|FRIDAY 2026-03-27 12:00|2026-03-27T00:00:00+01:00|2026-03-27T12:00:00+01:00
2026-03-29 02:30 UTC|2026-03-29 02:30:00 utc|2026-03-29T04:30:00+02:00|2026-03-29T04:30:00+02:00
2026-03-29T02:30:00+01:00|2026-03-29 04:30:00+0200|2026-03-29T03:30:00+02:00|2026-03-29T04:30:00+02:00
2026-03-29T02:30:00Z|2026-03-29 00:30:00-0330|2026-03-29T04:30:00+02:00|2026-03-29T06:00:00+02:00
@0|@86400|1970-01-01T01:00:00+01:00|1970-01-02T01:00:00+01:00
ROWS
  # a local time that clocks skip, and one that they show twice: of --until it is the second of them
  spans_rows <<'ROWS'
2026-03-29 01:59:59|2026-03-29 02:00|2026-03-29T01:59:59+01:00|2026-03-29T03:00:00+02:00
2026-03-29 02:30|2026-03-29 02:30|2026-03-29T03:00:00+02:00|2026-03-29T03:00:00+02:00
2026-10-25 02:30|2026-10-25 02:30|2026-10-25T02:30:00+02:00|2026-10-25T02:30:00+01:00
2026-10-25 03:00|2026-10-25 03:00|2026-10-25T03:00:00+01:00|2026-10-25T03:00:00+01:00
ROWS
  # the end counts from the start: a time span, a time of day, and a weekday
  spans_rows <<'ROWS'
2026-03-27T17:04:05Z|+8h|2026-03-27T18:04:05+01:00|2026-03-28T02:04:05+01:00
2026-03-28 12:00|+1day|2026-03-28T12:00:00+01:00|2026-03-29T13:00:00+02:00
2026-03-28 12:00|+1 h|2026-03-28T12:00:00+01:00|2026-03-28T13:00:00+01:00
2026-03-27 22:00|06:00|2026-03-27T22:00:00+01:00|2026-03-28T06:00:00+01:00
2026-03-27 22:00|22:00|2026-03-27T22:00:00+01:00|2026-03-28T22:00:00+01:00
2026-03-27 22:00|22:00:01|2026-03-27T22:00:00+01:00|2026-03-27T22:00:01+01:00
2026-03-28 22:00|sun 04:00|2026-03-28T22:00:00+01:00|2026-03-29T04:00:00+02:00
2026-03-27 12:00|fri|2026-03-27T12:00:00+01:00|2026-04-03T00:00:00+02:00
2026-03-27 12:00|friday 12:01|2026-03-27T12:00:00+01:00|2026-03-27T12:01:00+01:00
ROWS
  spans_days <<'ROWS'
today
tomorrow
yesterday
ROWS
  spans_error "agenda: --until is before --since (2026-03-27T22:00:00+01:00) [Backwards]" \
    plan --zone "$spans_zone" --since '2026-03-27 22:00' --until '2026-03-27 21:59:59'
  spans_error "agenda: --until is before --since (2026-07-01T00:00:00+02:00) [Backwards]" \
    quiet --zone "$spans_zone" --since 2026-07-01 --until=-1s
fi

# --after, without and with each zone
printf '%s\t%s\t%s\n' 2026-12-01T22:01:00Z u:1 a >"$work/out.wanted"
program_make 'S/u=*\x20*\x20*\x20*\x20*\x20a\n'
program_run upcoming --root root --utc --after '2026-12-01 22:00'
program_compare "--after" "$work/out.wanted" /dev/null 0

# what is given without an option: now, and a day later
program_make x/
before=$(date +%s)
program_run plan --root root --utc
after=$(date +%s)
IFS=$tab read -r _ from to _ <"$work/out"
from=$(date -d "$from" +%s) to=$(date -d "$to" +%s)
if [ "$from" -lt "$before" ] || [ "$from" -gt "$after" ] || [ "$to" != $((from + 86400)) ]; then
  tell "$(cat "$work/out" "$work/err")"
fi
count "agenda machine: a day from now on"

# ---- errors

spans_no_times <<'ROWS'

8h
1w
6
24:00
22:00:60
tomorrow 25:00
next friday
Thu 2026-03-27
2026-2-30
2026-02-30
2026-03-29T02:30:00+25:00
2026-03-29 02:30 CET
+1.5s
+infinity
+
@
@-1
@1.5
yesterday's
ROWS
spans_error "agenda: --since: before 1970 or after 2999: '@99999999999' [OutOfYears]" plan --since @99999999999
spans_error "agenda: --since: before 1970 or after 2999: '1969-12-31T23:59:59Z' [OutOfYears]" quiet --since 1969-12-31T23:59:59Z
spans_error "agenda: --until: before 1970 or after 2999: '+1s' [OutOfYears]" plan --since 3000-01-01T00:00:00Z --until +1s
spans_error "agenda: --until: before 1970 or after 2999: '+24h' [OutOfYears]" plan --since 3000-01-01T00:00:00Z
spans_error "agenda: --after: before 1970 or after 2999: '3000-01-02 UTC' [OutOfYears]" upcoming --after '3000-01-02 UTC'
spans_error "agenda: --until is before --since (2026-03-27T00:00:00+00:00) [Backwards]" plan --utc --since 2026-03-27 --until 2026-03-26
# the zone comes first, then since, until, the span, and then the length
spans_error "agenda: zone 'Nowhere/At_all': no such zone [NoSuchZone]" plan --zone Nowhere/At_all --since x
spans_error "agenda: zone 'a b': not the name of a zone [BadZoneName]" quiet --zone 'a b'
spans_error "agenda: zone '/dev/null': not a TZif file [BadZone]" upcoming --zone /dev/null
spans_error "agenda: --since: not a time: 'x' (such as 'tomorrow 02:00', '+8h', '2026-12-01 22:00') [BadTime]" \
  plan --since x --until y
spans_error "agenda: --until is before --since (2026-03-27T00:00:00+00:00) [Backwards]" \
  quiet --utc --since 2026-03-27 --until 2026-03-26 --least x

# ---- lengths

program_make x/
spans_lengths <<'ROWS'
1|1
1s|1
60|60
90min|5400
1h 30min|5400
1h30|3630
 2h |7200
1d|86400
1w|604800
4294967295|4294967295
ROWS
program_run quiet --root root --utc --since @0 --until @1799
echo 'agenda: no gap of 30 min: the longest is 29 min 59 s' >"$work/err.wanted"
program_compare "a gap of less than 30 minutes" /dev/null "$work/err.wanted" 0
for text in '' 0 0s 4294967296 1.5s 500ms infinity x -1 1:30; do
  spans_error "agenda: --least: not a length: '$text' (such as '90min' or '2h') [BadLength]" quiet "--least=$text"
done

# ---- a clock that stands still

# The clock shows the second $1, and the others are the fields of spans_are.
spans_at() {
  local machine_by=(env "LD_PRELOAD=$work/still-clock.so" "STILL_CLOCK=$1")
  shift
  spans_are "$@"
}

if ! passed_over "rows/machine-spans.sh, a clock that stands still" cc "$spans_file" &&
  cc -shared -fPIC -o "$work/still-clock.so" "$top/rows/lib/still-clock.c"; then
  # a Friday, 2026-03-27T18:04:05+01:00
  while IFS='|' read -r since until from to; do
    spans_at 1774631045 "$since" "$until" "$from" "$to"
  done <<'ROWS'
now|+24h|2026-03-27T18:04:05+01:00|2026-03-28T18:04:05+01:00
today|tomorrow|2026-03-27T00:00:00+01:00|2026-03-28T00:00:00+01:00
yesterday|now|2026-03-26T00:00:00+01:00|2026-03-27T18:04:05+01:00
tomorrow 02:00|+1h|2026-03-28T02:00:00+01:00|2026-03-28T03:00:00+01:00
22:00|06:00|2026-03-27T22:00:00+01:00|2026-03-28T06:00:00+01:00
sat 22:00|sun 04:00|2026-03-28T22:00:00+01:00|2026-03-29T04:00:00+02:00
fri|sat|2026-03-27T00:00:00+01:00|2026-03-28T00:00:00+01:00
thu|fri|2026-04-02T00:00:00+02:00|2026-04-03T00:00:00+02:00
fri 12:00|fri|2026-03-27T12:00:00+01:00|2026-04-03T00:00:00+02:00
+1h 30min|+8h|2026-03-27T19:34:05+01:00|2026-03-28T03:34:05+01:00
2h ago|+1day|2026-03-27T16:04:05+01:00|2026-03-28T16:04:05+01:00
now|2026-03-28|2026-03-27T18:04:05+01:00|2026-03-28T00:00:00+01:00
22:00 UTC|23:30 utc|2026-03-27T23:00:00+01:00|2026-03-28T00:30:00+01:00
ROWS
  # the last second of the planner's years, and the next one but one
  spans_at 32503680000 2999-12-31 now 2999-12-31T00:00:00+01:00 3000-01-01T00:00:00Z
  machine_by=(env "LD_PRELOAD=$work/still-clock.so" STILL_CLOCK=32503680001)
  spans_error "agenda: the system clock is after 2999: set it [OutOfYears]" plan --since 2026-03-27
  machine_by=()
fi
