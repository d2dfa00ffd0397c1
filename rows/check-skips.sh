# shellcheck shell=bash disable=SC2154
# Rows of bin/check-examples: what `agenda check` reports about events whose starts systemd 252 skips, where it may stop
# for good, and about timers whose starts it may merge. Which events these are was measured with systemd-analyze calendar
# of systemd 252. Rows that need the time zone database are skipped where it is missing.

# shellcheck source=/dev/null
. "$top/rows/lib/findings.sh"

check_skips_directory=$work/check-skips
check_skips_database=/usr/share/zoneinfo
mkdir -p "$check_skips_directory"

# Makes the file a.timer of the escaped lines $1 in a section [Timer].
check_skips_file() {
  printf '[Timer]\n%b' "$1" >"$check_skips_directory/a.timer"
}

# Runs `check` on a.timer with the options $@.
check_skips_run() {
  run_in "$check_skips_directory" agenda check "$@" a.timer
}

# Rows from standard input: events, and after a bar the codes of the warnings about each, with blanks between them. All
# events are in one timer, so each warning must be on its own line. No starts of it can be merged.
check_skips_events() {
  local event codes code line=2
  local -a wanted=()
  check_skips_file 'AccuracySec=1us\n'
  while IFS='|' read -r event codes; do
    line=$((line + 1))
    printf 'OnCalendar=%s\n' "$event" >>"$check_skips_directory/a.timer"
    for code in $codes; do
      wanted+=("a.timer:$line: warning [$code]")
    done
  done
  check_skips_run
  shorten_findings <"$work/out" >"$work/findings" && mv -- "$work/findings" "$work/out"
  printf '%s\n' "${wanted[@]}" >"$work/findings.wanted"
  compare "the warnings about $((line - 2)) events" "$work/findings.wanted" /dev/null 0
}

# Rows from standard input: an event, and what to write if systemd may stop at it. The options are $@.
check_skips_stops() {
  local event hint wanted
  while IFS='|' read -r event hint; do
    check_skips_file "AccuracySec=1us\nOnCalendar=$event\n"
    check_skips_run "$@"
    wanted=
    [ -z "$hint" ] || wanted="a.timer:3: warning: systemd 252 may stop for good at '$event' in a zone with summer time: $hint [MayStop]"$'\n'
    compare_texts "check $* of '$event'" "$wanted" '' 0
  done
}

# Rows from standard input: the escaped lines of a timer, and the codes of the warnings about the whole timer, with blanks
# between them. The options are $@.
check_skips_merged() {
  local lines codes code wanted
  while IFS='|' read -r lines codes; do
    check_skips_file "$lines"
    check_skips_run "$@"
    shorten_findings <"$work/out" >"$work/findings" && mv -- "$work/findings" "$work/out"
    wanted=
    for code in $codes; do
      wanted+="a.timer: warning [$code]"$'\n'
    done
    compare_texts "check $* of '$lines'" "$wanted" '' 0
  done
}

# Minute 50 of 0/25 goes on to 75, which is minute 15 of the next hour, so minute 0 is skipped; but 45 of 0/15 goes on to 60,
# which is minute 0. Seconds are skipped where the last minute of an hour goes on to the next hour.
check_skips_events <<'ROWS'
*:*:0/40|SkippedStarts
*:*:0/21|SkippedStarts
*:*:0/20|
*:*:0/59|SkippedStarts
*:*:0/58,59|SkippedStarts
*:*:19/40|SkippedStarts
*:7:0/40|
*:0:0/40|
*:59:0/40|
*:0,59:0/40|SkippedStarts
5:0,59:0/40|
5,6:0,59:0/40|SkippedStarts
5,7:0,59:0/40|
0,23:0,59:0/40|SkippedStarts
*:0/25|SkippedStarts
*:0/15|
*:0/7|SkippedStarts
*:0..50/25|
*:0,25,50|
*:15/25|
*:14/25|
*:5,0/25|SkippedStarts
*:0/25,15|SkippedStarts
*:0/25,5/20|SkippedStarts
*:0/59|
*:5/53|SkippedStarts
*:0/25,59|
0,23:0/25|SkippedStarts
12:0/25|
12,13:0/25|
0..22:0/25|
1..23:0/25|
*-*-1 0,23:0/25|
*-*-1,27 0,23:0/25|
*-*-1,28 0,23:0/25|SkippedStarts
*-*-1,31 0,23:0/25|SkippedStarts
*-*-2,31 0,23:0/25|
*-*-5,6 0,23:0/25|SkippedStarts
Mon 0,23:0/25|
Mon,Wed 0,23:0/25|
Mon,Tue 0,23:0/25|SkippedStarts
Sun,Mon 0,23:0/25|SkippedStarts
*-*~1 0,23:0/25|
*-*~1,2 0,23:0/25|SkippedStarts
ROWS

# Hours are skipped where a month ends, and days where a year does. Months and years aren't. The day at place 28 from the end
# of a month counts as day 4.
check_skips_events <<'ROWS'
0/5:00|SkippedStarts
0/6:00|
0/23:00|
0/22:00|SkippedStarts
1/5:00|SkippedStarts
Mon 0/5:00|
Mon,Tue 0/5:00|SkippedStarts
*-*-1 0/5:00|
*-*-1,27 0/5:00|
*-*-1,28 0/5:00|SkippedStarts
*-*-2..31 0/5:00|
*-5-* 0/5:00|
*-5,6-* 0/5:00|SkippedStarts
*-5,7-* 0/5:00|
*-1,12-* 0/5:00|SkippedStarts
*-*~1 0/5:00|
*-*~1..27 0/5:00|
*-*~1..28 0/5:00|SkippedStarts
*-*-1/2|
*-*-1/3|
*-*-1/4|SkippedStarts
*-*-2/4|SkippedStarts
*-*-6/16|SkippedStarts
*-*-16/14|
*-*-1..29/4|
*-1/6-1/4|
*-5,6-1/4|
*-1,12-1/4|SkippedStarts
2024-*-1/4|
2024,2025-*-1/4|SkippedStarts
2024,2026-*-1/4|
*-*~9/4|
*-*~28/8|SkippedStarts
*-*~28/10|
*-*~28/11|SkippedStarts
*-*~27/8|SkippedStarts
*-5,6~28/8|
*-2/5-1|
*-1/5-1|
2024,2025-1/5-1|
2024/5-1-1|
daily|
ROWS

# A step goes on by one from its limit only if the limit and one is its next number: 12 for months, 28 to 31 for days, 23 and
# 59. After `~` it never does. The hint has the values as far as they go, and the element as it is written. UTC has no summer
# time.
if [ -d "$check_skips_database" ]; then
  check_skips_stops --zone Europe/Oslo <<'ROWS'
*-1/5-3 07:00|write 1,6,11 for 1/5
*-01/05-3 07:00|write 1,6,11 for 01/05
*-1/6-3 07:00|
*-1..11/5-3 07:00|
*-1,6,11-3 07:00|
*-*-1/2 07:00|write 1,3,5,7,9,11,13,15,17,19,21,23,25,27,29,31 for 1/2
*-*-1/1 07:00|
*-*-29/1 07:00|
*-*-30/1 07:00|write 30,31 for 30/1
*-*~5/2 07:00|write 1..5/2 for 5/2
*-*~9/1 07:00|write 1..9/1 for 9/1
Mon 0/5:00|write 0,5,10,15,20 for 0/5
Mon 0/6:00|
12:0/25|write 0,25,50 for 0/25
12:0/20|
12:00:0/40|write 0,40 for 0/40
12:00:0/30|
*-1/6,2/7-3 9:0/40|write 2,9 for 2/7
*-3-1/2,5 9:0/40|write 1,3,5,7,9,11,13,15,17,19,21,23,25,27,29,31 for 1/2
2024/5-1-3 07:00|
*-1/5-3 07:00 UTC|
daily|
ROWS
  check_skips_stops --event-zones <<'ROWS'
*-1/5-3 07:00 Europe/Oslo|write 1,6,11 for 1/5
ROWS
  # where starts are skipped, that is the only warning
  check_skips_file 'OnCalendar=*:0/25\n'
  check_skips_run --zone Europe/Oslo
  compare_texts "check of an event with both" \
    $'a.timer:2: warning: systemd 252 may pass over starts of \'*:0/25\': give the step an end [SkippedStarts]\n' '' 0
  # 01:59:30 and 03:00:00 are 30 seconds apart where clocks are put forward
  check_skips_merged --zone Europe/Oslo <<'ROWS'
OnCalendar=1:59:30\nOnCalendar=3:00\n|Merged
OnCalendar=1:59:30\nOnCalendar=3:00\nAccuracySec=30s\n|
OnCalendar=2024-3-31 1:59:30 UTC\nOnCalendar=2024-3-31 3:00 UTC\n|
OnCalendar=daily\n|
ROWS
fi
check_skips_stops <<'ROWS'
*-1/5-3 07:00|
*-*~5/2 07:00|
Mon 0/5:00|
ROWS

# Starts less than AccuracySec= and RandomizedDelaySec= apart, a minute by default; the first of them is in the 400 days from
# 2024-01-01 on. Equal starts of two events are one.
check_skips_merged <<'ROWS'
OnCalendar=*:*:0/10\n|Merged
OnCalendar=*:*:0/10\nAccuracySec=11s\n|Merged
OnCalendar=*:*:0/10\nAccuracySec=10001ms\n|Merged
OnCalendar=*:*:0/10\nAccuracySec=10s\n|
OnCalendar=*:*:0/10\nAccuracySec=1s\n|
OnCalendar=*:*:0/10\nAccuracySec=10s\nRandomizedDelaySec=1us\n|Delayed Merged
OnCalendar=*:*:0/10\nAccuracySec=5s\nRandomizedDelaySec=5s\n|Delayed
OnCalendar=*:*:*\nAccuracySec=1s\n|
OnCalendar=*:*:*\nAccuracySec=1001ms\n|Merged
OnCalendar=*:*:*\nOnCalendar=*:*:0/2\nAccuracySec=1us\n|
OnCalendar=*:*\n|
OnCalendar=*:*\nAccuracySec=60001ms\n|Merged
OnCalendar=*:0/5\nAccuracySec=5min\n|
OnCalendar=*:0/5\nAccuracySec=6min\n|Merged
OnCalendar=hourly\nAccuracySec=1h\n|
OnCalendar=hourly\nAccuracySec=infinity\n|Merged
OnCalendar=2024-1-1 0:0:0\nOnCalendar=2024-1-1 0:0:59\n|Merged
OnCalendar=2024-1-1 0:0:0\nOnCalendar=2024-1-1 0:1:0\n|
OnCalendar=2023-12-31 23:59:59\nOnCalendar=2024-1-1 0:0:0\n|
OnCalendar=2025-2-3 23:59:59\nOnCalendar=2025-2-4 0:0:0\n|Merged
OnCalendar=2025-2-4 0:0:0\nOnCalendar=2025-2-4 0:0:1\n|
OnCalendar=daily\nOnCalendar=00:00\n|
OnCalendar=daily\nOnCalendar=00:00:59\n|Merged
OnCalendar=daily\nOnCalendar=00:01\n|
OnCalendar=*:*:59\nOnCalendar=*:*:0\n|Merged
OnCalendar=*:*:0\nOnCalendar=daily\nOnCalendar=\nOnCalendar=04:00\n|
OnCalendar=2025-2-4..28 *:*:*\nAccuracySec=infinity\n|
OnCalendar=2024-1-1\nAccuracySec=infinity\n|
ROWS
