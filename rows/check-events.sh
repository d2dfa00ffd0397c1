# shellcheck shell=bash disable=SC2154
# Rows of bin/check-examples: events that agenda accepts, and systemd 252 rejects or reads otherwise. What systemd
# does is what its `systemd-analyze calendar` prints. Other warnings about the events aren't compared.

check_events_folder="$work/check-events"
mkdir -p "$check_events_folder"

# Makes a timer of the events in the lines of standard input. Each is alone in the timer's list.
check_events_timer() {
  local event
  echo '[Timer]' >"$check_events_folder/a.timer"
  while IFS= read -r event; do
    printf 'OnCalendar=\nOnCalendar=%b\n' "$event" >>"$check_events_folder/a.timer"
  done
}

# Compares the warnings with the code $2 about the timer, with the name $1, with the lines of the file findings.wanted.
check_events_compare() {
  run_in "$check_events_folder" agenda check a.timer
  { grep -F "[$2]" || true; } <"$work/out" >"$work/findings" && mv -- "$work/findings" "$work/out"
  compare "$1" "$work/findings.wanted" /dev/null 0
}

# Rows from standard input: the escaped text of an event, and what to do about it. $1 is the code of the warning, and
# $2 and $3 are its text before and after the event. Without a bar systemd accepts the event, and reads it as agenda.
check_events_rows() {
  local event hint line=1 events=()
  : >"$work/findings.wanted"
  while IFS='|' read -r event hint; do
    line=$((line + 2))
    events+=("$event")
    event=${event//'\t'/'\x09'}
    [ -z "$hint" ] || echo "a.timer:$line: warning: $2'$event'$3: $hint [$1]" >>"$work/findings.wanted"
  done
  check_events_timer < <(printf '%s\n' "${events[@]}")
  check_events_compare "the warnings $1 about ${#events[@]} events" "$1"
}

check_events_rejected() {
  check_events_rows SystemdRejects 'systemd 252 rejects ' ''
}

# Prints a list of the numbers from 1 to $1, each modulo $2.
check_events_list() {
  seq -s , 1 "$1" | awk -v RS=, -v ORS= -v by="$2" 'NR > 1 { print "," } { print $1 % by }'
}

# Blanks. A tab is never accepted; a second space isn't accepted before a zone that follows a time or a word.
check_events_rejected <<'ROWS'
*:0
Mon *-*-* *:0 UTC
Mon  *:0
Mon *-*-*  *:0
Mon,  *:0
Mon  UTC
Mon *-*-*  UTC
*-*-*  UTC
daily UTC
*:0 UTC
*:0  UTC|write one space between words
*:0   utc|write one space between words
Mon 1:0  UTC|write one space between words
*-*-* 0:0  UTC|write one space between words
*-*-*  *:0  UTC|write one space between words
daily  UTC|write one space between words
Weekly  utc|write one space between words
Mon\t*:0|write one space between words
Mon *-*-*\t0:0|write one space between words
*:0\tUTC|write one space between words
daily\tUTC|write one space between words
daily \tUTC|write one space between words
*:*/15\tUTC|write one space between words
ROWS

# `*` beside other elements, or with a step.
check_events_rejected <<'ROWS'
*-*-* *:*:*
*-*~*
*:0/15
*:*/15|write 0/15 for */15
*:*/05|write 0/05 for */05
*:5,*/15|write 0/15 for */15
*:*:*/10|write 0/10 for */10
*/6:0|write 0/6 for */6
*-*-*/2|write 1/2 for */2
*-*/3-1|write 1/3 for */3
*/2-1-1|write 1970/2 for */2
*/4-*/3-1 */6:0|write 1970/4 for */4
*-*-*/2 */6:0|write 1/2 for */2
*:0,*|write * alone
*:*,0|write * alone
*:*,*/5|write * alone
*-*,2-1|write * alone
*,2000-1-1|write * alone
*-*~3,*|write * alone
*-*~*,3|write * alone
*:0/90,*|write * alone
ROWS

# A step has to reach a second value.
check_events_rejected <<'ROWS'
*:29/30
*:30/30|the step never fits: write 30 for 30/30
*:0/59
*:0/60|the step never fits: write 0 for 0/60
*:00/90|the step never fits: write 00 for 00/90
*:5,30/45|the step never fits: write 30 for 30/45
0/23:0
0/24:0|the step never fits: write 0 for 0/24
*-1/11-1
*-1/12-1|the step never fits: write 1 for 1/12
*-2/11-1|the step never fits: write 2 for 2/11
*-*-1/30
*-*-1/31|the step never fits: write 1 for 1/31
*:*:0/59
*:*:0/60|the step never fits: write 0 for 0/60
*:*:0/2148|the step never fits: write 0 for 0/2148
2190/9-1-1
2190/10-1-1|the step never fits: write 2190 for 2190/10
2199/1-1-1|the step never fits: write 2199 for 2199/1
99/200-1-1
99/201-1-1|the step never fits: write 99 for 99/201
*-*~3/2
*-*~3/3|the step never fits: write 3 for 3/3
*-*~28/27
*-*~28/28|the step never fits: write 28 for 28/28
*-*~2/1
*-*~1/1|the step never fits: write 1 for 1/1
0/24:0/60|the step never fits: write 0 for 0/24
ROWS

# The years of systemd end at 2199. Of a range, its last value counts.
check_events_rejected <<'ROWS'
2199-1-1
2200-1-1|years end at 2199
2000,2999-1-1|years end at 2199
2198..2199-1-1
2198..2200-1-1|years end at 2199
2198..2200/3-1-1
2190..2200/9-1-1
2190..2200/10-1-1|years end at 2199
2190..2201/10-1-1|years end at 2199
2200..2201-1-1|years end at 2199
ROWS

# Seconds.
check_events_rejected <<'ROWS'
*:*:5
*:*:5..6
*:*:5..5/1
*:*:5..5/3
*:5..5
*:*:5..5|write 5 for 5..5
*:*:05..5|write 05 for 05..5
*:*:1,7..7|write 7 for 7..7
*:*:0..59/2147
*:*:0..59/2148|a step of seconds is at most 2147
*:0..59/2148
*:0..59/9999
*:*:5..5,0..59/2148|write 5 for 5..5
ROWS

# Days from the end of the month: a range runs forwards. The hint has the days that agenda plans.
check_events_rejected <<'ROWS'
*-*~1..3
*-*~3..3
*-*~3..1|write 1..3 for 3..1
*-*~03..01|write 1..3 for 03..01
*-*~2,28..25|write 25..28 for 28..25
*-*~4..1/3|write 1..4/3 for 4..1/3
*-*~4..1/2|write 2..4/2 for 4..1/2
*-*~2..4/2
*-*~3..1/5|write 3..3/5 for 3..1/5
*-*~3..3/5
ROWS

# Days from the end of the month are at most 28, and each further one of a list at most 3 less. Equal elements count
# once, and a range whose step doesn't reach a second value counts as one day.
check_events_rejected <<'ROWS'
*-*~28
*-*~29|days after ~ end at 28, in a list at 25, 22, ..
*-*~1,25
*-*~25,1
*-*~1,26|days after ~ end at 28, in a list at 25, 22, ..
*-*~26,1|days after ~ end at 28, in a list at 25, 22, ..
*-*~1,2,22
*-*~1,2,23|days after ~ end at 28, in a list at 25, 22, ..
*-*~1,1,2,22
*-*~1,1,2,23|days after ~ end at 28, in a list at 25, 22, ..
*-*~1,1..1,2,22
*-*~25,25..25
*-*~26,1..1,1|days after ~ end at 28, in a list at 25, 22, ..
*-*~1..28
*-*~1..29|days after ~ end at 28, in a list at 25, 22, ..
*-*~28/1
*-*~29/1|days after ~ end at 28, in a list at 25, 22, ..
*-*~1..29/2|days after ~ end at 28, in a list at 25, 22, ..
*-*~1..30/2|days after ~ end at 28, in a list at 25, 22, ..
*-*~1..28/27
*-*~1..29/27
*-*~1..31/31
*-*~1,1..25
*-*~1,1..26|days after ~ end at 28, in a list at 25, 22, ..
*-*~2,2/1,22
*-*~2,2/1,23|days after ~ end at 28, in a list at 25, 22, ..
*-*~2/1,2..3,22
*-*~2/1,2..3,23|days after ~ end at 28, in a list at 25, 22, ..
*-*~2..2/1,2
*-*~1,2,3,4,5,6,7
*-*~1,2,3,4,5,6,7,1
*-*~1,2,3,4,5,6,7,8|days after ~ end at 28, in a list at 25, 22, ..
ROWS

# Ranges of days from the end of the month whose step doesn't lead from the first to the last day.
check_events_rows RangeFromEnd 'systemd 252 reads ' ' otherwise' <<'ROWS'
*-*~1..3/2
*-*~1..4/3
*-*~1..4
*-*~4/2
*-*-1..4/2
*-*~1..4/2|write 1..3/2 for 1..4/2
*-*~01..04/02|write 1..3/02 for 01..04/02
*-*~2,5..9/3|write 5..8/3 for 5..9/3
*-*~1..3/5|write 1..1/5 for 1..3/5
*-*~1..1/5
*-2~1..28/5|write 1..26/5 for 1..28/5
ROWS

# A component has at most 241 elements, equal ones too. The quoted event isn't compared.
check_events_timer <<END
*:$(check_events_list 241 60)
*:$(check_events_list 242 60)
$(check_events_list 241 90)-1-1
$(check_events_list 242 90)-1-1
END
: >"$work/findings.wanted"
printf '%s: more than 241 elements [SystemdRejects]\n' a.timer:5 a.timer:9 >"$work/findings.wanted"
run_in "$check_events_folder" agenda check a.timer
grep -F '[SystemdRejects]' <"$work/out" | sed "s/: warning: systemd 252 rejects '.*'[.]*//" >"$work/findings"
mv -- "$work/findings" "$work/out"
compare 'the warnings SystemdRejects about long lists' "$work/findings.wanted" /dev/null 0
