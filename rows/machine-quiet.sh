# shellcheck shell=bash disable=SC2154,SC2034
# Rows of what `agenda machine quiet` says if it prints no gap: the longest gap, and the jobs that cover most. The lengths are
# worked out by hand from the seconds at which the jobs may start.

# shellcheck source=/dev/null
. "$top/rows/lib/program.sh"

quiet_day=2026-03-02

# Of the span from $1 until $2, times of a day, no gap is printed, and the line $3 is said. The other arguments are options.
quiet_says() {
  local since="$quiet_day $1" until="$quiet_day $2"
  [ "$2" != 24:00 ] || until=2026-03-03
  printf 'agenda: no gap of %s\n' "$3" >"$work/err.wanted"
  shift 3
  program_run quiet --root root --utc --text --since "$since" --until "$until" "$@"
  program_compare "quiet --since '$since' --until '$until' $*" /dev/null "$work/err.wanted" 0
}

# A timer that starts at 06:00 and 18:00, up to 12 hours later, may start at every second of the day.
program_make '*t.timer U/t.timer=[Timer]\nOnCalendar=*-*-*\x206,18:00\nRandomizedDelaySec=12h\n C/c=*/12\x20*\x20*\x20*\x20*\x20u\x20a\n'
quiet_says 00:00 24:00 '30 min: the longest is 0 s, and these cover the most: t.timer (24 h), c:1 (2 min)'
quiet_says 00:00 24:00 '2 h: the longest is 0 s, and these cover the most: t.timer (24 h), c:1 (2 min)' --least 2h
# without delays it covers its two seconds, at which the job of the crontab starts too
quiet_says 00:00 24:00 '30 min: the longest is 12 min, and these cover the most: c:1 (2 min), t.timer (2 s)' --nominal

# A job that is left out covers nothing.
quiet_says 00:00 24:00 '30 min: the longest is 12 min, and these cover the most: c:1 (2 min)' --except t.timer
quiet_says 00:00 24:00 '30 min: the longest is 0 s, and these cover the most: t.timer (24 h)' --except c:1 --except c:1
quiet_says 00:00 24:00 '30 min: the longest is 12 min, and these cover the most: c:1 (2 min)' --only 'c*'
printf '%sT00:00:00Z\t2026-03-03T00:00:00Z\t86400\n' "$quiet_day" >"$work/out.wanted"
program_run quiet --root root --utc --text --since "$quiet_day" --until 2026-03-03 --except c:1 --except t.timer
program_compare 'quiet without its jobs' "$work/out.wanted" /dev/null 0
program_run quiet --root root --utc --text --since "$quiet_day" --until 2026-03-03 --only '*' --except c --except 't.time?'
program_compare 'quiet without its jobs, by patterns' "$work/out.wanted" /dev/null 0

# The name of a timer has its suffix, and no name is empty or has a space.
for quiet_name in t '' 'c 1'; do
  printf "agenda: --except: nothing is named '%s' [NothingNamed]\n" "$quiet_name" >"$work/err.wanted"
  program_run quiet --root root --utc --except "$quiet_name"
  program_compare "quiet --except '$quiet_name'" /dev/null "$work/err.wanted" 1
done

# Windows that overlap count once: from 06:00:00 to 06:25:00 are 1,501 seconds, and then there is a gap until 07:00:00.
program_make '*t.timer U/t.timer=[Timer]\nOnCalendar=*-*-*\x2006:00,10\nRandomizedDelaySec=15min\nAccuracySec=0\n'
quiet_says 06:00 07:00 '1 h: the longest is 35 min, and these cover the most: t.timer (25 min 1 s)' --least 1h
# of windows that start before the span or end after it, the seconds of the span count
quiet_says 06:01 06:10:59 '10 min: the longest is 0 s, and these cover the most: t.timer (9 min 59 s)' --least 10min

# Of jobs that cover the same the one that is listed first is first, and three are named.
program_make 'C/a=*/10\x20*\x20*\x20*\x20*\x20u\x20a\n*/10\x20*\x20*\x20*\x20*\x20u\x20b\n*/5\x20*\x20*\x20*\x20*\x20u\x20c\n*/10\x20*\x20*\x20*\x20*\x20u\x20d\n'
quiet_says 00:00 24:00 '30 min: the longest is 5 min, and these cover the most: a:3 (4 min 48 s), a:1 (2 min 24 s), a:2 (2 min 24 s)'

# A job without a start in the span isn't named. Without any start the span is the only gap, unless it is empty.
program_make 'C/a=0\x2012\x20*\x20*\x20*\x20u\x20a\n'
quiet_says 00:00 01:30 '2 h: the longest is 1 h 30 min' --least 2h
quiet_says 00:00 00:00 '1 s: the longest is 0 s' --least 1s
program_make x/
quiet_says 00:00 00:01:30 '30 min: the longest is 1 min 30 s'

# Tables and objects have the same line.
printf 'agenda: no gap of 30 min: the longest is 1 min 30 s\n' >"$work/err.wanted"
program_run quiet --root root --utc --json --since "$quiet_day 00:00" --until "$quiet_day 00:01:30"
program_compare 'quiet --json without a gap' /dev/null "$work/err.wanted" 0
printf 'START  END  LENGTH\n0 gaps from Mon 2026-03-02 00:00:00 to Mon 2026-03-02 00:01:30, UTC\n' >"$work/out.wanted"
program_run quiet --root root --utc --table --since "$quiet_day 00:00" --until "$quiet_day 00:01:30"
program_compare 'quiet --table without a gap' "$work/out.wanted" "$work/err.wanted" 0

# If there is a gap nothing is said.
printf '%sT00:00:00Z\t%sT01:30:00Z\t5400\n' "$quiet_day" "$quiet_day" >"$work/out.wanted"
program_run quiet --root root --utc --text --since "$quiet_day 00:00" --until "$quiet_day 01:30" --least 90min
program_compare 'quiet with a gap' "$work/out.wanted" /dev/null 0
