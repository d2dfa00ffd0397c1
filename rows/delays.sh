# shellcheck shell=bash disable=SC2154
# Rows of bin/check-examples: what --delays adds to the answers of `agenda plan`, `agenda upcoming` and `agenda quiet`: the latest time of a
# start, the starts before the span that may fall into it, and the gaps in which no job can start. rows/check.sh and rows/messages.sh have
# the warnings about delays.

delays_folder="$work/delays"
mkdir -p "$delays_folder"/{set,unset}

# Writes the escaped text $2 to the file $1.
delays_file() {
  printf '%b' "$2" >"$delays_folder/$1"
}

# Makes the timer $1.timer with the event $2 and the escaped settings $3.
delays_timer() {
  delays_file "$1.timer" "[Timer]\nOnCalendar=$2\n$3\n"
}

# Writes the escaped lines $1, with `;` between them, to the file lines.wanted. A space is a tab. An @ is the first day of 2024, a < the day
# before it, and a + the start of the day after it.
delays_want() {
  printf '%b' "${1:+$1;}" | sed "s/@/2024-01-01T/g; s/</2023-12-31T/g; s/+/2024-01-02T00:00:00Z/g; s/ /$tab/g; y/;/\n/" >"$work/lines.wanted"
}

# Compares the last run with the lines of the file lines.wanted. $1 is the status. Those of a plan are below a header.
delays_compare() {
  cp -- "$work/lines.wanted" "$work/delays.wanted"
  [ "${ran[1]}" != plan ] || headed "${ran[@]}" <"$work/lines.wanted" >"$work/delays.wanted"
  compare "delays: ${ran[*]:1}" "$work/delays.wanted" "${2:-/dev/null}" "$1"
}

# Runs the command $1, with its arguments, and --delays. An @ and a + in them are those of delays_want, and the argument `span` is a whole day.
delays_run() {
  local written words
  written=${1/ span/ --since @00:00:00Z --upto +}
  written=${written//@/2024-01-01T}
  read -r -a words <<<"${written//+/2024-01-02T00:00:00Z}"
  run_in "$delays_folder" agenda "${words[0]}" --delays "${words[@]:1}"
}

# Rows from standard input: a command with its arguments, and all lines of its answer.
delays_rows() {
  local written lines
  while IFS='|' read -r written lines; do
    delays_want "$lines"
    delays_run "$written"
    delays_compare 0
  done
}

# Rows from standard input: a command with its arguments, and its error.
delays_refused() {
  local written error
  while IFS='|' read -r written error; do
    delays_run "$written"
    is_refused "delays: $written" "$error" 1
  done
}

# Prints the timestamp of the second $1.
delays_moment() {
  date -u -d "@$1" +%Y-%m-%dT%H:%M:%SZ
}

# Rows from standard input: the escaped settings of a timer, and its delay in seconds. All of them are in one plan, of the first second of
# 2024. If $1 isn't empty, the timer has that before the settings.
delays_values() {
  local settings seconds number=0 files=() latest
  : >"$work/lines.wanted"
  while IFS='|' read -r settings seconds; do
    number=$((number + 1))
    delays_timer "set/v$number" '2024-01-01 00:00:00' "${1:+$1\n}$settings"
    files+=("set/v$number.timer")
    latest=$((1704067200 + seconds))
    latest=$(delays_moment $((latest < 32503680000 ? latest : 32503680000)))
    printf '2024-01-01T00:00:00Z\t%s\tv%d.timer\tv%d.service\n' "$latest" $number $number >>"$work/lines.wanted"
  done
  run_in "$delays_folder" agenda plan --delays --since 2024-01-01T00:00:00Z --upto 2024-01-01T00:00:01Z "${files[@]}"
  headed "${ran[@]}" <"$work/lines.wanted" >"$work/delays.wanted"
  compare "delays: $number values after '$1'" "$work/delays.wanted" /dev/null 0
}

# Any number of planners with any capacity finds the same starts and gaps: each hour's start may fall up to five hours later.
delays_by_planners() {
  local planners places hour
  for hour in {-5..23}; do
    printf '%s\t%s\thours.timer\thours.service\n' "$(delays_moment $((1704067200 + hour * 3600)))" "$(delays_moment $((1704085200 + hour * 3600)))"
    [ "$hour" != 7 ] || printf '2024-01-01T07:00:00Z\t2024-01-01T08:00:00Z\tseven.timer\tseven.service\n'
  done >"$work/plan.wanted"
  for planners in 1 2 3 8; do
    for places in 1 16 1024; do
      cp -- "$work/plan.wanted" "$work/lines.wanted"
      delays_run "plan span --planners $planners --room $places hours.timer seven.timer"
      delays_compare 0
      delays_want '@00:00:00Z @07:00:00Z 25200;@08:00:00Z + 57600'
      delays_run "quiet span --planners $planners --room $places seven.timer"
      delays_compare 0
    done
  done
}

# Prints the gaps of at least $1 seconds in the agenda on standard input, whose times are from December 2023 to January 2024.
delays_gaps() {
  awk -F '\t' -v least="$1" '
    function seconds(time) {
      return (substr(time, 9, 2) - (time < "2024" ? 31 : 0)) * 86400 + substr(time, 12, 2) * 3600 + substr(time, 15, 2) * 60 + substr(time, 18, 2)
    }
    function tell(time, gap) {
      gap = seconds(time) - seconds(reach)
      if (gap >= least) printf "%s\t%s\t%d\n", reach, time, gap
    }
    NR == 1 { reach = $2; upto = $3; next }
    { tell($1) }
    $2 > reach { reach = $2 }
    END { tell(upto) }'
}

# Rows from standard input: a span and sources. The gaps are those that the agenda of the same sources leaves.
delays_as_plan() {
  local written least
  while IFS= read -r written; do
    delays_run "plan $written"
    cp -- "$work/out" "$work/agenda"
    [ "$(wc -l <"$work/agenda")" -gt 20 ] || tell "$(wc -l <"$work/agenda") lines"
    count "delays: the agenda of $written"
    for least in 1 600 1800 7200; do
      delays_gaps "$least" <"$work/agenda" >"$work/lines.wanted"
      delays_run "quiet $written --least $least"
      delays_compare 0
    done
  done
}

# A delay without an end: each start since 1970 may fall into the span, and counts for the limit.
delays_without_end() {
  local year june='--since 2024-06-01T00:00:00Z --upto 2024-06-02T00:00:00Z'
  for year in {1970..2024}; do
    printf '%d-01-01T00:00:00Z\t3000-01-01T00:00:00Z\tyears.timer\tyears.service\n' "$year"
  done >"$work/lines.wanted"
  delays_run "plan $june --limit 55 years.timer"
  delays_compare 0
  delays_rows <<ROWS
quiet $june --limit 55 years.timer|
quiet --since 1970-01-01T00:00:00Z --upto 3000-01-01T00:00:00Z years.timer|
upcoming --after 2024-06-01T00:00:00Z years.timer|2025-01-01T00:00:00Z 3000-01-01T00:00:00Z years.timer years.service
upcoming --after 2999-06-01T00:00:00Z years.timer|none none years.timer years.service
ROWS
  delays_timer seconds '*:*:*' RandomizedDelaySec=infinity
  delays_rows <<'ROWS'
upcoming --after @00:00:00Z seconds.timer|@00:00:01Z 3000-01-01T00:00:00Z seconds.timer seconds.service
ROWS
  delays_refused <<'ROWS'
plan span --limit 1000000 seconds.timer|plan: TooMany
quiet span seconds.timer|plan: TooMany
plan --since 1970-01-01T02:46:39Z --upto 1970-01-01T02:46:40Z --limit 9999 seconds.timer|plan: TooMany
ROWS
  seq 0 9999 | awk '{ printf "1970-01-01T%02d:%02d:%02dZ\t3000-01-01T00:00:00Z\tseconds.timer\tseconds.service\n", int($1 / 3600), int($1 % 3600 / 60), $1 % 60 }' \
    >"$work/lines.wanted"
  delays_run "plan --since 1970-01-01T02:46:39Z --upto 1970-01-01T02:46:40Z --limit 10000 seconds.timer"
  delays_compare 0
  delays_refused <<ROWS
plan $june --limit 54 years.timer|plan: TooMany
quiet $june --limit 54 years.timer|plan: TooMany
ROWS
}

# Without --delays the answers are those of the same timers without the settings, to the byte.
delays_unasked() {
  local written words
  while IFS= read -r written; do
    written=${written/ span/ --since 2024-01-01T00:00:00Z --upto 2024-01-02T00:00:00Z}
    read -r -a words <<<"$written"
    run_in "$delays_folder/unset" agenda "${words[@]}"
    cp -- "$work/out" "$work/out.wanted"
    [ -s "$work/out" ] || tell "no answer"
    count "no delays: an answer to $written"
    run_in "$delays_folder/set" agenda "${words[@]}"
    compare "no delays: $written" "$work/out.wanted" /dev/null 0
  done
}

delays_timer a '*-*-* 6,18:00' RandomizedDelaySec=12h
delays_timer b '*-*-* 07:30' AccuracySec=1us
delays_file tab '0 9 * * * x\n'

# two timers and a crontab, and the gaps of each timer
delays_rows <<'ROWS'
plan --since @00:00:00Z --upto @10:00:00Z a.timer b.timer --crontab tab|<18:00:00Z @06:01:00Z a.timer a.service;@06:00:00Z @18:01:00Z a.timer a.service;@07:30:00Z @07:30:01Z b.timer b.service;@09:00:00Z @09:00:00Z cron:1 x
quiet span --least 60 a.timer|
quiet span --least 60 b.timer|@00:00:00Z @07:30:00Z 27000;@07:30:01Z + 59399
upcoming --after @00:00:00Z a.timer b.timer --crontab tab|@06:00:00Z @18:01:00Z a.timer a.service;@07:30:00Z @07:30:01Z b.timer b.service;@09:00:00Z @09:00:00Z cron:1 x
ROWS

# The start at 06:00 may fall up to 07:00, which is included. It belongs to the spans that have one of these seconds. An empty span has none.
delays_timer hour 06:00 'RandomizedDelaySec=1h\nAccuracySec=0'
delays_rows <<'ROWS'
plan span hour.timer|@06:00:00Z @07:00:00Z hour.timer hour.service
plan --since @05:00:00Z --upto @06:00:00Z hour.timer|
plan --since @05:00:00Z --upto @06:00:01Z hour.timer|@06:00:00Z @07:00:00Z hour.timer hour.service
plan --since @06:00:00Z --upto @06:00:01Z hour.timer|@06:00:00Z @07:00:00Z hour.timer hour.service
plan --since @06:00:01Z --upto @06:00:02Z hour.timer|@06:00:00Z @07:00:00Z hour.timer hour.service
plan --since @06:59:59Z --upto @07:00:00Z hour.timer|@06:00:00Z @07:00:00Z hour.timer hour.service
plan --since @07:00:00Z --upto @07:00:01Z hour.timer|@06:00:00Z @07:00:00Z hour.timer hour.service
plan --since @07:00:01Z --upto @07:00:02Z hour.timer|
plan --since @06:30:00Z --upto @06:30:00Z hour.timer|
plan --since @06:00:00Z --upto @06:00:00Z hour.timer|
plan --since 1970-01-01T00:00:00Z --upto 1970-01-01T00:00:01Z a.timer|
upcoming --after @05:59:59Z hour.timer|@06:00:00Z @07:00:00Z hour.timer hour.service
upcoming --after @06:00:00Z hour.timer|2024-01-02T06:00:00Z 2024-01-02T07:00:00Z hour.timer hour.service
upcoming --after @06:30:00Z hour.timer|2024-01-02T06:00:00Z 2024-01-02T07:00:00Z hour.timer hour.service
ROWS

# Lines are in the order of the starts, and then of the jobs. Latest times have no order.
delays_timer day 00:00 'RandomizedDelaySec=1d\nAccuracySec=0'
delays_timer six 06:00 'AccuracySec=1s'
delays_file six '0 6 * * * y\n'
delays_rows <<'ROWS'
plan --since @00:00:01Z --upto @06:00:01Z six.timer hour.timer day.timer --crontab six|@00:00:00Z + day.timer day.service;@06:00:00Z @06:00:00Z cron:1 y;@06:00:00Z @06:00:01Z six.timer six.service;@06:00:00Z @07:00:00Z hour.timer hour.service
plan --since @00:00:00Z --upto @06:00:01Z hour.timer six.timer day.timer|<00:00:00Z @00:00:00Z day.timer day.service;@00:00:00Z + day.timer day.service;@06:00:00Z @07:00:00Z hour.timer hour.service;@06:00:00Z @06:00:01Z six.timer six.service
upcoming --after @00:00:00Z six.timer hour.timer day.timer --crontab six|@06:00:00Z @06:00:00Z cron:1 y;@06:00:00Z @06:00:01Z six.timer six.service;@06:00:00Z @07:00:00Z hour.timer hour.service;+ 2024-01-03T00:00:00Z day.timer day.service
ROWS

# A job without a further start has no latest one.
delays_timer past '2020-01-01' RandomizedDelaySec=1h
delays_file empty.timer '[Timer]\nRandomizedDelaySec=1h\n'
delays_file reboot '@reboot x\n'
delays_rows <<'ROWS'
upcoming --after @00:00:00Z past.timer hour.timer empty.timer --crontab reboot|@06:00:00Z @07:00:00Z hour.timer hour.service;none none cron:1 x;none none past.timer past.service;none none empty.timer empty.service
upcoming --after 3000-01-01T00:00:00Z hour.timer|none none hour.timer hour.service
plan span past.timer empty.timer --crontab reboot|
quiet span past.timer empty.timer --crontab reboot|@00:00:00Z + 86400
plan span|
upcoming --after @00:00:00Z|
ROWS

# Gaps begin when the last start of those before can't fall any more. A start within the time of another changes nothing, and neither does
# one at its end. Gaps are at least as long as --least says.
delays_timer inner 06:30 'RandomizedDelaySec=10min\nAccuracySec=0'
delays_timer over 06:45 'RandomizedDelaySec=30min\nAccuracySec=0'
delays_file seven '0 7 * * * y\n'
delays_file later '30 7 * * * y\n'
delays_file both '0 7 * * * y\n30 7 * * * y\n'
delays_rows <<'ROWS'
quiet span hour.timer|@00:00:00Z @06:00:00Z 21600;@07:00:00Z + 61200
quiet span hour.timer inner.timer|@00:00:00Z @06:00:00Z 21600;@07:00:00Z + 61200
quiet span inner.timer|@00:00:00Z @06:30:00Z 23400;@06:40:00Z + 62400
quiet span hour.timer over.timer|@00:00:00Z @06:00:00Z 21600;@07:15:00Z + 60300
quiet span over.timer inner.timer hour.timer|@00:00:00Z @06:00:00Z 21600;@07:15:00Z + 60300
quiet span --least 1 hour.timer --crontab seven|@00:00:00Z @06:00:00Z 21600;@07:00:00Z + 61200
quiet span hour.timer --crontab later|@00:00:00Z @06:00:00Z 21600;@07:00:00Z @07:30:00Z 1800;@07:30:00Z + 59400
quiet span --least 1801 hour.timer --crontab later|@00:00:00Z @06:00:00Z 21600;@07:30:00Z + 59400
quiet span --least 59400 hour.timer --crontab later|@07:30:00Z + 59400
quiet span --least 59401 hour.timer --crontab later|
quiet --since @06:30:00Z --upto @08:00:00Z hour.timer|@07:00:00Z @08:00:00Z 3600
quiet --since @07:00:00Z --upto @08:00:00Z hour.timer|@07:00:00Z @08:00:00Z 3600
quiet --since @07:00:01Z --upto @08:00:00Z hour.timer|@07:00:01Z @08:00:00Z 3599
quiet --since @06:10:00Z --upto @06:50:00Z --least 1 hour.timer|
quiet --since @06:10:00Z --upto @07:00:00Z --least 1 hour.timer|
quiet --since @06:10:00Z --upto @07:00:01Z --least 1 hour.timer|@07:00:00Z @07:00:01Z 1
quiet --since @05:59:59Z --upto @06:00:01Z --least 1 hour.timer|@05:59:59Z @06:00:00Z 1
quiet --since @06:00:00Z --upto @06:00:00Z --least 1 hour.timer|
quiet span day.timer|
quiet span --least 1 day.timer|
quiet --since @00:00:00Z --upto 2024-01-02T00:00:01Z --least 1 day.timer|
quiet span --crontab both|@00:00:00Z @07:00:00Z 25200;@07:00:00Z @07:30:00Z 1800;@07:30:00Z + 59400
ROWS

# The gaps are those that the lines of a plan leave.
delays_timer three '0/3:20' 'RandomizedDelaySec=40min\nAccuracySec=1us'
delays_timer quarters '9..17:0/15' 'RandomizedDelaySec=7min 30s\nAccuracySec=0'
delays_timer weekly 'Wed,Sat 04:10' 'RandomizedDelaySec=7h'
delays_file work '5 0-8/2 * * * a\n0 12 * * 1-5 b\n*/7 22 * * * c\n'
delays_as_plan <<'ROWS'
--since @00:00:00Z --upto 2024-01-03T00:00:00Z three.timer quarters.timer weekly.timer --crontab work
--since @00:10:30Z --upto 2024-01-08T12:00:00Z three.timer weekly.timer inner.timer b.timer
--since 2023-12-29T23:59:59Z --upto @09:07:15Z quarters.timer hour.timer over.timer --crontab work --planners 8 --room 1
--since @00:00:00Z --upto 2024-01-29T00:00:00Z hour.timer weekly.timer --crontab seven
ROWS

# The limit counts the starts before the span, too.
delays_rows <<'ROWS'
plan --since @00:00:00Z --upto @10:00:00Z --limit 4 a.timer b.timer --crontab tab|<18:00:00Z @06:01:00Z a.timer a.service;@06:00:00Z @18:01:00Z a.timer a.service;@07:30:00Z @07:30:01Z b.timer b.service;@09:00:00Z @09:00:00Z cron:1 x
quiet --since @00:00:00Z --upto @10:00:00Z --limit 4 a.timer b.timer --crontab tab|
plan --since @06:30:00Z --upto @06:31:00Z --limit 1 hour.timer|@06:00:00Z @07:00:00Z hour.timer hour.service
ROWS
delays_refused <<'ROWS'
plan --since @00:00:00Z --upto @10:00:00Z --limit 3 a.timer b.timer --crontab tab|plan: TooMany
quiet --since @00:00:00Z --upto @10:00:00Z --limit 3 a.timer b.timer --crontab tab|plan: TooMany
plan --since @06:31:00Z --upto @06:30:00Z hour.timer|span: Backwards
plan span --limit 0 hour.timer|plan: BadLimit
quiet span --least 0 hour.timer|quiet: BadLeast
ROWS

delays_timer hours hourly 'RandomizedDelaySec=5h\nAccuracySec=0'
delays_timer seven 07:00 'RandomizedDelaySec=1h\nAccuracySec=0'
delays_by_planners

# The end of the planner's years: no start is later, and no time is.
delays_timer years yearly RandomizedDelaySec=infinity
delays_without_end
delays_timer eve 18:00 RandomizedDelaySec=12h
delays_rows <<'ROWS'
plan --since 2999-12-31T12:00:00Z --upto 3000-01-01T00:00:00Z eve.timer|2999-12-31T18:00:00Z 3000-01-01T00:00:00Z eve.timer eve.service
quiet --since 2999-12-31T12:00:00Z --upto 3000-01-01T00:00:00Z eve.timer|2999-12-31T12:00:00Z 2999-12-31T18:00:00Z 21600
upcoming --after 2999-12-31T12:00:00Z eve.timer hour.timer|2999-12-31T18:00:00Z 3000-01-01T00:00:00Z eve.timer eve.service;none none hour.timer hour.service
plan --since 3000-01-01T00:00:00Z --upto 3000-01-01T00:00:00Z eve.timer|
ROWS

# What a time span is: in the first rows it is one, in the next ones it isn't, and the delay is 0.
delays_values AccuracySec=0 <<'ROWS'
RandomizedDelaySec=2 h|7200
RandomizedDelaySec=2hours|7200
RandomizedDelaySec=48hr|172800
RandomizedDelaySec=1y 12month|63115200
RandomizedDelaySec=55s500ms|56
RandomizedDelaySec=300ms20s 5day|432021
RandomizedDelaySec=1.5h|5400
RandomizedDelaySec=.5s|1
RandomizedDelaySec=1 .5s|2
RandomizedDelaySec=+5s|5
RandomizedDelaySec=1h5|3605
RandomizedDelaySec=5sec5|10
RandomizedDelaySec=1w2d|777600
RandomizedDelaySec=5|5
RandomizedDelaySec=5 M|13149000
RandomizedDelaySec=infinity|32503680000
RandomizedDelaySec=1\t2  h|7201
RandomizedDelaySec=007|7
RandomizedDelaySec=0|0
RandomizedDelaySec=0.0000009s|0
RandomizedDelaySec=0.000001s|1
RandomizedDelaySec=584541y|32503680000
ROWS
delays_values AccuracySec=0 <<'ROWS'
RandomizedDelaySec=-1s|0
RandomizedDelaySec=1x|0
RandomizedDelaySec=s|0
RandomizedDelaySec=1 2 h x|0
RandomizedDelaySec=1..5s|0
RandomizedDelaySec=1.s|0
RandomizedDelaySec=1. 5s|0
RandomizedDelaySec=1.5.5s|0
RandomizedDelaySec=5secs|0
RandomizedDelaySec=600000y|0
RandomizedDelaySec=INFINITY|0
RandomizedDelaySec=infinity 1s|0
RandomizedDelaySec=|0
RandomizedDelaySec=584542y|0
RandomizedDelaySec=9223372036854775808us|0
RandomizedDelaySec=1\\5s|0
ROWS

# Each unit. Fractions of a second are rounded up.
delays_values AccuracySec=0 <<'ROWS'
RandomizedDelaySec=1usec|1
RandomizedDelaySec=1us|1
RandomizedDelaySec=1000001µs|2
RandomizedDelaySec=1000001μs|2
RandomizedDelaySec=1001msec|2
RandomizedDelaySec=1000ms|1
RandomizedDelaySec=1seconds|1
RandomizedDelaySec=1second|1
RandomizedDelaySec=1sec|1
RandomizedDelaySec=1s|1
RandomizedDelaySec=1minutes|60
RandomizedDelaySec=1minute|60
RandomizedDelaySec=1min|60
RandomizedDelaySec=1m|60
RandomizedDelaySec=1hours|3600
RandomizedDelaySec=1hour|3600
RandomizedDelaySec=1hr|3600
RandomizedDelaySec=1h|3600
RandomizedDelaySec=1days|86400
RandomizedDelaySec=1day|86400
RandomizedDelaySec=1d|86400
RandomizedDelaySec=1weeks|604800
RandomizedDelaySec=1week|604800
RandomizedDelaySec=1w|604800
RandomizedDelaySec=1months|2629800
RandomizedDelaySec=1month|2629800
RandomizedDelaySec=1M|2629800
RandomizedDelaySec=1years|31557600
RandomizedDelaySec=1year|31557600
RandomizedDelaySec=1y|31557600
ROWS

# The delay is the sum of both settings, rounded up to a whole second. Without AccuracySec= that is a minute. Of each setting the last
# value counts that is a time span, in all sections [Timer]. Keys are compared exactly.
delays_values '' <<'ROWS'
|60
AccuracySec=|60
AccuracySec=x|60
AccuracySec=0|0
AccuracySec=1us|1
AccuracySec=1h|3600
AccuracySec=1h\nAccuracySec=|3600
AccuracySec=1h\nAccuracySec=-5|3600
AccuracySec=1h\nAccuracySec=5|5
RandomizedDelaySec=1h|3660
RandomizedDelaySec=1h\nRandomizedDelaySec=|3660
RandomizedDelaySec=1h\nRandomizedDelaySec=2hs\nRandomizedDelaySec=|3660
RandomizedDelaySec=1h\nRandomizedDelaySec=0|60
RandomizedDelaySec=1h\nRandomizedDelaySec=x\nRandomizedDelaySec=30|90
RandomizedDelaySec=500ms\nAccuracySec=500ms|1
RandomizedDelaySec=500ms\nAccuracySec=500001us|2
RandomizedDelaySec=1us\nAccuracySec=1us|1
AccuracySec=infinity|32503680000
RandomizedDelaySec=infinity\nAccuracySec=infinity|32503680000
RandomizedDelaySec=584541y\nAccuracySec=584541y|32503680000
RandomizedDelaySec=infinity\nRandomizedDelaySec=1|61
[Unit]\nRandomizedDelaySec=1h|60
[Install]\nAccuracySec=1h\n[Timer]\nAccuracySec=1|1
RandomizedDelaySec=1h\n[Unit]\nRandomizedDelaySec=2h\n[Timer]\nAccuracySec=1|3601
RandomizedDelaySec=1h\n[Timer]\nRandomizedDelaySec=2h|7260
randomizeddelaysec=1h\nRandomizedDelay=1h\nRandomizedDelaySec |60
 RandomizedDelaySec\t = \t1h  |3660
RandomizedDelaySec=1h\r|3660
RandomizedDelaySec=1h\\\n30min|5460
RandomizedDelaySec=1h\\\n# 5h\n 30min|5460
#RandomizedDelaySec=1h|60
OnCalendar=\nRandomizedDelaySec=1h\nOnCalendar=2024-01-01|3660
ROWS

# At most the end of the planner's years: one second less, exactly, and one second more.
delays_values AccuracySec=0 <<'ROWS'
RandomizedDelaySec=30799612799|30799612799
RandomizedDelaySec=30799612800|30799612800
RandomizedDelaySec=30799612801|30799612801
RandomizedDelaySec=32503679999|32503679999
RandomizedDelaySec=32503680000|32503680000
RandomizedDelaySec=32503680001|32503680001
ROWS

# What is invalid is skipped, and the rest has its delays. A value that isn't a time span is no error.
delays_file wrong '60 * * * * x\n0 9 * * * y\n'
delays_timer wrong 25:00 'OnCalendar=08:00\nRandomizedDelaySec=1h\nAccuracySec=x'
cat >"$work/skipped.wanted" <<'END'
wrong:1: error: minute '60': out of range 0-59 [OutOfRange]
wrong.timer:2: error: hour in '25:00': out of range 0-23 [OutOfRange]
END
delays_keep() {
  local written lines
  while IFS='|' read -r written lines; do
    delays_want "$lines"
    delays_run "$written --keep-going"
    delays_compare 1 "$work/skipped.wanted"
  done
}
delays_keep <<'ROWS'
plan span wrong.timer --crontab wrong|@08:00:00Z @09:01:00Z wrong.timer wrong.service;@09:00:00Z @09:00:00Z cron:2 y
upcoming --after @00:00:00Z wrong.timer --crontab wrong|@08:00:00Z @09:01:00Z wrong.timer wrong.service;@09:00:00Z @09:00:00Z cron:2 y
quiet span wrong.timer --crontab wrong|@00:00:00Z @08:00:00Z 28800;@09:01:00Z + 53940
ROWS
delays_refused <<'ROWS'
plan span wrong.timer|wrong.timer: line 2: part 5: OutOfRange
quiet span wrong.timer --crontab wrong|crontab: line 1: part 1: OutOfRange
ROWS

# Starts are those of the zone, and delays are counted in seconds, whatever the clock shows meanwhile: here it is put back at 01:00 UTC.
delays_timer night 02:30 'RandomizedDelaySec=2h\nAccuracySec=0'
delays_timer tokyo '08:00 Asia/Tokyo' 'RandomizedDelaySec=1h\nAccuracySec=0'
if ! passed_over "delays in zones" /usr/share/zoneinfo/Europe/Oslo /usr/share/zoneinfo/Asia/Tokyo; then
  delays_rows <<'ROWS'
plan --zone Europe/Oslo --since 2024-10-27T00:00:00Z --upto 2024-10-28T00:00:00Z night.timer|2024-10-27T00:30:00Z 2024-10-27T02:30:00Z night.timer night.service
quiet --zone Europe/Oslo --since 2024-10-27T00:00:00Z --upto 2024-10-28T00:00:00Z night.timer|2024-10-27T00:00:00Z 2024-10-27T00:30:00Z 1800;2024-10-27T02:30:00Z 2024-10-28T00:00:00Z 77400
plan --zone Europe/Oslo --since 2024-03-31T00:00:00Z --upto 2024-04-01T01:00:00Z night.timer|2024-04-01T00:30:00Z 2024-04-01T02:30:00Z night.timer night.service
plan --event-zones --since @00:00:00Z --upto @12:00:00Z tokyo.timer hour.timer|<23:00:00Z @00:00:00Z tokyo.timer tokyo.service;@06:00:00Z @07:00:00Z hour.timer hour.service
quiet --event-zones --zone Europe/Oslo --since @00:00:00Z --upto @12:00:00Z tokyo.timer hour.timer|@00:00:00Z @05:00:00Z 18000;@06:00:00Z @12:00:00Z 21600
upcoming --event-zones --zone Europe/Oslo --after @00:00:00Z tokyo.timer hour.timer|@05:00:00Z @06:00:00Z hour.timer hour.service;@23:00:00Z + tokyo.timer tokyo.service
ROWS
  delays_refused <<'ROWS'
plan span tokyo.timer|tokyo.timer: line 2: part 8: Zone
plan span --zone Nowhere/City hour.timer|zone: NoSuchZone
ROWS
fi

for delays_name in x.timer 'y.timer RandomizedDelaySec=12h' 'z.timer RandomizedDelaySec=infinity\nAccuracySec=1h\nRandomizedDelaySec=x'; do
  printf '[Timer]\nOnCalendar=6,18:00\nUnit=u.service\n' | tee "$delays_folder/unset/${delays_name%% *}" >"$delays_folder/set/${delays_name%% *}"
  printf '%b\n' "${delays_name#* }" >>"$delays_folder/set/${delays_name%% *}"
done
delays_unasked <<'ROWS'
plan span x.timer y.timer z.timer
upcoming --after 2024-01-01T00:00:00Z x.timer y.timer z.timer
quiet span x.timer y.timer z.timer
quiet span --keep-going y.timer
plan span --zone UTC --event-zones --limit 6 --planners 8 z.timer y.timer x.timer
ROWS
