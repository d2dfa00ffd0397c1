# shellcheck shell=bash disable=SC2154
# Rows of bin/check-examples: the largest texts and agendas. Each run has 2 s of processor time. Its memory is
# 128 bytes for each byte that it reads, or 144 for `check`, 16 for each start within its limit, and 8 MB for
# the program, its threads and their stacks of 512 KB. A run that needs more memory would answer NoMemory, and
# one that takes longer is killed.

largest_folder="$work/largest"
mkdir "$largest_folder"
largest_since="2024-01-01T00:00:00Z"
largest_day=(--since "$largest_since" --upto 2024-01-02T00:00:00Z)

# Runs the program with the arguments from $3 on, in the memory for the file $1 and for $2 starts.
largest_run() {
  local bytes starts=$2 each=128
  bytes=$(stat -L -c %s "$largest_folder/$1")
  [ "$bytes" -le 1048577 ] || bytes=1048577
  shift 2
  [ "$1" != check ] || each=144
  # shellcheck disable=SC2016
  run_in "$largest_folder" bash -c 'ulimit -c 0; ulimit -t 2; ulimit -s 512; ulimit -d "$0"; exec agenda "$@"' \
    $((8192 + (each * bytes + 16 * starts) / 1024)) "$@"
}

# Checks the file $2, a crontab or a timer, on one day. $1 is the name of the row. $3 is the line of the
# error, or what follows the time in the line of the only start, or nothing if there is no start.
largest_text() {
  local words=("$2")
  [ "${2%.timer}" != "$2" ] || words=(--crontab "$2")
  largest_run "$2" 10000 plan "${largest_day[@]}" "${words[@]}"
  case $3 in
    agenda:*) compare_texts "$1" '' "$3"$'\n' 1 ;;
    *) compare_lines "$1" "${3:+$largest_since$tab$3$'\n'}" ;;
  esac
}

# Makes the file $1 from standard input, up to byte $2.
largest_file() {
  head -c "$2" >"$largest_folder/$1"
}

# 1,048,576 newlines.
largest_newlines() {
  yes '' | largest_file newlines 1048576
  cp "$largest_folder/newlines" "$largest_folder/newlines.timer"
  largest_text "a crontab of 1,048,576 newlines" newlines ''
  largest_text "a timer of 1,048,576 newlines" newlines.timer "agenda: newlines.timer: line 0: NoTimerSection"
  largest_run newlines 0 steps newlines
  is_refused "a script of 1,048,576 newlines" "script: line 1: BadLine" 1
}

# One line has all 1,048,576 bytes, or as many as remain.
largest_lines() {
  local long name
  long=$(yes x | tr -d '\n' | head -c 1048569)
  printf '@daily %s' "$long" >"$largest_folder/line"
  largest_run line 1 plan "${largest_day[@]}" --crontab line
  printf '%s\tcron:1\t%s\n' "$largest_since" "$long" >"$work/agenda.wanted"
  compare_agenda "a line of 1,048,576 bytes, most of them the command" "$work/agenda.wanted"
  { printf '[Timer]\nOnCalendar=daily\nUnit=' && yes x | tr -d '\n'; } | largest_file line.timer 1048576
  largest_run line.timer 1 plan "${largest_day[@]}" line.timer
  printf '%s\tline.timer\t%s\n' "$largest_since" "${long:0:1048546}" >"$work/agenda.wanted"
  compare_agenda "a timer of 1,048,576 bytes, most of them the unit" "$work/agenda.wanted"
  # the longest name: this takes memory for the sum of the two lengths, and not for their product
  name=$(printf 'n%.0s' {1..249})
  cp "$largest_folder/line.timer" "$largest_folder/$name.timer"
  largest_run line.timer 1 plan "${largest_day[@]}" "$name.timer"
  printf '%s\t%s\t%s\n' "$largest_since" "$name.timer" "${long:0:1048546}" >"$work/agenda.wanted"
  compare_agenda "a timer of 1,048,576 bytes with a name of 255" "$work/agenda.wanted"
  yes 1 | tr -d '\n' | largest_file digits 1048576
  largest_text "a line of 1,048,576 digits" digits "agenda: crontab: line 1: part 0: WrongParts"
  { yes 1 | tr -d '\n' | head -c 1048566 && printf ' * * * * x'; } | largest_file digits 1048576
  largest_text "a minute of 1,048,566 digits" digits "agenda: crontab: line 1: part 1: BadNumber"
  yes x | tr -d '\n' | largest_file letters 1048576
  largest_text "a line of 1,048,576 letters" letters "agenda: crontab: line 1: BadSetting"
  largest_run letters 0 steps letters
  is_refused "a script of one line of 1,048,576 letters" "script: line 1: BadLine" 1
}

# Settings, each with an empty one that resets it: as many as a timer holds (8 bytes for the section and 29
# for each pair), and then 200,000.
largest_resets() {
  local pair=$'OnCalendar=daily\nOnCalendar='
  { echo "[Timer]" && yes "$pair" | head -n 72314; } | largest_file reset.timer 1048576
  largest_text "36,157 events that are reset each" reset.timer ''
  { echo "[Timer]" && yes "$pair" | head -n 72312 && echo OnCalendar=daily; } | largest_file reset.timer 1048576
  largest_text "36,156 events that are reset each, and one that isn't" reset.timer "reset.timer${tab}reset.service"
  { echo "[Timer]" && yes "$pair" | head -n 72312 && echo OnCalendar=x; } | largest_file reset.timer 1048576
  largest_text "36,156 events that are reset each, and one that is none" reset.timer \
    "agenda: reset.timer: line 72314: part 0: UnknownWord"
  { echo "[Timer]" && yes "$pair" | head -n 400000; } >"$largest_folder/reset.timer"
  largest_text "200,000 events that are reset each, of 5,800,008 bytes" reset.timer "agenda: reset.timer: line 0: TooLarge"
}

# Makes a timer of 1,048,576 bytes whose time span is standard input, from which the newlines are removed.
largest_span_file() {
  { printf '[Timer]\nOnCalendar=2024-1-1\nRandomizedDelaySec=' && tr -d '\n'; } | largest_file span.timer 1048576
}

# Plans the timer span.timer, whose only start is at most at the time $2. $1 is the name of the row.
largest_span() {
  [ "$(stat -c %s "$largest_folder/span.timer")" = 1048576 ] || tell "$(stat -c %s "$largest_folder/span.timer") bytes"
  count "the size of $1"
  largest_run span.timer 1 plan --delays "${largest_day[@]}" span.timer
  compare_lines "$1" "$largest_since$tab$2${tab}span.timer${tab}span.service"$'\n'
}

# Time spans of 1,048,529 bytes: zeros, digits that are too many, pairs, a fraction, and blanks. The accuracy is a
# minute.
largest_spans() {
  yes 0 | largest_span_file
  largest_span "a time span of 1,048,529 zeros" 2024-01-01T00:01:00Z
  yes 1 | largest_span_file
  largest_span "a time span of 1,048,529 digits" 2024-01-01T00:01:00Z
  yes 1s | largest_span_file
  largest_span "a time span of 524,265 seconds" 2024-01-07T01:38:45Z
  { echo 0. && yes 1; } | largest_span_file
  largest_span "a time span of 1,048,527 digits after the point" 2024-01-01T00:01:01Z
  { echo 1 && yes ' ' | head -n 1048527 && echo h; } | largest_span_file
  largest_span "a time span of 1,048,527 blanks" 2024-01-01T01:01:00Z
  { printf '[Timer]\nOnCalendar=2024-1-1\nRandomizedDelaySec=7' && yes $'\nRandomizedDelaySec=1s' | tr -s '\n'; } | largest_file span.timer 1048576
  largest_span "47,661 time spans" 2024-01-01T00:01:01Z
}

# Lines that are continued: the text after all of them, and the number of the first.
largest_continued() {
  { printf '[Timer]\nOnCalendar=\\\n' && yes $'\\' | head -n 400000 && echo daily; } | largest_file on.timer 1048576
  largest_text "400,000 lines that go on, and a word" on.timer "on.timer${tab}on.service"
  { printf '[Timer]\nOnCalendar=\\\n' && yes $'\\' | head -n 400000 && echo 25:00; } | largest_file on.timer 1048576
  largest_text "400,000 lines that go on, and a faulty hour" on.timer "agenda: on.timer: line 2: part 5: OutOfRange"
}

# 1,000 jobs that fill 1,048,576 bytes: each line has 8 bytes besides its command, and the first 576 have one
# more than the others.
largest_jobs() {
  local planners
  awk 'BEGIN {
    for (text = "x"; length(text) < 1041;) text = text "x"
    for (job = 1; job <= 1000; job++) print "@daily " substr(text, 1, job <= 576 ? 1041 : 1040)
  }' >"$largest_folder/jobs"
  awk -v OFS='\t' -v since="$largest_since" '{ print since, "cron:" NR, substr($0, 8) }' "$largest_folder/jobs" >"$work/agenda.wanted"
  for planners in 1 8; do
    largest_run jobs 1000 plan "${largest_day[@]}" --limit 1000 --planners "$planners" --room 1 --crontab jobs
    compare_agenda "1,000 jobs of 1,048,576 bytes by $planners planners" "$work/agenda.wanted"
  done
  awk -v OFS='\t' '{ print "2024-01-02T00:00:00Z", "cron:" NR, substr($0, 8) }' "$largest_folder/jobs" >"$work/upcoming.wanted"
  largest_run jobs 0 upcoming --after "$largest_since" --crontab jobs
  compare "the next starts of 1,000 jobs of 1,048,576 bytes" "$work/upcoming.wanted" /dev/null 0
  yes '@daily x' | largest_file jobs 1048572
  largest_text "116,508 jobs" jobs "agenda: jobs: Full"
}

# 100 timers of 25 bytes each: a small file doesn't take the memory of a large one.
largest_files() {
  local number files=()
  for number in {001..100}; do
    files+=("$number.timer")
    printf '[Timer]\nOnCalendar=daily\n' >"$largest_folder/$number.timer"
    printf '%s\t%s.timer\t%s.service\n' "$largest_since" "$number" "$number"
  done >"$work/agenda.wanted"
  largest_run 001.timer 100 plan "${largest_day[@]}" --limit 100 "${files[@]}"
  compare_agenda "100 small timers" "$work/agenda.wanted"
  sed 's/^[^\t]*/2024-01-02T00:00:00Z/' "$work/agenda.wanted" >"$work/upcoming.wanted"
  largest_run 001.timer 0 upcoming --after "$largest_since" "${files[@]}"
  compare "the next starts of 100 small timers" "$work/upcoming.wanted" /dev/null 0
  printf '%s\t2024-01-02T00:00:00Z\t86400\n' "$largest_since" >"$work/gaps.wanted"
  largest_run 001.timer 100 quiet "${largest_day[@]}" "${files[@]}"
  compare "the gaps of 100 small timers" "$work/gaps.wanted" /dev/null 0
  largest_run 001.timer 0 check "${files[@]}"
  compare "check of 100 small timers" /dev/null /dev/null 0
  awk -F '\t' '{ printf "{\"start\":\"%s\",\"job\":\"%s\",\"run\":\"%s\"}\n", $1, $2, $3 }' "$work/agenda.wanted" >"$work/json.wanted"
  largest_run 001.timer 100 plan "${largest_day[@]}" --limit 100 --json "${files[@]}"
  compare "100 small timers as JSON" "$work/json.wanted" /dev/null 0
  largest_zone_file cet
  sed 's/^[^\t]*/2024-01-01T23:00:00Z/' "$work/agenda.wanted" >"$work/zone.wanted"
  largest_run 001.timer 100 plan "${largest_day[@]}" --zone ./cet --event-zones --limit 100 "${files[@]}"
  compare_agenda "100 small timers in the zone of a small file" "$work/zone.wanted"
}

# The same with an error in each timer and in a crontab: `check` reports them, and a plan that keeps going skips them.
largest_errors() {
  local number files=()
  printf '60 * * * * x\n' >"$largest_folder/error"
  echo "error:1: error: minute '60': out of range 0-59 [OutOfRange]" >"$work/findings.wanted"
  : >"$work/agenda.wanted"
  for number in {001..100}; do
    files+=("$number.timer")
    printf '[Timer]\nOnCalendar=x\nOnCalendar=daily\n' >"$largest_folder/$number.timer"
    printf '%s\t%s.timer\t%s.service\n' "$largest_since" "$number" "$number" >>"$work/agenda.wanted"
    echo "$number.timer:2: error: 'x' is not a calendar event [UnknownWord]"
  done >>"$work/findings.wanted"
  largest_run 001.timer 0 check --crontab error "${files[@]}"
  compare "check of 100 small timers and a crontab, each with an error" "$work/findings.wanted" /dev/null 1
  largest_run 001.timer 100 plan --keep-going "${largest_day[@]}" --limit 100 --crontab error "${files[@]}"
  headed "${ran[@]}" <"$work/agenda.wanted" >"$work/agenda.headed"
  compare "100 small timers and a crontab, whose errors are skipped" "$work/agenda.headed" "$work/findings.wanted" 1
}

# Makes the file $1: that of a zone (RFC 9636) of version 2 without transitions, with the rule of Berlin.
largest_zone_file() {
  local zeros='\0\0\0\0' header
  header="TZif2\0\0\0$zeros$zeros$zeros$zeros$zeros$zeros$zeros\0\0\0\1"
  printf '%b' "$header\0\0\0\1$zeros\0\0\0$header\0\0\0\4\0\0\016\020\0\0CET\0\nCET-1CEST,M3.5.0,M10.5.0/3\n" >"$largest_folder/$1"
}

# What `check` reports about texts of 1,048,576 bytes: an error in each line, a job in each line, or an event
# in each line of a timer.
largest_checks() {
  yes '@' | largest_file faults 1048576
  # cron reads 10,003 lines of a crontab
  seq -f "faults:%.0f: error: unknown word '@' [UnknownWord]" 524288 |
    sed '10004i faults:10004: warning: cron ignores this file: more than 10003 lines [CronIgnores]' >"$work/findings.wanted"
  largest_run faults 0 check --crontab faults
  compare "check of 524,288 faults" "$work/findings.wanted" /dev/null 1
  yes '* * * * * x' | largest_file checked 1048572
  largest_run checked 0 check --crontab checked
  compare_texts "check of 87,381 jobs" \
    $'checked:1001: error: more than 1000 jobs [Full]\nchecked:10004: warning: cron ignores this file: more than 10003 lines [CronIgnores]\n' '' 1
  { yes '0 0 1 * 1 x' | head -n 87380 && printf '60 * * * * x'; } | largest_file checked 1048576
  {
    seq -f 'checked:%.0f: warning: starts on days that match either day field, not both [EitherDay]' 87380 |
      sed -e '1001i checked:1001: error: more than 1000 jobs [Full]' \
        -e '10004i checked:10004: warning: cron ignores this file: more than 10003 lines [CronIgnores]'
    echo "checked:87381: error: minute '60': out of range 0-59 [OutOfRange]"
    echo 'checked:87381: warning: cron ignores this file: no newline at its end [CronIgnores]'
  } >"$work/findings.wanted"
  largest_run checked 0 check --crontab checked
  compare "check of 87,380 warnings, and an error after them" "$work/findings.wanted" /dev/null 1
  { echo '[Timer]' && yes 'OnCalendar=x'; } | largest_file events.timer 1048562
  {
    seq -f "events.timer:%.0f: error: 'x' is not a calendar event [UnknownWord]" 2 65
    echo 'events.timer:66: error: more than 64 events [TooManyLines]'
  } >"$work/findings.wanted"
  largest_run events.timer 0 check events.timer
  compare "check of 80,658 events" "$work/findings.wanted" /dev/null 1
  { echo '[Timer]' && yes $'OnCalendar=x\nOnCalendar='; } | largest_file events.timer 1048558
  {
    echo 'events.timer: warning: systemd 252 rejects this timer: it has no valid trigger [TimerRejected]'
    seq -f "events.timer:%.0f: error: 'x' is not a calendar event [UnknownWord]" 2 2 83884
  } >"$work/findings.wanted"
  largest_run events.timer 0 check events.timer
  compare "check of 41,942 events that are reset each" "$work/findings.wanted" /dev/null 1
}

# What `check` quotes of a text of 1,048,576 bytes.
largest_quotes() {
  local quoted=1111111111111111111111111111111111111111111111111111111111111111
  local ignored='cron ignores this file: no newline at its end [CronIgnores]'
  { yes 1 | tr -d '\n' | head -c 1048566 && printf ' * * * * x'; } | largest_file digits 1048576
  largest_run digits 0 check --crontab digits
  compare_texts "check of a minute of 1,048,566 digits" \
    "digits:1: error: minute '$quoted'...: not a number of one to four digits [BadNumber]"$'\n'"digits:1: warning: $ignored"$'\n' '' 1
  { printf '[Timer]\nOnCalendar=' && yes 1 | tr -d '\n'; } | largest_file on.timer 1048576
  largest_run on.timer 0 check on.timer
  compare_texts "check of an event of 1,048,557 digits" \
    "on.timer:2: error: '$quoted'... is not a calendar event [WrongParts]"$'\n' '' 1
  { printf '[Timer]\nOnCalendar=daily\nAccuracySec=' && yes 1 | tr -d '\n'; } | largest_file on.timer 1048576
  largest_run on.timer 0 check on.timer
  compare_texts "check of a time span of 1,048,539 digits" \
    "on.timer:3: warning: '$quoted'... is not a time span [BadDelay]"$'\n' '' 0
  { printf '[Timer]\nOnCalendar=\\\n' && yes $'\\' | head -n 400000 && echo 25:00; } | largest_file on.timer 1048576
  largest_run on.timer 0 check on.timer
  compare_texts "check of 400,000 lines that go on, and a faulty hour" \
    $'on.timer:2: error: hour in \'25:00\': out of range 0-23 [OutOfRange]\n' '' 1
  { printf '[Timer]\nOnCalendar=Mon\\\n' && yes $'\\' | head -n 400000 && echo 25:00; } | largest_file on.timer 1048576
  largest_run on.timer 0 check on.timer
  compare_texts "check of a weekday, 400,000 lines that go on, and a faulty hour" \
    "on.timer:2: error: hour in 'Mon$(printf '%61s' '')'...: out of range 0-23 [OutOfRange]"$'\n' '' 1
}

# Zones of events: 30,000 names that are no zone, a name of a megabyte, and one zone 25,000 times.
largest_zones() {
  local long
  awk 'BEGIN { print "[Timer]"; for (n = 1; n <= 30000; n++) printf "OnCalendar=1:0 N%d\nOnCalendar=\n", n }' >"$largest_folder/zones.timer"
  largest_run zones.timer 0 plan "${largest_day[@]}" --event-zones zones.timer
  is_refused "30,000 events with different zones that are unknown" "zones.timer: line 2: part 8: Zone" 1
  {
    echo 'zones.timer: warning: systemd 252 rejects this timer: it has no valid trigger [TimerRejected]'
    awk 'BEGIN { for (n = 1; n <= 30000; n++) printf "zones.timer:%d: error: time zone in \0471:0 N%d\047: unknown [Zone]\n", 2 * n, n }'
  } >"$work/findings.wanted"
  largest_run zones.timer 0 check --event-zones zones.timer
  compare "check of 30,000 events with different zones that are unknown" "$work/findings.wanted" /dev/null 1
  long=$(yes n | tr -d '\n' | head -c 1048557)
  printf '[Timer]\nOnCalendar=1:0 %s' "${long:0:1048553}" >"$largest_folder/zones.timer"
  largest_run zones.timer 0 check --event-zones zones.timer
  compare_texts "check of a zone of 1,048,553 bytes" \
    "zones.timer:2: error: time zone in '1:0 ${long:0:60}'...: unknown [Zone]"$'\n' '' 1
  if ! [ -e /usr/share/zoneinfo/Europe/Oslo ]; then
    echo "30,000 events with one zone: skipped, since /usr/share/zoneinfo is not here"
    return
  fi
  { echo '[Timer]' && yes $'OnCalendar=1:0 Europe/Oslo\nOnCalendar=' | head -n 50000 && echo 'OnCalendar=1:0 Europe/Oslo'; } | largest_file zones.timer 1048576
  largest_run zones.timer 1 plan "${largest_day[@]}" --event-zones zones.timer
  compare_lines "25,000 events with one zone" "${largest_since}${tab}zones.timer${tab}zones.service"$'\n'
}

# Rows from standard input: the end of the span, the limit, further arguments, and the error of the plan by 1
# planner and by 8.
largest_refused() {
  local upto limit words cause planners
  while IFS='|' read -r upto limit words cause; do
    for planners in 1 8; do
      # shellcheck disable=SC2086
      largest_run minutes "$limit" plan --since "$largest_since" --upto "$upto" --planners "$planners" --room 1 \
        --limit "$limit" $words
      is_refused "a plan up to $upto of at most $limit starts by $planners planners: $words" "plan: $cause" 1
    done
  done
}

# 1,000 jobs each minute, and a timer each second. Each limit is too low by one start, or it is the largest,
# which a span that is a minute longer exceeds.
largest_agendas() {
  local planners
  yes '* * * * * x' | head -n 1000 >"$largest_folder/minutes"
  printf '[Timer]\nOnCalendar=*:*:*\n' >"$largest_folder/s.timer"
  printf '[Timer]\nOnCalendar=*:*:*\nRandomizedDelaySec=infinity\n' >"$largest_folder/late.timer"
  seq -f "$largest_since${tab}cron:%.0f${tab}x" 1000 >"$work/agenda.wanted"
  largest_run minutes 1000 plan --since "$largest_since" --upto 2024-01-01T00:01:00Z --limit 1000 --planners 8 --room 1 --crontab minutes
  compare_agenda "1,000 jobs of a minute by 8 planners, room 1, limit 1,000" "$work/agenda.wanted"
  for planners in 1 8; do
    largest_run minutes 1000000 plan --since "$largest_since" --upto 2024-01-01T16:40:00Z --limit 1000000 --planners "$planners" \
      --crontab minutes
    mv "$work/out" "$largest_folder/out"
    # shellcheck disable=SC2016
    run_in "$largest_folder" sh -c 'head -n 1 out; tail -n +2 out >lines; wc -l <lines
      cut -f 1 lines | uniq -c | sort -k 1,1 -u | awk "{ print \$1 }"; tail -n 1 lines'
    compare_texts "1,000,000 starts by $planners planners, 1,000 in each minute" \
      "agenda 2$tab$largest_since${tab}2024-01-01T16:40:00Z${tab}1000000"$'\n1000000\n1000\n'"2024-01-01T16:39:00Z${tab}cron:1000${tab}x"$'\n' '' 0
  done
  largest_refused <<'ROWS'
2024-01-01T00:01:00Z|999|--crontab minutes|TooMany
2024-01-01T16:40:00Z|999999|--crontab minutes|TooMany
2024-01-01T16:41:00Z|1000000|--crontab minutes|TooMany
2024-01-01T16:40:00Z|1000001|--crontab minutes|BadLimit
2024-01-02T00:00:00Z|86399|s.timer|TooMany
2024-01-02T00:00:00Z|10000|s.timer|TooMany
2024-01-01T00:00:01Z|10000|--delays late.timer|TooMany
2024-01-01T00:00:01Z|1000000|--delays late.timer|TooMany
ROWS
  largest_run s.timer 10000 plan "${largest_day[@]}" s.timer
  is_refused "a start each second, and the limit that is not given" "plan: TooMany" 1
}

# The gaps between the same starts, of a minute and of a second each. The default limit is the largest.
largest_gaps() {
  local planners
  awk 'function moment(minute) { return sprintf("2024-01-01T%02d:%02d:00Z", int(minute / 60), minute % 60) }
    BEGIN { for (minute = 0; minute < 1000; minute++) printf "%s\t%s\t60\n", moment(minute), moment(minute + 1) }' >"$work/gaps.wanted"
  for planners in 1 8; do
    largest_run minutes 1000000 quiet --since "$largest_since" --upto 2024-01-01T16:40:00Z --least 60 --planners "$planners" \
      --crontab minutes
    compare "the gaps of 1,000,000 starts by $planners planners, 1,000 in each minute" "$work/gaps.wanted" /dev/null 0
    largest_run s.timer 1000000 quiet --since "$largest_since" --upto 2024-01-12T13:46:40Z --least 1 --planners "$planners" s.timer
    mv "$work/out" "$largest_folder/out"
    # shellcheck disable=SC2016
    run_in "$largest_folder" sh -c 'wc -l <out; cut -f 3 out | uniq -c | awk "{ print \$1, \$2 }"; tail -n 1 out'
    compare_texts "the gaps of 1,000,000 starts by $planners planners, one in each second" \
      $'1000000\n1000000 1\n'"2024-01-12T13:46:39Z${tab}2024-01-12T13:46:40Z${tab}1"$'\n' '' 0
  done
}

# What 1,000 jobs miss that start in each of 1,000 minutes, how many start in each hour, and the first start, which needs no memory for others.
largest_windows() {
  local planners job upto=2024-01-01T16:40:00Z
  for ((job = 1; job <= 1000; job++)); do
    printf '%s\t2024-01-01T16:39:00Z\t1000\tlost\tcron:%d\tx\n' "$largest_since" "$job"
  done >"$work/downtime.wanted"
  awk 'BEGIN { for (hour = 0; hour < 17; hour++) printf "{\"day\":\"2024-01-01\",\"hour\":%d,\"starts\":%d}\n", hour, hour < 16 ? 60000 : 40000 }' \
    >"$work/week.wanted"
  for planners in 1 8; do
    largest_run minutes 1000000 downtime --since "$largest_since" --until "$upto" --planners "$planners" --crontab minutes
    compare "what 1,000 jobs miss by $planners planners, 1,000 starts each" "$work/downtime.wanted" /dev/null 0
    largest_run minutes 1000000 week --json --since "$largest_since" --until "$upto" --planners "$planners" --crontab minutes
    compare "the hours of 1,000,000 starts by $planners planners" "$work/week.wanted" /dev/null 0
  done
  largest_run minutes 0 clear --since "$largest_since" --until "$upto" --crontab minutes
  compare_texts "the first of 1,000,000 starts" "$largest_since$tab$largest_since${tab}cron:1${tab}x"$'\n' '' 1
}

# The differences between two agendas of 1,000,000 starts, 1,000 in each minute: there are none, or half of them. The earlier one is kept as
# text, which takes as much memory as 12 starts for each of its own.
largest_changes() {
  local upto=2024-01-01T16:40:00Z
  largest_run minutes 1000000 plan --since "$largest_since" --until "$upto" --limit 1000000 --crontab minutes
  cp -- "$work/out" "$largest_folder/before"
  largest_run minutes 13000000 changes before --limit 1000000 --crontab minutes
  compare_texts "no difference between 1,000,000 starts and as many" '' '' 0
  largest_run minutes 250000 plan --since "$largest_since" --until 2024-01-01T04:10:00Z --limit 1000000 --crontab minutes
  cp -- "$work/out" "$largest_folder/before"
  { yes '* * * * * x' | head -n 500 && yes '* * * * * y' | head -n 500; } >"$largest_folder/halves"
  awk -F '\t' -v OFS='\t' '
    function put() { for (job = 501; job <= 1000; job++) print "+", before, "cron:" job, "y" }
    NR == 1 { next }
    $1 != before { if (NR > 2) put(); before = $1; count = 0 }
    ++count > 500 { print "-", $0 }
    END { put() }' "$largest_folder/before" >"$work/changes.wanted"
  largest_run minutes 13000000 changes before --limit 1000000 --crontab halves --planners 8
  compare "the differences between 250,000 starts and as many" "$work/changes.wanted" /dev/null 1
}

# The memory is really limited: 8 MB are too little for the largest agenda.
largest_bound() {
  largest_run minutes 0 plan --since "$largest_since" --upto 2024-01-01T16:40:00Z --limit 1000000 --crontab minutes
  is_refused "1,000,000 starts without memory for them" NoMemory 3
  largest_run minutes 0 quiet --since "$largest_since" --upto 2024-01-01T16:40:00Z --crontab minutes
  is_refused "the gaps of 1,000,000 starts without memory for these" NoMemory 3
  largest_run minutes 0 downtime --since "$largest_since" --upto 2024-01-01T16:40:00Z --crontab minutes
  is_refused "what is missed of 1,000,000 starts without memory for these" NoMemory 3
}

largest_newlines
largest_lines
largest_resets
largest_spans
largest_continued
largest_jobs
largest_files
largest_errors
largest_checks
largest_quotes
largest_zones
largest_agendas
largest_gaps
largest_windows
largest_changes
largest_bound
