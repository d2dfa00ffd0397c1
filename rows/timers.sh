# shellcheck shell=bash disable=SC2154
# Rows about what `agenda plan` reads in timer files: the events that remain, the unit that is started, names
# and lines that are rejected, sizes, and the maximum number of timers. bin/check-examples runs this file.
# Files have the escapes of printf's %b.

timers_folder="$work/timers"
timers_year=(--since 2024-01-01T00:00:00Z --upto 2025-01-01T00:00:00Z)

# Prints the timestamps from the second $1 of 1970 on, every $2 seconds, up to the end of 2024.
timers_moments() {
  seq -f '@%.0f' "$1" "$2" 1735689599 | date -u -f - +%Y-%m-%dT%H:%M:%SZ
}

# Prints the starts of an event in 2024, which begins with a Monday.
timers_starts() {
  case $1 in
    daily | '*-*-* 00:00:00') timers_moments 1704067200 86400 ;;
    weekly | Mon) timers_moments 1704067200 604800 ;;
    'Mon 12:00') timers_moments 1704110400 604800 ;;
    'Fri 12:00') timers_moments 1704456000 604800 ;;
    '*-*-3 06:00') printf '2024-%s-03T06:00:00Z\n' {01..12} ;;
    '*-12-31 23:59:59') echo 2024-12-31T23:59:59Z ;;
    *) echo "no starts are known of '$1'" ;;
  esac
}

# Prints the expected lines of `agenda plan` after the header, for a year of the timer $1, which starts the
# unit $2 at the events that follow.
timers_plan() {
  local name=$1 unit=$2 event
  shift 2
  for event in "$@"; do
    timers_starts "$event"
  done | sort -u | name=$name unit=$unit awk '{ print $0 "\t" ENVIRON["name"] "\t" ENVIRON["unit"] }'
}

# The timer $1 with the text $4 has the events $2, with + between them, and starts the unit $3. The starts
# show the events, but not how many times each occurs. So more are added at the file's end, up to 64, which
# also shows the unit, and then one more, which is rejected.
timers_job() {
  local name=$1 events unit file="$timers_folder/$1" last='*-12-31 23:59:59' left
  IFS=+ read -r -a events <<<"$2"
  printf -v unit '%b' "$3"
  printf '%b' "$4" >"$file"
  timers_plan "$name" "$unit" "${events[@]}" >"$work/plan.wanted"
  run_in "$timers_folder" agenda plan "${timers_year[@]}" "$name"
  compare_agenda "starts of $name '$4'" "$work/plan.wanted"
  left=$((64 - ${#events[@]}))
  { printf '\n\n[Timer]\n' && yes "OnCalendar=$last" | head -n "$left"; } >>"$file"
  [ "$left" = 0 ] || events+=("$last")
  timers_plan "$name" "$unit" "${events[@]}" >"$work/plan.wanted"
  run_in "$timers_folder" agenda plan "${timers_year[@]}" "$name"
  compare_agenda "starts of $name '$4' and $left events more" "$work/plan.wanted"
  echo "OnCalendar=$last" >>"$file"
  run_in "$timers_folder" agenda plan "${timers_year[@]}" "$name"
  is_refused "$name '$4' and $((left + 1)) events more" "$name: line $(wc -l <"$file"): TooManyLines" 1
}

# Each row: the timer's name, its events with + between them, the unit and the file.
timers_jobs() {
  local name events unit file
  while IFS='|' read -r name events unit file; do
    timers_job "$name" "$events" "$unit" "$file"
  done
}

# Each row: the timer's name, the error, and the file.
timers_refused() {
  local name fault file
  while IFS='|' read -r name fault file; do
    printf '%b' "$file" >"$timers_folder/$name"
    run_in "$timers_folder" agenda plan "${timers_year[@]}" "$name"
    is_refused "$name '$file'" "$name: line $fault" 1
  done
}

# A name of 255 bytes, which is the maximum for a file.
timers_longest_name() {
  local name
  name=$(printf 'n%.0s' {1..249}).timer
  { [ ${#name} = 255 ] || echo "${#name} bytes"; } >"$work/told"
  count "the longest name of a timer"
  timers_job "$name" '' "${name%.timer}.service" '[Timer]'
}

# 64 events are the maximum: one more is rejected before it is read, even if a later line empties the list.
timers_most_events() {
  local full events
  full="[Timer]\\n$(printf 'OnCalendar=daily\\n%.0s' {1..64})"
  events=$(printf 'daily+%.0s' {1..64})
  timers_job t.timer "${events%+}" t.service "$full"
  timers_job t.timer weekly t.service "${full}OnCalendar=\\nOnCalendar=weekly"
  timers_refused <<ROWS
t.timer|66: TooManyLines|${full}OnCalendar=daily
t.timer|66: TooManyLines|${full}OnCalendar=fortnightly
t.timer|66: TooManyLines|${full}OnCalendar=weekly\\nOnCalendar=
ROWS
}

# Files that repeat one text as often as 1,048,576 bytes hold it, and then two bytes more. A bad name comes first.
timers_sizes() {
  local part text
  for part in ' ' x $'\\' '#' $'\\\n' $'a\\\n' $'\n' '=;'; do
    text=$part
    until [ ${#text} -gt 1048576 ]; do
      text+=$text
    done
    printf '%s' "${text:0:1048576 / ${#part} * ${#part}}" >"$timers_folder/t.timer"
    run_in "$timers_folder" agenda plan "${timers_year[@]}" t.timer
    is_refused "a timer full of '$part'" "t.timer: line 0: NoTimerSection" 1
    printf '\n\n' >>"$timers_folder/t.timer"
    run_in "$timers_folder" agenda plan "${timers_year[@]}" t.timer
    is_refused "a timer of too many '$part'" "t.timer: line 0: TooLarge" 1
    cp "$timers_folder/t.timer" "$timers_folder/t.service"
    run_in "$timers_folder" agenda plan "${timers_year[@]}" t.service
    is_refused "a service of too many '$part'" "t.service: line 0: BadTimerName" 1
  done
}

# 1,000 timers are the maximum. A name that is already used is reported before that.
timers_numbers() {
  local number folder="$work/timers.1000"
  mkdir "$folder" "$folder/again"
  for number in {0..1000} again/0; do
    printf '[Timer]\nOnCalendar=daily\nUnit=x\n' >"$folder/$number.timer"
  done
  run_in "$folder" agenda plan "${day[@]}" {0..999}.timer
  printf "2024-01-01T00:00:00Z\t%s.timer\tx\n" {0..999} >"$work/plan.wanted"
  compare_agenda "a thousand timers" "$work/plan.wanted"
  run_in "$folder" agenda plan "${day[@]}" {0..1000}.timer
  is_refused "a thousand timers and one" "jobs: Full" 1
  run_in "$folder" agenda plan "${day[@]}" {0..999}.timer again/0.timer
  is_refused "a thousand timers, and one of them again" "job 0.timer: SameName" 1
  run_in "$folder" agenda plan "${day[@]}" 0.timer 1.timer again/0.timer
  is_refused "two timers, and one of them again" "job 0.timer: SameName" 1
}

mkdir "$timers_folder"
# resets; other settings; several sections, other sections and settings before any section; other case;
# settings without `=`; lines that are almost a section; blanks; carriage returns
timers_jobs <<'ROWS'
backup.timer|daily+*-*-* 00:00:00|backup.service|[Timer]\nOnCalendar=hourly\nOnCalendar=\nOnCalendar=daily\nOnCalendar=*-*-* 00:00:00\n
x.timer||x.service|[Timer]
x.timer||x.service|[Timer]\nOnCalendar=daily\nOnBootSec=\n
x.timer|daily|x.service|[Timer]\nOnCalendar=daily\nOnBootSec=5min\n
x.timer|weekly|x.service|[Timer]\nOnCalendar=daily\nOnUnitInactiveSec=\nOnCalendar=weekly\nAccuracySec=\n
x.timer|daily+weekly|x.service|[Timer]\nOnCalendar=daily\n[Install]\nOnCalendar=\nUnit=z\n[Timer]\nOnCalendar=weekly
x.timer||x.service|OnCalendar=daily\nUnit=a\n[Timer]\n
x.timer||x.service|[Timer]\noncalendar=daily\nUNIT=a\nOnCalendar\nOnCalendar daily\n
x.timer|daily|x.service|[Timer]\n[Unit]=x\n[Unit\nUnit]\nOnCalendar=daily
x.timer||x.service|[timer]\nOnCalendar=daily\n[ Timer]\nOnCalendar=daily\n[Timer]\n[]\nOnCalendar=daily
x.timer|daily|b| \t[Timer] \t\n\t OnCalendar \t= \t daily \t\n Unit\t=\tb\x20
x.timer||a\r|[Timer]\r\nUnit=a\r\r\n
two.timer|Fri 12:00+*-*-3 06:00|two.service|[Timer]\nOnCalendar=Fri 12:00\nOnCalendar=*-*-3 06:00\n
ROWS
# merged lines: comments in them, the input's end, empty lines, even numbers of backslashes, backslashes
# before blanks and carriage returns
timers_jobs <<'ROWS'
n.timer|Mon 12:00|y.service|[Unit]\nDescription=x\n[Timer]\nOnCalendar=Mon \\\n# note\n  12:00\nUnit=y.service\n
n.timer|Mon 12:00|z|[Timer]\nOnCalendar=Mon\\\n\t;note\\\n12:00\n#Unit=y\\\nUnit=z
t.timer|Mon|t.service|[Timer]\nOnCalendar=Mon \\
t.timer|Mon|t.service|[Timer]\nOnCalendar=Mon \\\n# note
t.timer|Mon+daily|u|[Timer]\nOnCalendar=Mon \\\n\nOnCalendar=daily\\\n \t\r\nUnit=u
t.timer|daily|a\\\\|[Timer]\nUnit=a\\\\\nOnCalendar=daily
t.timer|daily|a\\|[Timer]\nUnit=a\\ \nOnCalendar=daily
t.timer|daily|a\\\\ b c|[Timer]\nUnit=a\\\\\\\nb\\\n  c\r\nOnCalendar=daily
t.timer||a|\\\r\n[Timer]\r\nUnit=\\\r\na\r\n
ROWS
# the unit, and names
timers_jobs <<'ROWS'
x.timer||a.service|[Timer]\nUnit=\nUnit=a.service\nUnit=b.service\nUnit=
x.timer||a = b|[Timer]\nUnit=a = b
a-B_9:\x2d.timer||a-B_9:\\x2d.service|[Timer]
x.timer.timer||x.timer.service|[Timer]
\.timer||\\.service|[Timer]
n.timer||n.service|[Timer]
ROWS
timers_longest_name
timers_most_events
timers_refused <<'ROWS'
x.service|0: BadTimerName|[Timer]
x.service|0: BadTimerName|[Timer]\nOnCalendar=x
.timer|0: BadTimerName|[Timer]
xtimer.|0: BadTimerName|[Timer]
x.timer |0: BadTimerName|[Timer]
a b.timer|0: BadTimerName|[Timer]
à.timer|0: BadTimerName|[Timer]
x@.timer|0: BadTimerName|[Timer]
x.Timer|0: BadTimerName|[Timer]
x.timer|0: NoTimerSection|
x.timer|0: NoTimerSection|[Unit]
x.timer|0: NoTimerSection|[Timer
x.timer|0: NoTimerSection|[timer]\nOnCalendar=x
x.timer|0: NoTimerSection|#\\\n[Unit]\\\n[Timer]
x.timer|0: NotUtf8|[Timer]\n\xC3
x.timer|2: part 0: WrongParts|[Timer]\nOnCalendar==daily
x.timer|3: part 0: Specifier|[Timer]\n\nOnCalendar=*-*-%i
x.timer|3: part 0: UnknownWord|[Timer]\nOnCalendar=daily\nOnCalendar=fortnightly\nOnCalendar=\n
x.timer|3: part 5: OutOfRange|[Timer]\n# a\nOnCalendar=Mon \\\n# b\n25:00\nOnCalendar=x y z
ROWS
timers_sizes
timers_numbers
