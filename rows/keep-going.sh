# shellcheck shell=bash disable=SC2154
# Rows of the option --keep-going of plan, upcoming and quiet: which jobs remain, what is reported about the others
# on standard error, in which order, and with which status.

# shellcheck source=/dev/null
. "$top/rows/lib/questions.sh"

keep_folder="$work/keep"
mkdir -p "$keep_folder"/{one,two,folder.timer}

# Writes the escaped text $2 to the file $1.
keep_file() {
  printf '%b' "$2" >"$keep_folder/$1"
}

# Prints the part $2 of each of the jobs $1, with `;` between them: those with a start if $2 is starts, and the
# others if it is none. A job is its name, a blank and what it runs. `-` is before a job without a start, and N* is
# before the first of N such jobs, which are those of lines 1 to N.
keep_jobs() {
  local job count
  local -a list
  IFS=';' read -r -a list <<<"$1"
  for job in "${list[@]}"; do
    case $2:$job in
      starts:-* | starts:*\**) ;;
      starts:*) printf '%s\t%s\n' "${job%% *}" "${job#* }" ;;
      none:-*) job=${job#-} && printf '%s\t%s\n' "${job%% *}" "${job#* }" ;;
      none:*\**)
        count=${job%%\**} job=${job#*\*}
        seq -f "${job%%:*}:%g$tab${job#* }" 1 "$count"
        ;;
    esac
  done
}

# Writes what standard error must have to err.wanted, and sets `wanted` to the status. $1 has the files that can't
# be read and the errors, with `;` between them. `!` is before the path of such a file.
keep_want() {
  local line
  local -a lines
  wanted=0
  IFS=';' read -r -a lines <<<"$1"
  for line in "${lines[@]}"; do
    case $line in
      !*)
        wanted=3
        echo "agenda: ${line#!}: Device"
        ;;
      *)
        [ "$wanted" = 3 ] || wanted=1
        printf '%s\n' "$line"
        ;;
    esac
  done >"$work/err.wanted"
}

# Checks the three commands: with --keep-going before the sources $@, the jobs $1 remain, and $2 is reported. Each
# job that starts does so at the start of each day.
keep_three() {
  local jobs=$1 wanted name="--keep-going ${*:3}" middle=2024-01-01T00:00:00Z
  local span=(--since 2023-12-31T12:00:00Z --upto 2024-01-01T12:00:00Z)
  keep_want "$2"
  shift 2
  run_in "$keep_folder" agenda plan "${day[@]}" --keep-going "$@"
  keep_jobs "$jobs" starts >"$work/jobs"
  sed "s/^/$middle$tab/" "$work/jobs" | headed "${day[@]}" >"$work/agenda.headed"
  compare "plan $name" "$work/agenda.headed" "$work/err.wanted" "$wanted"
  run_in "$keep_folder" agenda upcoming --after "$middle" "$@" --keep-going
  sed "s/^/2024-01-02T00:00:00Z$tab/" "$work/jobs" >"$work/answer.wanted"
  keep_jobs "$jobs" none | sed "s/^/none$tab/" >>"$work/answer.wanted"
  compare "upcoming $name" "$work/answer.wanted" "$work/err.wanted" "$wanted"
  run_in "$keep_folder" agenda quiet --keep-going "${span[@]}" "$@"
  if [ -s "$work/jobs" ]; then
    printf '%s\t%s\t43200\n' "${span[1]}" "$middle" "$middle" "${span[3]}"
  else
    printf '%s\t%s\t86400\n' "${span[1]}" "${span[3]}"
  fi >"$work/answer.wanted"
  compare "quiet $name" "$work/answer.wanted" "$work/err.wanted" "$wanted"
}

# Rows from standard input: sources, the jobs that remain, and what is reported.
keep_rows() {
  local written jobs reported words
  while IFS='|' read -r written jobs reported; do
    read -r -a words <<<"$written"
    keep_three "$jobs" "$reported" "${words[@]}"
  done
}

# Rows from standard input: sources that end with the path of a file, its escaped text, the jobs that remain, and
# the errors, with `;` between them. Each error begins with the `:` after the path.
keep_texts() {
  local written text jobs reported words path
  while IFS='|' read -r written text jobs reported; do
    read -r -a words <<<"$written"
    path=${words[*]: -1}
    keep_file "$path" "$text"
    printf -v jobs '%b' "$jobs"
    reported=${reported:+$path$reported}
    keep_three "$jobs" "${reported//;:/;$path:}" "${words[@]}"
  done
}

# Rows from standard input: a command with its arguments, a status, and all lines of standard error, as in
# keep_want. Nothing is on standard output.
keep_refused() {
  local written code reported words wanted
  while IFS='|' read -r written code reported; do
    read -r -a words <<<"${written//DAY/${day[*]}}"
    keep_want "$reported"
    run_in "$keep_folder" agenda "${words[@]}"
    compare "$written" /dev/null "$work/err.wanted" "$code"
  done
}

# Rows from standard input: sources. What is reported is the errors of `check`, by each command in turn. Each
# source is tried with each other one. An empty span has no start, so no limit is reached.
keep_as_check() {
  local source other words number=0 span=(--since 2024-01-01T00:00:00Z --upto 2024-01-01T00:00:00Z)
  local -a sources
  mapfile -t sources
  for source in "${sources[@]}"; do
    for other in '' "${sources[@]}"; do
      # of these kinds there is at most one source
      [[ $source$other != *--crontab*--crontab* && $source$other != *--system*--system* ]] || continue
      read -r -a words <<<"$source $other"
      run_in "$questions_folder" agenda check "${words[@]}"
      grep ': error: ' "$work/out" >"$work/errors.wanted"
      case $((++number % 3)) in
        0) run_in "$questions_folder" agenda plan "${span[@]}" --keep-going "${words[@]}" ;;
        1) run_in "$questions_folder" agenda upcoming --after "${span[1]}" --keep-going "${words[@]}" ;;
        2) run_in "$questions_folder" agenda quiet "${span[@]}" --keep-going "${words[@]}" ;;
      esac
      diff -u --label "errors of check" --label "standard error" "$work/errors.wanted" "$work/err" >>"$work/told"
      [ "$status" = "$([ -s "$work/err" ] && echo 1 || echo 0)" ] || tell "status $status"
      count "--keep-going as check: $source $other"
    done
  done
}

# Rows from standard input: sources of which nothing is invalid. The answers are those without the option, and
# standard error isn't used.
keep_same() {
  local written words command
  while IFS= read -r written; do
    read -r -a words <<<"$written"
    for command in "plan ${day[*]}" "upcoming --after 2024-01-01T00:00:00Z" "quiet ${day[*]}"; do
      run_in "$keep_folder" bash -c "agenda $command ${words[*]}"
      [ "$status" = 0 ] || tell "without the option: status $status"
      cp "$work/out" "$work/answer.wanted"
      run_in "$keep_folder" bash -c "exec agenda $command ${words[*]} --keep-going 2>&-"
      compare "$command $written --keep-going, as without" "$work/answer.wanted" /dev/null 0
    done
  done
}

# Standard streams that fail while something is to be reported, or after that.
keep_streams() {
  local command to given="--crontab jobs nothing.timer"
  keep_file jobs '@daily a\nA\n'
  for command in "plan ${day[*]}" "upcoming --after 2024-01-01T00:00:00Z" "quiet ${day[*]}"; do
    for to in "2>/dev/full" "2>&-" "2>/dev/full >&-"; do
      [[ $to != *full* ]] || [ -c /dev/full ] || continue
      run_in "$keep_folder" bash -c "exec agenda $command --keep-going $given $to"
      compare "$command --keep-going $to" /dev/null /dev/null 3
      run_in "$keep_folder" bash -c "exec agenda $command --keep-going --crontab jobs $to"
      compare "$command --keep-going $to, and all files can be read" /dev/null /dev/null 3
      run_in "$keep_folder" bash -c "exec agenda $command --keep-going nothing.timer $to"
      compare "$command --keep-going $to, and no text is invalid" /dev/null /dev/null 3
    done
    for to in ">/dev/full" ">&-"; do
      [[ $to != *full* ]] || [ -c /dev/full ] || continue
      run_in "$keep_folder" bash -c "exec agenda $command --keep-going $given $to"
      keep_want "!nothing.timer;jobs:2: error: expected NAME=VALUE, or five fields and a command [BadSetting]"
      echo 'agenda: Device' >>"$work/err.wanted"
      compare "$command --keep-going $to" /dev/null "$work/err.wanted" 3
    done
  done
}

# Runs a command line of the shell, $1, whose plan of a day has the lines $2 after the header. $3 is reported.
keep_shell() {
  local wanted
  keep_want "$3"
  run_in "$keep_folder" bash -c "$1"
  keep_jobs "$2" starts | sed "s/^/2024-01-01T00:00:00Z$tab/" | headed "${day[@]}" >"$work/agenda.headed"
  compare "$1" "$work/agenda.headed" "$work/err.wanted" "$wanted"
}

# Standard error that takes 1,024 bytes. If it fails while what is skipped is written, the status is 3 and nothing
# is answered. If it fails later, in the line of another error, that error's status remains.
keep_cut() {
  local written bytes code path
  while IFS='|' read -r written bytes code; do
    # the line of a file that can't be read has 17 bytes besides its path
    printf -v path '%*s' "$((bytes - 17))" ''
    path=${path// /x}
    run_in "$keep_folder" bash -c "ulimit -f 1; trap '' XFSZ; exec agenda ${written//DAY/${day[*]}} --keep-going $path"
    printf 'agenda: %s: Device\nagenda: plan: %s\n' "$path" "$([[ $written = *--crontab* ]] && echo TooMany || echo BadLimit)" |
      head -c 1024 >"$work/err.wanted"
    compare "$written --keep-going with $bytes of 1,024 bytes for what is skipped" /dev/null "$work/err.wanted" "$code"
  done
}

# More than 65,536 bytes are reported: all of them are, before the answer.
keep_long() {
  local reported
  { yes '60 * * * * x' | head -n 1200 && echo '@daily a'; } >"$keep_folder/long"
  reported=$(seq -f "long:%g: error: minute '60': out of range 0-59 [OutOfRange]" 1 1200 | paste -s -d ';')
  [ ${#reported} -gt 65536 ] || tell "only ${#reported} bytes are reported"
  count "--keep-going with many errors"
  keep_three "cron:1201 a" "$reported" --crontab long
}

# Rows from standard input: arguments that are a usage error, and its escaped text before the last line.
keep_usage() {
  local written text words
  while IFS='|' read -r written text; do
    read -r -a words <<<"${written//DAY/${day[*]}}"
    run_in "$keep_folder" agenda "${words[@]}"
    printf '%b\n\nFor more information, try '\''--help'\''.\n' "$text" >"$work/err.wanted"
    compare "usage: $written" /dev/null "$work/err.wanted" 2
  done
}

keep_file daily '@daily a\n'
keep_file other '@daily b\n'
keep_file system '@daily root c\n'
keep_file d.timer '[Timer]\nOnCalendar=daily\n'
keep_file reboot '@reboot a\n'
keep_file empty.timer '[Timer]\n'
keep_file part '60 * * * * x\n'
keep_file one/x '@daily u a\n@daily u b\n'
keep_file two/x '@daily c\n60 * * * * x\n@daily d\n'
keep_file one/cron '@daily a\n@daily b\n'
keep_file one/d.timer '[Timer]\nOnCalendar=25:00\nUnit=x.service\n'
keep_file p '@daily u a\n@daily u b\n@daily u c\n'
yes '@reboot x' | head -n 1000 >"$keep_folder/thousand"
head -n 999 "$keep_folder/thousand" >"$keep_folder/nearly"
head -n 998 "$keep_folder/thousand" >"$keep_folder/two-less"
{ cat "$keep_folder/thousand" && echo '@daily y'; } >"$keep_folder/more"
{ printf '@daily x\n' && yes '#' | head -c 1048577; } | head -c 1048577 >"$keep_folder/large"
{ printf '[Timer]\nOnCalendar=daily\n' && yes '#' | head -c 1048577; } | head -c 1048577 >"$keep_folder/large.timer"

# Nothing is invalid: no source, no job, files that are valid, and lines that `check` only warns of.
keep_rows <<'ROWS'
||
--crontab daily|cron:1 a|
--crontab reboot empty.timer|-cron:1 a;-empty.timer empty.service|
--crontab daily --system-crontab system --cron-d one/x --spool other d.timer|cron:1 a;system:1 root c;x:1 u a;x:2 u b;other:1 b;d.timer d.service|
--crontab thousand|1000*cron:1 x|
ROWS
keep_texts <<'ROWS'
--crontab jobs|0 0 31 2 * x\n@daily a\n|-cron:1 x;cron:2 a|
--crontab jobs|CRON_TZ=x\n@daily a %\n@daily b\r\n|cron:2 a %;cron:3 b\r|
a.timer|[Timer]\nOnCalendar=daily\nOnClendar=x\nRandomizedDelaySec=5\nOnBootSec=5\n|a.timer a.service|
ROWS
keep_same <<'ROWS'

--crontab daily
--crontab reboot empty.timer
--crontab daily --system-crontab system --cron-d one/x --spool other d.timer
--crontab thousand
ROWS

# Each error of a line of a crontab, between lines that are valid.
keep_texts <<'ROWS'
--crontab jobs|@daily a\n60 24 * *\n@daily b\n|cron:1 a;cron:3 b|:2: error: expected five fields and a command [WrongParts]
--crontab jobs|@daily a\n@Daily x\n@daily b\n|cron:1 a;cron:3 b|:2: error: unknown word '@Daily' [UnknownWord]
--crontab jobs|@daily a\n5/15 * * * * x\n@daily b\n|cron:1 a;cron:3 b|:2: error: minute '5/15': empty value, or a step after a single value [WrongParts]
--crontab jobs|@daily a\n* 12345 * * * x\n@daily b\n|cron:1 a;cron:3 b|:2: error: hour '12345': not a number of one to four digits [BadNumber]
--crontab jobs|@daily a\n* * * foo * x\n@daily b\n|cron:1 a;cron:3 b|:2: error: month 'foo': unknown name [BadName]
--crontab jobs|@daily a\n* 24 * * * x\n@daily b\n|cron:1 a;cron:3 b|:2: error: hour '24': out of range 0-23 [OutOfRange]
--crontab jobs|@daily a\n* * * * sat-sun x\n@daily b\n|cron:1 a;cron:3 b|:2: error: day of week 'sat-sun': range runs backwards [Backwards]
--crontab jobs|@daily a\n* * */0 * * x\n@daily b\n|cron:1 a;cron:3 b|:2: error: day of month '*/0': step of zero [ZeroStep]
--crontab jobs|@daily a\nMAILTO\n@daily b\n|cron:1 a;cron:3 b|:2: error: expected NAME=VALUE, or five fields and a command [BadSetting]
--crontab jobs|@daily a\n@daily\n@daily b\n|cron:1 a;cron:3 b|:2: error: no command [NoCommand]
--system-crontab jobs|@daily u a\n@daily u\n@daily u b\n|system:1 u a;system:3 u b|:2: error: expected a user and a command [NoCommand]
--cron-d jobs|@daily u a\n@daily\n@daily u b\n|jobs:1 u a;jobs:3 u b|:2: error: expected a user and a command [NoCommand]
--spool jobs|@daily a\n@daily\n@daily b\n|jobs:1 a;jobs:3 b|:2: error: no command [NoCommand]
ROWS

# The error at the start, at the end and on all lines. Warnings are not reported.
keep_texts <<'ROWS'
--crontab jobs|@x\n@daily a|cron:2 a|:1: error: unknown word '@x' [UnknownWord]
--crontab jobs|@daily a\n@x|cron:1 a|:2: error: unknown word '@x' [UnknownWord]
--crontab jobs|@x\n@y\n# c\n\n@z||:1: error: unknown word '@x' [UnknownWord];:2: error: unknown word '@y' [UnknownWord];:5: error: unknown word '@z' [UnknownWord]
--crontab jobs|CRON_TZ=x\n0 0 31 2 * a\n0 0 1-31 * 0-6 b %\r\n60 * * * * x|-cron:2 a;cron:3 b %\r|:4: error: minute '60': out of range 0-59 [OutOfRange]
ROWS

# Each error of an event: the other events of the timer remain.
keep_texts <<'ROWS'
a.timer|[Timer]\nOnCalendar=12\nOnCalendar=daily\n|a.timer a.service|:2: error: '12' is not a calendar event [WrongParts]
a.timer|[Timer]\nOnCalendar=daily\nOnCalendar=fortnightly\n|a.timer a.service|:3: error: 'fortnightly' is not a calendar event [UnknownWord]
a.timer|[Timer]\nOnCalendar=%H:00\nOnCalendar=daily\n|a.timer a.service|:2: error: specifiers in '%H:00' are not expanded [Specifier]
a.timer|[Timer]\nOnCalendar=*/:00\nOnCalendar=daily\n|a.timer a.service|:2: error: hour in '*/:00': empty value, or a step after * [WrongParts]
a.timer|[Timer]\nOnCalendar=12:x\nOnCalendar=daily\n|a.timer a.service|:2: error: minute in '12:x': not a number of one to four digits [BadNumber]
a.timer|[Timer]\nOnCalendar=Foo 12:00\nOnCalendar=daily\n|a.timer a.service|:2: error: weekday in 'Foo 12:00': unknown name [BadName]
a.timer|[Timer]\nOnCalendar=25:00\nOnCalendar=daily\n|a.timer a.service|:2: error: hour in '25:00': out of range 0-23 [OutOfRange]
a.timer|[Timer]\nOnCalendar=*-*-5..3\nOnCalendar=daily\n|a.timer a.service|:2: error: day in '*-*-5..3': range runs backwards [Backwards]
a.timer|[Timer]\nOnCalendar=*:0/0\nOnCalendar=daily\n|a.timer a.service|:2: error: minute in '*:0/0': step of zero [ZeroStep]
a.timer|[Timer]\nOnCalendar=12:00:00.5\nOnCalendar=daily\n|a.timer a.service|:2: error: second in '12:00:00.5': fractions are not supported [Fraction]
a.timer|[Timer]\nOnCalendar=12:00 Mars\nOnCalendar=daily\n|a.timer a.service|:2: error: time zone in '12:00 Mars': only UTC is supported without --event-zones [Zone]
ROWS

# A timer without a valid event has a job that never starts. An empty value removes the events before it, and their
# errors are reported all the same. The unit remains.
keep_texts <<'ROWS'
a.timer|[Timer]\nOnCalendar=25:00\n|-a.timer a.service|:2: error: hour in '25:00': out of range 0-23 [OutOfRange]
a.timer|[Timer]\nOnCalendar=25:00\nUnit=b.service\nOnCalendar=daily\n|a.timer b.service|:2: error: hour in '25:00': out of range 0-23 [OutOfRange]
a.timer|[Timer]\nOnCalendar=25:00\nOnCalendar=6:00\nOnCalendar=\nOnCalendar=daily\n|a.timer a.service|:2: error: hour in '25:00': out of range 0-23 [OutOfRange]
a.timer|[Timer]\nOnCalendar=daily\nOnCalendar=25:00\nOnBootSec=\n|-a.timer a.service|:3: error: hour in '25:00': out of range 0-23 [OutOfRange]
a.timer|[Timer]\nOnCalendar=x\nOnCalendar=daily\nOnCalendar=y\n|a.timer a.service|:2: error: 'x' is not a calendar event [UnknownWord];:4: error: 'y' is not a calendar event [UnknownWord]
a.timer|[Timer]\nOnCalendar=Mon \\\n25:00\nOnCalendar=daily\n|a.timer a.service|:2: error: hour in 'Mon  25:00': out of range 0-23 [OutOfRange]
ROWS

# Events after the 64th, which include those that are invalid. The first 64 remain.
{ echo '[Timer]' && yes 'OnCalendar=daily' | head -n 64 && yes 'OnCalendar=*:0' | head -n 3; } >"$keep_folder/events.timer"
{ echo '[Timer]' && yes 'OnCalendar=x' | head -n 1 && yes 'OnCalendar=*-2-30' | head -n 63 && echo 'OnCalendar=daily'; } >"$keep_folder/one-too-many.timer"
keep_rows <<'ROWS'
events.timer|events.timer events.service|events.timer:66: error: more than 64 events [TooManyLines]
one-too-many.timer|-one-too-many.timer one-too-many.service|one-too-many.timer:2: error: 'x' is not a calendar event [UnknownWord];one-too-many.timer:66: error: more than 64 events [TooManyLines]
ROWS

# Errors of whole files: nothing of the file remains, and all its errors are reported.
keep_texts <<'ROWS'
--crontab jobs|@daily a\n# \xe4\n||: error: not UTF-8 [NotUtf8]
--system-crontab jobs|@daily u a\n\xff||: error: not UTF-8 [NotUtf8]
--cron-d jobs|60 * * * * u a\n\xff||: error: not UTF-8 [NotUtf8]
--spool jobs|\xff||: error: not UTF-8 [NotUtf8]
a.timer|[Timer]\nOnCalendar=daily\n#\xff\n||: error: not UTF-8 [NotUtf8]
--cron-d a.b|@daily u a\n||: error: not a name that cron reads [BadTabName]
--cron-d a.b|@daily u a\n60 * * * * u b\n||: error: not a name that cron reads [BadTabName];:2: error: minute '60': out of range 0-59 [OutOfRange]
--cron-d a~|\xff||: error: not a name that cron reads [BadTabName];: error: not UTF-8 [NotUtf8]
--spool .a|@daily a\n||: error: not a name that cron reads [BadTabName]
b|[Timer]\nOnCalendar=daily\n||: error: not a timer's name: it must end in .timer and name no template (for a crontab, use --crontab or --cron-d) [BadTimerName]
a@b.timer|[Timer]\nOnCalendar=%i\n||: error: not a timer's name: it must end in .timer and name no template [BadTimerName];:2: error: specifiers in '%i' are not expanded [Specifier]
b|[Unit]\n||: error: not a timer's name: it must end in .timer and name no template (for a crontab, use --crontab or --cron-d) [BadTimerName];: error: no [Timer] section [NoTimerSection]
a.timer|||: error: no [Timer] section [NoTimerSection]
a.timer|[Unit]\nOnCalendar=daily\n||: error: no [Timer] section [NoTimerSection]
ROWS
keep_rows <<'ROWS'
--crontab large --system-crontab system|system:1 root c|large: error: larger than 1048576 bytes [TooLarge]
--system-crontab large --crontab daily|cron:1 a|large: error: larger than 1048576 bytes [TooLarge]
--cron-d large d.timer|d.timer d.service|large: error: larger than 1048576 bytes [TooLarge]
--spool large --spool other|other:1 b|large: error: larger than 1048576 bytes [TooLarge]
large.timer d.timer|d.timer d.service|large.timer: error: larger than 1048576 bytes [TooLarge]
--crontab /dev/zero d.timer|d.timer d.service|/dev/zero: error: larger than 1048576 bytes [TooLarge]
/dev/zero d.timer|d.timer d.service|/dev/zero: error: not a timer's name: it must end in .timer and name no template (for a crontab, use --crontab or --cron-d) [BadTimerName];/dev/zero: error: larger than 1048576 bytes [TooLarge]
ROWS

# Files that can't be read: they are reported first, in the order in which files are read. With a pair of them, and
# with errors.
keep_rows <<'ROWS'
--crontab nothing --system-crontab system|system:1 root c|!nothing
--crontab . d.timer|d.timer d.service|!.
--system-crontab nothing --crontab daily|cron:1 a|!nothing
--cron-d nothing --cron-d one/x|x:1 u a;x:2 u b|!nothing
--spool other --spool nothing|other:1 b|!nothing
nothing.timer d.timer|d.timer d.service|!nothing.timer
d.timer folder.timer|d.timer d.service|!folder.timer
nothing.timer nothing.timer||!nothing.timer;!nothing.timer
nothing.timer --spool none4 --cron-d none3 --system-crontab none2 --crontab none1||!none1;!none2;!none3;!none4;!nothing.timer
none.timer --crontab part||!none.timer;part:1: error: minute '60': out of range 0-59 [OutOfRange]
--crontab part --cron-d none d.timer one/d.timer|d.timer d.service|!none;part:1: error: minute '60': out of range 0-59 [OutOfRange];one/d.timer: error: another job is named 'd.timer' [SameName];one/d.timer:2: error: hour in '25:00': out of range 0-23 [OutOfRange]
--cron-d a.c d.timer|d.timer d.service|!a.c
--spool two/x none|x:1 c;x:3 d|!none;two/x:2: error: minute '60': out of range 0-59 [OutOfRange]
daily/x d.timer|d.timer d.service|!daily/x
ROWS

# Of two jobs with one name the first remains. A timer whose name is already used is still checked.
keep_rows <<'ROWS'
--cron-d one/x --spool two/x d.timer|x:1 u a;x:2 u b;x:3 d;d.timer d.service|two/x:1: error: another job is named 'x:1' [SameName];two/x:2: error: minute '60': out of range 0-59 [OutOfRange]
--crontab daily --spool one/cron|cron:1 a;cron:2 b|one/cron:1: error: another job is named 'cron:1' [SameName]
--crontab part --spool one/cron|cron:1 a;cron:2 b|part:1: error: minute '60': out of range 0-59 [OutOfRange]
d.timer d.timer d.timer|d.timer d.service|d.timer: error: another job is named 'd.timer' [SameName];d.timer: error: another job is named 'd.timer' [SameName]
one/d.timer d.timer|-d.timer x.service|one/d.timer:2: error: hour in '25:00': out of range 0-23 [OutOfRange];d.timer: error: another job is named 'd.timer' [SameName]
empty.timer empty.timer --crontab daily|cron:1 a;-empty.timer empty.service|empty.timer: error: another job is named 'empty.timer' [SameName]
ROWS

# 1,000 jobs remain. Only the first job after them is reported, but each name that is already used.
keep_rows <<'ROWS'
--crontab more|1000*cron:1 x|more:1001: error: more than 1000 jobs [Full]
--crontab thousand d.timer empty.timer|1000*cron:1 x|d.timer: error: more than 1000 jobs [Full]
--crontab nearly --cron-d p d.timer|999*cron:1 x;p:1 u a|p:2: error: more than 1000 jobs [Full]
--crontab nearly --cron-d p --spool one/cron two/d.timer|999*cron:1 x;p:1 u a|!two/d.timer;p:2: error: more than 1000 jobs [Full];one/cron:1: error: another job is named 'cron:1' [SameName];one/cron:2: error: another job is named 'cron:2' [SameName]
--crontab two-less --spool one/cron --cron-d p|998*cron:1 x;p:1 u a;p:2 u b|p:3: error: more than 1000 jobs [Full];one/cron:1: error: another job is named 'cron:1' [SameName];one/cron:2: error: another job is named 'cron:2' [SameName]
--crontab nearly --spool two/x d.timer|999*cron:1 x;x:1 c|two/x:2: error: minute '60': out of range 0-59 [OutOfRange];two/x:3: error: more than 1000 jobs [Full]
ROWS

# All kinds of sources at once.
keep_file jobs '@daily a\n60 * * * * x\n'
keep_file tab '@daily u a\n@daily u\n'
keep_file user '@daily\n@daily a\n'
keep_file a.timer '[Timer]\nOnCalendar=daily\nOnCalendar=25:00\n'
keep_file unit.timer '[Unit]\n'
keep_rows <<'ROWS'
nothing.timer unit.timer a.timer d.timer --spool user --cron-d tab --cron-d none --system-crontab system --crontab jobs|cron:1 a;system:1 root c;tab:1 u a;user:2 a;a.timer a.service;d.timer d.service|!none;!nothing.timer;jobs:2: error: minute '60': out of range 0-59 [OutOfRange];tab:2: error: expected a user and a command [NoCommand];user:1: error: no command [NoCommand];unit.timer: error: no [Timer] section [NoTimerSection];a.timer:3: error: hour in '25:00': out of range 0-23 [OutOfRange]
ROWS

# The other errors of a command follow what is skipped, and their status counts. What is skipped has no starts.
keep_refused <<'ROWS'
plan DAY --keep-going --crontab jobs --planners 0|1|jobs:2: error: minute '60': out of range 0-59 [OutOfRange];agenda: plan: BadSize
plan DAY --keep-going --crontab jobs --room 1025|1|jobs:2: error: minute '60': out of range 0-59 [OutOfRange];agenda: plan: BadSize
plan DAY --keep-going --crontab jobs --limit 0|1|jobs:2: error: minute '60': out of range 0-59 [OutOfRange];agenda: plan: BadLimit
plan DAY --keep-going --crontab jobs --limit 0 --planners 0|1|jobs:2: error: minute '60': out of range 0-59 [OutOfRange];agenda: plan: BadSize
plan DAY --keep-going --crontab jobs d.timer --limit 1|1|jobs:2: error: minute '60': out of range 0-59 [OutOfRange];agenda: plan: TooMany
plan DAY --keep-going --crontab jobs nothing.timer d.timer --limit 1|1|!nothing.timer;jobs:2: error: minute '60': out of range 0-59 [OutOfRange];agenda: plan: TooMany
plan DAY --keep-going nothing.timer --limit 0|1|!nothing.timer;agenda: plan: BadLimit
quiet DAY --keep-going --crontab jobs --room 0|1|jobs:2: error: minute '60': out of range 0-59 [OutOfRange];agenda: plan: BadSize
quiet DAY --keep-going --crontab jobs --limit 1000001|1|jobs:2: error: minute '60': out of range 0-59 [OutOfRange];agenda: plan: BadLimit
quiet DAY --keep-going --crontab jobs d.timer --limit 1|1|jobs:2: error: minute '60': out of range 0-59 [OutOfRange];agenda: plan: TooMany
quiet DAY --keep-going --crontab jobs --least 0|1|jobs:2: error: minute '60': out of range 0-59 [OutOfRange];agenda: quiet: BadLeast
quiet DAY --keep-going nothing.timer unit.timer --least 0 --limit 0 --room 0|1|!nothing.timer;unit.timer: error: no [Timer] section [NoTimerSection];agenda: quiet: BadLeast
plan DAY --keep-going --limit 0|1|agenda: plan: BadLimit
quiet DAY --keep-going --least 0|1|agenda: quiet: BadLeast
ROWS
keep_file minutes '@daily a\n* * * * *\n'
keep_shell "agenda plan ${day[*]} --keep-going --crontab minutes --limit 1" "cron:1 a" "minutes:2: error: no command [NoCommand]"

# Times, the span and the zone come first. Nothing else is reported then.
keep_refused <<'ROWS'
plan --since x --upto 2024-01-02T00:00:00Z --keep-going --crontab part nothing.timer|1|agenda: since: BadForm
plan --since 2024-01-01T00:00:00Z --upto 2024-02-30T00:00:00Z --keep-going --crontab part nothing.timer|1|agenda: upto: NoSuchDate
plan --since 2024-01-02T00:00:00Z --upto 2024-01-01T00:00:00Z --keep-going --crontab part nothing.timer|1|agenda: span: Backwards
quiet --since 1969-01-01T00:00:00Z --upto 2024-01-01T00:00:00Z --keep-going --crontab part nothing.timer|1|agenda: since: OutOfYears
quiet --since 2024-01-02T00:00:00Z --upto 2024-01-01T00:00:00Z --keep-going --crontab part --least 0|1|agenda: span: Backwards
upcoming --after 2024-01-01 --keep-going --crontab part nothing.timer|1|agenda: after: BadForm
plan DAY --zone Europe/ --keep-going --crontab part nothing.timer|1|agenda: zone: BadZoneName
plan DAY --zone Nowhere/City --keep-going --crontab part nothing.timer|1|agenda: zone: NoSuchZone
plan DAY --zone ./nothing --keep-going --crontab part nothing.timer|3|!./nothing
plan DAY --zone ./part --keep-going --crontab part nothing.timer|1|agenda: zone: BadZone
upcoming --after 2024-01-01T00:00:00Z --zone ./nothing --keep-going --crontab part|3|!./nothing
quiet DAY --zone ./nothing --keep-going --crontab part --least 0|3|!./nothing
ROWS

# No file is opened then: one that is opened here would wait for a writer.
rm -f "$keep_folder/wait.timer"
mkfifo "$keep_folder/wait.timer"
keep_refused <<'ROWS'
plan --since x --upto 2024-01-02T00:00:00Z --keep-going wait.timer|1|agenda: since: BadForm
plan --since 2024-01-01T00:00:00Z --upto x --keep-going --crontab wait.timer|1|agenda: upto: BadForm
plan DAY --zone Nowhere/City --keep-going --system-crontab wait.timer|1|agenda: zone: NoSuchZone
quiet --since 2024-01-02T00:00:00Z --upto 2024-01-01T00:00:00Z --keep-going --cron-d wait.timer|1|agenda: span: Backwards
upcoming --after x --keep-going --spool wait.timer|1|agenda: after: BadForm
ROWS

# Pipes, each of which is read once, and paths with odd names.
keep_shell "printf '@daily a\\nx\\n' | agenda plan ${day[*]} --keep-going --crontab /dev/stdin" \
  "cron:1 a" "/dev/stdin:2: error: expected NAME=VALUE, or five fields and a command [BadSetting]"
keep_shell "agenda plan ${day[*]} --keep-going --crontab <(printf '@daily a\\n@daily\\n')" "cron:1 a" "/dev/fd/63:2: error: no command [NoCommand]"
rm -f "$keep_folder/pipe.timer"
mkfifo "$keep_folder/pipe.timer"
keep_shell "printf '[Timer]\nOnCalendar=daily\nOnCalendar=x\n' >pipe.timer & agenda plan ${day[*]} --keep-going pipe.timer" \
  "pipe.timer pipe.service" "pipe.timer:3: error: 'x' is not a calendar event [UnknownWord]"
keep_file $'a\tb: c' '@x\n@daily a\n'
keep_shell "agenda plan ${day[*]} --keep-going --crontab \$'a\\tb: c' --system-crontab '' 'no thing'" \
  "cron:2 a" $'!;!no thing;a\tb: c:1: error: unknown word \'@x\' [UnknownWord]'
keep_shell "agenda plan ${day[*]} --keep-going -- nothing.timer d.timer" "d.timer d.service" "!nothing.timer"

# The option has no value and is given at most once. Other commands don't have it. After `--` it is a file.
keep_usage <<'ROWS'
plan DAY --keep-going --keep-going|error: the argument '--keep-going' cannot be used multiple times\n\nUsage: agenda plan [OPTIONS] --since <T> --until <T> [TIMER]...
plan DAY --keep-going=yes|error: unexpected value 'yes' for '--keep-going' found; no more were expected\n\nUsage: agenda plan --since <T> --until <T> --keep-going [TIMER]...
quiet DAY --keep-going --crontab daily --keep-going|error: the argument '--keep-going' cannot be used multiple times\n\nUsage: agenda quiet [OPTIONS] --since <T> --until <T> [TIMER]...
upcoming --after 2024-01-01T00:00:00Z --keep|error: unexpected argument '--keep' found\n\n  tip: a similar argument exists: '--keep-going'\n\nUsage: agenda upcoming --after <T> --keep-going [TIMER]...
check --keep-going --crontab daily|error: unexpected argument '--keep-going' found\n\n  tip: to pass '--keep-going' as a value, use '-- --keep-going'\n\nUsage: agenda check [OPTIONS] [TIMER]...
next --after 2024-01-01T00:00:00Z --cron @daily --keep-going|error: unexpected argument '--keep-going' found\n\nUsage: agenda next [OPTIONS] --after <T> (--cron <TEXT> | --calendar <TEXT>)
plan --keep-going --crontab daily|error: the following required arguments were not provided:\n  --since <T>\n  --until <T>\n\nUsage: agenda plan --since <T> --until <T> --keep-going --crontab <F> [TIMER]...
ROWS
keep_refused <<'ROWS'
plan DAY -- --keep-going|3|!--keep-going
plan DAY --crontab part -- --keep-going|3|!--keep-going
plan DAY --crontab part|1|agenda: crontab: line 1: part 1: OutOfRange
ROWS

keep_streams
keep_cut <<'ROWS'
plan DAY --limit 0|1024|1
plan DAY --limit 0|1023|1
plan DAY --limit 0|1010|1
plan DAY --limit 0|1025|3
quiet DAY --limit 0|1024|1
plan DAY --system-crontab system --crontab daily --limit 1|1024|1
quiet DAY --system-crontab system --crontab daily --limit 1|1020|1
plan DAY --system-crontab system --crontab daily --limit 1|1025|3
ROWS
keep_long

# The errors are those of `check`, for the files of other rows.
keep_as_check <<'ROWS'
--crontab part
--crontab many
--crontab latin
--system-crontab command
--system-crontab daily
--cron-d cron.d/bad
--cron-d one/a.b
--cron-d one/x
--spool spool/bad
--spool one/.a
--spool two/x
--spool one/cron
hour.timer
unit.timer
daily
d.timer
one/d.timer
empty.timer
ROWS
