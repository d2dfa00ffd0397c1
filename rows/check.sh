# shellcheck shell=bash disable=SC2154
# Rows of bin/check-examples: what `agenda check` reports about crontabs and timers, in which order and with
# which status. Its errors are compared with those of `agenda plan` for the same sources, too. Findings are in
# the short form of rows/lib/findings.sh; rows/messages.sh has their texts.

# shellcheck source=/dev/null
. "$top/rows/lib/questions.sh"
# shellcheck source=/dev/null
. "$top/rows/lib/findings.sh"

check_folder="$work/check"
mkdir -p "$check_folder"/{one,two,cron.d,spool,folder.timer}

# Writes the escaped text $2 to the file $1.
check_file() {
  printf '%b' "$2" >"$check_folder/$1"
}

check_run() {
  run_in "$check_folder" agenda check "$@"
}

# Compares the last run, with the name $1, with the lines of the file findings.wanted. The status is 1 if one
# of them is an error.
check_compare() {
  local wanted=0
  ! grep -qv ': warning \[' "$work/findings.wanted" || wanted=1
  shorten_findings <"$work/out" >"$work/findings" && mv -- "$work/findings" "$work/out"
  compare "$1" "$work/findings.wanted" /dev/null "$wanted"
}

# Compares the last run, with the name $1, with the findings $2, with `;` between them.
check_findings() {
  printf '%s' "${2:+$2;}" | tr ';' '\n' >"$work/findings.wanted"
  check_compare "$1"
}

# Rows from standard input: arguments, and all findings, with `;` between them.
check_rows() {
  local written findings words
  while IFS='|' read -r written findings; do
    read -r -a words <<<"$written"
    check_run "${words[@]}"
    check_findings "check $written" "$findings"
  done
}

# Rows from standard input: arguments that end with the path of a file, its escaped text, and the findings,
# with `;` between them. Each finding begins with the `:` after the path.
check_texts() {
  local written text findings words path
  while IFS='|' read -r written text findings; do
    read -r -a words <<<"$written"
    path=${words[*]: -1}
    check_file "$path" "$text"
    check_run "${words[@]}"
    findings=${findings:+$path$findings}
    check_findings "check $written '$text'" "${findings//;:/;$path:}"
  done
}

# Rows from standard input: rules of a crontab, or events if $1 is calendar, and after a bar the warnings about
# each, with blanks between them. All of them are in one file, so each warning must be on its own line.
check_warnings() {
  local rule codes code line=0 path=jobs words=(--crontab jobs)
  : >"$work/findings.wanted"
  if [ "$1" = calendar ]; then
    path=a.timer words=(a.timer)
    check_file "$path" '[Timer]\n'
    line=1
  else
    check_file "$path" ''
  fi
  while IFS='|' read -r rule codes; do
    line=$((line + 1))
    if [ "$1" = calendar ]; then
      printf 'OnCalendar=%s\n' "$rule"
    else
      printf '%s x\n' "$rule"
    fi >>"$check_folder/$path"
    for code in $codes; do
      echo "$path:$line: warning [$code]" >>"$work/findings.wanted"
    done
  done
  check_run "${words[@]}"
  check_compare "the warnings about $line lines of $path"
}

# Makes the file $1 with the escaped text $3, filled with newlines up to $2 bytes.
check_filled() {
  { printf '%b' "$3" && head -c "$2" /dev/zero | tr '\0' '\n'; } | head -c "$2" >"$check_folder/$1"
}

# Prints the line $2 $1 times.
check_times() {
  yes "$2" | head -n "$1"
}

# Rows from standard input: parts of the section [Timer] of a timer, with `;` between them, and the findings,
# as in check_texts. Each part is a number, a blank and an event that occurs that many times. Without an event
# it is an empty value.
check_lists() {
  local written findings part
  local -a parts
  while IFS='|' read -r written findings; do
    IFS=';' read -r -a parts <<<"$written"
    check_file a.timer '[Timer]\n'
    for part in "${parts[@]}"; do
      check_times "${part%% *}" "OnCalendar=${part#* }" >>"$check_folder/a.timer"
    done
    findings=${findings:+a.timer$findings}
    check_run a.timer
    check_findings "check a timer of $written" "${findings//;:/;a.timer:}"
  done
}

# Rows from standard input: sources. `check` finds an error exactly if `plan` rejects the sources. An empty
# span has no start, so no limit is reached.
check_as_plan() {
  local written words planned
  while IFS= read -r written; do
    read -r -a words <<<"$written"
    run_in "$check_folder" agenda plan --since 2024-01-01T00:00:00Z --upto 2024-01-01T00:00:00Z "${words[@]}"
    planned=$status
    [ "$planned" = 0 ] || [ "$planned" = 1 ] || tell "plan ended with status $planned"
    check_run "${words[@]}"
    [ "$status" = "$planned" ] || tell "status $status, and plan has $planned"
    grep -q ': error: ' "$work/out" && [ "$status" = 0 ] && tell "status 0, and something is refused"
    [ "$status" = 0 ] || grep -q ': error: ' "$work/out" || tell "status $status, and nothing is refused"
    [ ! -s "$work/err" ] || tell "standard error: $(cat "$work/err")"
    count "check as plan: $written"
  done
}

# Checks each source from standard input, and each pair of them, in this way.
check_pairs_as_plan() {
  local source other
  local -a sources
  mapfile -t sources
  check_as_plan < <(
    for source in "${sources[@]}"; do
      echo "$source"
      for other in "${sources[@]}"; do
        [[ $source$other = *--crontab*--crontab* ]] || echo "$source $other"
      done
    done
  )
}

# Rows from standard input: an option and an escaped text. The first error that `check` finds in this crontab
# has the line, the field and the code of the error of `plan`.
check_first_as_plan() {
  local option text fault line field fields=('' minute hour 'day of month' month 'day of week')
  while IFS='|' read -r option text; do
    check_file cron.d/jobs "$text"
    run_in "$check_folder" agenda plan --since 2024-01-01T00:00:00Z --upto 2024-01-01T00:00:00Z "$option" cron.d/jobs
    [ "$status" = 1 ] || tell "plan ended with status $status"
    fault=$(cat "$work/err")
    fault=${fault#*: line }
    line=:${fault%%:*}
    fault=${fault#*: }
    field=
    [[ $fault != part* ]] || field=${fields[${fault:5:1}]}
    check_run "$option" cron.d/jobs
    echo "cron.d/jobs${line#:0}: error ${field:+$field }[${fault##*: }]" >"$work/first.wanted"
    grep ': error: ' "$work/out" | head -n 1 | shorten_findings | diff -u --label plan --label check "$work/first.wanted" - >>"$work/told" 2>&1
    count "the first fault as plan has it: $option '$text'"
  done
}

# Nothing is written if there are no findings: no source, no job, or jobs without errors.
check_file daily '@daily a\n'
check_file none '# no job\n\n \t\nMAILTO=x\n'
check_file d.timer '[Timer]\nOnCalendar=daily\n'
check_rows <<'ROWS'
|
--crontab daily|
--crontab none --cron-d none --spool none|
--crontab daily d.timer|
ROWS

# A rejected line: its number, the part of its rule if there is one, and the one error that `plan` reports for it.
check_texts <<'ROWS'
--crontab jobs|60 * * * * x\n|:1: error minute [OutOfRange]
--crontab jobs|* 24 * * *\n|:1: error hour [OutOfRange]
--crontab jobs|60 24 32 13 8 x\n|:1: error minute [OutOfRange]
--crontab jobs|60 24 * *\n|:1: error [WrongParts]
--crontab jobs|* * * *\n|:1: error [WrongParts]
--crontab jobs|5/15 * * * * x\n|:1: error minute [WrongParts]
--crontab jobs|1,,2 * * * * x\n|:1: error minute [WrongParts]
--crontab jobs|12345 * * * * x\n|:1: error minute [BadNumber]
--crontab jobs|* * x * * y\n|:1: error day of month [BadName]
--crontab jobs|* * * foo * y\n|:1: error month [BadName]
--crontab jobs|* * * * sat-sun y\n|:1: error day of week [Backwards]
--crontab jobs|*/0 * * * * x\n|:1: error minute [ZeroStep]
--crontab jobs|@Daily x\n|:1: error [UnknownWord]
--crontab jobs|@daily\n|:1: error [NoCommand]
--crontab jobs|* * * * *  \n|:1: error [NoCommand]
--crontab jobs|MAILTO\n|:1: error [BadSetting]
--crontab jobs|\n# c\n \t\n \t60 * * * * x\n|:4: error minute [OutOfRange]
--system-crontab jobs|@daily root x\n@daily root\n|:2: error [NoCommand]
--cron-d jobs|@daily root x\n@daily root\n|:2: error [NoCommand]
--spool jobs|@daily root x\n@daily\n|:2: error [NoCommand]
a.timer|[Timer]\nOnCalendar=%H\n|:2: error [Specifier]
a.timer|[Timer]\nOnCalendar=12\n|:2: error [WrongParts]
a.timer|[Timer]\nOnCalendar=fortnightly\n|:2: error [UnknownWord]
a.timer|[Timer]\nOnCalendar=Foo 12:00\n|:2: error weekday [BadName]
a.timer|[Timer]\nOnCalendar=Fri..Mon\n|:2: error weekday [Backwards]
a.timer|[Timer]\nOnCalendar=1969-1-1\n|:2: error year [OutOfRange]
a.timer|[Timer]\nOnCalendar=*-13-1\n|:2: error month [OutOfRange]
a.timer|[Timer]\nOnCalendar=*-*-5..3\n|:2: error day [Backwards]
a.timer|[Timer]\nOnCalendar=25:00\n|:2: error hour [OutOfRange]
a.timer|[Timer]\nOnCalendar=*:0/0\n|:2: error minute [ZeroStep]
a.timer|[Timer]\nOnCalendar=12:00:00.5\n|:2: error second [Fraction]
a.timer|[Timer]\nOnCalendar=12:00 Mars\n|:2: error time zone [Zone]
ROWS

# All errors of all lines, in order. Between them are lines without errors, settings and comments.
check_texts <<'ROWS'
--crontab jobs|60 * * * * x\n@daily\nMAILTO\n# c\n* * * * * x\nA=b\n@never x\n* * * * * x\n|:1: error minute [OutOfRange];:2: error [NoCommand];:3: error [BadSetting];:7: error [UnknownWord]
--spool jobs|@x\n@x\n@x\n|:1: error [UnknownWord];:2: error [UnknownWord];:3: error [UnknownWord]
a.timer|[Timer]\nOnCalendar=25:00\nOnCalendar=daily\n[Unit]\nOnCalendar=x\n[Timer]\nOnCalendar=x\n|:2: error hour [OutOfRange];:7: error [UnknownWord]
ROWS

# A finding about a whole file has no line number.
check_texts <<'ROWS'
--crontab jobs|@daily \xe4\n|: error [NotUtf8]
--system-crontab jobs|\xff|: error [NotUtf8]
--cron-d a.b|@daily u x\n|: error [BadTabName]
--cron-d a~||: error [BadTabName]
--spool .a|@daily x\n|: error [BadTabName]
--spool a~|@daily x\n|: error [BadTabName]
jobs|[Timer]\nOnCalendar=daily\n|: error [BadTimerName]
a@.timer|[Timer]\nOnCalendar=daily\n|: error [BadTimerName]
a.timer||: error [NoTimerSection]
a.timer|[Unit]\nOnCalendar=x\n|: error [NoTimerSection]
a.timer|[timer]\nOnCalendar=x\n|: error [NoTimerSection]
a.timer|[Timer]\nOnCalendar=daily \xe4\n|: error [NotUtf8]
ROWS

# --crontab and --system-crontab require no name.
check_texts <<'ROWS'
--crontab a.b+c|@daily x\n|
--system-crontab .a~|@daily u x\n|
ROWS

# After a bad name the rest is checked in the same way as after a good one.
check_texts <<'ROWS'
--cron-d a.b|60 * * * * u x\n0 0 31 2 * u x\n0 0 1 * 1 u x\n@daily u\n|: error [BadTabName];:1: error minute [OutOfRange];:2: warning [NeverStarts];:3: warning [EitherDay];:4: error [NoCommand]
--cron-d a.b|\xff|: error [BadTabName];: error [NotUtf8]
--spool .a|\n60 * * * * x\n0 0 31 2 * x\n|: error [BadTabName];:2: error minute [OutOfRange];:3: warning [NeverStarts]
--spool a~|60 * * * * x\n\xff|: error [BadTabName];: error [NotUtf8]
jobs|[Timer]\nOnCalendar=25:00\nOnCalendar=*-2-30\n|: error [BadTimerName];:2: error hour [OutOfRange];:3: warning [NeverStarts]
jobs|[Timer]\n|: error [BadTimerName];: warning [TimerRejected]
jobs|[Unit]\n|: error [BadTimerName];: error [NoTimerSection]
jobs|\xff|: error [BadTimerName];: error [NotUtf8]
a@b.timer|[Timer]\nOnCalendar=%i\n|: error [BadTimerName];:2: error [Specifier]
ROWS

# A text that isn't UTF-8 has no lines, and so no section and no warnings either.
check_texts <<'ROWS'
--crontab jobs|60 * * * * x\n0 0 31 2 * x\n\xff\n|: error [NotUtf8]
--crontab jobs|# \xc3\n60 * * * * x\n|: error [NotUtf8]
a.timer|[Unit]\n\xff\n|: error [NotUtf8]
a.timer|[Timer]\n\xff\n|: error [NotUtf8]
a.timer|[Timer]\nOnCalendar=25:00\nOnCalendar=*-2-30\n#\xff\n|: error [NotUtf8]
ROWS

# Nor has a text that is too large. It isn't checked for UTF-8 then. With one byte less, everything is read.
check_filled most 1048576 '60 * * * * x\n0 0 31 2 * u x\n'
check_filled more 1048577 '60 * * * * x\n0 0 31 2 * u x\n'
check_filled more~ 1048577 '60 * * * * x\n\xff\n'
check_filled most.timer 1048576 '[Timer]\nOnCalendar=25:00\nOnCalendar=*-2-30\n'
check_filled more.timer 1048577 '[Timer]\nOnCalendar=25:00\nOnCalendar=*-2-30\n'
check_filled unit.timer 1048577 '[Unit]\n\xff\n'
check_rows <<'ROWS'
--crontab most most.timer|most:1: error minute [OutOfRange];most:2: warning [NeverStarts];most.timer:2: error hour [OutOfRange];most.timer:3: warning [NeverStarts]
--crontab more|more: error [TooLarge]
--system-crontab more|more: error [TooLarge]
--cron-d more|more: error [TooLarge]
--cron-d more~|more~: error [BadTabName];more~: error [TooLarge]
--spool more~|more~: error [BadTabName];more~: error [TooLarge]
--crontab more~|more~: error [TooLarge]
more.timer|more.timer: error [TooLarge]
unit.timer|unit.timer: error [TooLarge]
more|more: error [BadTimerName];more: error [TooLarge]
--crontab /dev/zero|/dev/zero: error [TooLarge]
--cron-d /dev/zero /dev/zero|/dev/zero: error [TooLarge];/dev/zero: error [BadTimerName];/dev/zero: error [TooLarge]
ROWS

# The error of an assignment is reported for the first line of its merged line, even if a later line empties
# the list. Without a section [Timer] nothing is read.
check_texts <<'ROWS'
a.timer|[Timer]\nOnCalendar=Mon \\\n# note\n25:00\nOnCalendar=x\n|:2: error hour [OutOfRange];:5: error [UnknownWord]
a.timer|[Timer]\nUnit=a \\\nOnCalendar=x\nOnCalendar=\\\n\\\n25:00|:2: warning [UnitIgnored];:4: error hour [OutOfRange]
a.timer|[Timer]\r\nOnCalendar=Mon \\\r\n25:00\r\n|:2: error hour [OutOfRange]
a.timer|[Timer]\nOnCalendar=daily\nOnCalendar=fortnightly\nOnCalendar=\nOnCalendar=weekly\n|:3: error [UnknownWord]
a.timer|[Timer]\nOnCalendar=x\nOnActiveSec=\nOnCalendar=x\nOnBootSec=\nOnCalendar=x\nOnStartupSec=\nOnCalendar=daily|:2: error [UnknownWord];:4: error [UnknownWord];:6: error [UnknownWord]
a.timer|[Timer]\nOnCalendar=x\nOnUnitActiveSec=\nOnCalendar=x\nOnUnitInactiveSec=\n|: warning [TimerRejected];:2: error [UnknownWord];:4: error [UnknownWord]
a.timer|OnCalendar=x\n[Unit]\nOnCalendar=x\n[Timer]\nOnCalendar=daily\n[Install]\nOnCalendar=x\n|
a.timer|[Timer]\noncalendar=x\nOnCalendar x\nOnBootSec=x\nUnit=\nOnCalendar=daily\n|: warning [Monotonic];:2: warning [UnknownKey]
ROWS

# TooManyLines is reported for the first event that comes when 64 are in the list. The next such events have
# no finding. None of them is read. A rejected event counts like others, and an empty value removes all of
# them.
check_lists <<'ROWS'
64 daily|
65 daily|:66: error [TooManyLines]
99 daily|:66: error [TooManyLines]
64 daily;1 25:00|:66: error [TooManyLines]
64 daily;1 *-2-30|:66: error [TooManyLines]
64 daily;1 daily;1 25:00;1 *-2-30|:66: error [TooManyLines]
1 25:00;63 daily|:2: error hour [OutOfRange]
1 25:00;63 daily;1 daily|:2: error hour [OutOfRange];:66: error [TooManyLines]
63 daily;1 x;2 y|:65: error [UnknownWord];:66: error [TooManyLines]
63 daily;1 *-2-30;2 y|:65: warning [NeverStarts];:66: error [TooManyLines]
64 daily;1 ;64 daily|
64 daily;1 ;65 daily|:131: error [TooManyLines]
65 daily;1 ;65 daily|:66: error [TooManyLines]
65 daily;1 ;1 x;1 *-2-30|:66: error [TooManyLines];:68: error [UnknownWord];:69: warning [NeverStarts]
66 daily;1 ;64 daily;1 x;1 ;1 25:00|:66: error [TooManyLines];:135: error hour [OutOfRange]
40 daily;1 ;40 daily|
65 daily;1 |: warning [TimerRejected];:66: error [TooManyLines]
64 daily;1 |: warning [TimerRejected]
ROWS
{ echo '[Timer]' && check_times 66 'OnCalendar=%i'; } >"$check_folder/a.timer"
{ seq -f 'a.timer:%g: error [Specifier]' 2 65 && echo 'a.timer:66: error [TooManyLines]'; } >"$work/findings.wanted"
check_run a.timer
check_compare "check a timer of 66 refused events"
# a merged line
{ echo '[Timer]' && check_times 64 'OnCalendar=daily' && printf '%b' 'OnCalendar=\\\n#\nMon \\\n25:00\n'; } >"$check_folder/a.timer"
check_run a.timer
check_findings "check a joined line that finds 64 events" 'a.timer:66: error [TooManyLines]'

# Two jobs with the same name: the second is reported with its line, or as a timer, and isn't added. A
# rejected line makes no job, nor does a file with a bad name. A timer is a job whatever other errors it has.
check_file system '@daily root b\n'
check_file one/x '\n@daily u a\n'
check_file two/x '\n@daily u b\n60 * * * * u c\n'
check_file one/cron '@daily a\n'
check_file one/system '@daily u a\n'
check_file one/y '@daily a\n# b\n@reboot c\n'
check_file two/y '@daily u\n\n@daily c\n'
check_file one/z '60 * * * * u x\n'
check_file two/z '@daily u x\n'
check_file one/a.b '@daily u x\n'
check_file two/a.b '@daily x\n'
check_file one/.a '@daily x\n'
check_file one/latin '@daily x \xff\n'
check_file two/latin '@daily x\n'
check_file one/d.timer '[Timer]\nOnCalendar=25:00\n'
check_file one/e.timer '[Unit]\n'
check_file two/e.timer '[Timer]\nOnCalendar=daily\n'
check_file one/f.timer '\xff'
check_file two/f.timer '[Timer]\nOnCalendar=weekly\n'
check_file g.timer '[Timer]\n'
check_filled one/h.timer 1048577 '[Timer]\n'
check_file two/h.timer '[Timer]\nOnCalendar=daily\n'
check_file a@b.timer '[Timer]\nOnCalendar=daily\n'
check_rows <<'ROWS'
--cron-d one/x --cron-d two/x|two/x:2: error [SameName];two/x:3: error minute [OutOfRange]
--cron-d one/x --cron-d one/x|one/x:2: error [SameName]
--cron-d one/x --cron-d one/x --cron-d one/x|one/x:2: error [SameName];one/x:2: error [SameName]
--spool one/y --spool one/y|one/y:1: error [SameName];one/y:3: error [SameName]
--spool one/y --spool two/y|two/y:1: error [SameName];two/y:3: error [SameName]
--cron-d two/y --spool one/y|two/y:1: error [NoCommand];two/y:3: error [NoCommand]
--spool two/y --cron-d one/x|
--crontab daily --spool one/cron|one/cron:1: error [SameName]
--crontab daily --cron-d one/cron|one/cron:1: error [NoCommand]
--system-crontab system --cron-d one/system|one/system:1: error [SameName]
--system-crontab system --spool one/cron|
--cron-d one/z --cron-d two/z|one/z:1: error minute [OutOfRange]
--cron-d two/z --cron-d one/z|one/z:1: error minute [OutOfRange]
--cron-d one/a.b --spool two/a.b|one/a.b: error [BadTabName]
--cron-d one/a.b --cron-d one/a.b|one/a.b: error [BadTabName];one/a.b: error [BadTabName]
--spool one/.a --spool one/.a|one/.a: error [BadTabName];one/.a: error [BadTabName]
--spool one/latin --spool two/latin|one/latin: error [NotUtf8]
d.timer d.timer|d.timer: error [SameName]
d.timer one/d.timer|one/d.timer: error [SameName];one/d.timer:2: error hour [OutOfRange]
one/d.timer d.timer|one/d.timer:2: error hour [OutOfRange];d.timer: error [SameName]
one/e.timer two/e.timer|one/e.timer: error [NoTimerSection];two/e.timer: error [SameName]
two/e.timer one/e.timer|one/e.timer: error [NoTimerSection];one/e.timer: error [SameName]
one/f.timer two/f.timer|one/f.timer: error [NotUtf8];two/f.timer: error [SameName]
two/f.timer one/f.timer|one/f.timer: error [NotUtf8];one/f.timer: error [SameName]
one/h.timer two/h.timer|one/h.timer: error [TooLarge];two/h.timer: error [SameName]
two/h.timer one/h.timer|one/h.timer: error [TooLarge];one/h.timer: error [SameName]
g.timer g.timer|g.timer: warning [TimerRejected];g.timer: error [SameName];g.timer: warning [TimerRejected]
daily daily|daily: error [BadTimerName];daily: error [NoTimerSection];daily: error [BadTimerName];daily: error [NoTimerSection]
a@b.timer a@b.timer|a@b.timer: error [BadTimerName];a@b.timer: error [BadTimerName]
ROWS

# A thousand jobs are the maximum. The next one is Full, only once. Those after it aren't added either and
# have no finding. A name that exists is still reported. Names of jobs that weren't added don't exist.
check_times 999 '* * * * * x' >"$check_folder/most999"
check_times 1000 '* * * * * x' >"$check_folder/thousand"
{ check_times 1000 '* * * * * x' && printf '%b' '0 0 31 2 * x\n* * * * * x\n0 0 1 * 1 x\n60 * * * * x\n'; } >"$check_folder/many"
{ check_times 1000 '#' && printf '@daily x\n'; } >"$check_folder/two/cron"
check_file bad.timer '[Timer]\nOnCalendar=25:00\n'
check_file n.timer '[Unit]\n'
check_rows <<'ROWS'
--crontab thousand|
--crontab most999 d.timer|
--crontab most999 --spool one/a.b --spool one/.a a@b.timer d.timer|one/.a: error [BadTabName];a@b.timer: error [BadTimerName];d.timer: error [Full]
--crontab most999 --cron-d one/a.b --spool one/.a a@b.timer d.timer|one/a.b: error [BadTabName];one/.a: error [BadTabName];a@b.timer: error [BadTimerName]
--crontab most999 --cron-d one/z d.timer two/e.timer|one/z:1: error minute [OutOfRange];two/e.timer: error [Full]
--crontab most999 --spool one/cron d.timer two/e.timer|one/cron:1: error [SameName];two/e.timer: error [Full]
--crontab many|many:1001: error [Full];many:1001: warning [NeverStarts];many:1003: warning [EitherDay];many:1004: error minute [OutOfRange]
--crontab thousand --system-crontab system|system:1: error [Full]
--crontab thousand --spool one/y|one/y:1: error [Full]
--crontab thousand --spool one/cron|one/cron:1: error [SameName]
--crontab thousand --spool one/cron d.timer|one/cron:1: error [SameName];d.timer: error [Full]
--crontab thousand d.timer two/e.timer two/e.timer|d.timer: error [Full]
--crontab thousand bad.timer|bad.timer: error [Full];bad.timer:2: error hour [OutOfRange]
--crontab thousand n.timer|n.timer: error [NoTimerSection];n.timer: error [Full]
--crontab thousand one/f.timer|one/f.timer: error [NotUtf8];one/f.timer: error [Full]
--crontab thousand g.timer|g.timer: error [Full];g.timer: warning [TimerRejected]
--crontab thousand a@b.timer --spool one/.a|one/.a: error [BadTabName];a@b.timer: error [BadTimerName]
--crontab thousand --cron-d one/z one/f.timer bad.timer|one/z:1: error minute [OutOfRange];one/f.timer: error [NotUtf8];one/f.timer: error [Full];bad.timer:2: error hour [OutOfRange]
--crontab thousand --system-crontab system --cron-d one/x --spool one/cron|system:1: error [Full];one/cron:1: error [SameName]
--crontab many --spool two/cron|many:1001: error [Full];many:1001: warning [NeverStarts];many:1003: warning [EitherDay];many:1004: error minute [OutOfRange]
ROWS

# No start in all years: days that no month has, and dates with another weekday. 2100 has no leap day, and a
# month has no more days from its end than from its start. 2024-01-02 is a Tuesday, 1970-01-01 a Thursday and
# 2999-12-31 a Tuesday; all of these days are starts. `@reboot` never starts either, and is meant so.
check_warnings cron <<'ROWS'
0 0 31 2 *|NeverStarts
0 0 30 2 *|NeverStarts
0 0 30-31 feb *|NeverStarts
0 0 31 2,4,6,9,11 *|NeverStarts
* * 31 */2 *|
0 0 31 4-6/2 *|NeverStarts
0 0 30 2 */2|NeverStarts
0 0 29 2 *|
0 0 29 2 */7|
0 0 28-31 2 *|
0 0 31 2-3 *|
0 0 31 * *|
@reboot|
@yearly|
@monthly|
@weekly|
ROWS
check_warnings calendar <<'ROWS'
*-2-30|NeverStarts
*-02-30,31 12:00|NeverStarts
*-4,6,9,11-31|NeverStarts
*-2~30|NeverStarts SystemdRejects
*-4~31 *:*:*|NeverStarts SystemdRejects
*-2~29|SystemdRejects
*-4~30|SystemdRejects
2100-2-29|NeverStarts
2000-2-29|
2100..2103-2-29|NeverStarts
2100..2104-2-29|
Mon 2024-1-2|NeverStarts
Tue 2024-1-2|
Mon..Wed,Fri..Sun 1970-1-1|NeverStarts
1970-1-1|
Thu 1970-1-1 00:00:00|
2999-12-31 23:59:59|SystemdRejects
Tue 2999-12-31|SystemdRejects
Mon 2999-12-31|NeverStarts SystemdRejects
Fri *-*-13|
daily|
ROWS

# Either day suffices if both day fields are restricted. A field is restricted if its first character isn't
# `*`. Each month has every weekday, so such a line starts even if no month has its day.
check_warnings cron <<'ROWS'
0 0 1 * 1|EitherDay
30 4 1,15 * 5|EitherDay
0 0 1-31 * 0-7|EitherDay
0 0 31 2 1|EitherDay
0 0 30 feb mon-fri|EitherDay
0 0 1 * *|
0 0 * * 1|
0 0 */2 * 1|
0 0 1 * */2|
0 0 */2 * */2|
0 0 *,1 * 1|
0 0 1,* * 1|EitherDay
0 0 1 * 1,*|EitherDay
@monthly|
@weekly|
ROWS

# No events: the section exists, and the list is empty at the end. Only the list counts, and a rejected event
# is in it too.
check_texts <<'ROWS'
a.timer|[Timer]\n|: warning [TimerRejected]
a.timer|[Timer]|: warning [TimerRejected]
a.timer|[Timer]\nOnBootSec=5\nUnit=x.service\n|: warning [Monotonic]
a.timer|[Timer]\nOnCalendar=daily\nOnCalendar=\n|: warning [TimerRejected]
a.timer|[Timer]\nOnCalendar=daily\nOnUnitActiveSec=\n|: warning [TimerRejected]
a.timer|[Timer]\nOnCalendar=daily\nOnUnitActiveSec=5\n|: warning [Monotonic]
a.timer|[Timer]\nOnCalendar=\nOnCalendar=daily\n|
a.timer|[Timer]\n[Timer]\nOnCalendar=daily\n|
a.timer|[Timer]\n[Unit]\nOnCalendar=daily\n|: warning [TimerRejected]
a.timer|[Timer]\nOnCalendar=25:00\n|:2: error hour [OutOfRange]
a.timer|[Timer]\nOnCalendar=25:00\nOnCalendar=\n|: warning [TimerRejected];:2: error hour [OutOfRange]
a.timer|[Timer]\nOnCalendar=*-2-30\nOnCalendar=\n|: warning [TimerRejected];:2: warning [NeverStarts]
a.timer|[Unit]\n[Timer\n|: error [NoTimerSection];: warning [TimerRejected]
ROWS

# cron ends a command at a % that doesn't directly follow a backslash. A carriage return at the end of a command
# is part of it. In the system's format the command comes after the user. Settings and rejected lines have no
# command.
check_texts <<'ROWS'
--crontab jobs|@daily echo 50%\n|:1: warning [Percent]
--crontab jobs|@daily %\n|:1: warning [Percent]
--crontab jobs|@daily echo \\%\n|
--crontab jobs|@daily echo \\\\%\n|:1: warning [Percent];:1: warning [CronDiffers]
--crontab jobs|@daily echo \\% %\n|:1: warning [Percent]
--crontab jobs|@daily echo %\\%\n|:1: warning [Percent]
--crontab jobs|@daily echo \\%%\n|:1: warning [Percent]
--crontab jobs|@daily echo %% %\n|:1: warning [Percent]
--crontab jobs|0 0 * * * a\n@reboot date +%%s\n|:2: warning [Percent]
--crontab jobs|A=%\n# %\n@x %\n@daily\n|:3: error [UnknownWord];:4: error [NoCommand]
--system-crontab jobs|@daily a%b x\n@daily root %\n|:2: warning [Percent]
--crontab jobs|@daily x\r\n@daily x\n|:1: warning [CarriageReturn]
--crontab jobs|@daily \r\n|:1: warning [CarriageReturn]
--crontab jobs|@daily x\r\r\n|:1: warning [CarriageReturn]
--crontab jobs|@daily x\ry\n@daily x\r \n|
--crontab jobs|A=b\r\n# c\r\n@daily\r\n|:3: error [UnknownWord]
--cron-d jobs|@daily root\r x\n@daily root x\r\n|:2: warning [CarriageReturn]
--crontab jobs|0 0 1 * 1 %\r\n|:1: warning [EitherDay];:1: warning [Percent];:1: warning [CarriageReturn]
--crontab jobs|0 0 31 2 * %\r\n|:1: warning [NeverStarts];:1: warning [Percent];:1: warning [CarriageReturn]
ROWS

# The setting of a zone: its name is CRON_TZ without blanks around it, and without one pair of equal quotes.
check_texts <<'ROWS'
--crontab jobs|CRON_TZ=UTC\n|:1: warning [ZoneSetting]
--system-crontab jobs|@daily u x\n \tCRON_TZ \t= \n|:2: warning [ZoneSetting];:2: warning [CronIgnores]
--cron-d jobs|"CRON_TZ"=UTC\n'CRON_TZ' =UTC\n|:1: warning [ZoneSetting];:2: warning [ZoneSetting]
--spool jobs|CRON_TZ==\nCRON_TZ=A=B\n|:1: warning [ZoneSetting];:2: warning [ZoneSetting]
--crontab jobs|TZ=UTC\ncron_tz=UTC\nCRON_TZX=UTC\nXCRON_TZ=UTC\nCRON TZ=UTC\nA=CRON_TZ=UTC\n|:5: warning [CronIgnores]
--crontab jobs|"CRON_TZ'=UTC\n"CRON_TZ=UTC\nCRON_TZ"=UTC\n""CRON_TZ""=UTC\n'"CRON_TZ"'=UTC\n" CRON_TZ"=UTC\n|:1: warning [CronIgnores];:2: warning [CronIgnores];:4: warning [CronIgnores]
--crontab jobs|#CRON_TZ=UTC\n@daily CRON_TZ=UTC\nCRON_TZ\n|:3: error [BadSetting]
ROWS

# Keys of a section [Timer] that systemd.timer(5) doesn't have. Every such section counts, and of a merged line
# the first line. Other sections have other keys.
check_texts <<'ROWS'
a.timer|[Timer]\nOnCalendar=daily\nOnClendar=daily\nPersistant=\n|:3: warning [UnknownKey];:4: warning [UnknownKey]
a.timer|[Timer]\nOnCalendar=daily\nPersistent=yes\nAccuracySec=1\nFixedRandomDelay=no\nOnClockChange=no\nOnTimezoneChange=no\nUnit=x\nWakeSystem=no\nRemainAfterElapse=no\n|:8: warning [UnitIgnored]
a.timer|[Timer]\nOnCalendar=daily\nOnActiveSec=\nOnBootSec=\nOnStartupSec=\nOnUnitActiveSec=\nOnUnitInactiveSec=\nRandomizedDelaySec=\nOnCalendar=daily\n|
a.timer|[Timer]\nOnCalendar=daily\nPERSISTENT=yes\npersistent=yes\nUnit =x\n=x\n|:3: warning [UnknownKey];:4: warning [UnknownKey];:5: warning [UnitIgnored];:6: warning [UnknownKey]
a.timer|A=b\n[Unit]\nDescription=x\n[Timer]\nOnCalendar=daily\n[Install]\nWantedBy=timers.target\n[Timer]\nWantedBy=x\n|:9: warning [UnknownKey]
a.timer|[Timer]\nOnCalendar=daily\nDescription=a \\\n#A=b\nB=c\nD\\\n=e\n|:3: warning [UnknownKey];:6: warning [UnknownKey]
a.timer|[Timer]\nOnCalendar=daily\n#A=b\n;A=b\nA\n[A=b]\nC=d\n|
a.timer|[Timer]\nOnCalendar=25:00\nA=b\nOnCalendar=x\n|:2: error hour [OutOfRange];:3: warning [UnknownKey];:4: error [UnknownWord]
ROWS

# Monotonic settings with a value that no later setting takes away, and a delay above 0. The last value of the
# delay that is a time span counts.
check_texts <<'ROWS'
a.timer|[Timer]\nOnCalendar=daily\nOnActiveSec=1\n|: warning [Monotonic]
a.timer|[Timer]\nOnCalendar=daily\nOnBootSec=1\n|: warning [Monotonic]
a.timer|[Timer]\nOnCalendar=daily\nOnStartupSec=1\n|: warning [Monotonic]
a.timer|[Timer]\nOnUnitActiveSec=x\nOnCalendar=daily\n|: warning [Monotonic]
a.timer|[Timer]\nOnUnitInactiveSec=1\nOnBootSec=2\nOnCalendar=daily\n|: warning [Monotonic]
a.timer|[Timer]\nOnBootSec=1\nOnCalendar=\nOnCalendar=daily\n|
a.timer|[Timer]\nOnBootSec=1\nOnActiveSec=\nOnCalendar=daily\n|
a.timer|[Timer]\nOnBootSec=1\nOnCalendar=\nOnBootSec=2\nOnCalendar=daily\n|: warning [Monotonic]
a.timer|[Timer]\nOnBootSec=1\nUnit=\nRandomizedDelaySec=\nOnCalendar=daily\n|: warning [Monotonic]
a.timer|[Unit]\nOnBootSec=1\n[Timer]\nOnCalendar=daily\n[Install]\nOnBootSec=1\n|
a.timer|[Timer]\nOnCalendar=daily\nRandomizedDelaySec=5\n|: warning [Delayed]
a.timer|[Timer]\nOnCalendar=daily\nRandomizedDelaySec=0\n|
a.timer|[Timer]\nOnCalendar=daily\nRandomizedDelaySec=000\n|
a.timer|[Timer]\nOnCalendar=daily\nRandomizedDelaySec=0s\n|
a.timer|[Timer]\nOnCalendar=daily\nRandomizedDelaySec=0.0000009s\n|
a.timer|[Timer]\nOnCalendar=daily\nRandomizedDelaySec=0 0h\nAccuracySec=1h\n|
a.timer|[Timer]\nOnCalendar=daily\nRandomizedDelaySec=1us\n|: warning [Delayed]
a.timer|[Timer]\nOnCalendar=daily\nRandomizedDelaySec=0h 1us\n|: warning [Delayed]
a.timer|[Timer]\nOnCalendar=daily\nRandomizedDelaySec=infinity\n|: warning [Delayed];: warning [Merged]
a.timer|[Timer]\nOnCalendar=daily\nRandomizedDelaySec=1h\nRandomizedDelaySec=\n|: warning [Delayed]
a.timer|[Timer]\nOnCalendar=daily\nRandomizedDelaySec=\nRandomizedDelaySec=0\n|
a.timer|[Timer]\nOnCalendar=daily\nRandomizedDelaySec=1h\nRandomizedDelaySec=0\nOnCalendar=\nOnCalendar=weekly\n|
a.timer|[Timer]\nRandomizedDelaySec=0\nOnCalendar=daily\n[Timer]\nRandomizedDelaySec=1\n|: warning [Delayed]
a.timer|[Timer]\nOnBootSec=1\nRandomizedDelaySec=1\nA=b\n|: warning [Monotonic];: warning [Delayed];:4: warning [UnknownKey]
a.timer|[Timer]\nOnCalendar=*:0/25\nRandomizedDelaySec=1\nOnActiveSec=1\nx=1\n|: warning [Monotonic];: warning [Delayed];:2: warning [SkippedStarts];:5: warning [UnknownKey]
jobs|[Timer]\nOnCalendar=25:00\nOnBootSec=1\n|: error [BadTimerName];: warning [Monotonic];:2: error hour [OutOfRange]
a.timer|[Timer]\nOnBootSec=1\n\xff\n|: error [NotUtf8]
ROWS

# Values of the two delays that aren't time spans. An empty one is ignored too, without a warning.
check_texts <<'ROWS'
a.timer|[Timer]\nOnCalendar=daily\nRandomizedDelaySec=x\n|:3: warning [BadDelay]
a.timer|[Timer]\nOnCalendar=daily\nAccuracySec=1 hrs\n|:3: warning [BadDelay]
a.timer|[Timer]\nOnCalendar=daily\nAccuracySec=\nRandomizedDelaySec = \t\n|
a.timer|[Timer]\nAccuracySec=-1\nRandomizedDelaySec=1..5s\nAccuracySec=1. 5s\nRandomizedDelaySec=600000y\nOnCalendar=daily\n|:2: warning [BadDelay];:3: warning [BadDelay];:4: warning [BadDelay];:5: warning [BadDelay]
a.timer|[Timer]\nOnCalendar=daily\nRandomizedDelaySec=1h\nRandomizedDelaySec=x\n|: warning [Delayed];:4: warning [BadDelay]
a.timer|[Timer]\nOnCalendar=daily\nRandomizedDelaySec=x\nRandomizedDelaySec=1h\n|: warning [Delayed];:3: warning [BadDelay]
a.timer|[Timer]\nOnCalendar=daily\nRandomizedDelaySec=1h\nRandomizedDelaySec=x\nRandomizedDelaySec=0s\nRandomizedDelaySec=INFINITY\n|:4: warning [BadDelay];:6: warning [BadDelay]
a.timer|[Unit]\nRandomizedDelaySec=x\n[Timer]\nOnCalendar=daily\n[Install]\nAccuracySec=x\n[Timer]\nAccuracySec=x\n|:8: warning [BadDelay]
a.timer|[Timer]\nOnCalendar=daily\nrandomizeddelaysec=x\nRandomizedDelay=x\nAccuracySec=x\nA=b\n|:3: warning [UnknownKey];:4: warning [UnknownKey];:5: warning [BadDelay];:6: warning [UnknownKey]
a.timer|[Timer]\nOnCalendar=daily\nRandomizedDelaySec=5 \\\n#x\n secs\nAccuracySec\\\n=x\n|:3: warning [BadDelay];:6: warning [BadDelay]
a.timer|[Timer]\nOnBootSec=1\nAccuracySec=x\nOnCalendar=25:00\n|: warning [Monotonic];:3: warning [BadDelay];:4: error hour [OutOfRange]
a.timer|[Timer]\nOnCalendar=daily\nRandomizedDelaySec=1h\r\nAccuracySec=5\r\n|: warning [Delayed]
a.timer|[Timer]\nOnCalendar=daily\nRandomizedDelaySec=%i\n|:3: warning [BadDelay]
jobs|[Timer]\nOnCalendar=daily\nAccuracySec=x\n|: error [BadTimerName];:3: warning [BadDelay]
a.timer|[Timer]\nOnCalendar=daily\nAccuracySec=x\n\xff\n|: error [NotUtf8]
ROWS

# Values of Persistent= that are no booleans, also an empty one; it comes after BadDelay. What systemd's parse_boolean reads is one,
# whatever its case.
check_texts <<'ROWS'
a.timer|[Timer]\nOnCalendar=daily\nPersistent=enabled\n|:3: warning [BadBoolean]
a.timer|[Timer]\nOnCalendar=daily\nPersistent=\nPersistent=2\nPersistent=yes no\nPersistent=tru\n|:3: warning [BadBoolean];:4: warning [BadBoolean];:5: warning [BadBoolean];:6: warning [BadBoolean]
a.timer|[Timer]\nOnCalendar=daily\nPersistent=1\nPersistent=yes\nPersistent=y\nPersistent=true\nPersistent=t\nPersistent=on\n|
a.timer|[Timer]\nOnCalendar=daily\nPersistent=0\nPersistent=no\nPersistent=n\nPersistent=false\nPersistent=f\nPersistent=off\n|
a.timer|[Timer]\nOnCalendar=daily\nPersistent = YES \nPersistent=True\nPersistent=oFf\nPersistent=N\n|
a.timer|[Unit]\nPersistent=x\n[Timer]\nOnCalendar=daily\npersistent=x\n[Install]\nPersistent=x\n[Timer]\nPersistent=%i\n|:5: warning [UnknownKey];:9: warning [BadBoolean]
a.timer|[Timer]\nOnCalendar=daily\nAccuracySec=x\nPersistent=x\nUnit=x\n|:3: warning [BadDelay];:4: warning [BadBoolean];:5: warning [UnitIgnored]
ROWS

# Events before an empty value have their warnings. rows/check-skips.sh has when SkippedStarts is reported.
check_texts <<'ROWS'
a.timer|[Timer]\nOnCalendar=*:0/25\nOnCalendar=\nOnCalendar=daily\n|:2: warning [SkippedStarts]
a.timer|[Timer]\nOnCalendar=Mon,Tue 2024-1-3,4 *:0/25\n|:2: warning [NeverStarts];:2: warning [SkippedStarts]
a.timer|[Timer]\nOnCalendar=*:0/25:60\n|:2: error second [OutOfRange]
ROWS

# A text without an error has its warnings even if the name or the job is rejected. A rejected line has none.
# For the same line, errors come first.
check_file one/n '0 0 31 2 * u a\n0 0 1 * 1 u b\n'
check_file two/n '0 0 31 2 * c\n0 0 1 * 1 d\n'
check_file never '0 0 31 2 * x\n@reboot x\n'
check_file one/never.timer '[Timer]\nOnCalendar=*-2-30\n'
check_file two/never.timer '[Timer]\nOnCalendar=Mon 2024-1-2\n'
check_rows <<'ROWS'
--cron-d one/n|one/n:1: warning [NeverStarts];one/n:2: warning [EitherDay]
--cron-d one/n --spool two/n|one/n:1: warning [NeverStarts];one/n:2: warning [EitherDay];two/n:1: error [SameName];two/n:1: warning [NeverStarts];two/n:2: error [SameName];two/n:2: warning [EitherDay]
--crontab thousand --spool two/n|two/n:1: error [Full];two/n:1: warning [NeverStarts];two/n:2: warning [EitherDay]
--crontab never|never:1: warning [NeverStarts]
--crontab never one/never.timer|never:1: warning [NeverStarts];one/never.timer:2: warning [NeverStarts]
one/never.timer two/never.timer|one/never.timer:2: warning [NeverStarts];two/never.timer: error [SameName];two/never.timer:2: warning [NeverStarts]
--crontab thousand one/never.timer|one/never.timer: error [Full];one/never.timer:2: warning [NeverStarts]
ROWS
check_texts <<'ROWS'
--crontab jobs|0 0 31 2 *\n0 0 1 * 1\n0 0 31 2 1 x\n|:1: error [NoCommand];:2: error [NoCommand];:3: warning [EitherDay]
--system-crontab jobs|0 0 31 2 * u\n0 0 1 * 1 u\n0 0 31 2 * u x\n|:1: error [NoCommand];:2: error [NoCommand];:3: warning [NeverStarts]
--crontab jobs|60 0 1 * 1 x\n0 0 1 * 8 x\n|:1: error minute [OutOfRange];:2: error day of week [OutOfRange]
a.timer|[Timer]\nOnCalendar=Mon \\\n2024-1-2\nOnCalendar=25:00\n|:2: warning [NeverStarts];:4: error hour [OutOfRange]
ROWS

# The sources are in the order of the options in the synopsis, and those of one option in the given order.
check_file cron.d/p '@daily root\n'
check_file cron.d/q '@x root a\n'
check_file spool/u '60 * * * * x\n'
check_file spool/v 'MAILTO\n'
check_rows <<'ROWS'
g.timer bad.timer --spool spool/v --cron-d cron.d/q --system-crontab cron.d/p --spool spool/u --cron-d cron.d/p --crontab spool/u|spool/u:1: error minute [OutOfRange];cron.d/p:1: error [NoCommand];cron.d/q:1: error [UnknownWord];cron.d/p:1: error [NoCommand];spool/v:1: error [BadSetting];spool/u:1: error minute [OutOfRange];g.timer: warning [TimerRejected];bad.timer:2: error hour [OutOfRange]
bad.timer g.timer n.timer|bad.timer:2: error hour [OutOfRange];g.timer: warning [TimerRejected];n.timer: error [NoTimerSection]
ROWS

# The path is written as it was given.
check_file 'a:7' '60 * * * * x\n'
check_file '-' '@daily u\n'
check_rows <<ROWS
--crontab ./spool/u|./spool/u:1: error minute [OutOfRange]
--crontab=spool//u|spool//u:1: error minute [OutOfRange]
--spool spool/../spool/u --spool=./spool/v|spool/../spool/u:1: error minute [OutOfRange];./spool/v:1: error [BadSetting]
--crontab $check_folder/spool/u|$check_folder/spool/u:1: error minute [OutOfRange]
--crontab a:7|a:7:1: error minute [OutOfRange]
--spool a:7|a:7: error [BadTabName];a:7:1: error minute [OutOfRange]
--cron-d -|-:1: error [NoCommand]
./bad.timer one/../g.timer|./bad.timer:2: error hour [OutOfRange];one/../g.timer: warning [TimerRejected]
-- bad.timer -|bad.timer:2: error hour [OutOfRange];-: error [BadTimerName];-: error [NoTimerSection]
ROWS
check_file 'one/a b: c' '@daily\n'
check_run --spool 'one/a b: c' --crontab 'one/a b: c'
check_findings "check a path with blanks" 'one/a b: c:1: error [NoCommand];one/a b: c: error [BadTabName];one/a b: c:1: error [NoCommand]'
run_in "$check_folder" bash -c "printf '@daily a\n@daily\n' | agenda check --crontab /dev/stdin"
check_findings "check a pipe as crontab" '/dev/stdin:2: error [NoCommand]'

# A file that can't be read comes before every error in a text, and nothing else is written then.
questions_folder=$check_folder questions_refused check <<'ROWS'
--crontab nothing|nothing: Device
--system-crontab nothing|nothing: Device
--cron-d nothing|nothing: Device
--spool nothing|nothing: Device
--cron-d one/|one/: Device
--crontab .|.: Device
nothing.timer|nothing.timer: Device
folder.timer|folder.timer: Device
nothing|nothing: Device
nothing~ --spool nothing~4 --cron-d nothing~3 --system-crontab nothing2 --crontab nothing1|nothing1: Device
nothing~ --spool nothing~4 --cron-d nothing~3 --system-crontab nothing2|nothing2: Device
nothing~ --spool nothing~4 --cron-d nothing~3|nothing~3: Device
nothing~ --spool nothing~4|nothing~4: Device
--cron-d cron.d/p --cron-d nothing3 --cron-d nothing4|nothing3: Device
--crontab spool/u bad.timer nothing.timer|nothing.timer: Device
nothing.timer bad.timer --crontab spool/u|nothing.timer: Device
--crontab /dev/zero nothing|nothing: Device
--crontab daily nothing|nothing: Device
ROWS

check_run --crontab ''
is_refused "check --crontab ''" ": Device" 3

# `check` finds an error exactly if `plan` rejects the sources.
check_as_plan <<ROWS

--crontab most999 d.timer
--crontab most999 d.timer two/e.timer
--crontab thousand
--crontab many
--crontab thousand --spool one/cron
--crontab thousand --spool two/cron
--crontab thousand a@b.timer
--crontab /dev/zero
--crontab most most.timer
--crontab more
more.timer
--system-crontab $top/examples/server-and-timers/etc-crontab $top/examples/server-and-timers/scrub.timer
--crontab $top/examples/described-server/jobs $top/examples/friday-the-13th/friday.timer
--crontab $top/examples/faulty-line/crontab
$top/examples/timer-with-resets/backup.timer $top/examples/all-timers-of-folder/timers/a-first.timer
$top/examples/faults-in-editor/cert@.timer
ROWS
check_pairs_as_plan <<'ROWS'
--crontab daily
--crontab spool/u
--cron-d one/x
--cron-d two/x
--cron-d one/a.b
--spool one/cron
--spool one/latin
d.timer
one/d.timer
one/never.timer
n.timer
ROWS

# The first rejected line of a crontab is the one that `plan` reports, with the same error. The same holds for
# whole files.
for option in --crontab --system-crontab --cron-d --spool; do
  check_first_as_plan <<ROWS
$option|0 0 31 2 * u x\n60 * * * * u x\n@daily\n
$option|# a\n@daily\n60 * * * * u x\n
$option|@daily u x\nMAILTO\n* * * * *\n
$option|0 0 1 * 1 u x\n* * * sat * u x\n* * * 13 * u x\n
$option|@daily u x\n@hour u x\n@hourly\n
$option|* * * *\n99 * * * * u x\n
$option|60 * * * * u x\n\xff\n
ROWS
done
