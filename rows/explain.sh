# shellcheck shell=bash disable=SC2154
# Rows of bin/check-examples: what `agenda explain` prints. agenda(1) has a sentence for each code, and the program begins its text with the
# same words. A code that is not in that page, or that the page has and the program doesn't, is a failure.

explain_folder="$work/explain"
mkdir "$explain_folder"

# What the manual page says, in order of the codes: a code, a tab, its sentence, a tab, and `error` or `warning` per line.
awk -f "$top/rows/lib/codes-mdoc.awk" "$top/man/agenda.1" | sort >"$explain_folder/page"

# Explains the code $1, or prints all codes.
explain_run() {
  run_in "$explain_folder" agenda explain "$@"
}

# Rows from standard input: codes. They are all codes of the manual page, whose two lists are in order.
explain_all_codes() {
  awk -f "$top/rows/lib/codes-mdoc.awk" "$top/man/agenda.1" | sort -c -t "$tab" -k 3,3 -k 1,1 >"$work/told" 2>&1
  count "the order of the codes of agenda(1)"
  cut -f 1 "$explain_folder/page" >"$work/out"
  cat >"$explain_folder/codes"
  status=0
  : >"$work/err"
  compare "the codes of agenda(1)" "$explain_folder/codes" /dev/null 0
  sort "$explain_folder/codes" >"$explain_folder/sorted"
  explain_run
  cut -f 1 "$work/out" >"$explain_folder/listed"
  mv -- "$explain_folder/listed" "$work/out"
  compare "the codes of agenda explain, sorted" "$explain_folder/sorted" /dev/null 0
}

# The list has the sentence of each code.
explain_list() {
  cut -f 1,2 "$explain_folder/page" >"$explain_folder/list"
  explain_run
  compare "the list of all codes" "$explain_folder/list" /dev/null 0
}

# Each code, as it is, in lower and in upper case: the sentence of the manual page, perhaps with others after it, in lines of at most 80
# columns, and perhaps an example.
explain_each_code() {
  local code text words
  while IFS=$tab read -r code text _; do
    explain_run "$code"
    sed '/^$/,$d' "$work/out" >"$explain_folder/lines"
    {
      awk 'length > 80 { print "a line of " length " columns" }' "$work/out"
      words=$(tr '\n' ' ' <"$explain_folder/lines")
      [[ $words = "$text "* ]] || printf 'the sentence of agenda(1): %s\nthe text of agenda explain: %s\n' "$text" "$words"
      explain_is_wrapped "$explain_folder/lines"
      sed '1,/^$/d' "$work/out" | explain_is_example
      [ "$status" = 0 ] && [ ! -s "$work/err" ] || echo "status $status, or an error"
    } >"$work/told" 2>&1
    count "explain $code"
    cp -- "$work/out" "$explain_folder/$code"
    for text in "${code^^}" "${code,,}"; do
      explain_run "$text"
      compare "explain $text" "$explain_folder/$code" /dev/null 0
    done
  done <"$explain_folder/page"
}

# The kind of each code is that of the manual page: only warnings can be allowed.
explain_kinds() {
  local code text kind wanted
  : >"$explain_folder/empty"
  while IFS=$tab read -r code text kind; do
    run_in "$explain_folder" agenda check --allow "$code" --crontab empty
    wanted=0
    [ "$kind" = warning ] || wanted=2
    [ "$status" = "$wanted" ] || tell "$kind in agenda(1), but --allow ends with status $status: $text"
    count "the kind of $code"
  done <"$explain_folder/page"
}

# Reports each line of the file $1 to which the first word of the next line could be added.
explain_is_wrapped() {
  awk 'NR > 1 && length(before) + 1 + length($1) <= 80 { print "a short line: " before } { before = $0 }' "$1"
}

# Reports what is wrong with the form of an example on standard input. An explanation without one has no line here.
explain_is_example() {
  awk '
    NR == 1 && !/^Before:$/ { print "the first line of the example: " $0 }
    /^After:$/ { afters++; next }
    NR > 1 && !/^    [^ ]/ { print "a line of the example: " $0 }
    END { if (NR > 0 && (afters != 1 || /^After:$/)) print "the example has no lines after the correction" }'
}

# Rows from standard input: a code and the escaped answer, from the second line of the escaped text on.
explain_texts() {
  local code answer
  while IFS='|' read -r code answer; do
    explain_run "$code"
    printf '%b' "$answer" >"$work/answer.wanted"
    compare "explain $code: the whole text" "$work/answer.wanted" /dev/null 0
  done
}

# Prints the lines of the example of the code $1 that are $2: before or after the correction.
explain_example() {
  sed -n "/^$2:$/,/^[A-Z].*:$/s/^    //p" "$explain_folder/$1"
}

# Rows from standard input: a code and how its example is checked, and the lines of the example before the correction and after it, with
# `;` between lines. Before the correction the program reports the code, and after it no more. The lines are those of a user's crontab, a
# system's crontab, a timer or a script, the name of a file, or arguments.
explain_examples() {
  local code how before after when lines
  while IFS='|' read -r code before after; do
    how=${code#* } code=${code%% *}
    for when in Before After; do
      lines=$after
      [ "$when" = After ] || lines=$before
      tr ';' '\n' <<<"$lines" >"$explain_folder/example.wanted"
      explain_example "$code" "$when" >"$explain_folder/example"
      explain_try "$how" >"$explain_folder/answer" 2>&1
      {
        diff -u --label "lines wanted" --label "lines" -- "$explain_folder/example.wanted" "$explain_folder/example"
        if [ "$when" = Before ]; then
          grep -qw "$code" "$explain_folder/answer" || { echo "the code isn't reported:" && cat "$explain_folder/answer"; }
        else
          cat "$explain_folder/answer"
        fi
      } >"$work/told" 2>&1
      count "the example of $code, ${when,,} the correction"
    done
  done
}

# Prints what the program reports about the example, by the way $1.
explain_try() {
  local words name
  cd "$explain_folder" || return
  words=$(cat example)
  name=${words##*/}
  case $1 in
    crontab) agenda check --crontab example ;;
    system) agenda check --system-crontab example ;;
    event) { echo '[Timer]' && cat example; } >example.timer && agenda check example.timer ;;
    event-zone) { echo '[Timer]' && cat example; } >example.timer && agenda check --event-zones example.timer ;;
    setting) { printf '[Timer]\nOnCalendar=daily\n' && cat example; } >example.timer && agenda check example.timer ;;
    timer) cp -- example example.timer && agenda check example.timer ;;
    step) { echo 'mailbox 1 1' && cat example; } >script && agenda steps script >/dev/null ;;
    script) agenda steps example ;;
    cron-d) printf '@daily root a\n' >"$name" && agenda check --cron-d "$name" ;;
    timer-name) printf '[Timer]\nOnCalendar=daily\n' >"$name" && agenda check "$name" ;;
    zone) eval "agenda next --after 2024-01-01T00:00:00Z --cron @daily $words" >/dev/null ;;
    moment) printf '@daily a\n' >"jobs" && eval "$words" >/dev/null ;;
    machine)
      mkdir -p root/{usr/sbin,etc/cron.d,var/lib,var/spool/cron} && : >root/usr/sbin/cron && echo '@daily root x' >root/etc/cron.d/backup &&
        eval "$words --root root" >/dev/null
      ;;
    baseline) eval "${words/ .. / --since 2024-01-01T00:00:00Z --until 2024-01-02T00:00:00Z }" && agenda changes before ;;
    span) eval "agenda plan --since 2024-01-01T00:00:00Z $words" >/dev/null ;;
  esac
  cd "$top" || return
}

# No code has the name $1: the text of usage lists the codes.
explain_unknown() {
  explain_run "$1"
  {
    printf "error: invalid value '%s' for '[CODE]'\n\n  tip: the codes are " "$1"
    paste -s -d, "$explain_folder/codes" | sed 's/,/, /g'
    printf "\nFor more information, try '--help'.\n"
  } >"$explain_folder/usage"
  compare "explain '$1'" /dev/null "$explain_folder/usage" 2
}

# Standard output fails: the error is that of every command. If it is a pipe that nobody reads, there is no error line.
explain_without_output() {
  local words
  for words in explain 'explain Device'; do
    if [ -c /dev/full ]; then
      run_in "$explain_folder" bash -c "exec agenda $words >/dev/full"
      is_refused "agenda $words >/dev/full" Device 3
    fi
    run_in "$explain_folder" bash -c "exec agenda $words >&-"
    is_refused "agenda $words, standard output closed" Device 3
    # shellcheck disable=SC2016
    run_in "$explain_folder" bash -c 'exec 3> >(exit); wait "$!"; exec agenda '"$words"' >&3'
    compare_texts "agenda $words, to a pipe that nobody reads" '' '' 3
  done
}

explain_all_codes <<'ROWS'
Backwards
BadBaseline
BadBoolean
BadCount
BadDelay
BadForm
BadLeast
BadLength
BadLimit
BadLine
BadName
BadNumber
BadSetting
BadSize
BadTabName
BadTime
BadTimerName
BadZone
BadZoneName
CarriageReturn
CronDiffers
CronIgnores
Delayed
Device
EitherDay
EmptySpan
Fraction
Full
LineEnd
MayStop
Merged
Monotonic
NeverStarts
NoCommand
NoEvents
NoMemory
NoSuchDate
NoSuchZone
NoTimerSection
NoUser
NotSettled
NotUtf8
NothingNamed
OutOfRange
OutOfYears
Percent
RangeFromEnd
SameName
SkippedStarts
Specifier
SystemdRejects
TimerRejected
TooLarge
TooMany
TooManyLines
TooManySteps
UnitIgnored
UnknownKey
UnknownWord
WrongParts
ZeroStep
Zone
ZoneSetting
ROWS

explain_list
explain_each_code
explain_kinds

# whole texts: without an example, with one, with lines that have a backslash, and with examples of several lines
explain_texts <<'ROWS'
TooMany|The span has more starts than the limit. Raise --limit up to 1,000,000, or\nchoose a shorter span.\n
ZeroStep|A step is 0. Write at least 1, or remove the step.\n\nBefore:\n    */0 * * * * poll\nAfter:\n    */10 * * * * poll\n
NoTimerSection|The file has no section '[Timer]'. Add it, or don't give the file.\n\nBefore:\n    OnCalendar=daily\nAfter:\n    [Timer]\n    OnCalendar=daily\n
ROWS

# a name that no code has: another word, the start of a name, a name with a blank, no name at all
for code in Nonsense Bad 'Zone ' '' OutOfRange.; do
  explain_unknown "$code"
done

explain_without_output

# what each example shows
explain_examples <<'ROWS'
Backwards crontab|0 22-4 * * * backup|0 22-23,0-4 * * * backup
BadBaseline baseline|agenda plan --json .. >before|agenda plan .. >before
BadBoolean setting|Persistent=enabled|Persistent=yes
BadDelay setting|AccuracySec=5mins|AccuracySec=5min
BadForm moment|agenda upcoming --after '2024-01-01 6:00' --crontab jobs|agenda upcoming --after 2024-01-01T06:00:00Z --crontab jobs
BadLength machine|agenda machine quiet --least 1:30|agenda machine quiet --least '1h 30min'
BadLine step|take 0|take
BadName crontab|0 6 * * monday report|0 6 * * mon report
BadNumber crontab|0 6 ? * 1-5 report|0 6 * * 1-5 report
BadSetting crontab|backup --all|@daily backup --all
BadSize script|mailbox 9 16|mailbox 8 16
BadTabName cron-d|/etc/cron.d/backup.sh|/etc/cron.d/backup
BadTime machine|agenda machine plan --since 8h|agenda machine plan --since +8h
BadTimerName timer-name|backup@home.timer|backup-home.timer
BadZoneName zone|--zone 'America/New York'|--zone America/New_York
CronDiffers crontab|@daily grep -c '\\.' list|@daily grep -c '[.]' list
CronIgnores crontab|MAILTO=|MAILTO=""
Delayed setting|RandomizedDelaySec=1h|RandomizedDelaySec=0
EitherDay crontab|0 9 13 * 5 report|0 9 13 * * test $(date +\%u) != 5 || report
EmptySpan machine|agenda machine clear --since 2026-12-01 --until 2026-12-01|agenda machine clear --since 2026-12-01 --until 2026-12-02
Fraction event|OnCalendar=*:*:29.5|OnCalendar=*:*:30
MayStop event-zone|OnCalendar=*-1/5-3 07:00 Europe/Oslo|OnCalendar=*-1,6,11-3 07:00 Europe/Oslo
Merged event|OnCalendar=*:*:0/10|OnCalendar=*:*:0/10;AccuracySec=1s
NeverStarts crontab|0 0 31 4,6,9,11 * close-month|0 0 30 4,6,9,11 * close-month
NoCommand system|30 4 * * * backup|30 4 * * * root backup
NoEvents event|OnCalendar=daily;OnCalendar=;OnClockChange=yes|OnCalendar=;OnCalendar=daily;OnClockChange=yes
NoSuchDate span|--upto 2024-01-31T24:00:00Z|--upto 2024-02-01T00:00:00Z
NoSuchZone zone|--zone europe/berlin|--zone Europe/Berlin
NoTimerSection timer|OnCalendar=daily|[Timer];OnCalendar=daily
NoUser system|30 4 * * * /usr/bin/backup --all|30 4 * * * root /usr/bin/backup --all
NothingNamed machine|agenda machine clear --except bakcup.timer|agenda machine clear --except 'backup*'
OutOfRange crontab|0 24 * * * backup|0 0 * * * backup
Percent crontab|0 4 * * * backup --name $(date +%F)|0 4 * * * backup --name $(date +\%F)
RangeFromEnd event|OnCalendar=*-*~1..4/2|OnCalendar=*-*~1..3/2
SkippedStarts event|OnCalendar=*:0/25|OnCalendar=*:0..50/25
Specifier event|OnCalendar=*:%i|OnCalendar=*:15
SystemdRejects event|OnCalendar=*:*/15|OnCalendar=*:0/15
TimerRejected timer|[Unit;Description=Backup;[Timer];OnCalendar=daily|[Unit];Description=Backup;[Timer];OnCalendar=daily
UnitIgnored setting|Unit=backup|Unit=backup.service
UnknownKey setting|OnCalender=daily|OnCalendar=daily
UnknownWord crontab|@every_hour poll|@hourly poll
WrongParts crontab|5/15 * * * * poll|5-59/15 * * * * poll
ZeroStep crontab|*/0 * * * * poll|*/10 * * * * poll
Zone event-zone|OnCalendar=Mon..Fri 09:00 europe/berlin|OnCalendar=Mon..Fri 09:00 Europe/Berlin
ROWS
