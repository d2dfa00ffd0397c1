# shellcheck shell=bash disable=SC2154
# Rows of bin/check-examples: the option --event-zones. They show when events start that end with a zone of their own, which zones are
# rejected, what the five commands print about such events, with and without the option, and which files are opened. Expected starts
# are those of systemd-analyze, or are worked out from the rules of the zones. Rows that need the time zone database are skipped where
# it is missing.

event_zones_directory=$work/event-zones
event_zones_database=/usr/share/zoneinfo
event_zones_day=(--since 2024-01-15T00:00:00Z --upto 2024-01-16T00:00:00Z)

# Writes the escaped text $2 to the file $1.
event_zones_file() {
  printf '%b' "$2" >"$event_zones_directory/$1"
}

event_zones_run() {
  run_in "$event_zones_directory" agenda "$@"
}

# Prints the text $2 $1 times.
event_zones_repeat() {
  local text
  printf -v text '%*s' "$1" ''
  printf '%s' "${text// /"$2"}"
}

# Rows of standard input: an event in escapes, the time after which it starts, and its starts. They are the same whatever --zone says.
event_zones_anywhere() {
  local event after starts lines zone
  while IFS='|' read -r event after starts; do
    printf -v event '%b' "$event"
    read -ra lines <<<"$starts"
    for zone in '' UTC Europe/Oslo America/New_York Asia/Kolkata; do
      event_zones_run next --event-zones ${zone:+--zone "$zone"} --after "$after" --count "${#lines[@]}" --calendar "$event"
      compare_texts "next --event-zones --zone '$zone' --calendar '$event' after $after" "${starts// /$'\n'}"$'\n' '' 0
    done
  done
}

# Rows of standard input: arguments with `|` between them, ` => ` and the starts. The answer is the same with and without the option.
event_zones_either() {
  local row arguments starts option
  while IFS= read -r row; do
    IFS='|' read -ra arguments <<<"${row%% => *}"
    starts=${row#* => }
    read -ra lines <<<"$starts"
    for option in '' --event-zones; do
      event_zones_run next --count "${#lines[@]}" "${arguments[@]}" ${option:+"$option"}
      compare_texts "next ${row%% => *} $option" "${starts// /$'\n'}"$'\n' '' 0
    done
  done
}

# Rows of standard input: arguments with `|` between them. The answer with the option is the one without it.
event_zones_same() {
  local row arguments code
  while IFS= read -r row; do
    IFS='|' read -ra arguments <<<"$row"
    event_zones_run "${arguments[@]}"
    code=$status
    cp -- "$work/out" "$event_zones_directory/wanted"
    cp -- "$work/err" "$event_zones_directory/wanted.errors"
    event_zones_run "${arguments[@]}" --event-zones
    compare "$row with --event-zones" "$event_zones_directory/wanted" "$event_zones_directory/wanted.errors" "$code"
  done
}

# Rows of standard input: a part and a code, and the escaped text of an event that is rejected with them.
event_zones_rejected() {
  local fault event
  while IFS='|' read -r fault event; do
    printf -v event '%b' "$event"
    event_zones_run next --event-zones --after 2024-01-01T00:00:00Z "--calendar=$event"
    is_refused "next --event-zones --calendar '${event:0:80}'" "rule: part ${fault/ /: }" 1
  done
}

# Rows of standard input: arguments with `|` between them, ` => `, the status and the error.
event_zones_errors() {
  local row arguments error
  while IFS= read -r row; do
    IFS='|' read -ra arguments <<<"${row%% => *}"
    error=${row#* => }
    event_zones_run "${arguments[@]}"
    is_refused "${row%% => *}" "${error#* }" "${error%% *}"
  done
}

# Rows of standard input: arguments with `|` between them, ` => ` and the escaped beginning of the usage error.
event_zones_usage() {
  local row arguments
  while IFS= read -r row; do
    IFS='|' read -ra arguments <<<"${row%% => *}"
    printf '%b\n' "${row#* => }" >"$event_zones_directory/wanted"
    event_zones_run "${arguments[@]}"
    head -n "$(wc -l <"$event_zones_directory/wanted")" "$work/err" >"$work/first"
    mv -- "$work/first" "$work/err"
    compare "usage: ${row%% => *}" /dev/null "$event_zones_directory/wanted" 2
  done
}

# The arguments print the lines of standard input, which have `|` for tabs. A plan's lines are those after its header.
event_zones_print() {
  tr '|' '\t' >"$event_zones_directory/wanted"
  event_zones_run "$@"
  if [ "$1" = plan ]; then
    compare_agenda "$*" "$event_zones_directory/wanted"
  else
    compare "$*" "$event_zones_directory/wanted" /dev/null 0
  fi
}

# The arguments after the status $1 print the lines of standard input. Those that begin with `! ` are on standard error. `|` is a tab.
event_zones_both() {
  local code=$1
  shift
  tr '|' '\t' >"$event_zones_directory/both"
  sed -n 's/^! //p' "$event_zones_directory/both" >"$event_zones_directory/wanted.errors"
  grep -v '^! ' "$event_zones_directory/both" >"$event_zones_directory/wanted"
  event_zones_run "$@"
  [ "$1" != plan ] || { headed "$@" <"$event_zones_directory/wanted" >"$work/agenda.headed" && mv -- "$work/agenda.headed" "$event_zones_directory/wanted"; }
  compare "$*" "$event_zones_directory/wanted" "$event_zones_directory/wanted.errors" "$code"
}

# Rows of standard input: the escaped text of an event, what is reported about it without the option, and with it. All of them are in
# one timer, each alone in its list, and the last event is valid. $1 is what is reported about the whole timer, if given.
event_zones_messages() {
  local event without with option line number=1 code
  event_zones_file messages.timer '[Timer]\n'
  printf '%s' "${1:+$1$'\n'}" | tee "$event_zones_directory/findings.with" >"$event_zones_directory/findings.without"
  while IFS='|' read -r event without with; do
    printf 'OnCalendar=\nOnCalendar=%b\n' "$event" >>"$event_zones_directory/messages.timer"
    line="messages.timer:$((number + 2)): "
    number=$(wc -l <"$event_zones_directory/messages.timer")
    [ -z "$without" ] || printf '%s\n' "$line$without" >>"$event_zones_directory/findings.without"
    [ -z "$with" ] || printf '%s\n' "$line$with" >>"$event_zones_directory/findings.with"
  done
  printf 'OnCalendar=\nOnCalendar=daily\n' >>"$event_zones_directory/messages.timer"
  for option in without with; do
    code=0
    ! grep -q ': error: ' "$event_zones_directory/findings.$option" || code=1
    if [ "$option" = with ]; then
      event_zones_run check messages.timer --event-zones
    else
      event_zones_run check messages.timer
    fi
    compare "check $option --event-zones" "$event_zones_directory/findings.$option" /dev/null "$code"
  done
}

event_zones_make_files() {
  mkdir -p "$event_zones_directory/directory"
  event_zones_file jobs '30 2 * * * a\n'
  event_zones_file night.timer '[Timer]\nOnCalendar=02:30\n'
  event_zones_file utc.timer '[Timer]\nOnCalendar=02:30 UTC\n'
  event_zones_file bad.timer '[Timer]\nOnCalendar=daily\nOnCalendar=12:00 Nowhere/City\n'
  event_zones_file removed.timer '[Timer]\nOnCalendar=12:00 Nowhere/City\nOnCalendar=\nOnCalendar=daily\n'
  event_zones_file hour.timer '[Timer]\nOnCalendar=25:00\n'
}

event_zones_make_files

# An event that ends with UTC, in any case, starts in UTC, whatever --zone says. It needs no file.
event_zones_either <<'END'
--after|2024-03-30T12:00:00Z|--calendar|02:30 UTC => 2024-03-31T02:30:00Z 2024-04-01T02:30:00Z
--after|2024-03-30T12:00:00Z|--calendar|02:30 utc|--zone|UTC => 2024-03-31T02:30:00Z
--after|2024-03-30T12:00:00Z|--calendar|daily  uTc => 2024-03-31T00:00:00Z
END

# What names no zone is what it is without the option: cron rules, other events, errors, sources and their findings.
event_zones_same <<'END'
next|--after|2024-03-30T12:00:00Z|--count|4|--cron|30 2 * * *
next|--after|2024-03-30T12:00:00Z|--cron|@daily
next|--after|2024-03-30T12:00:00Z|--cron|0 9 * * * Europe/Oslo
next|--after|2024-03-30T12:00:00Z|--cron|@daily Europe/Oslo
next|--after|2024-03-30T12:00:00Z|--count|4|--calendar|Mon..Fri 09:00
next|--after|2024-03-30T12:00:00Z|--calendar|*-02-30
next|--after|2024-03-30T12:00:00Z|--calendar=
next|--after|2024-03-30T12:00:00Z|--calendar|12:00 /Europe/Oslo
next|--after|2024-03-30T12:00:00Z|--calendar|12:00 ./Europe/Oslo
next|--after|2024-03-30T12:00:00Z|--calendar|12:00 _Europe/Oslo
next|--after|2024-03-30T12:00:00Z|--calendar|12:00 +01
next|--after|2024-03-30T12:00:00Z|--calendar|12:00 Åland
next|--after|2024-03-30T12:00:00Z|--calendar|12:00 Europe/Oslo 2024
next|--after|2024-03-30T12:00:00Z|--calendar|12:00 Europe/Oslo UTC
next|--after|2024-03-30T12:00:00Z|--calendar|Europe/Oslo
next|--after|2024-03-30T12:00:00Z|--calendar|CET
next|--after|2024-03-30T12:00:00Z|--calendar|UTC
next|--after|2024-03-30T12:00:00Z|--calendar|12:00 % Europe/Oslo
next|--after|2024-03-30T12:00:00Z|--count|0|--calendar|12:00 Nowhere/City
plan|--since|2024-03-30T12:00:00Z|--upto|2024-04-01T12:00:00Z|--crontab|jobs|night.timer|utc.timer
plan|--since|2024-03-30T12:00:00Z|--upto|2024-04-01T12:00:00Z|--crontab|nothing|bad.timer
plan|--since|2024-03-30T12:00:00Z|--upto|2024-04-01T12:00:00Z|hour.timer|bad.timer
plan|--since|2024-03-30T12:00:00Z|--upto|2024-04-01T12:00:00Z|--limit|0|night.timer
upcoming|--after|2024-03-30T12:00:00Z|--crontab|jobs|night.timer|utc.timer
quiet|--since|2024-03-30T12:00:00Z|--upto|2024-04-01T12:00:00Z|--crontab|jobs|night.timer
quiet|--since|2024-03-30T12:00:00Z|--upto|2024-04-01T12:00:00Z|--least|0|bad.timer
check|--crontab|jobs|night.timer|utc.timer|hour.timer
check|bad.timer|nothing.timer
END

# An only word is no zone: it is a weekday part, or a word for an event. The zone comes before the other parts and after specifiers.
event_zones_rejected <<'END'
1 BadName|Europe/Oslo
1 BadName| Nowhere/City\t
0 UnknownWord|CET
0 UnknownWord|UTC
0 WrongParts|12:00 Europe/Oslo UTC
0 WrongParts|12:00 UTC 2024
0 WrongParts|12:00 /Europe/Oslo
0 WrongParts|12:00 \xc3\x85land
0 Specifier|12:00 %Z
0 Specifier|%H:00 Nowhere/City
8 Zone|25:00 Nowhere/City
8 Zone|Foo 1 2 3 Nowhere
8 Zone|Nowhere Nowhere
END

# Texts that aren't a name: an empty part, and characters other than ASCII letters, digits, `_`, `-` and `+`. `UTC` is a whole word.
event_zones_rejected <<'END'
8 Zone|12:00 Europe//Oslo
8 Zone|12:00 Europe/
8 Zone|12:00 Europe/Oslo/
8 Zone|12:00 Europe/../Europe/Oslo
8 Zone|12:00 Europe/./Oslo
8 Zone|12:00 Europe:Oslo
8 Zone|12:00 Europe/Oslo,
8 Zone|12:00 Europe/\xc3\x85lesund
8 Zone|12:00 zone1970.tab
8 Zone|12:00 tzdata.zi
8 Zone|12:00 UTC/
8 Zone|12:00 UTC,
8 Zone|12:00 U\x01
8 Zone|12:00 Europe/Oslo\r
END

# Names without a file, also by their length: one part of 2,000 bytes, many short parts, and more than a path can have.
event_zones_rejected <<END
8 Zone|12:00 Nowhere/City
8 Zone|12:00 Nowhere
8 Zone|12:00 Mars
8 Zone|12:00 CEST
8 Zone|12:00 Z
8 Zone|12:00 UTC+99
8 Zone|Mon Tue
8 Zone|12:00 jobs
8 Zone|12:00 N-_+0/9
8 Zone|12:00 $(event_zones_repeat 2000 n)
8 Zone|12:00 N$(event_zones_repeat 999 /n)
8 Zone|12:00 N$(event_zones_repeat 5000 /n)
END

# The times, the zone of --zone, the count and the files come before the zones of events.
event_zones_errors <<'END'
next|--event-zones|--after=x|--calendar=12:00 Nowhere => 1 after: BadForm
next|--event-zones|--zone=Nowhere|--after=2024-01-01T00:00:00Z|--calendar=12:00 Nowhere => 1 zone: NoSuchZone
next|--event-zones|--zone=Europe//Oslo|--after=2024-01-01T00:00:00Z|--calendar=12:00 Europe//Oslo => 1 zone: BadZoneName
next|--event-zones|--after=2024-01-01T00:00:00Z|--count=0|--calendar=12:00 Nowhere => 1 count: BadCount
next|--event-zones|--after=2024-01-01T00:00:00Z|--calendar=12:00 Nowhere => 1 rule: part 8: Zone
plan|--event-zones|--since=2024-01-02T00:00:00Z|--upto=2024-01-01T00:00:00Z|bad.timer => 1 span: Backwards
plan|--event-zones|--since=2024-01-01T00:00:00Z|--upto=2024-01-02T00:00:00Z|bad.timer|nothing.timer => 3 nothing.timer: Device
plan|--event-zones|--since=2024-01-01T00:00:00Z|--upto=2024-01-02T00:00:00Z|--limit=0|bad.timer => 1 bad.timer: line 3: part 8: Zone
plan|--since=2024-01-01T00:00:00Z|--upto=2024-01-02T00:00:00Z|bad.timer => 1 bad.timer: line 3: part 8: Zone
upcoming|--event-zones|--after=2024-01-01T00:00:00Z|bad.timer => 1 bad.timer: line 3: part 8: Zone
upcoming|--event-zones|--after=2024-01-01T00:00:00Z|removed.timer => 1 removed.timer: line 2: part 8: Zone
upcoming|--event-zones|--after=2024-01-01T00:00:00Z|hour.timer|bad.timer => 1 hour.timer: line 2: part 5: OutOfRange
quiet|--event-zones|--since=2024-01-01T00:00:00Z|--upto=2024-01-02T00:00:00Z|--least=0|bad.timer => 1 quiet: BadLeast
quiet|--event-zones|--since=2024-01-01T00:00:00Z|--upto=2024-01-02T00:00:00Z|bad.timer => 1 bad.timer: line 3: part 8: Zone
check|--event-zones|bad.timer|nothing.timer => 3 nothing.timer: Device
END

# The option has no value and is given once. `steps` and `explain` don't have it. After `--` it is a file.
event_zones_usage <<'END'
next|--event-zones|--after=2024-01-01T00:00:00Z|--cron=@daily|--event-zones => error: the argument '--event-zones' cannot be used multiple times\n\nUsage: agenda next [OPTIONS] --after <T> (--cron <TEXT> | --calendar <TEXT>)
next|--after=2024-01-01T00:00:00Z|--cron=@daily|--event-zones=yes => error: unexpected value 'yes' for '--event-zones' found; no more were expected
next|--after=2024-01-01T00:00:00Z|--cron=@daily|--event-zone => error: unexpected argument '--event-zone' found\n\n  tip: a similar argument exists: '--event-zones'
plan|--event-zones|--since=2024-01-01T00:00:00Z|--upto=2024-01-02T00:00:00Z|--event-zones => error: the argument '--event-zones' cannot be used multiple times\n\nUsage: agenda plan [OPTIONS] --since <T> --until <T> [TIMER]...
plan|--since=2024-01-01T00:00:00Z|--upto=2024-01-02T00:00:00Z|--event-zones= => error: unexpected value '' for '--event-zones' found; no more were expected
plan|--event-zones|a.timer => error: the following required arguments were not provided:\n  --since <T>\n  --until <T>
upcoming|--event-zones|--event-zones|--after=2024-01-01T00:00:00Z => error: the argument '--event-zones' cannot be used multiple times\n\nUsage: agenda upcoming [OPTIONS] --after <T> [TIMER]...
quiet|--since=2024-01-01T00:00:00Z|--event-zones|--upto=2024-01-02T00:00:00Z|--event-zones => error: the argument '--event-zones' cannot be used multiple times\n\nUsage: agenda quiet [OPTIONS] --since <T> --until <T> [TIMER]...
check|--event-zones|a.timer|--event-zones => error: the argument '--event-zones' cannot be used multiple times\n\nUsage: agenda check [OPTIONS] [TIMER]...
check|--event-zones=Europe/Oslo => error: unexpected value 'Europe/Oslo' for '--event-zones' found; no more were expected
steps|script|--event-zones => error: unexpected argument '--event-zones' found
explain|Zone|--event-zones => error: unexpected argument '--event-zones' found
END
event_zones_errors <<'END'
check|--|--event-zones => 3 --event-zones: Device
upcoming|--after=2024-01-01T00:00:00Z|--|--event-zones => 3 --event-zones: Device
END

# The messages about zones that aren't in the database. The zone comes before the other parts, and up to 64 bytes are quoted.
event_zones_messages <<END
12:00||
12:00 Mars|error: time zone in '12:00 Mars': only UTC is supported without --event-zones [Zone]|error: time zone in '12:00 Mars': unknown [Zone]
24:00  Nowhere/City|error: time zone in '24:00  Nowhere/City': only UTC is supported without --event-zones [Zone]|error: time zone in '24:00  Nowhere/City': unknown [Zone]
Mon Tue|error: time zone in 'Mon Tue': only UTC is supported without --event-zones [Zone]|error: time zone in 'Mon Tue': unknown [Zone]
12:00 Europe//Oslo|error: time zone in '12:00 Europe//Oslo': only UTC is supported without --event-zones [Zone]|error: time zone in '12:00 Europe//Oslo': unknown [Zone]
12:00 \\\\\nU\x01|error: time zone in '12:00  U\x01': only UTC is supported without --event-zones [Zone]|error: time zone in '12:00  U\x01': unknown [Zone]
12:00 a\x5cb|error: time zone in '12:00 a\\\\b': only UTC is supported without --event-zones [Zone]|error: time zone in '12:00 a\\\\b': unknown [Zone]
Mon  $(event_zones_repeat 59 x)|error: time zone in 'Mon  $(event_zones_repeat 59 x)': only UTC is supported without --event-zones [Zone]|error: time zone in 'Mon  $(event_zones_repeat 59 x)': unknown [Zone]
Mon  $(event_zones_repeat 60 x)|error: time zone in 'Mon  $(event_zones_repeat 59 x)'...: only UTC is supported without --event-zones [Zone]|error: time zone in 'Mon  $(event_zones_repeat 59 x)'...: unknown [Zone]
%H:00 Mars|error: specifiers in '%H:00 Mars' are not expanded [Specifier]|error: specifiers in '%H:00 Mars' are not expanded [Specifier]
24:00 UTC|error: hour in '24:00 UTC': out of range 0-23 [OutOfRange]|error: hour in '24:00 UTC': out of range 0-23 [OutOfRange]
Europe/Oslo|error: weekday in 'Europe/Oslo': unknown name [BadName]|error: weekday in 'Europe/Oslo': unknown name [BadName]
END

# What needs the time zone database.
event_zones_of_database() {
  # A directory is no zone, a file without a table neither, and names are case-sensitive.
  event_zones_rejected <<'END'
8 Zone|12:00 Europe
8 Zone|12:00 America/Argentina
8 Zone|12:00 Europe/Oslo/x
8 Zone|12:00 europe/oslo
8 Zone|12:00 EUROPE/OSLO
8 Zone|12:00 cet
8 Zone|12:00 leapseconds
0 UnknownWord|fortnightly Europe/Oslo
0 WrongParts|12 Europe/Oslo
0 WrongParts|12:00 UTC Europe/Oslo
1 BadName|Foo 12:00 Europe/Oslo
2 OutOfRange|1969-1-1 Europe/Oslo
5 OutOfRange|24:00 Europe/Oslo
7 Fraction|12:00:00.5 Europe/Oslo
END

  # A time in a gap waits for the next day that has it; a time in a fold starts once, at its first showing; a whole day may be skipped.
  event_zones_anywhere <<'END'
02:30 Europe/Oslo|2024-03-30T12:00:00Z|2024-04-01T00:30:00Z
02:30 Europe/Oslo|2024-10-26T12:00:00Z|2024-10-27T00:30:00Z 2024-10-28T01:30:00Z
hourly Europe/Oslo|2024-10-26T22:30:00Z|2024-10-26T23:00:00Z 2024-10-27T00:00:00Z 2024-10-27T02:00:00Z
*:0/15 Europe/Oslo|2024-10-27T00:40:00Z|2024-10-27T00:45:00Z 2024-10-27T02:00:00Z
daily Europe/Oslo|2024-01-01T00:00:00Z|2024-01-01T23:00:00Z 2024-01-02T23:00:00Z
Sun 00:00 America/Sao_Paulo|2018-11-01T00:00:00Z|2018-11-11T02:00:00Z
00:00 America/Sao_Paulo|2018-11-03T00:00:00Z|2018-11-03T03:00:00Z 2018-11-05T02:00:00Z
12:00 Pacific/Apia|2011-12-29T00:00:00Z|2011-12-29T22:00:00Z 2011-12-30T22:00:00Z
2011-12-30 12:00 Pacific/Apia|2011-12-01T00:00:00Z|none
02:15 Australia/Lord_Howe|2024-10-04T12:00:00Z|2024-10-04T15:45:00Z 2024-10-06T15:15:00Z
01:45 Australia/Lord_Howe|2025-04-05T00:00:00Z|2025-04-05T14:45:00Z 2025-04-06T15:15:00Z
daily America/Havana|2024-03-09T12:00:00Z|2024-03-11T04:00:00Z 2024-03-12T04:00:00Z
daily America/Havana|2024-11-02T12:00:00Z|2024-11-03T04:00:00Z 2024-11-04T05:00:00Z
*-01-31 20:30 Antarctica/Vostok|1994-01-01T00:00:00Z|1994-01-31T13:30:00Z 1995-01-31T13:30:00Z
*-10-27 02:*:0/30 Europe/Oslo|2024-10-27T00:58:30Z|2024-10-27T00:59:00Z 2024-10-27T00:59:30Z 2025-10-27T01:00:00Z
2024-03-31 02:30 Europe/Oslo|2024-01-01T00:00:00Z|none
END

  # The changes of the zone of --zone don't matter: Oslo repeats an hour here, and Kolkata has no changes.
  event_zones_anywhere <<'END'
*:0/30 Asia/Kolkata|2024-10-27T00:40:00Z|2024-10-27T01:00:00Z 2024-10-27T01:30:00Z 2024-10-27T02:00:00Z
06:15 Asia/Kolkata|2024-10-26T12:00:00Z|2024-10-27T00:45:00Z
02:30 Africa/Lagos|2024-03-30T12:00:00Z|2024-03-31T01:30:00Z
END

  # Weekdays, dates and days from the end of a month are those of the zone. Offsets needn't be whole hours or minutes.
  event_zones_anywhere <<'END'
Mon..Fri 09:00 Europe/Berlin|2024-03-28T12:00:00Z|2024-03-29T08:00:00Z 2024-04-01T07:00:00Z 2024-04-02T07:00:00Z
Mon 00:30 Asia/Tokyo|2024-01-01T00:00:00Z|2024-01-07T15:30:00Z 2024-01-14T15:30:00Z
weekly Asia/Kathmandu|2024-01-01T00:00:00Z|2024-01-07T18:15:00Z 2024-01-14T18:15:00Z
*-*~1 23:00 America/New_York|2024-02-01T12:00:00Z|2024-03-01T04:00:00Z 2024-04-01T03:00:00Z 2024-05-01T03:00:00Z
2024-02-29 23:30 Pacific/Auckland|2024-01-01T00:00:00Z|2024-02-29T10:30:00Z none
12:00 Pacific/Chatham|2024-01-01T00:00:00Z|2024-01-01T22:15:00Z
12:00:05 Africa/Monrovia|1971-06-01T00:00:00Z|1971-06-01T12:44:35Z
*-07-04 12:00 America/New_York|2199-01-01T00:00:00Z|2199-07-04T16:00:00Z
END

  # Nothing starts where the clock of the zone shows a year before 1970 or after 2999.
  event_zones_anywhere <<'END'
*:*:* America/New_York|1970-01-01T00:00:00Z|1970-01-01T05:00:00Z 1970-01-01T05:00:01Z
*:*:* Europe/Oslo|2999-12-31T22:59:58Z|2999-12-31T22:59:59Z none
2999-12-31 23:59:59 Asia/Tokyo|2999-01-01T00:00:00Z|2999-12-31T14:59:59Z none
END

  # Names of one part and of three, with `-`, `+`, `_` and digits; blanks around the zone.
  event_zones_anywhere <<'END'
12:00 America/Argentina/San_Luis|2024-01-01T00:00:00Z|2024-01-01T15:00:00Z
12:00 America/Port-au-Prince|2024-07-01T00:00:00Z|2024-07-01T16:00:00Z
Wed, 17:48 Etc/GMT+5|2024-01-01T00:00:00Z|2024-01-03T22:48:00Z 2024-01-10T22:48:00Z
12:00 EST5EDT|2024-07-01T00:00:00Z|2024-07-01T16:00:00Z
12:00 W-SU|2024-07-01T00:00:00Z|2024-07-01T09:00:00Z
12:00 CET|2024-07-01T00:00:00Z|2024-07-01T10:00:00Z
09:00 CET|2024-10-01T00:00:00Z|2024-10-01T07:00:00Z
12:00 GMT0|2024-07-01T00:00:00Z|2024-07-01T12:00:00Z
12:00 Etc/UTC|2024-07-01T00:00:00Z|2024-07-01T12:00:00Z
 \t12:00 \t Europe/Oslo \t|2024-07-01T00:00:00Z|2024-07-01T10:00:00Z
DAILY\tEurope/Oslo|2024-07-01T00:00:00Z|2024-07-01T22:00:00Z
END

  # An event without a zone starts in the zone of --zone, and one with UTC in UTC, with and without the option.
  event_zones_either <<'END'
--after|2024-03-30T12:00:00Z|--calendar|02:30|--zone|Europe/Oslo => 2024-04-01T00:30:00Z
--after|2024-10-26T12:00:00Z|--calendar|02:30|--zone|/usr/share/zoneinfo/Europe/Oslo => 2024-10-27T00:30:00Z 2024-10-28T01:30:00Z
--after|2024-03-30T12:00:00Z|--calendar|02:30 => 2024-03-31T02:30:00Z
--after|2024-03-30T12:00:00Z|--calendar|02:30 UTC|--zone|Europe/Oslo => 2024-03-31T02:30:00Z
--after|2024-10-26T12:00:00Z|--calendar|02:30 utc|--zone=Europe/Oslo => 2024-10-27T02:30:00Z 2024-10-28T02:30:00Z
--after|2024-03-30T12:00:00Z|--cron|30 2 * * *|--zone|Europe/Oslo => 2024-03-31T01:00:00Z 2024-04-01T00:30:00Z
END

  # Without the option each zone but UTC is an error.
  event_zones_errors <<'END'
next|--zone=Europe/Oslo|--after=2024-01-01T00:00:00Z|--calendar=daily Europe/Oslo => 1 rule: part 8: Zone
next|--after=2024-01-01T00:00:00Z|--calendar=daily Etc/UTC => 1 rule: part 8: Zone
END

  event_zones_of_timers
  event_zones_of_findings
  event_zones_all
  event_zones_cut
  event_zones_of_root
  event_zones_of_opens
}

# Timers whose events have several zones. No event gets the zone of its neighbour.
event_zones_of_timers() {
  event_zones_file offices.timer '[Timer]\nOnCalendar=02:00 Europe/Berlin\nOnCalendar=02:00 America/New_York\nOnCalendar=02:00 Asia/Tokyo\n'
  event_zones_file mixed.timer \
    '[Timer]\nOnCalendar=02:00 Asia/Tokyo\nOnCalendar=03:00\nOnCalendar=04:00 UTC\nOnCalendar=05:00 America/New_York\nOnCalendar=07:00\nOnCalendar=04:00 Asia/Tokyo\n'
  event_zones_file berlin.timer '[Timer]\nOnCalendar=10:00 Europe/Berlin\n'
  event_zones_file london.timer '[Timer]\nOnCalendar=09:00 Europe/London\nUnit=x.service\n'
  event_zones_file both.timer '[Timer]\nOnCalendar=10:00 Europe/Berlin\nOnCalendar=09:00 \\\n# a\n  Europe/London\n'
  event_zones_file nine '0 9 * * * a\n'
  event_zones_file reset.timer \
    '[Timer]\nOnCalendar=01:00 Europe/Oslo\nOnCalendar=\nOnCalendar=02:00 Asia/Tokyo\nOnBootSec=\nOnCalendar=03:00 Asia/Kolkata\r\n'
  event_zones_file hourly.timer '[Timer]\nOnCalendar=hourly Europe/Oslo\n'
  event_zones_file some.timer \
    '[Timer]\nOnCalendar=02:00 Asia/Tokyo\nOnCalendar=12:00 Nowhere/City\nOnCalendar=03:00 Europe/Oslo\nOnCalendar=Europe/Oslo\nOnCalendar=12:00 europe/oslo\n'
  event_zones_file none.timer '[Timer]\nOnCalendar=12:00 Nowhere/City\n'

  # a gap in Berlin; then events without a zone, by the zone of --zone
  event_zones_print plan --event-zones --since 2024-03-30T00:00:00Z --upto 2024-04-01T00:00:00Z offices.timer <<'END'
2024-03-30T01:00:00Z|offices.timer|offices.service
2024-03-30T06:00:00Z|offices.timer|offices.service
2024-03-30T17:00:00Z|offices.timer|offices.service
2024-03-31T06:00:00Z|offices.timer|offices.service
2024-03-31T17:00:00Z|offices.timer|offices.service
END
  event_zones_print plan --zone Europe/Oslo --since 2024-07-01T00:00:00Z --upto 2024-07-02T00:00:00Z mixed.timer --event-zones <<'END'
2024-07-01T01:00:00Z|mixed.timer|mixed.service
2024-07-01T04:00:00Z|mixed.timer|mixed.service
2024-07-01T05:00:00Z|mixed.timer|mixed.service
2024-07-01T09:00:00Z|mixed.timer|mixed.service
2024-07-01T17:00:00Z|mixed.timer|mixed.service
2024-07-01T19:00:00Z|mixed.timer|mixed.service
END
  event_zones_print plan --since 2024-07-01T00:00:00Z --upto 2024-07-02T00:00:00Z mixed.timer --event-zones --planners 1 <<'END'
2024-07-01T03:00:00Z|mixed.timer|mixed.service
2024-07-01T04:00:00Z|mixed.timer|mixed.service
2024-07-01T07:00:00Z|mixed.timer|mixed.service
2024-07-01T09:00:00Z|mixed.timer|mixed.service
2024-07-01T17:00:00Z|mixed.timer|mixed.service
2024-07-01T19:00:00Z|mixed.timer|mixed.service
END

  # Several jobs at one time, in their order, and one start of a timer whose events meet. Resets remove events of any zone.
  event_zones_print plan "${event_zones_day[@]}" --event-zones --crontab nine both.timer london.timer berlin.timer <<'END'
2024-01-15T09:00:00Z|cron:1|a
2024-01-15T09:00:00Z|both.timer|both.service
2024-01-15T09:00:00Z|london.timer|x.service
2024-01-15T09:00:00Z|berlin.timer|berlin.service
END
  event_zones_print plan "${event_zones_day[@]}" --event-zones --planners 8 reset.timer <<'END'
2024-01-15T21:30:00Z|reset.timer|reset.service
END
  event_zones_print upcoming --event-zones --after 2024-03-30T18:00:00Z --crontab nine mixed.timer london.timer berlin.timer offices.timer reset.timer <<'END'
2024-03-30T19:00:00Z|mixed.timer|mixed.service
2024-03-30T21:30:00Z|reset.timer|reset.service
2024-03-31T06:00:00Z|offices.timer|offices.service
2024-03-31T08:00:00Z|london.timer|x.service
2024-03-31T08:00:00Z|berlin.timer|berlin.service
2024-03-31T09:00:00Z|cron:1|a
END
  # an hourly timer pauses for the length of a fold of its own zone
  event_zones_print quiet --event-zones --zone Asia/Kolkata --since 2024-10-26T22:30:00Z --upto 2024-10-27T04:00:00Z --least 3601 hourly.timer <<'END'
2024-10-27T00:00:00Z|2024-10-27T02:00:00Z|7200
END

  # Without the option the first zone but UTC is the error.
  event_zones_errors <<'END'
plan|--since=2024-01-01T00:00:00Z|--upto=2024-01-02T00:00:00Z|mixed.timer => 1 mixed.timer: line 2: part 8: Zone
upcoming|--after=2024-01-01T00:00:00Z|--zone=Europe/Berlin|berlin.timer => 1 berlin.timer: line 2: part 8: Zone
quiet|--since=2024-01-01T00:00:00Z|--upto=2024-01-02T00:00:00Z|both.timer => 1 both.timer: line 2: part 8: Zone
plan|--event-zones|--since=2024-01-01T00:00:00Z|--upto=2024-01-02T00:00:00Z|mixed.timer|some.timer => 1 some.timer: line 3: part 8: Zone
upcoming|--event-zones|--after=2024-01-01T00:00:00Z|--zone=Europe/Berlin|some.timer => 1 some.timer: line 3: part 8: Zone
quiet|--event-zones|--since=2024-01-01T00:00:00Z|--upto=2024-01-02T00:00:00Z|none.timer => 1 none.timer: line 2: part 8: Zone
END

  # With --keep-going the other events are planned.
  event_zones_both 1 plan "${event_zones_day[@]}" --keep-going --event-zones some.timer none.timer berlin.timer <<'END'
! some.timer:3: error: time zone in '12:00 Nowhere/City': unknown [Zone]
! some.timer:5: error: weekday in 'Europe/Oslo': unknown name [BadName]
! some.timer:6: error: time zone in '12:00 europe/oslo': unknown [Zone]
! none.timer:2: error: time zone in '12:00 Nowhere/City': unknown [Zone]
2024-01-15T02:00:00Z|some.timer|some.service
2024-01-15T09:00:00Z|berlin.timer|berlin.service
2024-01-15T17:00:00Z|some.timer|some.service
END
  event_zones_both 1 plan "${event_zones_day[@]}" --keep-going mixed.timer berlin.timer <<'END'
! mixed.timer:2: error: time zone in '02:00 Asia/Tokyo': only UTC is supported without --event-zones [Zone]
! mixed.timer:5: error: time zone in '05:00 America/New_York': only UTC is supported without --event-zones [Zone]
! mixed.timer:7: error: time zone in '04:00 Asia/Tokyo': only UTC is supported without --event-zones [Zone]
! berlin.timer:2: error: time zone in '10:00 Europe/Berlin': only UTC is supported without --event-zones [Zone]
2024-01-15T03:00:00Z|mixed.timer|mixed.service
2024-01-15T04:00:00Z|mixed.timer|mixed.service
2024-01-15T07:00:00Z|mixed.timer|mixed.service
END
  event_zones_both 1 upcoming --event-zones --after 2024-01-15T00:00:00Z none.timer some.timer --keep-going <<'END'
! none.timer:2: error: time zone in '12:00 Nowhere/City': unknown [Zone]
! some.timer:3: error: time zone in '12:00 Nowhere/City': unknown [Zone]
! some.timer:5: error: weekday in 'Europe/Oslo': unknown name [BadName]
! some.timer:6: error: time zone in '12:00 europe/oslo': unknown [Zone]
2024-01-15T02:00:00Z|some.timer|some.service
none|none.timer|none.service
END
  event_zones_both 1 quiet --keep-going "${event_zones_day[@]}" none.timer berlin.timer --event-zones --zone Europe/Oslo <<'END'
! none.timer:2: error: time zone in '12:00 Nowhere/City': unknown [Zone]
2024-01-15T00:00:00Z|2024-01-15T09:00:00Z|32400
2024-01-15T09:00:00Z|2024-01-16T00:00:00Z|54000
END
  event_zones_both 3 upcoming --keep-going --event-zones --after 2024-01-15T00:00:00Z nothing.timer none.timer berlin.timer <<'END'
! agenda: nothing.timer: Device
! none.timer:2: error: time zone in '12:00 Nowhere/City': unknown [Zone]
2024-01-15T09:00:00Z|berlin.timer|berlin.service
none|none.timer|none.service
END
  event_zones_both 0 upcoming --keep-going --event-zones --after 2024-01-15T00:00:00Z london.timer berlin.timer <<'END'
2024-01-15T09:00:00Z|london.timer|x.service
2024-01-15T09:00:00Z|berlin.timer|berlin.service
END
}

# What `check` reports about events with a zone: their other errors, and the warnings, by the clock of their own zone.
event_zones_of_findings() {
  local zone
  event_zones_messages 'messages.timer:18: warning: systemd ends the line at a carriage return or NUL byte [LineEnd]' <<'END'
daily Europe/Oslo|error: time zone in 'daily Europe/Oslo': only UTC is supported without --event-zones [Zone]|
12:00 europe/oslo|error: time zone in '12:00 europe/oslo': only UTC is supported without --event-zones [Zone]|error: time zone in '12:00 europe/oslo': unknown [Zone]
24:00 Europe/Oslo|error: time zone in '24:00 Europe/Oslo': only UTC is supported without --event-zones [Zone]|error: hour in '24:00 Europe/Oslo': out of range 0-23 [OutOfRange]
Foo 12:00 Europe/Oslo|error: time zone in 'Foo 12:00 Europe/Oslo': only UTC is supported without --event-zones [Zone]|error: weekday in 'Foo 12:00 Europe/Oslo': unknown name [BadName]
*:0/25 Europe/Oslo|error: time zone in '*:0/25 Europe/Oslo': only UTC is supported without --event-zones [Zone]|warning: systemd 252 may pass over starts of '*:0/25 Europe/Oslo': give the step an end [SkippedStarts]
2011-12-30 12:00 Pacific/Apia|error: time zone in '2011-12-30 12:00 Pacific/Apia': only UTC is supported without --event-zones [Zone]|warning: never starts [NeverStarts]
12:00 \\\nEurope/Oslo\r|error: time zone in '12:00  Europe/Oslo': only UTC is supported without --event-zones [Zone]|warning: systemd 252 rejects '12:00  Europe/Oslo': write one space between words [SystemdRejects]
12:00 Europe/Oslo\r\r|error: time zone in '12:00 Europe/Oslo\x0d': only UTC is supported without --event-zones [Zone]|error: time zone in '12:00 Europe/Oslo\x0d': unknown [Zone]
END

  # events that never start in their own zone, and neighbours that do
  event_zones_file never.timer '[Timer]\n'
  printf 'OnCalendar=%s\n' '2011-12-30 12:00 Pacific/Apia' '2011-12-30 12:00 UTC' '2011-12-30 12:00 Pacific/Auckland' \
    '2024-03-31 02:30 Europe/Oslo' '2024-03-31 02:30 Europe/London' '*-2-30 Europe/Oslo' \
    '2999-12-31 22:00 America/New_York' '2999-12-31 18:00 America/New_York' '1970-01-01 02:00 Asia/Tokyo' '1970-01-01 10:00 Asia/Tokyo' \
    >>"$event_zones_directory/never.timer"
  event_zones_file apia.timer '[Timer]\nOnCalendar=2011-12-30 12:00\n'
  for zone in '' UTC Pacific/Apia Europe/Oslo; do
    {
      printf 'never.timer:%s: warning: never starts [NeverStarts]\n' 2 5 7 8
      echo "never.timer:8: warning: systemd 252 rejects '2999-12-31 22:00 America/New_York': years end at 2199 [SystemdRejects]"
      echo "never.timer:9: warning: systemd 252 rejects '2999-12-31 18:00 America/New_York': years end at 2199 [SystemdRejects]"
      echo 'never.timer:10: warning: never starts [NeverStarts]'
      [ "$zone" != Pacific/Apia ] || echo 'apia.timer:2: warning: never starts [NeverStarts]'
    } >"$event_zones_directory/findings"
    event_zones_print check --event-zones ${zone:+--zone "$zone"} never.timer apia.timer <"$event_zones_directory/findings"
  done
}

# Each zone of the database by its name in an event: several timers of up to 64 events have one start for each zone, at noon of its
# clock and as many seconds later as there are zones before it. The C library says when noon is. No zone has a change on these days.
event_zones_all() {
  local row name day since upto noon seconds number offset timer
  local -a names timers
  mapfile -t names < <(cd "$event_zones_database" && find -L . \( -path ./posix -o -path ./right \) -prune -o -type f -exec grep -la '^TZif' {} + |
    sed -n 's,^\./\([A-Za-z][A-Za-z0-9_+/-]*\)$,\1,p' | sort)
  [ ${#names[@]} -ge 64 ] || tell "only ${#names[@]} zones"
  count "the zones of the database"
  for row in '2024-01-15 2024-01-14 2024-01-17 1705320000' '2024-07-15 2024-07-14 2024-07-17 1721044800'; do
    read -r day since upto noon <<<"$row"
    number=0 timers=()
    : >"$work/starts"
    for name in "${names[@]}"; do
      timer=zones-$((number / 64)).timer
      if [ $((number % 64)) = 0 ]; then
        timers+=("$timer")
        printf '[Timer]\nUnit=x\n' >"$event_zones_directory/$timer"
      fi
      printf 'OnCalendar=%s 12:%02d:%02d %s\n' "$day" $((number / 60)) $((number % 60)) "$name" >>"$event_zones_directory/$timer"
      TZ=":$event_zones_database/$name" printf -v offset '%(%z)T' "$noon"
      seconds=$((10#${offset:1:2} * 3600 + 10#${offset:3:2} * 60))
      [ "${offset:0:1}" = + ] || seconds=-$seconds
      TZ=UTC0 printf "%(%Y-%m-%dT%H:%M:%SZ)T\t$timer\tx\n" "$((noon - seconds + number))" >>"$work/starts"
      number=$((number + 1))
    done
    # lines with one time are in the order of the timers
    sort -s -t "$tab" -k 1,1 -o "$work/starts" "$work/starts"
    event_zones_run plan --event-zones --since "${since}T00:00:00Z" --upto "${upto}T00:00:00Z" "${timers[@]}"
    compare_agenda "noon of $day in each of $number zones, by the events of ${#timers[@]} timers" "$work/starts"
  done
}

# A zone that ends at each of its bytes, and one with a byte 0 at each place, is no zone.
event_zones_cut() {
  local zone=Europe/Oslo at
  for ((at = 0; at < ${#zone}; at++)); do
    if [ $at != 0 ]; then
      event_zones_run next --event-zones --after 2024-01-01T00:00:00Z --calendar "12:00 ${zone:0:at}"
      is_refused "the zone ${zone:0:at}" "rule: part 8: Zone" 1
    fi
    printf '[Timer]\nOnCalendar=12:00 %s\0%s\n' "${zone:0:at + 1}" "${zone:at + 1}" >"$event_zones_directory/zero.timer"
    event_zones_run upcoming --event-zones --after 2024-01-01T00:00:00Z zero.timer
    is_refused "a zone with a byte 0 behind $((at + 1)) bytes" "zero.timer: line 2: part 8: Zone" 1
  done
}

# Makes a root directory with the program and a time zone database of its own, whose files are odd. Fails if the program can't run there.
event_zones_make_root() {
  local root=$event_zones_directory/root library
  mkdir -p "$root/usr/share/zoneinfo/Directory"
  while IFS= read -r library; do
    mkdir -p "$root${library%/*}" && cp -L -- "$library" "$root$library"
  done < <(ldd "$program" 2>/dev/null | grep -o '/[^ ]*')
  cp -L -- "$program" "$root/agenda"
  chmod -R a+rX "$root"
  if [ "$(id -u)" = 0 ]; then
    event_zones_in_root=(chroot --userspec=65534:65534 "$root" /agenda)
  else
    event_zones_in_root=(unshare -r chroot "$root" /agenda)
  fi
  "${event_zones_in_root[@]}" --version >/dev/null 2>&1 </dev/null
}

# Rows of standard input: a name in the database of the root, and the start of 12:00 in its zone on 2024-07-01, or Zone.
event_zones_root_names() {
  local name start
  while IFS='|' read -r name start; do
    run_in "$event_zones_directory" "${event_zones_in_root[@]}" next --event-zones --after 2024-07-01T00:00:00Z --calendar "12:00 $name"
    if [ "$start" = Zone ]; then
      is_refused "the zone '$name' of a made database" "rule: part 8: Zone" 1
    else
      compare_texts "the zone '$name' of a made database" "$start"$'\n' '' 0
    fi
  done
}

# Files of zones that can't be opened or read, that have no table, or that are too large. Each of these is the error of the event,
# and never one of the command.
event_zones_of_root() {
  local zones=$event_zones_directory/root/usr/share/zoneinfo size
  local -a event_zones_in_root
  if ! event_zones_make_root; then
    echo "agenda --event-zones: skipped the zones that can't be read, since the program can't run in another root here"
    return
  fi
  cp -L -- "$event_zones_database/Asia/Tokyo" "$zones/Tokyo"
  cp -L -- "$event_zones_database/Asia/Kolkata" "$zones/utc"
  ln -s Tokyo "$zones/Link"
  ln -s nowhere "$zones/Dangling"
  ln -s Loop "$zones/Loop"
  : >"$zones/Empty"
  head -c 44 "$zones/Tokyo" >"$zones/Header"
  head -c -2 "$zones/Tokyo" >"$zones/Cut"
  { cat "$zones/Tokyo" && head -c 1048577 /dev/zero; } >"$zones/All"
  for size in 1048576 1048577; do head -c $size "$zones/All" >"$zones/Size-$size"; done
  cp -- "$zones/Tokyo" "$zones/Locked"
  chmod 000 "$zones/Locked"
  mkdir "$zones/Shut" && cp -- "$zones/Tokyo" "$zones/Shut/Tokyo" && chmod 000 "$zones/Shut"
  mkfifo "$zones/Pipe" && chmod 000 "$zones/Pipe"
  event_zones_root_names <<'END'
Tokyo|2024-07-01T03:00:00Z
Link|2024-07-01T03:00:00Z
Size-1048576|2024-07-01T03:00:00Z
utc|2024-07-01T12:00:00Z
Size-1048577|Zone
Empty|Zone
Header|Zone
Cut|Zone
Directory|Zone
Directory/Tokyo|Zone
Dangling|Zone
Loop|Zone
Tokyo/|Zone
Tokyo/Tokyo|Zone
tokyo|Zone
END
  # the superuser of a user namespace reads them all the same
  [ "$(id -u)" != 0 ] || event_zones_root_names <<'END'
Locked|Zone
Shut/Tokyo|Zone
Pipe|Zone
END
  printf '[Timer]\nOnCalendar=12:00 Tokyo\nOnCalendar=12:00 Cut\nOnCalendar=13:00 Link\n' >"$event_zones_directory/root/a.timer"
  run_in "$event_zones_directory" "${event_zones_in_root[@]}" upcoming --event-zones --after 2024-07-01T00:00:00Z a.timer
  is_refused "a timer with a zone whose file is cut off" "a.timer: line 3: part 8: Zone" 1
  run_in "$event_zones_directory" "${event_zones_in_root[@]}" plan --keep-going --event-zones "${event_zones_day[@]}" a.timer
  printf '%s\ta.timer\ta.service\n' 2024-01-15T03:00:00Z 2024-01-15T04:00:00Z | headed "${event_zones_day[@]}" >"$work/agenda.headed"
  echo "a.timer:3: error: time zone in '12:00 Cut': unknown [Zone]" >"$work/err.wanted"
  compare "what --keep-going skips if a zone's file is cut off" "$work/agenda.headed" "$work/err.wanted" 1
  chmod 755 "$zones/Shut" && rm -rf "$zones"
  event_zones_root_names <<'END'
Tokyo|Zone
Utc|2024-07-01T12:00:00Z
END
  run_in "$event_zones_directory" "${event_zones_in_root[@]}" check --event-zones a.timer
  printf "a.timer:%s: error: time zone in '%s': unknown [Zone]\n" 2 '12:00 Tokyo' 3 '12:00 Cut' 4 '13:00 Link' >"$event_zones_directory/wanted"
  compare "check without a time zone database" "$event_zones_directory/wanted" /dev/null 1
}

# Rows of standard input: arguments with `|` between them, and after ` => ` the files that they open, in order: sources, and the names of
# zones. Each is opened once. After `?` is a name that may be opened once or not at all.
event_zones_opened() {
  local row arguments
  while IFS= read -r row; do
    IFS='|' read -ra arguments <<<"${row%% => *}"
    rm -f "$event_zones_directory/trace"
    run_in "$event_zones_directory" strace -f -o trace -e trace=%file "$(command -v agenda)" "${arguments[@]}"
    sed -n -e 's,^.*open[a-z0-9]*(.*"/usr/share/zoneinfo/\([^"]*\)".*,\1,p' -e 's,^.*open[a-z0-9]*(.*"\([a-z]*[.]timer\|jobs\)".*,\1,p' \
      "$event_zones_directory/trace" >"$event_zones_directory/opened"
    awk -v wanted="${row#* => }" '
      BEGIN { if (wanted == "-") wanted = ""; count = split(wanted, names, " "); at = 1 }
      {
        while (at <= count && names[at] == "?" substr(names[at], 2) && substr(names[at], 2) != $0) at++
        if (at > count || (names[at] != $0 && names[at] != "?" $0)) print "opened: " $0
        at++
      }
      END { for (; at <= count; at++) if (names[at] !~ /^[?]/) print "not opened: " names[at] }' "$event_zones_directory/opened" >>"$work/told"
    count "the files that are opened by ${row%% => *}"
  done
}

# The file of each zone is opened once for a command, after all sources, and only if an event names it.
event_zones_of_opens() {
  if ! strace -f -o "$work/trace" -e trace=%file true 2>/dev/null; then
    echo "agenda --event-zones: skipped which files are opened, since strace is missing or not allowed here"
    return
  fi
  event_zones_file one.timer '[Timer]\nOnCalendar=02:00 Europe/Oslo\nOnCalendar=03:00 Asia/Tokyo\nOnCalendar=04:00 Europe/Oslo\n'
  event_zones_file two.timer '[Timer]\nOnCalendar=02:00 Asia/Tokyo\nOnCalendar=02:00 Africa/Cairo\nOnCalendar=03:00\nOnCalendar=04:00 UTC\n'
  event_zones_file other.timer '[Install]\nOnCalendar=02:00 Europe/Oslo\n[Timer]\n#OnCalendar=02:00 Asia/Tokyo\nUnit=02:00 Africa/Cairo\nOnCalendar=daily\n'
  event_zones_file missing.timer '[Timer]\nOnCalendar=02:00 Nowhere/City\nOnCalendar=02:00 Europe/Oslo\nOnCalendar=02:00 Nowhere/City\n'
  event_zones_opened <<'END'
next|--event-zones|--after|2024-01-01T00:00:00Z|--calendar|02:00 Europe/Oslo => Europe/Oslo
next|--event-zones|--after|2024-01-01T00:00:00Z|--calendar|02:00 Europe/Oslo|--zone|Europe/Oslo => Europe/Oslo
next|--event-zones|--after|2024-01-01T00:00:00Z|--calendar|02:00 Europe/Oslo|--zone|/usr/share/zoneinfo/Europe/Oslo => Europe/Oslo
next|--event-zones|--after|2024-01-01T00:00:00Z|--calendar|02:00 Europe/Oslo|--zone|Asia/Tokyo => Asia/Tokyo Europe/Oslo
next|--event-zones|--after|2024-01-01T00:00:00Z|--calendar|02:00|--zone|Asia/Tokyo => Asia/Tokyo
next|--event-zones|--after|2024-01-01T00:00:00Z|--calendar|02:00 utc => -
next|--event-zones|--after|2024-01-01T00:00:00Z|--calendar|02:00 Europe//Oslo => -
next|--event-zones|--after|2024-01-01T00:00:00Z|--cron|@daily => -
next|--after|2024-01-01T00:00:00Z|--calendar|02:00 Europe/Oslo => -
plan|--event-zones|--since|2024-01-01T00:00:00Z|--upto|2024-01-02T00:00:00Z|one.timer|two.timer => one.timer two.timer Europe/Oslo Asia/Tokyo Africa/Cairo
plan|--event-zones|--since|2024-01-01T00:00:00Z|--upto|2024-01-02T00:00:00Z|--zone|Asia/Tokyo|two.timer|one.timer => Asia/Tokyo two.timer one.timer Africa/Cairo Europe/Oslo
plan|--since|2024-01-01T00:00:00Z|--upto|2024-01-02T00:00:00Z|one.timer => one.timer
plan|--event-zones|--since|2024-01-01T00:00:00Z|--upto|2024-01-02T00:00:00Z|one.timer|nothing.timer => one.timer nothing.timer
upcoming|--event-zones|--after|2024-01-01T00:00:00Z|--crontab|jobs|other.timer => jobs other.timer
upcoming|--event-zones|--keep-going|--after|2024-01-01T00:00:00Z|two.timer|--zone|/usr/share/zoneinfo/Africa/Cairo|one.timer => Africa/Cairo two.timer one.timer Asia/Tokyo Europe/Oslo
quiet|--event-zones|--since|2024-01-01T00:00:00Z|--upto|2024-01-02T00:00:00Z|two.timer => two.timer Asia/Tokyo Africa/Cairo
quiet|--event-zones|--keep-going|--since|2024-01-01T00:00:00Z|--upto|2024-01-02T00:00:00Z|missing.timer|two.timer => missing.timer two.timer ?Nowhere/City Europe/Oslo Asia/Tokyo Africa/Cairo
check|--event-zones|one.timer|two.timer => one.timer two.timer Europe/Oslo Asia/Tokyo Africa/Cairo
check|--event-zones|--zone|Europe/Oslo|missing.timer => Europe/Oslo missing.timer ?Nowhere/City
check|one.timer => one.timer
END
}

if [ -e "$event_zones_database/Europe/Oslo" ]; then
  event_zones_of_database
else
  echo "agenda --event-zones: skipped the rows of the time zone database, since $event_zones_database is not here"
fi
