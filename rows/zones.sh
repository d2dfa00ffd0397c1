# shellcheck shell=bash disable=SC2154
# Rows of bin/check-examples: the option --zone. They show when rules start in a zone, which zones are rejected and when, and that each
# of the five commands takes the option. Rows that need the time zone database are skipped where it is missing.

zones_directory=$work/zones
zones_database=/usr/share/zoneinfo

# Makes the files that the rows name.
zones_make_files() {
  mkdir -p "$zones_directory/directory"
  cd "$zones_directory" || return
  printf '30 2 * * * a\n' >'jobs'
  printf '30 2 * * * root b\n' >system
  printf '30 2 * * * root c\n' >php
  printf '30 2 * * * d\n' >www-data
  printf '*/30 2 * * * every\n1,31 2 * * * each\n' >wildcard
  printf '@reboot a\n30 2 * * * b\n0 2 13 * 5 c\n0 0 30 2 * d\n' >checked
  printf '60 * * * * a\n' >faulty
  printf '[Timer]\nOnCalendar=02:30\n' >night.timer
  printf '[Timer]\nOnCalendar=hourly\n' >hourly.timer
  printf '[Timer]\nOnCalendar=02:30 UTC\nOnCalendar=06:00\n' >both.timer
  printf '[Timer]\nOnCalendar=2011-12-30 12:00\nOnCalendar=2011-12-31 12:00\n' >skipped.timer
  printf '[Timer]\nOnCalendar=2999-12-31 22:00\nOnCalendar=1970-01-01 02:00\n' >edges.timer
  : >empty
  printf 'root:x:0:0:root:/root:/bin/bash\n' >passwd
  printf 'TZif' >magic
  head -c 1048576 /dev/zero >largest
  head -c 1048577 /dev/zero >larger
  cd "$top" || return
}

zones_run() {
  run_in "$zones_directory" agenda "$@"
}

# Rows of standard input: a zone, the option that has the rule, the rule, the time after which it starts, and its starts.
zones_next() {
  local zone option rule after starts lines
  while IFS='|' read -r zone option rule after starts; do
    read -ra lines <<<"$starts"
    zones_run next --zone "$zone" --after "$after" --count "${#lines[@]}" "--$option" "$rule"
    compare_texts "next --zone $zone --$option '$rule' after $after" "${starts// /$'\n'}"$'\n' '' 0
  done
}

# Rows of standard input: a zone, the status and the error.
zones_rejected() {
  local zone code error
  while IFS='|' read -r zone code error; do
    zones_run next "--zone=$zone" --after 2024-01-01T00:00:00Z --cron @daily
    is_refused "next --zone='$zone'" "$error" "$code"
  done
}

# Rows of standard input: arguments with `|` between them, ` => `, the status and the error.
zones_in_order() {
  local row arguments error
  while IFS= read -r row; do
    IFS='|' read -ra arguments <<<"${row%% => *}"
    error=${row#* => }
    zones_run "${arguments[@]}"
    is_refused "zones: ${row%% => *}" "${error#* }" "${error%% *}"
  done
}

# Rows of standard input: arguments with `|` between them, ` => ` and the first line of the usage error.
zones_usage() {
  local row arguments
  while IFS= read -r row; do
    IFS='|' read -ra arguments <<<"${row%% => *}"
    zones_run "${arguments[@]}"
    head -n 1 "$work/err" >"$work/first"
    mv -- "$work/first" "$work/err"
    compare_texts "zones: ${row%% => *}" '' "${row#* => }"$'\n' 2
  done
}

# The arguments after $1 print the lines of standard input, which have `|` for tabs. They end with status $1.
zones_print() {
  local code=$1
  shift
  tr '|' '\t' >"$zones_directory/wanted"
  zones_run "$@"
  compare "zones: $*" "$zones_directory/wanted" /dev/null "$code"
}

# Plans with the arguments: standard input has the lines after the header, with `|` for tabs.
zones_plan() {
  tr '|' '\t' >"$zones_directory/wanted"
  zones_run plan "$@"
  compare_agenda "zones: plan $*" "$zones_directory/wanted"
}

# Rows of standard input: arguments with `|` between them. They print the same with `--zone UTC` as without the option.
zones_utc_is_default() {
  local row arguments code
  while IFS= read -r row; do
    IFS='|' read -ra arguments <<<"$row"
    zones_run "${arguments[@]}"
    code=$status
    cp -- "$work/out" "$zones_directory/wanted"
    cp -- "$work/err" "$zones_directory/wanted.errors"
    zones_run "${arguments[@]}" --zone UTC
    compare "zones: $row with --zone UTC" "$zones_directory/wanted" "$zones_directory/wanted.errors" "$code"
  done
}

# Prints noon on 15 January and on 15 July of 2024 and of 2050 in the zone $1, as the C library has it. No zone changes on these days.
zones_noons() {
  local noon offset seconds
  for noon in 1705320000 1721044800 2525860800 2541499200; do
    TZ=":$zones_database/$1" printf -v offset '%(%z)T' "$noon"
    seconds=$((10#${offset:1:2} * 3600 + 10#${offset:3:2} * 60))
    [ "${offset:0:1}" = + ] || seconds=-$seconds
    TZ=UTC0 printf '%(%Y-%m-%dT%H:%M:%SZ)T\n' "$((noon - seconds))"
  done
}

# Each zone of the database is accepted, and noon in it is where the C library has it.
zones_all() {
  local name
  (cd "$zones_database" && find -L . \( -path ./posix -o -path ./right \) -prune -o -type f -exec grep -la '^TZif' {} +) |
    sed 's,^\./,,' | sort >"$zones_directory/names"
  # shellcheck disable=SC2016
  run_in "$zones_directory" bash -c 'while IFS= read -r name; do
      echo "$name"
      agenda next --zone "$name" --after 2024-01-01T00:00:00Z --count 4 --calendar "2024,2050-01,07-15 12:00" 2>&1
    done <names'
  while IFS= read -r name; do
    echo "$name"
    zones_noons "$name"
  done <"$zones_directory/names" >"$zones_directory/wanted"
  compare "noon in each of $(wc -l <"$zones_directory/names") zones" "$zones_directory/wanted" /dev/null 0
}

zones_make_files

# Names that aren't one: an empty name or part, and characters other than letters, digits, `_`, `-` and `+`.
zones_rejected <<'END'
|1|zone: BadZoneName
Europe//Oslo|1|zone: BadZoneName
Europe/|1|zone: BadZoneName
UTC/|1|zone: BadZoneName
Europe/../Europe/Oslo|1|zone: BadZoneName
Europe/Oslo |1|zone: BadZoneName
 Europe/Oslo|1|zone: BadZoneName
Europe/Os lo|1|zone: BadZoneName
Europe:Oslo|1|zone: BadZoneName
zone.tab|1|zone: BadZoneName
Åland|1|zone: BadZoneName
~|1|zone: BadZoneName
END

# Names without a file. A file of the current directory is no zone by its name alone; `UTC` is in upper case.
zones_rejected <<'END'
Nowhere/City|1|zone: NoSuchZone
Nowhere|1|zone: NoSuchZone
jobs|1|zone: NoSuchZone
utc|1|zone: NoSuchZone
UTC+99|1|zone: NoSuchZone
-x|1|zone: NoSuchZone
_/+/0|1|zone: NoSuchZone
END

# Paths that can't be opened or read, such as directories. `UTC` with a path is a file like any other.
zones_rejected <<'END'
./nothing|3|./nothing: Device
/nothing/Europe/Oslo|3|/nothing/Europe/Oslo: Device
./directory|3|./directory: Device
.|3|.: Device
..|3|..: Device
/|3|/: Device
./jobs/x|3|./jobs/x: Device
./UTC|3|./UTC: Device
END

# A file that can't be read for lack of permission; root reads it all the same.
if [ "$(id -u)" != 0 ]; then
  : >"$zones_directory/locked"
  chmod 000 "$zones_directory/locked"
  zones_rejected <<<'./locked|3|./locked: Device'
fi

# Files that hold no table, and a file of one byte too many. The size comes first.
zones_rejected <<'END'
./passwd|1|zone: BadZone
../zones/passwd|1|zone: BadZone
./empty|1|zone: BadZone
./magic|1|zone: BadZone
./largest|1|zone: BadZone
./larger|1|zone: TooLarge
/dev/null|1|zone: BadZone
/dev/zero|1|zone: TooLarge
END

# The zone comes after the times and their order.
zones_in_order <<'END'
next|--zone=|--after=x|--cron=@daily => 1 after: BadForm
next|--zone=./nothing|--after=3000-01-01T00:00:01Z|--cron=@daily => 1 after: OutOfYears
upcoming|--zone=Nowhere|--after=2023-02-29T00:00:00Z => 1 after: NoSuchDate
plan|--zone=Nowhere|--since=x|--upto=x => 1 since: BadForm
plan|--zone=Nowhere|--since=2024-01-01T00:00:00Z|--upto=x => 1 upto: BadForm
plan|--zone=Nowhere|--since=2024-01-02T00:00:00Z|--upto=2024-01-01T00:00:00Z => 1 span: Backwards
quiet|--zone=./nothing|--since=2024-01-02T00:00:00Z|--upto=2024-01-01T00:00:00Z => 1 span: Backwards
END

# The zone comes before the count, the files, the minimum of a gap, the rules, the sizes and the limit.
zones_in_order <<'END'
next|--zone=Nowhere|--after=2024-01-01T00:00:00Z|--count=0|--cron=x => 1 zone: NoSuchZone
next|--zone=|--after=2024-01-01T00:00:00Z|--calendar=x => 1 zone: BadZoneName
next|--zone=./nothing|--after=2024-01-01T00:00:00Z|--count=1001|--calendar=x => 3 ./nothing: Device
upcoming|--zone=./passwd|--after=2024-01-01T00:00:00Z|--crontab=nothing|nothing => 1 zone: BadZone
plan|--zone=./larger|--since=2024-01-01T00:00:00Z|--upto=2024-01-02T00:00:00Z|nothing => 1 zone: TooLarge
plan|--zone=Nowhere|--since=2024-01-01T00:00:00Z|--upto=2024-01-02T00:00:00Z|--limit=0|--planners=0|--crontab=faulty => 1 zone: NoSuchZone
quiet|--zone=Nowhere|--since=2024-01-01T00:00:00Z|--upto=2024-01-02T00:00:00Z|--least=0|--crontab=nothing => 1 zone: NoSuchZone
quiet|--zone=./nothing|--since=2024-01-01T00:00:00Z|--upto=2024-01-02T00:00:00Z|--least=0 => 3 ./nothing: Device
check|--zone=Europe/|--crontab=faulty|nothing => 1 zone: BadZoneName
check|--zone=Nowhere|nothing => 1 zone: NoSuchZone
check|--zone=./directory|nothing => 3 ./directory: Device
END

# With a good zone the other errors are what they are without it.
zones_in_order <<'END'
next|--zone=UTC|--after=2024-01-01T00:00:00Z|--count=0|--cron=x => 1 count: BadCount
next|--zone=UTC|--after=2024-01-01T00:00:00Z|--cron=x => 1 rule: part 0: WrongParts
next|--zone=UTC|--after=2024-01-01T00:00:00Z|--calendar=daily Europe/Oslo => 1 rule: part 8: Zone
upcoming|--zone=UTC|--after=2024-01-01T00:00:00Z|nothing => 3 nothing: Device
plan|--zone=UTC|--since=2024-01-01T00:00:00Z|--upto=2024-01-02T00:00:00Z|--crontab=faulty => 1 crontab: line 1: part 1: OutOfRange
quiet|--zone=UTC|--since=2024-01-01T00:00:00Z|--upto=2024-01-02T00:00:00Z|--least=0 => 1 quiet: BadLeast
END

# The option has one value and is given once; `steps` has no zone.
zones_usage <<'END'
next|--after=2024-01-01T00:00:00Z|--cron=@daily|--zone => error: a value is required for '--zone <ZONE>' but none was supplied
next|--after=2024-01-01T00:00:00Z|--cron=@daily|--zone=UTC|--zone=UTC => error: the argument '--zone <ZONE>' cannot be used multiple times
upcoming|--after=2024-01-01T00:00:00Z|--zone => error: a value is required for '--zone <ZONE>' but none was supplied
upcoming|--after=2024-01-01T00:00:00Z|--zone|UTC|--zone|UTC => error: the argument '--zone <ZONE>' cannot be used multiple times
plan|--since=2024-01-01T00:00:00Z|--upto=2024-01-02T00:00:00Z|--zone => error: a value is required for '--zone <ZONE>' but none was supplied
plan|--zone=|--since=2024-01-01T00:00:00Z|--upto=2024-01-02T00:00:00Z|--zone= => error: the argument '--zone <ZONE>' cannot be used multiple times
quiet|--since=2024-01-01T00:00:00Z|--upto=2024-01-02T00:00:00Z|--zone => error: a value is required for '--zone <ZONE>' but none was supplied
quiet|--zone=a|--since=2024-01-01T00:00:00Z|--upto=2024-01-02T00:00:00Z|--zone=b => error: the argument '--zone <ZONE>' cannot be used multiple times
check|--zone => error: a value is required for '--zone <ZONE>' but none was supplied
check|--zone=a|--zone=b => error: the argument '--zone <ZONE>' cannot be used multiple times
steps|nothing|--zone=UTC => error: unexpected argument '--zone' found
END

zones_utc_is_default <<'END'
next|--after|2024-03-30T12:00:00Z|--count|4|--cron|30 2 * * *
next|--after|2024-10-26T12:00:00Z|--count|4|--calendar|hourly
next|--after|2999-12-31T23:59:58Z|--count|2|--calendar|*:*:*
plan|--since|2024-03-30T12:00:00Z|--upto|2024-04-01T12:00:00Z|--crontab|jobs|--cron-d|php|night.timer|hourly.timer
upcoming|--after|2024-03-30T12:00:00Z|--crontab|jobs|--spool|www-data|skipped.timer
quiet|--since|2024-03-30T12:00:00Z|--upto|2024-04-01T12:00:00Z|--crontab|wildcard|both.timer
check|--crontab|checked|--system-crontab|faulty|skipped.timer|edges.timer
END

# What needs the time zone database.
zones_of_database() {
  local size

  # A directory is no zone. Names are case-sensitive.
  zones_rejected <<'END'
Europe|1|zone: NoSuchZone
America/Argentina|1|zone: NoSuchZone
Europe/Oslo/x|1|zone: NoSuchZone
europe/oslo|1|zone: NoSuchZone
/usr/share/zoneinfo|3|/usr/share/zoneinfo: Device
/usr/share/zoneinfo/Europe/|3|/usr/share/zoneinfo/Europe/: Device
/usr/share/zoneinfo/Nowhere|3|/usr/share/zoneinfo/Nowhere: Device
END
  cp -L -- "$zones_database/Europe/Oslo" "$zones_directory/x"
  ln -s x "$zones_directory/link"
  # what follows the table doesn't count, up to the maximum size and one byte above it
  cat "$zones_directory/x" "$zones_directory/largest" | head -c 1048576 >"$zones_directory/padded"
  cat "$zones_directory/x" "$zones_directory/largest" | head -c 1048577 >"$zones_directory/over"
  zones_rejected <<<'./over|1|zone: TooLarge'
  # a file that is cut off: after its first header, within its table, and in its footer
  for size in 44 300 -2; do
    head -c "$size" "$zones_directory/x" >"$zones_directory/cut"
    zones_rejected <<<'./cut|1|zone: BadZone'
  done

  # Events. A time in a gap waits for the next day that has it; a time in a fold starts once, at its first showing; a whole day may be
  # skipped.
  zones_next <<'END'
Europe/Oslo|calendar|02:30|2024-03-30T12:00:00Z|2024-04-01T00:30:00Z
Europe/Oslo|calendar|02:30|2024-10-26T12:00:00Z|2024-10-27T00:30:00Z 2024-10-28T01:30:00Z
Europe/Oslo|calendar|hourly|2024-10-26T22:30:00Z|2024-10-26T23:00:00Z 2024-10-27T00:00:00Z 2024-10-27T02:00:00Z
Europe/Oslo|calendar|*:0/15|2024-10-27T00:40:00Z|2024-10-27T00:45:00Z 2024-10-27T02:00:00Z
Europe/Oslo|calendar|daily|2024-01-01T00:00:00Z|2024-01-01T23:00:00Z
America/Sao_Paulo|calendar|Sun 00:00|2018-11-01T00:00:00Z|2018-11-11T02:00:00Z
Pacific/Apia|calendar|12:00|2011-12-29T00:00:00Z|2011-12-29T22:00:00Z 2011-12-30T22:00:00Z
Australia/Lord_Howe|calendar|02:15|2024-10-04T12:00:00Z|2024-10-04T15:45:00Z 2024-10-06T15:15:00Z
END

  # Cron rules. A fixed time in a gap of less than three hours starts at once after it, and in a fold it starts once; a wildcard rule
  # starts at each match.
  zones_next <<'END'
Europe/Berlin|cron|0 2,3 * * *|2025-03-29T12:00:00Z|2025-03-30T01:00:00Z 2025-03-31T00:00:00Z
Europe/Berlin|cron|0-59/20 2 * * *|2025-03-29T12:00:00Z|2025-03-30T01:00:00Z 2025-03-31T00:00:00Z
Europe/Berlin|cron|*/20 2 * * *|2025-03-29T12:00:00Z|2025-03-31T00:00:00Z
Europe/Berlin|cron|30 2 * * *|2025-10-25T12:00:00Z|2025-10-26T00:30:00Z 2025-10-27T01:30:00Z
Europe/Berlin|cron|30 * * * *|2025-10-25T23:45:00Z|2025-10-26T00:30:00Z 2025-10-26T01:30:00Z
Australia/Lord_Howe|cron|45 1 * * *|2008-04-05T12:00:00Z|2008-04-05T14:45:00Z 2008-04-06T15:15:00Z
Australia/Lord_Howe|cron|@hourly|2008-10-04T14:00:00Z|2008-10-04T14:30:00Z 2008-10-04T16:00:00Z
Asia/Pyongyang|cron|45 23 4 5 *|2018-05-01T00:00:00Z|2018-05-04T15:00:00Z
Asia/Pyongyang|cron|0 0 5 5 *|2018-05-01T00:00:00Z|2018-05-04T15:00:00Z
America/Sao_Paulo|cron|30 0 15 10 *|2017-10-01T00:00:00Z|2017-10-15T03:00:00Z
Pacific/Apia|cron|0 12 30 12 *|2011-12-01T00:00:00Z|2012-12-29T22:00:00Z
Antarctica/Casey|cron|0 2 * * *|2009-10-17T00:00:00Z|2009-10-18T15:00:00Z
Antarctica/Casey|cron|59 1 * * *|2010-03-04T12:00:00Z|2010-03-04T14:59:00Z 2010-03-05T17:59:00Z
END

  # Wildcard or fixed is decided by the first character of the minute and of the hour.
  zones_next <<'END'
Europe/Berlin|cron|*,5 2 * * *|2025-10-26T00:58:00Z|2025-10-26T00:59:00Z 2025-10-26T01:00:00Z
Europe/Berlin|cron|30,* 2 * * *|2025-10-26T00:58:00Z|2025-10-26T00:59:00Z 2025-10-27T01:00:00Z
Europe/Berlin|cron|0 */2 * * *|2025-10-25T23:00:00Z|2025-10-26T00:00:00Z 2025-10-26T01:00:00Z 2025-10-26T03:00:00Z
Europe/Berlin|cron|0 0-23/2 * * *|2025-10-25T23:00:00Z|2025-10-26T00:00:00Z 2025-10-26T03:00:00Z
Europe/Berlin|cron|0-59 0-23 * * *|2025-10-26T00:58:00Z|2025-10-26T00:59:00Z 2025-10-26T02:00:00Z
Europe/Berlin|cron|0 2 * * *|2025-03-29T12:00:00Z|2025-03-30T01:00:00Z 2025-03-31T00:00:00Z
Europe/Berlin|cron|0 * * * *|2025-03-30T00:30:00Z|2025-03-30T01:00:00Z 2025-03-30T02:00:00Z
Europe/Berlin|cron|0 3 * * *|2025-03-29T12:00:00Z|2025-03-30T01:00:00Z 2025-03-31T01:00:00Z
Europe/Berlin|cron|@reboot|2025-03-29T12:00:00Z|none
END

  # Midnight in a gap or in a fold: the words @daily and @weekly are fixed times.
  zones_next <<'END'
America/Havana|cron|@daily|2024-03-09T12:00:00Z|2024-03-10T05:00:00Z 2024-03-11T04:00:00Z
America/Havana|calendar|daily|2024-03-09T12:00:00Z|2024-03-11T04:00:00Z
America/Havana|cron|@weekly|2024-11-02T12:00:00Z|2024-11-03T04:00:00Z 2024-11-10T05:00:00Z
America/Havana|calendar|daily|2024-11-02T12:00:00Z|2024-11-03T04:00:00Z 2024-11-04T05:00:00Z
END

  # A fold of more than three hours: a fixed time starts twice too, and an event once.
  zones_next <<'END'
Antarctica/Vostok|cron|30 20 31 1 *|1994-01-01T00:00:00Z|1994-01-31T13:30:00Z 1994-01-31T20:30:00Z
Antarctica/Vostok|calendar|*-01-31 20:30|1994-01-01T00:00:00Z|1994-01-31T13:30:00Z 1995-01-31T13:30:00Z
END

  # Offsets that are no whole hours, and one that is no whole minutes. Then rules of far years, by the last rule of the zone.
  zones_next <<'END'
Asia/Kolkata|cron|@daily|2024-01-01T00:00:00Z|2024-01-01T18:30:00Z
Pacific/Chatham|calendar|12:00|2024-01-01T00:00:00Z|2024-01-01T22:15:00Z
Africa/Monrovia|cron|0 12 * * *|1971-06-01T00:00:00Z|1971-06-01T12:44:30Z
Africa/Monrovia|calendar|12:00:05|1971-06-01T00:00:00Z|1971-06-01T12:44:35Z
Africa/Monrovia|cron|20 0 7 1 *|1972-01-01T00:00:00Z|1972-01-07T00:44:30Z 1973-01-07T00:20:00Z
Europe/Oslo|cron|30 2 * * *|2999-03-30T12:00:00Z|2999-03-31T01:00:00Z 2999-04-01T00:30:00Z
America/New_York|calendar|*-07-04 12:00|2499-01-01T00:00:00Z|2499-07-04T16:00:00Z
END

  # Nothing starts where the clock shows a year before 1970 or after 2999.
  zones_next <<'END'
America/New_York|calendar|*:*:*|1970-01-01T00:00:00Z|1970-01-01T05:00:00Z 1970-01-01T05:00:01Z
America/New_York|cron|* * * * *|1970-01-01T00:00:00Z|1970-01-01T05:00:00Z
America/New_York|cron|* * * * *|2999-12-31T23:58:59Z|2999-12-31T23:59:00Z none
Europe/Oslo|calendar|*:*:*|1970-01-01T00:00:00Z|1970-01-01T00:00:01Z
Europe/Oslo|calendar|*:*:*|2999-12-31T22:59:58Z|2999-12-31T22:59:59Z none
Europe/Oslo|cron|* * * * *|2999-12-31T22:58:59Z|2999-12-31T22:59:00Z none
END

  # An event that names UTC starts in UTC in any zone.
  zones_next <<'END'
Europe/Oslo|calendar|02:30 UTC|2024-03-30T12:00:00Z|2024-03-31T02:30:00Z 2024-04-01T02:30:00Z
Europe/Oslo|calendar|02:30 utc|2024-10-26T12:00:00Z|2024-10-27T02:30:00Z
Pacific/Apia|calendar|2011-12-30 12:00 UTC|2011-12-01T00:00:00Z|2011-12-30T12:00:00Z none
America/New_York|calendar|*:*:* Utc|1970-01-01T00:00:00Z|1970-01-01T00:00:01Z
END

  # A zone by its path. A link of the database is a name like any other.
  zones_next <<'END'
/usr/share/zoneinfo/Europe/Oslo|calendar|02:30|2024-10-26T12:00:00Z|2024-10-27T00:30:00Z 2024-10-28T01:30:00Z
./x|calendar|02:30|2024-10-26T12:00:00Z|2024-10-27T00:30:00Z 2024-10-28T01:30:00Z
./link|cron|30 2 * * *|2024-03-30T12:00:00Z|2024-03-31T01:00:00Z
./padded|cron|30 2 * * *|2024-03-30T12:00:00Z|2024-03-31T01:00:00Z
../zones/directory/../x|calendar|02:30|2024-03-30T12:00:00Z|2024-04-01T00:30:00Z
Etc/UTC|calendar|02:30|2024-03-30T12:00:00Z|2024-03-31T02:30:00Z
Etc/GMT+5|cron|@daily|2024-01-01T00:00:00Z|2024-01-01T05:00:00Z
END

  zones_of_commands
  zones_of_right
  zones_all
}

# The zone is that of the jobs of every source.
zones_of_commands() {
  local every=(--crontab jobs --system-crontab system --cron-d php --spool www-data night.timer)
  zones_plan --zone Europe/Oslo --since 2024-03-30T12:00:00Z --upto 2024-04-01T12:00:00Z "${every[@]}" <<'END'
2024-03-31T01:00:00Z|cron:1|a
2024-03-31T01:00:00Z|system:1|root b
2024-03-31T01:00:00Z|php:1|root c
2024-03-31T01:00:00Z|www-data:1|d
2024-04-01T00:30:00Z|cron:1|a
2024-04-01T00:30:00Z|system:1|root b
2024-04-01T00:30:00Z|php:1|root c
2024-04-01T00:30:00Z|www-data:1|d
2024-04-01T00:30:00Z|night.timer|night.service
END
  zones_plan --since 2024-10-26T22:00:00Z --upto 2024-10-27T22:00:00Z --zone=Europe/Oslo --planners 8 --crontab wildcard \
    night.timer both.timer <<'END'
2024-10-27T00:00:00Z|cron:1|every
2024-10-27T00:01:00Z|cron:2|each
2024-10-27T00:30:00Z|cron:1|every
2024-10-27T00:30:00Z|night.timer|night.service
2024-10-27T00:31:00Z|cron:2|each
2024-10-27T01:00:00Z|cron:1|every
2024-10-27T01:30:00Z|cron:1|every
2024-10-27T02:30:00Z|both.timer|both.service
2024-10-27T05:00:00Z|both.timer|both.service
END
  zones_print 0 upcoming --zone Europe/Oslo --after 2024-03-30T12:00:00Z "${every[@]}" skipped.timer <<'END'
2024-03-31T01:00:00Z|cron:1|a
2024-03-31T01:00:00Z|system:1|root b
2024-03-31T01:00:00Z|php:1|root c
2024-03-31T01:00:00Z|www-data:1|d
2024-04-01T00:30:00Z|night.timer|night.service
none|skipped.timer|skipped.service
END
  zones_print 0 upcoming --after 2011-12-29T00:00:00Z --zone Pacific/Apia skipped.timer <<'END'
2011-12-30T22:00:00Z|skipped.timer|skipped.service
END
  # an hourly timer pauses for the length of a fold
  zones_print 0 quiet --zone Europe/Oslo --since 2024-10-26T22:30:00Z --upto 2024-10-27T04:00:00Z --least 3601 hourly.timer <<'END'
2024-10-27T00:00:00Z|2024-10-27T02:00:00Z|7200
END
  zones_print 0 quiet --since 2024-03-30T12:00:00Z --upto 2024-04-01T12:00:00Z --zone=Europe/Oslo --crontab jobs <<'END'
2024-03-30T12:00:00Z|2024-03-31T01:00:00Z|46800
2024-03-31T01:00:00Z|2024-04-01T00:30:00Z|84600
2024-04-01T00:30:00Z|2024-04-01T12:00:00Z|41400
END
  # a day that the zone skipped, and times that the zone has before 1970 or after 2999
  zones_print 0 check --zone Pacific/Apia --crontab checked skipped.timer <<'END'
checked:3: warning: starts on days that match either day field, not both [EitherDay]
checked:4: warning: never starts [NeverStarts]
skipped.timer:2: warning: never starts [NeverStarts]
END
  zones_print 0 check --crontab checked skipped.timer edges.timer <<'END'
checked:3: warning: starts on days that match either day field, not both [EitherDay]
checked:4: warning: never starts [NeverStarts]
edges.timer:2: warning: systemd 252 rejects '2999-12-31 22:00': years end at 2199 [SystemdRejects]
END
  zones_print 0 check edges.timer --zone America/New_York <<'END'
edges.timer:2: warning: never starts [NeverStarts]
edges.timer:2: warning: systemd 252 rejects '2999-12-31 22:00': years end at 2199 [SystemdRejects]
END
  zones_print 0 check --zone=Asia/Tokyo edges.timer <<'END'
edges.timer:2: warning: systemd 252 rejects '2999-12-31 22:00': years end at 2199 [SystemdRejects]
edges.timer:3: warning: never starts [NeverStarts]
END
}

# Zones that count leap seconds. Theirs are ignored: noon is the noon of UTC.
zones_of_right() {
  if [ ! -e "$zones_database/right/Europe/Oslo" ]; then
    echo "next --zone right/Europe/Oslo: skipped, since $zones_database/right is not here"
    return
  fi
  zones_next <<'END'
right/Europe/Oslo|calendar|12:00|2024-01-15T00:00:00Z|2024-01-15T11:00:00Z
right/Europe/Oslo|cron|0 12 * * *|2024-07-15T00:00:00Z|2024-07-15T10:00:00Z
right/UTC|calendar|2016-12-31 23:59:59|2016-12-31T00:00:00Z|2016-12-31T23:59:59Z none
END
}

if [ -e "$zones_database/Europe/Oslo" ]; then
  zones_of_database
else
  echo "agenda --zone: skipped the rows of the time zone database, since $zones_database is not here"
fi
