# shellcheck shell=bash disable=SC2154
# Rows of bin/check-examples: the option --local, in text and in JSON, on both sides of changes of the clock and at both ends of the years;
# and --until, the other name of --upto. Rows that need the time zone database are skipped where it is missing.

local_folder=$work/local
local_database=/usr/share/zoneinfo

local_make_files() {
  mkdir -p "$local_folder"
  cd "$local_folder" || return
  printf '@reboot a\n30 2 * * * b\n' >'jobs'
  printf '30 2 * * * root c d\n' >system
  printf '[Timer]\nOnCalendar=*:0/30 UTC\n' >half.timer
  printf '[Timer]\nOnCalendar=2025-03-30 00:30 UTC\nRandomizedDelaySec=30min\nAccuracySec=1s\n' >late.timer
  printf '[Timer]\nOnCalendar=2999-12-31 23:59:30 UTC\n' >last.timer
  printf '[Timer]\nOnCalendar=*-2-30\n' >never.timer
  printf '* * * * * x\n60 * * * * y\n' >faulty
  # The file of a zone (RFC 9636) of version 2 without transitions, with the rule of Berlin.
  local zeros='\0\0\0\0' header
  header="TZif2\0\0\0$zeros$zeros$zeros$zeros$zeros$zeros$zeros\0\0\0\1"
  printf '%b' "$header\0\0\0\1$zeros\0\0\0$header\0\0\0\4\0\0\016\020\0\0CET\0\nCET-1CEST,M3.5.0,M10.5.0/3\n" | tee cet >'my zone'
  head -c -1 cet >shorter
  cd "$top" || return
}

# The arguments print the lines on standard input, which have `|` for tabs.
local_rows() {
  tr '|' '\t' >"$work/local.wanted"
  run_in "$local_folder" agenda "$@"
  compare "agenda ${*@Q}" "$work/local.wanted" /dev/null 0
}

# Rows of standard input: a zone, a second in UTC, and what the clock of the zone shows then, with its offset.
local_times() {
  local zone second shown before
  while IFS='|' read -r zone second shown; do
    before=$(date -u -d "@$(($(date -u -d "$second" +%s) - 1))" +%FT%TZ)
    local_rows next --local --zone "$zone" --after "$before" --calendar '*:*:* UTC' <<<"$shown"
    local_rows next --local --json --zone "$zone" --after "$before" --calendar '*:*:* UTC' \
      <<<"{\"start\":\"$second\",\"local\":\"$shown\"}"
  done
}

# Rows of standard input: arguments, ` => `, and the first line of the usage error.
local_usage() {
  local row words
  while IFS= read -r row; do
    read -r -a words <<<"${row%% => *}"
    run_in "$local_folder" agenda "${words[@]}"
    head -n 1 "$work/err" >"$work/first"
    mv -- "$work/first" "$work/err"
    compare_texts "agenda ${row%% => *}" '' "${row#* => }"$'\n' 2
  done
}

local_make_files

# UTC, by its name and without --zone; a zone by its path.
local_times <<'END'
UTC|1970-01-01T00:00:01Z|1970-01-01T00:00:01+00:00
UTC|2024-02-29T12:34:56Z|2024-02-29T12:34:56+00:00
UTC|2999-12-31T23:59:59Z|2999-12-31T23:59:59+00:00
./cet|1970-03-29T00:59:59Z|1970-03-29T01:59:59+01:00
./cet|1970-03-29T01:00:00Z|1970-03-29T03:00:00+02:00
./cet|2025-03-30T00:59:59Z|2025-03-30T01:59:59+01:00
./cet|2025-03-30T01:00:00Z|2025-03-30T03:00:00+02:00
../local/cet|2025-10-26T00:59:59Z|2025-10-26T02:59:59+02:00
../local/cet|2025-10-26T01:00:00Z|2025-10-26T02:00:00+01:00
END
run_in "$local_folder" agenda next --zone ./shorter --after 2024-01-01T00:00:00Z --cron @daily
is_refused "the file of a zone without its last byte" "zone: BadZone" 1
local_rows next --local --after 2024-01-01T00:00:00Z --count 2 --cron '30 4 1 * *' <<'END'
2024-01-01T04:30:00+00:00
2024-02-01T04:30:00+00:00
END
local_rows plan --local "${day[@]}" --crontab jobs <<'END'
agenda 2 UTC|2024-01-01T00:00:00+00:00|2024-01-02T00:00:00+00:00|1
2024-01-01T02:30:00+00:00|cron:2|b
END
local_rows plan --local --zone UTC "${day[@]}" <<'END'
agenda 2 UTC|2024-01-01T00:00:00+00:00|2024-01-02T00:00:00+00:00|0
END
local_rows plan --local --delays --since 1970-01-01T00:00:00Z --upto 3000-01-01T00:00:00Z last.timer <<'END'
agenda 3 UTC|1970-01-01T00:00:00+00:00|3000-01-01T00:00:00+00:00|1
2999-12-31T23:59:30+00:00|3000-01-01T00:00:00+00:00|last.timer|last.service
END

# Next starts end with `none`, as without the option.
local_rows next --local --zone ./cet --after 2025-07-01T00:00:00Z --count 2 --calendar '2025-07-01 12:00' <<'END'
2025-07-01T12:00:00+02:00
none
END
local_rows next --local --json --zone ./cet --after 2025-07-01T00:00:00Z --count 2 --calendar '2025-07-01 12:00' <<'END'
{"start":"2025-07-01T10:00:00Z","local":"2025-07-01T12:00:00+02:00"}
END

# A zone by its path, which is in the header as it was given. Clocks show 02:00 to 03:00 twice, and the order is that of time.
local_rows plan --local --zone ./cet --since 2025-10-26T00:00:00Z --upto 2025-10-26T02:00:00Z --crontab jobs half.timer <<'END'
agenda 2 ./cet|2025-10-26T02:00:00+02:00|2025-10-26T03:00:00+01:00|5
2025-10-26T02:00:00+02:00|half.timer|half.service
2025-10-26T02:30:00+02:00|cron:2|b
2025-10-26T02:30:00+02:00|half.timer|half.service
2025-10-26T02:00:00+01:00|half.timer|half.service
2025-10-26T02:30:00+01:00|half.timer|half.service
END
local_rows plan --local --json --zone ./cet --since 2025-10-26T00:30:00Z --upto 2025-10-26T01:30:00Z --system-crontab system half.timer <<'END'
{"start":"2025-10-26T00:30:00Z","local":"2025-10-26T02:30:00+02:00","job":"system:1","user":"root","run":"c d"}
{"start":"2025-10-26T00:30:00Z","local":"2025-10-26T02:30:00+02:00","job":"half.timer","run":"half.service"}
{"start":"2025-10-26T01:00:00Z","local":"2025-10-26T02:00:00+01:00","job":"half.timer","run":"half.service"}
END

local_rows plan --local --zone './my zone' --since 2025-10-26T00:00:00Z --upto 2025-10-26T00:00:00Z half.timer <<'END'
agenda 2 ./my zone|2025-10-26T02:00:00+02:00|2025-10-26T02:00:00+02:00|0
END

# With delays: a start before clocks are put forward, whose latest time is after that. It is 30 minutes and a second later.
local_rows plan --local --delays --zone ./cet --since 2025-03-30T00:00:00Z --upto 2025-03-30T01:00:00Z late.timer <<'END'
agenda 3 ./cet|2025-03-30T01:00:00+01:00|2025-03-30T03:00:00+02:00|1
2025-03-30T01:30:00+01:00|2025-03-30T03:00:01+02:00|late.timer|late.service
END
local_rows plan --local --delays --json --zone ./cet --since 2025-03-30T00:00:00Z --upto 2025-03-30T01:00:00Z late.timer <<'END'
{"start":"2025-03-30T00:30:00Z","local":"2025-03-30T01:30:00+01:00","latest":"2025-03-30T01:00:01Z","latest_local":"2025-03-30T03:00:01+02:00","job":"late.timer","run":"late.service"}
END
local_rows plan --local --json --zone ./cet "${day[@]}" never.timer </dev/null

# Upcoming, with and without a further start. Clocks don't show 02:30 on that day, so cron's job starts when they are put forward.
local_rows upcoming --local --zone ./cet --after 2025-03-29T12:00:00Z late.timer never.timer --crontab jobs <<'END'
2025-03-30T01:30:00+01:00|late.timer|late.service
2025-03-30T03:00:00+02:00|cron:2|b
none|cron:1|a
none|never.timer|never.service
END
local_rows upcoming --local --delays --zone ./cet --after 2025-03-29T12:00:00Z late.timer --crontab jobs <<'END'
2025-03-30T01:30:00+01:00|2025-03-30T03:00:01+02:00|late.timer|late.service
2025-03-30T03:00:00+02:00|2025-03-30T03:00:00+02:00|cron:2|b
none|none|cron:1|a
END
local_rows upcoming --local --json --zone ./cet --after 2025-03-29T12:00:00Z late.timer --system-crontab system never.timer <<'END'
{"start":"2025-03-30T00:30:00Z","local":"2025-03-30T01:30:00+01:00","job":"late.timer","run":"late.service"}
{"start":"2025-03-30T01:00:00Z","local":"2025-03-30T03:00:00+02:00","job":"system:1","user":"root","run":"c d"}
{"start":null,"local":null,"job":"never.timer","run":"never.service"}
END
local_rows upcoming --local --delays --json --after 2025-03-29T12:00:00Z late.timer never.timer <<'END'
{"start":"2025-03-30T00:30:00Z","local":"2025-03-30T00:30:00+00:00","latest":"2025-03-30T01:00:01Z","latest_local":"2025-03-30T01:00:01+00:00","job":"late.timer","run":"late.service"}
{"start":null,"local":null,"latest":null,"latest_local":null,"job":"never.timer","run":"never.service"}
END

# Gaps: their length is that of time, not of what clocks show.
local_rows quiet --local --zone ./cet --since 2025-03-30T00:00:00Z --upto 2025-03-30T02:00:00Z late.timer <<'END'
2025-03-30T01:00:00+01:00|2025-03-30T01:30:00+01:00|1800
2025-03-30T01:30:00+01:00|2025-03-30T04:00:00+02:00|5400
END
local_rows quiet --local --delays --json --zone ./cet --since 2025-03-30T00:00:00Z --upto 2025-03-30T02:00:00Z late.timer <<'END'
{"from":"2025-03-30T00:00:00Z","from_local":"2025-03-30T01:00:00+01:00","until":"2025-03-30T00:30:00Z","until_local":"2025-03-30T01:30:00+01:00","seconds":1800}
{"from":"2025-03-30T01:00:01Z","from_local":"2025-03-30T03:00:01+02:00","until":"2025-03-30T02:00:00Z","until_local":"2025-03-30T04:00:00+02:00","seconds":3599}
END

# What is skipped is reported as without the option.
local_keeps_going() {
  run_in "$local_folder" agenda plan --local --zone ./cet --since 2025-03-30T00:59:00Z --upto 2025-03-30T01:01:00Z --keep-going --crontab faulty
  compare_texts "a plan in local time that keeps going" \
    $'agenda 2 ./cet\t2025-03-30T01:59:00+01:00\t2025-03-30T03:01:00+02:00\t2\n2025-03-30T01:59:00+01:00\tcron:1\tx\n2025-03-30T03:00:00+02:00\tcron:1\tx\n' \
    $'faulty:2: error: minute \'60\': out of range 0-59 [OutOfRange]\n' 1
  run_in "$local_folder" agenda plan --local --zone ./jobs "${day[@]}"
  is_refused "local time in a zone that is none" "zone: BadZone" 1
}

local_keeps_going

# Zones of the database: both changes of 2025; offsets east and west with minutes, and with seconds; and the ends of the years. A time whose
# local time is before 1970 stays in UTC, and so does one that is later than the end of 2999.
if ! passed_over "local times of zones" "$local_database/Europe/Berlin"; then
  local_times <<'END'
Europe/Berlin|2025-03-30T00:59:59Z|2025-03-30T01:59:59+01:00
Europe/Berlin|2025-03-30T01:00:00Z|2025-03-30T03:00:00+02:00
Europe/Berlin|2025-10-26T00:59:59Z|2025-10-26T02:59:59+02:00
Europe/Berlin|2025-10-26T01:00:00Z|2025-10-26T02:00:00+01:00
Africa/Monrovia|1970-01-01T00:44:29Z|1970-01-01T00:44:29Z
Africa/Monrovia|1970-01-01T00:44:30Z|1970-01-01T00:00:00-00:44:30
Africa/Monrovia|1972-01-07T00:44:29Z|1972-01-06T23:59:59-00:44:30
Africa/Monrovia|1972-01-07T00:44:30Z|1972-01-07T00:44:30+00:00
Asia/Kathmandu|2024-01-01T00:00:00Z|2024-01-01T05:45:00+05:45
Pacific/Kiritimati|2024-02-28T10:00:00Z|2024-02-29T00:00:00+14:00
America/St_Johns|2024-01-01T00:00:00Z|2023-12-31T20:30:00-03:30
Pacific/Pago_Pago|2024-03-01T10:59:59Z|2024-02-29T23:59:59-11:00
America/New_York|1970-01-01T04:59:59Z|1970-01-01T04:59:59Z
America/New_York|1970-01-01T05:00:00Z|1970-01-01T00:00:00-05:00
America/New_York|2999-12-31T23:59:59Z|2999-12-31T18:59:59-05:00
Asia/Tokyo|1970-01-01T00:00:01Z|1970-01-01T09:00:01+09:00
Asia/Tokyo|2999-12-31T14:59:59Z|2999-12-31T23:59:59+09:00
Asia/Tokyo|2999-12-31T15:00:00Z|3000-01-01T00:00:00+09:00
Asia/Tokyo|2999-12-31T15:00:01Z|2999-12-31T15:00:01Z
END
  # The whole years: their start, and their end, which has the offset of the second before it.
  local_rows plan --local --zone America/New_York --since 1970-01-01T00:00:00Z --upto 3000-01-01T00:00:00Z last.timer <<'END'
agenda 2 America/New_York|1970-01-01T00:00:00Z|2999-12-31T19:00:00-05:00|1
2999-12-31T18:59:30-05:00|last.timer|last.service
END
  local_rows plan --local --zone Asia/Tokyo --delays --since 1970-01-01T00:00:00Z --upto 3000-01-01T00:00:00Z last.timer <<'END'
agenda 3 Asia/Tokyo|1970-01-01T09:00:00+09:00|3000-01-01T00:00:00Z|1
2999-12-31T23:59:30Z|3000-01-01T00:00:00Z|last.timer|last.service
END
  local_rows quiet --local --json --zone America/New_York --since 1970-01-01T00:00:00Z --upto 3000-01-01T00:00:00Z never.timer <<'END'
{"from":"1970-01-01T00:00:00Z","from_local":"1970-01-01T00:00:00Z","until":"3000-01-01T00:00:00Z","until_local":"2999-12-31T19:00:00-05:00","seconds":32503680000}
END
  local_rows upcoming --local --json --delays --zone Asia/Tokyo --after 2999-12-31T00:00:00Z last.timer <<'END'
{"start":"2999-12-31T23:59:30Z","local":"2999-12-31T23:59:30Z","latest":"3000-01-01T00:00:00Z","latest_local":"3000-01-01T00:00:00Z","job":"last.timer","run":"last.service"}
END
  local_rows plan --local --zone "$local_database/Europe/Berlin" "${day[@]}" --crontab jobs <<END
agenda 2 $local_database/Europe/Berlin|2024-01-01T01:00:00+01:00|2024-01-02T01:00:00+01:00|1
2024-01-01T02:30:00+01:00|cron:2|b
END
  # An event with a zone of its own is shown in that of --zone.
  local_rows next --local --zone Europe/Berlin --event-zones --after 2025-01-01T00:00:00Z --calendar '09:00 Asia/Tokyo' <<'END'
2025-01-02T01:00:00+01:00
END
fi

# --until is --upto: with a blank, with `=`, and in either order. It is given once, by one of its names.
local_rows plan --since 2024-01-01T00:00:00Z --until 2024-01-01T03:00:00Z --crontab jobs <<'END'
agenda 2|2024-01-01T00:00:00Z|2024-01-01T03:00:00Z|1
2024-01-01T02:30:00Z|cron:2|b
END
local_rows plan --until=2024-01-01T03:00:00Z --local --since 2024-01-01T00:00:00Z --crontab jobs <<'END'
agenda 2 UTC|2024-01-01T00:00:00+00:00|2024-01-01T03:00:00+00:00|1
2024-01-01T02:30:00+00:00|cron:2|b
END
local_rows quiet --until=2024-01-01T03:00:00Z --since 2024-01-01T00:00:00Z --crontab jobs <<'END'
2024-01-01T00:00:00Z|2024-01-01T02:30:00Z|9000
2024-01-01T02:30:00Z|2024-01-01T03:00:00Z|1800
END
run_in "$local_folder" agenda plan --since 2024-01-01T00:00:00Z --until 2024
is_refused "an --until that is rejected" "upto: BadForm" 1
local_usage <<'END'
plan --since 2024-01-01T00:00:00Z --upto 2024-01-02T00:00:00Z --until 2024-01-02T00:00:00Z => error: the argument '--until <T>' cannot be used multiple times
quiet --since 2024-01-01T00:00:00Z --until=2024-01-02T00:00:00Z --upto=2024-01-02T00:00:00Z => error: the argument '--until <T>' cannot be used multiple times
plan --since 2024-01-01T00:00:00Z --until 2024-01-02T00:00:00Z --until 2024-01-02T00:00:00Z => error: the argument '--until <T>' cannot be used multiple times
plan --since 2024-01-01T00:00:00Z --until => error: a value is required for '--until <T>' but none was supplied
next --after 2024-01-01T00:00:00Z --cron @daily --until 2024-01-02T00:00:00Z => error: unexpected argument '--until' found
upcoming --after 2024-01-01T00:00:00Z --until 2024-01-02T00:00:00Z => error: unexpected argument '--until' found
next --local --local --after 2024-01-01T00:00:00Z --cron @daily => error: the argument '--local' cannot be used multiple times
check --local => error: unexpected argument '--local' found
steps script --local => error: unexpected argument '--local' found
END
