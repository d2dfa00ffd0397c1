# shellcheck shell=bash disable=SC2154
# Rows of bin/check-examples: what `agenda next` lists for both kinds of rules, and which timestamps, counts
# and rules it rejects.

# Runs `agenda next` for the rule $3 of the option --$2, after the time $1 and with the count $4.
next_run() {
  run_in "$work" agenda next --after "$1" --count "$4" "--$2" "$3"
}

# Rows from standard input: the option, a rule, a timestamp, and the lines that follow it, as many as are requested.
next_listed() {
  local option rule after starts lines
  while IFS='|' read -r option rule after starts; do
    read -ra lines <<<"$starts"
    next_run "$after" "$option" "$rule" "${#lines[@]}"
    compare_texts "next --$option '$rule' after $after" "${starts// /$'\n'}"$'\n' '' 0
  done
}

# Rows from standard input: the option, a rule, a timestamp, a count and the error.
next_refused() {
  local option rule after count fault
  while IFS='|' read -r option rule after count fault; do
    next_run "$after" "$option" "$rule" "$count"
    is_refused "next --$option '$rule' after $after, $count of them" "$fault" 1
  done
}

# A start each minute, from 00:01 to 16:40, which is the thousandth.
next_thousand_starts() {
  local hour minute
  for hour in {00..16}; do
    for minute in {00..59}; do
      echo "2024-01-01T$hour:$minute:00Z"
    done
  done | sed -n 2,1001p >"$work/starts"
  next_run "2024-01-01T00:00:00Z" cron "* * * * *" 1000
  compare "next: a thousand starts" "$work/starts" /dev/null 0
}

# The rows: either day field suffices; a star comes first, so both day fields must match; a step from a star;
# weekday 7 is Sunday; a step past the end of a range; the last minute of the years.
next_listed <<'END'
cron|30 4 1,15 * 5|2024-01-01T00:00:00Z|2024-01-01T04:30:00Z 2024-01-05T04:30:00Z 2024-01-12T04:30:00Z 2024-01-15T04:30:00Z
cron|0 0 */2 * 1|2024-01-01T00:00:00Z|2024-01-15T00:00:00Z
cron|*/25 * * * *|2024-01-01T00:50:00Z|2024-01-01T01:00:00Z
cron|0 0 * * 7|2024-01-01T00:00:00Z|2024-01-07T00:00:00Z
cron|0 0 1-31/40 * *|2024-01-01T00:00:00Z|2024-02-01T00:00:00Z
cron|* * * * *|2999-12-31T23:58:59Z|2999-12-31T23:59:00Z none
END

# The calendar: 2100 has no leap day, and neither has 2200, but 2400 has one; there is no 31st of February.
next_listed <<'END'
cron|0 0 29 2 *|2096-02-29T00:00:00Z|2104-02-29T00:00:00Z
cron|0 0 31 2 *|2024-01-01T00:00:00Z|none
cron|0 0 29 2 *|2192-02-29T00:00:00Z|2196-02-29T00:00:00Z 2204-02-29T00:00:00Z
cron|0 0 29 2 *|2392-02-29T00:00:00Z|2396-02-29T00:00:00Z 2400-02-29T00:00:00Z
cron|0 0 29 2 *|2988-02-29T00:00:00Z|2992-02-29T00:00:00Z 2996-02-29T00:00:00Z none
END

# Days from the month's end, words, single dates and ranges of days from the end.
next_listed <<'END'
calendar|*-02~03|2024-01-01T00:00:00Z|2024-02-27T00:00:00Z 2025-02-26T00:00:00Z
calendar|weekly|2024-01-01T00:00:00Z|2024-01-08T00:00:00Z 2024-01-15T00:00:00Z
calendar|2024-3-1 4:5|2024-01-01T00:00:00Z|2024-03-01T04:05:00Z none
calendar|*-*~1..3/2 12:00|2024-02-01T00:00:00Z|2024-02-27T12:00:00Z 2024-02-29T12:00:00Z
END

# Rules of every form, and the last second of the years.
next_listed <<'END'
cron|0 9-17/4 * jan,Mar MON-fri|2024-01-31T17:00:00Z|2024-03-01T09:00:00Z
cron|@reboot|2024-01-01T00:00:00Z|none
calendar|Mon *-05~07/1|2024-01-01T00:00:00Z|2024-05-27T00:00:00Z
calendar|2200-1-1|2024-01-01T00:00:00Z|2200-01-01T00:00:00Z none
calendar|2999-12-31 23:59:59|2999-12-31T23:59:58Z|2999-12-31T23:59:59Z
calendar|2999-12-31 23:59:59|2999-12-31T23:59:59Z|none
calendar|Sat,Mon..Tue 10-1..7/3 8..9:0/30:15|2024-10-01T09:30:15Z|2024-10-07T08:00:15Z
calendar|Wed, 17:48 UTC|2024-01-01T00:00:00Z|2024-01-03T17:48:00Z
calendar|99-2-3 4:5|1970-01-01T00:00:00Z|1999-02-03T04:05:00Z
calendar|quarterly|2024-02-01T00:00:00Z|2024-04-01T00:00:00Z
END

# The count is checked before the rule.
next_refused <<'END'
cron|* * * * *|2024-01-01T00:00:00Z|0|count: BadCount
cron|60 * * * *|2024-01-01T00:00:00Z|1001|count: BadCount
cron|60 * * * *|2024-01-01T00:00:00Z|1000|rule: part 1: OutOfRange
END

# Each possible error of a timestamp.
next_refused <<'END'
cron|* * * * *|2024-01-01|1|after: BadForm
cron|* * * * *|2023-02-29T00:00:00Z|1|after: NoSuchDate
cron|* * * * *|1969-12-31T23:59:59Z|1|after: OutOfYears
END

# Each possible error of a rule, in each of its parts. A step after a single value is rejected in a cron rule.
next_refused <<'END'
cron|5/15 * * * *|2024-01-01T00:00:00Z|1|rule: part 1: WrongParts
cron|@dayly|2024-01-01T00:00:00Z|1|rule: part 0: UnknownWord
cron|* 1x * * *|2024-01-01T00:00:00Z|1|rule: part 2: BadNumber
cron|* * */0 * *|2024-01-01T00:00:00Z|1|rule: part 3: ZeroStep
cron|* * * dec-jan *|2024-01-01T00:00:00Z|1|rule: part 4: Backwards
cron|* * * * mo|2024-01-01T00:00:00Z|1|rule: part 5: BadName
calendar|*-*-9..3|1970-01-01T00:00:00Z|1|rule: part 4: Backwards
calendar|someday|2024-01-01T00:00:00Z|1|rule: part 0: UnknownWord
calendar|daily %H|2024-01-01T00:00:00Z|1|rule: part 0: Specifier
calendar|Mo|2024-01-01T00:00:00Z|1|rule: part 0: UnknownWord
calendar|Mo 12:00|2024-01-01T00:00:00Z|1|rule: part 1: BadName
calendar|1969-1-1|2024-01-01T00:00:00Z|1|rule: part 2: OutOfRange
calendar|*/0-1|2024-01-01T00:00:00Z|1|rule: part 3: ZeroStep
calendar|1x:00|2024-01-01T00:00:00Z|1|rule: part 5: BadNumber
calendar|0::00|2024-01-01T00:00:00Z|1|rule: part 6: WrongParts
calendar|0:0:0.5|2024-01-01T00:00:00Z|1|rule: part 7: Fraction
calendar|daily Europe/Berlin|2024-01-01T00:00:00Z|1|rule: part 8: Zone
END

next_thousand_starts
