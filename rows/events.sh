# shellcheck shell=bash disable=SC2154
# Calendar events (systemd.time(7)): when they start, which texts mean the same event, which are rejected, and
# which of several errors comes first.

# shellcheck source=/dev/null
. "$top/rows/lib/lists.sh"

# 2024-01-01 is a Monday, 2024-10-01 a Tuesday. Steps after `~` go from the greater number: in `1..4/2` and in
# `4..1/2` from 4 to 2.
lists_next --calendar <<'ROWS'
*-02~03|2024-02-25T23:59:59Z|2024-02-27T00:00:00Z 2025-02-26T00:00:00Z
*-02~29|2023-01-01T00:00:00Z|2024-02-01T00:00:00Z 2028-02-01T00:00:00Z
Mon *-05~07/1|2024-05-19T23:59:59Z|2024-05-27T00:00:00Z 2025-05-26T00:00:00Z
weekly|2023-12-31T23:59:59Z|2024-01-01T00:00:00Z 08T00:00:00Z 15T00:00:00Z
2999-12-31 23:59:59|2998-12-31T23:59:58Z|2999-12-31T23:59:59Z none
Sat,Mon..Tue 10-1..7/3 8..9:0/30:15|2024-01-01T00:00:00Z|2024-10-01T08:00:15Z 30:15Z 09:00:15Z 30:15Z 07T08:00:15Z
Sat,Mon..Tue 10-1..7/3 8..9:0/30:15|2024-10-07T08:00:15Z|2024-10-07T08:30:15Z 09:00:15Z 30:15Z 2025-10-04T08:00:15Z
Wed, 17:48 UTC|2024-01-01T00:00:00Z|2024-01-03T17:48:00Z 10T17:48:00Z
quarterly|2024-01-01T00:00:00Z|2024-04-01T00:00:00Z 07-01T00:00:00Z 10-01T00:00:00Z 2025-01-01T00:00:00Z
*-*~1..3/2 12:00|2024-02-01T00:00:00Z|2024-02-27T12:00:00Z 29T12:00:00Z 03-29T12:00:00Z 31T12:00:00Z 04-28T12:00:00Z
*-*~3..1/2 12:00|2024-02-01T00:00:00Z|2024-02-27T12:00:00Z 29T12:00:00Z 03-29T12:00:00Z 31T12:00:00Z 04-28T12:00:00Z
*-*~1..4/2|2024-02-01T00:00:00Z|2024-02-26T00:00:00Z 28T00:00:00Z 03-28T00:00:00Z 30T00:00:00Z
*-*~4..1/2|2024-02-01T00:00:00Z|2024-02-26T00:00:00Z 28T00:00:00Z 03-28T00:00:00Z 30T00:00:00Z
*-*~3..2|2024-02-01T00:00:00Z|2024-02-27T00:00:00Z 28T00:00:00Z 03-29T00:00:00Z 30T00:00:00Z
*-*~*|2024-01-31T23:59:59Z|2024-02-01T00:00:00Z 02T00:00:00Z
*-*~*|2024-02-28T23:59:59Z|2024-02-29T00:00:00Z 03-01T00:00:00Z
*~*|2024-01-31T23:59:59Z|2024-02-01T00:00:00Z 02T00:00:00Z
*~*|2024-02-28T23:59:59Z|2024-02-29T00:00:00Z 03-01T00:00:00Z
*-*~7/3|2024-02-01T00:00:00Z|2024-02-23T00:00:00Z 26T00:00:00Z 29T00:00:00Z 03-25T00:00:00Z 28T00:00:00Z 31T00:00:00Z
99-2-3 4:5|1970-01-01T00:00:00Z|1999-02-03T04:05:00Z none
70-1-1|1970-01-01T00:00:00Z|none
69-1-1|1970-01-01T00:00:00Z|2069-01-01T00:00:00Z none
2200-1-1|1970-01-01T00:00:00Z|2200-01-01T00:00:00Z none
*-*-1/10 *:*:*/20|2024-01-10T23:59:59Z|2024-01-11T00:00:00Z 20Z 40Z 01:00Z
*-*-1/10 *:*:*/20|2024-01-30T13:01:39Z|2024-01-31T00:00:00Z 20Z 40Z
*-*-1/10 *:*:*/20|2024-01-31T13:01:39Z|2024-01-31T13:01:40Z 02:00Z 20Z
1970/100-2-* 0:0|2070-02-27T23:59:59Z|2070-02-28T00:00:00Z 2170-02-01T00:00:00Z 02T00:00:00Z
12:00 UTC|2024-01-01T00:00:00Z|2024-01-01T12:00:00Z 02T12:00:00Z
12:00 UTC|2999-12-30T12:00:00Z|2999-12-31T12:00:00Z none
\t sunDAY  utc |2024-01-01T00:00:00Z|2024-01-07T00:00:00Z 14T00:00:00Z 21T00:00:00Z
SemiAnnually|2023-12-31T23:59:59Z|2024-01-01T00:00:00Z 07-01T00:00:00Z 2025-01-01T00:00:00Z
mINUTELY|2024-01-01T00:00:00Z|2024-01-01T00:01:00Z 02:00Z
mINUTELY|2024-04-01T00:00:00Z|2024-04-01T00:01:00Z 02:00Z
mINUTELY|2024-07-01T13:58:59Z|2024-07-01T13:59:00Z 14:00:00Z
mINUTELY|2024-07-02T00:00:58Z|2024-07-02T00:01:00Z 02:00Z
Hourly UTC|2024-01-01T00:00:00Z|2024-01-01T01:00:00Z 02:00:00Z
Hourly UTC|2024-04-01T00:00:59Z|2024-04-01T01:00:00Z 02:00:00Z
Hourly UTC|2024-07-01T22:59:59Z|2024-07-01T23:00:00Z 02T00:00:00Z 01:00:00Z
monthly|2023-12-31T23:59:59Z|2024-01-01T00:00:00Z 02-01T00:00:00Z 03-01T00:00:00Z 04-01T00:00:00Z 05-01T00:00:00Z
monthly|2024-06-30T23:59:59Z|2024-07-01T00:00:00Z 08-01T00:00:00Z 09-01T00:00:00Z
monthly|2024-11-01T00:00:00Z|2024-12-01T00:00:00Z 2025-01-01T00:00:00Z
YEARLY|2023-12-31T23:59:59Z|2024-01-01T00:00:00Z 2025-01-01T00:00:00Z 2026-01-01T00:00:00Z
ROWS

# The years 70 and 69, over all years.
lists_plan <<'ROWS'
70-1-1|1970-01-01T00:00:00Z|3000-01-01T00:00:00Z|1970-01-01T00:00:00Z
69-1-1|1970-01-01T00:00:00Z|3000-01-01T00:00:00Z|2069-01-01T00:00:00Z
ROWS

# Texts that mean the same event.
lists_next --calendar <<'ROWS'
minutely;*-*-* *:*:00|2024-01-01T23:57:59Z|2024-01-01T23:58:00Z 59:00Z 02T00:00:00Z 01:00Z
hourly;*-*-* *:00:00|2024-01-01T21:59:59Z|2024-01-01T22:00:00Z 23:00:00Z 02T00:00:00Z 01:00:00Z
daily;*-*-* 00:00:00;00:00|2024-02-27T23:59:59Z|2024-02-28T00:00:00Z 29T00:00:00Z 03-01T00:00:00Z 02T00:00:00Z
weekly;Mon|2024-01-01T00:00:00Z|2024-01-08T00:00:00Z 15T00:00:00Z 22T00:00:00Z 29T00:00:00Z 02-05T00:00:00Z
monthly;*-01|2024-10-31T00:00:00Z|2024-11-01T00:00:00Z 12-01T00:00:00Z 2025-01-01T00:00:00Z 02-01T00:00:00Z
quarterly;*-01,04,07,10-01|2024-04-01T00:00:00Z|2024-07-01T00:00:00Z 10-01T00:00:00Z 2025-01-01T00:00:00Z 04-01T00:00:00Z
semiannually;*-1,7-1|2024-01-01T00:00:00Z|2024-07-01T00:00:00Z 2025-01-01T00:00:00Z 07-01T00:00:00Z
yearly;1-1;annually|2024-01-01T00:00:00Z|2025-01-01T00:00:00Z 2026-01-01T00:00:00Z 2027-01-01T00:00:00Z
Mon,;monday|2023-12-31T00:00:00Z|2024-01-01T00:00:00Z 08T00:00:00Z 15T00:00:00Z
mon..sun;Sun,Sat,Mon..Fri|2024-01-01T00:00:00Z|2024-01-02T00:00:00Z 03T00:00:00Z 04T00:00:00Z 05T00:00:00Z 06T00:00:00Z
mon..sun;Sun,Sat,Mon..Fri|2024-01-06T00:00:00Z|2024-01-07T00:00:00Z 08T00:00:00Z 09T00:00:00Z
2024-3-4;24-3-4|1970-01-01T00:00:00Z|2024-03-04T00:00:00Z none
*-*~1..3;*-*~3..1|2024-02-01T00:00:00Z|2024-02-27T00:00:00Z 28T00:00:00Z 29T00:00:00Z 03-29T00:00:00Z 30T00:00:00Z 31T00:00:00Z
*-*~31/1;*-*~*|2024-02-27T00:00:00Z|2024-02-28T00:00:00Z 29T00:00:00Z 03-01T00:00:00Z 02T00:00:00Z
*/1-*-*;*-1/1-1..31 0:0:0|2024-04-29T00:00:00Z|2024-04-30T00:00:00Z 05-01T00:00:00Z 02T00:00:00Z
ROWS

# Events that differ from `*-*-* 0:0:0` in one component.
lists_next --calendar <<'ROWS'
*-*-* 0:0:0|2024-12-30T00:00:00Z|2024-12-31T00:00:00Z 2025-01-01T00:00:00Z 02T00:00:00Z
2024-*-* 0:0:0|2024-12-30T00:00:00Z|2024-12-31T00:00:00Z none
*-2-* 0:0:0|2024-12-30T00:00:00Z|2025-02-01T00:00:00Z 02T00:00:00Z
*-*-2 0:0:0|2024-12-30T00:00:00Z|2025-01-02T00:00:00Z 02-02T00:00:00Z
*-*-* 1:0:0|2024-12-30T00:00:00Z|2024-12-30T01:00:00Z 31T01:00:00Z
*-*-* 0:1:0|2024-12-30T00:00:00Z|2024-12-30T00:01:00Z 31T00:01:00Z
*-*-* 0:0:1|2024-12-30T00:00:00Z|2024-12-30T00:00:01Z 31T00:00:01Z
ROWS

# `\xc5\xbf` is the long s, `\xe2\x84\xaa` the Kelvin sign.
lists_refused --calendar <<'ROWS'
7 Fraction|Mon 12:00:00.5
8 Zone|daily Europe/Oslo
4 Backwards|*-*-9..3
0 UnknownWord|fortnightly
0 Specifier|*-*-%i
0 WrongParts|
0 WrongParts| \t 
0 UnknownWord|UTC
1 Backwards|Sat..Mon
1 WrongParts|Mon,,
1 WrongParts|Mon,,Tue
1 WrongParts|Mon..
1 BadName|Mond 12:00
1 BadName|Mon-Fri
1 BadName|Mon,*
4 WrongParts|*-*~*/2
4 OutOfRange|*-*~0
4 OutOfRange|*-*~32
4 OutOfRange|*-*~1..32
4 ZeroStep|*-*~5/0
4 ZeroStep|*-*~5..3/0
4 OutOfRange|*-*~32/0
4 OutOfRange|*-*~0,3/0
4 ZeroStep|*-*~3/0,0
4 BadNumber|*-*~0,x
4 WrongParts|*-*~
3 WrongParts|~3
0 WrongParts|*-*-*~3
4 BadNumber|*-*~3~4
4 ZeroStep|*-*-5/0
6 ZeroStep|*:0/0
2 OutOfRange|1969-1-1
2 OutOfRange|3000-1-1
2 OutOfRange|007-1-1
2 BadNumber|12024-1-1
5 BadNumber|00012:00
0 WrongParts|12:00:00:00
6 WrongParts|12:
5 WrongParts|:12
5 OutOfRange|24:00
6 OutOfRange|12:60
7 OutOfRange|12:00:60
7 Fraction|12:00:1...5
7 Fraction|12:00:0/1.5
6 BadNumber|12:00.5
3 OutOfRange|2024-1
0 WrongParts|2024
0 WrongParts|1-2-3-4
2 WrongParts|-1-1
3 OutOfRange|13-1
4 OutOfRange|*-32
3 BadNumber|*5-1
0 WrongParts|12:00 1-1
0 WrongParts|1-1 1-2
0 WrongParts|12:00 13:00
0 WrongParts|1-1 12:00 5
0 WrongParts|Mon 1-1 12:00 5 UTC
0 WrongParts|Mon UTC UTC
8 Zone|Mon Tue
8 Zone|12:00 Z
0 WrongParts|\xc5\xbfun
1 BadName|Sat,\xc5\xbfun
1 BadName|wee\xe2\x84\xaaly
3 WrongParts|*-1,-1
3 WrongParts|1,-1
ROWS

# The text is checked from the specifier to the seconds, and the forms of a component before its values.
lists_refused --calendar <<'ROWS'
0 Specifier|fortnightly Oslo %
8 Zone|Foo 1 2 3 Oslo
0 WrongParts|Foo 1 2 3
1 BadName|Foo x-y-z +:b:c
1 BadName|Tue..Mon,Foo 1-1
1 Backwards|Tue..Mon 0-x-z +:b:c
2 BadNumber|+-x-z +:b:c
3 BadNumber|1-x-z +:b:c
4 BadNumber|1-1-z +:b:c
5 BadNumber|1-1-1 +:b:c
8 Zone|1-1-1 a:b:c
6 BadNumber|1-1-1 9:b:c
7 BadNumber|1-1-1 9:9:c
4 BadNumber|*-*-32,x
4 OutOfRange|*-*-32,5..1
4 Backwards|*-*-5..1,32
4 BadNumber|*-*-+..
4 WrongParts|*-*-1../
4 BadNumber|*-*-1..+/
4 WrongParts|*-*-1/
4 BadNumber|*-*-1/+
4 BadNumber|*-*~*/+
ROWS

# Lists of 1,000,000 bytes after their first element, which is $1. $2 follows them, and $3 is the start in January.
events_long_list() {
  {
    printf '[Timer]\nOnCalendar=%s' "$1"
    yes ',1' | head -n 500000 | tr -d '\n'
    printf '%s\n' "$2"
  } >"$work/long.timer"
  [ "$(wc -c <"$work/long.timer")" -gt 1000000 ] || refuse "no list of 1,000,000 bytes"
  run_in "$work" agenda plan --since 2024-01-01T00:00:00Z --upto 2024-02-01T00:00:00Z long.timer
  compare_lines "a list of 1,000,000 bytes: $1,1,..$2" "$3${tab}long.timer${tab}long.service"$'\n'
}

# An event with 200 elements in its seconds, which have every second: it starts like `*:*:*`.
events_200_elements() {
  local seconds='' starts='' element second
  for element in {0..198}; do
    seconds+="$((element % 60)),"
  done
  for second in {00..59}; do
    starts+="2024-01-01T13:01:${second}Z "
  done
  lists_one --calendar "*:*:${seconds}19" 2024-01-01T13:00:59Z "$starts 02:00Z"
  lists_one --calendar '*:*:*' 2024-01-01T13:00:59Z "$starts 02:00Z"
}

events_long_list 1 -7 2024-01-07T00:00:00Z
events_long_list '*-*~1' '' 2024-01-31T00:00:00Z
events_200_elements
