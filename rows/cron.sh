# shellcheck shell=bash disable=SC2154
# Cron rules (crontab(5)): which days and minutes they match, which texts are rejected, and which of several
# errors comes first.

# shellcheck source=/dev/null
. "$top/rows/lib/lists.sh"

# Rows of rules with the same meaning, a time of day, and the first days of 2024 (or of another year that is
# given) on which they start: all of January's, and the first one after them.
cron_days() {
  local texts time days day starts
  while IFS='|' read -r texts time days; do
    starts=
    for day in $days; do
      [ ${#day} = 10 ] || day=2024-$day
      starts+="${day}T$time:00Z "
    done
    lists_next --cron <<<"$texts|2023-12-31T23:59:59Z|$starts"
  done
}

# 2024-01-01 is a Monday. The rows: either day field suffices; a star comes first, so both must match; 7 is
# Sunday; a step past the end of its range; a list; another month.
cron_days <<'ROWS'
30 4 1,15 * 5|04:30|01-01 01-05 01-12 01-15 01-19 01-26 02-01
0 0 */2 * 1;\t0  0 */2\t* 1 |00:00|01-01 01-15 01-29 02-05
0 0 1-31/2 * */1|00:00|01-01 01-03 01-05 01-07 01-09 01-11 01-13 01-15 01-17 01-19 01-21 01-23 01-25 01-27 01-29 01-31 02-01
0 0 * * 7|00:00|01-07 01-14 01-21 01-28 02-04
0 0 * * 0|00:00|01-07 01-14 01-21 01-28 02-04
0 0 * * 6-7|00:00|01-06 01-07 01-13 01-14 01-20 01-21 01-27 01-28 02-03
0 0 1-31/40 * *|00:00|01-01 02-01
0 0 30,2-10/4 1 *|00:00|01-02 01-06 01-10 01-30 2025-01-02
0 0 1 2 *|00:00|02-01 2025-02-01
ROWS

# Names, in upper and lower case.
cron_days <<'ROWS'
0 0 5 jan *;0 0 5 JAN *;0 0 5 1 *|00:00|01-05 2025-01-05
0 0 5 feb *;0 0 5 fEB *;0 0 5 2 *|00:00|02-05 2025-02-05
0 0 5 mar *;0 0 5 Mar *;0 0 5 3 *|00:00|03-05 2025-03-05
0 0 5 apr *;0 0 5 aPr *;0 0 5 4 *|00:00|04-05 2025-04-05
0 0 5 may *;0 0 5 mAy *;0 0 5 5 *|00:00|05-05 2025-05-05
0 0 5 jun *;0 0 5 jUN *;0 0 5 6 *|00:00|06-05 2025-06-05
0 0 5 jul *;0 0 5 JUl *;0 0 5 7 *|00:00|07-05 2025-07-05
0 0 5 aug *;0 0 5 AuG *;0 0 5 8 *|00:00|08-05 2025-08-05
0 0 5 sep *;0 0 5 Sep *;0 0 5 9 *|00:00|09-05 2025-09-05
0 0 5 oct *;0 0 5 ocT *;0 0 5 10 *|00:00|10-05 2025-10-05
0 0 5 nov *;0 0 5 NOV *;0 0 5 11 *|00:00|11-05 2025-11-05
0 0 5 dec *;0 0 5 DeC *;0 0 5 12 *|00:00|12-05 2025-12-05
0 0 * * mon;0 0 * * MON;0 0 * * 1|00:00|01-01 01-08 01-15 01-22 01-29 02-05
0 0 * * tue;0 0 * * Tue;0 0 * * 2|00:00|01-02 01-09 01-16 01-23 01-30 02-06
0 0 * * wed;0 0 * * wED;0 0 * * 3|00:00|01-03 01-10 01-17 01-24 01-31 02-07
0 0 * * thu;0 0 * * tHu;0 0 * * 4|00:00|01-04 01-11 01-18 01-25 02-01
0 0 * * fri;0 0 * * FRi;0 0 * * 5|00:00|01-05 01-12 01-19 01-26 02-02
0 0 * * sat;0 0 * * saT;0 0 * * 6|00:00|01-06 01-13 01-20 01-27 02-03
0 0 * * sun;0 0 * * SuN;0 0 * * 0|00:00|01-07 01-14 01-21 01-28 02-04
ROWS

# Minutes; and names with a stepped range of hours, which skip a Sunday, February and a Saturday.
lists_next --cron <<'ROWS'
*/25 * * * *|2024-01-01T12:59:59Z|2024-01-01T13:00:00Z 25:00Z 50:00Z 14:00:00Z
7-20/6,59 * * * *|2024-01-01T12:59:59Z|2024-01-01T13:07:00Z 13:00Z 19:00Z 59:00Z 14:07:00Z
0009 * * * *|2024-01-01T12:59:59Z|2024-01-01T13:09:00Z 14:09:00Z
* * * * *|2024-01-01T13:00:00Z|2024-01-01T13:01:00Z 02:00Z
* * * * *|2024-01-01T12:59:59Z|2024-01-01T13:00:00Z 01:00Z
0 9-17/4 * jan,Mar MON-fri|2024-01-27T23:59:59Z|2024-01-29T09:00:00Z 13:00:00Z 17:00:00Z 30T09:00:00Z 13:00:00Z
0 9-17/4 * jan,Mar MON-fri|2024-01-31T09:00:00Z|2024-01-31T13:00:00Z 17:00:00Z 03-01T09:00:00Z 13:00:00Z 17:00:00Z 04T09:00:00Z
ROWS

# Rules that are equal, and rules that differ from them in one field or in whether a day field is restricted.
lists_next --cron <<'ROWS'
0 0 * * 7;0 0 * * 0;\t00 0-0 */1 1-12/1 0,7|2023-12-31T23:59:59Z|2024-01-07T00:00:00Z 14T00:00:00Z 21T00:00:00Z 28T00:00:00Z
1 0 * * 0|2023-12-31T23:59:59Z|2024-01-07T00:01:00Z 14T00:01:00Z
0 1 * * 0|2023-12-31T23:59:59Z|2024-01-07T01:00:00Z 14T01:00:00Z
0 0 1-30 * 0|2024-01-29T00:00:00Z|2024-01-30T00:00:00Z 02-01T00:00:00Z 02T00:00:00Z
0 0 * 1 0|2024-01-27T00:00:00Z|2024-01-28T00:00:00Z 2025-01-05T00:00:00Z 12T00:00:00Z
0 0 * * 1|2023-12-31T23:59:59Z|2024-01-01T00:00:00Z 08T00:00:00Z
0 0 1-31 * 0|2024-01-29T00:00:00Z|2024-01-30T00:00:00Z 31T00:00:00Z 02-01T00:00:00Z
ROWS

lists_next --cron <<'ROWS'
@yearly;@annually;0 0 1 1 *|2023-12-31T23:59:59Z|2024-01-01T00:00:00Z 2025-01-01T00:00:00Z 2026-01-01T00:00:00Z
@monthly;0 0 1 * *|2023-11-01T00:00:00Z|2023-12-01T00:00:00Z 2024-01-01T00:00:00Z 02-01T00:00:00Z 03-01T00:00:00Z
\t@weekly ;@weekly;0 0 * * 0|2023-12-31T00:00:00Z|2024-01-07T00:00:00Z 14T00:00:00Z 21T00:00:00Z 28T00:00:00Z 02-04T00:00:00Z
@daily;@midnight;0 0 * * *|2024-02-28T00:00:00Z|2024-02-29T00:00:00Z 03-01T00:00:00Z 02T00:00:00Z 03T00:00:00Z
@hourly;0 * * * *|2023-12-31T22:00:00Z|2023-12-31T23:00:00Z 2024-01-01T00:00:00Z 01:00:00Z 02:00:00Z
@reboot|1970-01-01T00:00:00Z|none
@reboot|2024-01-01T00:00:00Z|none
ROWS

# The rows with `0 0 * *` have letters that aren't ASCII: the long s, a u with an accent, and the Kelvin sign;
# and the last one an a with an accent.
lists_refused --cron <<'ROWS'
1 OutOfRange|60 * * * *
1 WrongParts|5/15 * * * *
5 BadName|0 0 * * x
4 BadName|0 0 * foo *
1 WrongParts|1,,2 * * * *
1 BadNumber|12345 * * * *
5 Backwards|0 0 * * sat-sun
4 BadNumber|0 0 * */jan *
4 BadName|0 0 * mon *
3 BadName|0 0 jan * *
1 BadName|sun 0 * * *
5 BadNumber|0 0 * * \xc5\xbfun
5 BadName|0 0 * * s\xc3\xban
4 BadNumber|0 0 * \xe2\x84\xaaan *
0 UnknownWord|@Daily
0 UnknownWord|@every
0 UnknownWord|@daily\r
0 UnknownWord| @daily x
0 UnknownWord|@
0 WrongParts|0 0 * *
0 WrongParts|0 0 * * * *
0 WrongParts|99 0 1 1 * x
0 WrongParts|
0 WrongParts|x @ * *
2 OutOfRange|* 24 * * *
3 OutOfRange|* * 0 * *
4 OutOfRange|* * * 1-13 *
5 OutOfRange|* * * * 8
5 Backwards|* * * * 6-0
1 ZeroStep|*/0 * * * *
1 BadNumber|+1 * * * *
1 BadNumber|1\r * * * *
1 BadNumber|*5 * * * *
1 BadNumber|** * * * *
1 BadNumber|1-2-3 * * * *
1 BadNumber|1/2/3 * * * *
1 BadNumber|\xc3\xa0 * * * *
ROWS

# In an element, the first value is checked first, then the second, then the step, then whether a step is
# allowed there. The forms of all elements are checked before the values, and the fields are read from left to
# right.
lists_refused --cron <<'ROWS'
1 BadName|a-+/+ * * * *
1 BadNumber|+-b/ * * * *
1 WrongParts|-b * * * *
1 BadName|1-b/ * * * *
1 WrongParts|1-/+ * * * *
1 BadNumber|1-2/b * * * *
1 WrongParts|1-2/ * * * *
1 BadNumber|1/b * * * *
1 WrongParts|1/2 * * * *
1 BadName|99,b * * * *
1 OutOfRange|99,5-1 * * * *
1 Backwards|5-1,99 * * * *
1 OutOfRange|99 b * * *
ROWS

# Writes the field `1,1,..` of $1 elements.
cron_ones() {
  printf 1
  yes ',1' | head -n $(($1 - 1)) | tr -d '\n'
}

# Long fields: one of 100,001 bytes as an argument, and one of 800,001 bytes in a file.
cron_long_fields() {
  lists_one --cron "$(cron_ones 50001) * * * *" 2024-01-01T00:00:00Z '2024-01-01T00:01:00Z 01:01:00Z'
  { cron_ones 400001 && printf ' * * * * a\n'; } >"$work/long.crontab"
  [ "$(head -c 800002 "$work/long.crontab" | tail -c 2)" = "1 " ] || refuse "no field of 800,001 bytes"
  run_in "$work" agenda plan --since 2024-01-01T00:00:00Z --upto 2024-01-01T02:00:00Z --crontab long.crontab
  compare_lines "a field of 800,001 bytes" \
    "2024-01-01T00:01:00Z${tab}cron:1${tab}a"$'\n'"2024-01-01T01:01:00Z${tab}cron:1${tab}a"$'\n'
}

# A rule with 200 elements in its first field, which have every minute: it starts like `* * * * *`.
cron_200_elements() {
  local minutes='' starts='' element minute
  for element in {0..198}; do
    minutes+="$((element % 60)),"
  done
  for minute in {00..59}; do
    starts+="2024-01-01T13:$minute:00Z "
  done
  lists_one --cron "${minutes}19 * * * *" 2024-01-01T12:59:59Z "$starts 14:00:00Z"
  lists_one --cron '* * * * *' 2024-01-01T12:59:59Z "$starts 14:00:00Z"
}

cron_long_fields
cron_200_elements
