# shellcheck shell=bash disable=SC2154,SC2034,SC2016
# Rows of the tables of `agenda machine` at a time at which the clock of the program stands still: their columns, the times
# from now, the names of zones, the width, and what happens if a table can't be printed. Expected tables are written by hand.

# shellcheck source=/dev/null
. "$top/rows/lib/program.sh"

# The present root answers the arguments $1, with bars between them, with the table on standard input. `|` at the end of a line
# shows blanks there. The lines on standard error are $2, as in printf, and the status is $3.
table_is() {
  local words
  IFS='|' read -r -a words <<<"$1"
  sed 's/|$//' >"$work/out.wanted"
  printf '%b' "${2-}" >"$work/err.wanted"
  program_run "${words[@]}" --root root
  program_compare "the table of '$1'" "$work/out.wanted" "$work/err.wanted" "${3:-0}"
}

# Prints the entries of a root with a timer of the name $1 that has the events from $2 on.
table_timer() {
  local event text='[Timer]\n'
  for event in "${@:2}"; do
    text+="OnCalendar=${event// /\\x20}\\n"
  done
  printf '*%s.timer U/%s.timer=%s\n' "$1" "$1" "$text"
}

# ---- columns

# Columns are as wide as their longest field. There is no time from now: the span begins at another time.
program_make 'etc/crontab=#\n#\n30\x2022\x2030\x203\x20*\x20root\x20a\x20\x20b\x20\n
  S/cron=\n\n\n\n\n\n\n\n\n\n\n59\x205\x2031\x203\x20*\x20\xc3\xa9\t\xe2\x82\xac\x20c\n
  *x.timer U/x.timer=[Timer]\nOnCalendar=2024-03-31\n *long-name.timer U/long-name.timer=[Timer]\nOnCalendar=2024-03-31\n'
table_is 'plan|--table|--since|2024-03-30 22:00|--until|+8h' <<'TABLE'
START                    JOB              RUNS
Sat 2024-03-30 22:30:00  system:3         root a  b |
Sun 2024-03-31 00:00:00  long-name.timer  long-name.service
Sun 2024-03-31 00:00:00  x.timer          x.service
Sun 2024-03-31 05:59:00  cron:12          é	€ c
4 starts from Sat 2024-03-30 22:00:00 to Sun 2024-03-31 06:00:00, UTC
TABLE

# Weekdays, of leap years and centuries too: these dates were looked up in calendars.
program_make "$(table_timer a 1970-01-01 1972-02-29 1999-12-31 2000-02-29 2000-03-01 2024-12-31 2100-02-28 2100-03-01 '2199-12-31 23:59:59')"
table_is 'plan|--table|--since|1970-01-01T00:00:00Z|--until|3000-01-01T00:00:00Z' <<'TABLE'
START                    JOB      RUNS
Thu 1970-01-01 00:00:00  a.timer  a.service
Tue 1972-02-29 00:00:00  a.timer  a.service
Fri 1999-12-31 00:00:00  a.timer  a.service
Tue 2000-02-29 00:00:00  a.timer  a.service
Wed 2000-03-01 00:00:00  a.timer  a.service
Tue 2024-12-31 00:00:00  a.timer  a.service
Sun 2100-02-28 00:00:00  a.timer  a.service
Mon 2100-03-01 00:00:00  a.timer  a.service
Tue 2199-12-31 23:59:59  a.timer  a.service
9 starts from Thu 1970-01-01 00:00:00 to Wed 3000-01-01 00:00:00, UTC
TABLE

# Answers without a line.
program_make x/
table_is 'quiet|--table|--since|2024-01-01|--until|2024-01-02|--least|2d' 'agenda: no gap of 48 h: the longest is 24 h\n' <<'TABLE'
START  END  LENGTH
0 gaps from Mon 2024-01-01 00:00:00 to Tue 2024-01-02 00:00:00, UTC
TABLE

# ---- at 2025-03-29T11:00:00Z, a Saturday

if ! program_still 1743246000; then
  echo "agenda machine: skipped the tables at a time that stands still, since no C compiler is here"
  return 0
fi

# How long it is from now, if the span begins now.
program_make "$(table_timer a '2025-03-29 11:00' '2025-03-29 11:00:01' '2025-03-29 11:00:59' '2025-03-29 11:01' '2025-03-29 11:59:59' \
  '2025-03-29 12:00:59' '2025-03-29 14:20' '2025-03-30 10:59:59' '2025-03-30 11:59:59' '2025-04-02 13:00' '2026-03-29 11:00')"
table_is 'plan|--table|--until|2026-03-30' <<'TABLE'
START                    FROM NOW        JOB      RUNS
Sat 2025-03-29 11:00:00  now             a.timer  a.service
Sat 2025-03-29 11:00:01  in 1 s          a.timer  a.service
Sat 2025-03-29 11:00:59  in 59 s         a.timer  a.service
Sat 2025-03-29 11:01:00  in 1 min        a.timer  a.service
Sat 2025-03-29 11:59:59  in 59 min       a.timer  a.service
Sat 2025-03-29 12:00:59  in 1 h          a.timer  a.service
Sat 2025-03-29 14:20:00  in 3 h 20 min   a.timer  a.service
Sun 2025-03-30 10:59:59  in 23 h 59 min  a.timer  a.service
Sun 2025-03-30 11:59:59  in 1 d          a.timer  a.service
Wed 2025-04-02 13:00:00  in 4 d 2 h      a.timer  a.service
Sun 2026-03-29 11:00:00  in 365 d        a.timer  a.service
11 starts from Sat 2025-03-29 11:00:00 to Mon 2026-03-30 00:00:00, UTC
TABLE
program_make "$(table_timer a '2025-03-29 12:00')"
for table_since in now +0s '11:00' '2025-03-29 11:00 UTC' @1743246000; do
  table_is "plan|--table|--since|$table_since" <<'TABLE'
START                    FROM NOW  JOB      RUNS
Sat 2025-03-29 12:00:00  in 1 h    a.timer  a.service
1 start from Sat 2025-03-29 11:00:00 to Sun 2025-03-30 11:00:00, UTC
TABLE
done
table_is 'plan|--table|--since|-1s' </dev/null 'error: unexpected argument '"'-1'"' found\n\nUsage: agenda machine plan [OPTIONS]\n\nFor more information, try '"'--help'"'.\n' 2
table_is 'plan|--table|--since=-1s' <<'TABLE'
START                    JOB      RUNS
Sat 2025-03-29 12:00:00  a.timer  a.service
1 start from Sat 2025-03-29 10:59:59 to Sun 2025-03-30 10:59:59, UTC
TABLE
table_is '--table' <<'TABLE'
START                    FROM NOW  JOB      RUNS
Sat 2025-03-29 12:00:00  in 1 h    a.timer  a.service
1 job after Sat 2025-03-29 11:00:00, UTC
TABLE

# The latest start has no day if that is the same. With delays a start may be before now. The accuracy of a timer is one minute.
program_make 'etc/crontab=0\x202\x2030\x203\x20*\x20root\x20x\n
  *a.timer U/a.timer=[Timer]\nOnCalendar=2025-03-29\x2010:40\nRandomizedDelaySec=29min\n *b.timer U/b.timer=[Timer]\nOnCalendar=2025-03-29\x2011:00\n
  *c.timer U/c.timer=[Timer]\nOnCalendar=2025-03-29\x2023:30\nRandomizedDelaySec=11h\x2059min\n'
table_is 'plan|--delays|--table' <<'TABLE'
START                    LATEST                   FROM NOW        JOB       RUNS
Sat 2025-03-29 10:40:00  11:10:00                 20 min ago      a.timer   a.service
Sat 2025-03-29 11:00:00  11:01:00                 now             b.timer   b.service
Sat 2025-03-29 23:30:00  Sun 2025-03-30 11:30:00  in 12 h 30 min  c.timer   c.service
Sun 2025-03-30 02:00:00  02:00:00                 in 15 h         system:1  root x
4 starts from Sat 2025-03-29 11:00:00 to Sun 2025-03-30 11:00:00, UTC
TABLE

# upcoming has jobs without a further start, with and without delays.
program_make "etc/crontab=30\\x2011\\x20*\\x20*\\x20*\\x20root\\x20a\\n $(table_timer b 2020-01-01)"
table_is 'upcoming|--table' <<'TABLE'
START                    FROM NOW   JOB       RUNS
Sat 2025-03-29 11:30:00  in 30 min  system:1  root a
none                                b.timer   b.service
2 jobs after Sat 2025-03-29 11:00:00, UTC
TABLE
table_is 'upcoming|--after|2025-03-28|--delays|--table' <<'TABLE'
START                    LATEST    JOB       RUNS
Fri 2025-03-28 11:30:00  11:30:00  system:1  root a
none                     none      b.timer   b.service
2 jobs after Fri 2025-03-28 00:00:00, UTC
TABLE

# Gaps: their ends, and their lengths without rounding.
program_make "$(table_timer a '2025-03-29 12:30' '2025-03-30 14:01:01' '2025-03-30 14:02' '2025-03-31 14:02' '2025-03-31 15:02:05')"
table_is 'quiet|--nominal|--table|--least|59|--until|2025-03-31 15:02:05' <<'TABLE'
START                    END                      FROM NOW       LENGTH
Sat 2025-03-29 11:00:00  12:30:00                 now            1 h 30 min
Sat 2025-03-29 12:30:00  Sun 2025-03-30 14:01:01  in 1 h 30 min  1 d 1 h 31 min 1 s
Sun 2025-03-30 14:01:01  14:02:00                 in 1 d 3 h     59 s
Sun 2025-03-30 14:02:00  Mon 2025-03-31 14:02:00  in 1 d 3 h     1 d
Mon 2025-03-31 14:02:00  15:02:05                 in 2 d 3 h     1 h 5 s
5 gaps from Sat 2025-03-29 11:00:00 to Mon 2025-03-31 15:02:05, UTC
TABLE

# Answers without a line.
program_make x/
table_is 'upcoming|--table' <<'TABLE'
START  FROM NOW  JOB  RUNS
0 jobs after Sat 2025-03-29 11:00:00, UTC
TABLE

# ---- zones

# In the machine's zone, on both sides of clock changes: times from now are real ones. On the day on which clocks are
# put back they show 02:30 twice, so each time of that day has its offset.
table_zone="etc/localtime>/usr/share/zoneinfo/No/Where usr/share/zoneinfo/No/Where=CET"
program_make "$table_zone $(table_timer a '2025-03-30 01:30' '2025-03-30 03:00' '2025-03-30 03:30')"
table_is 'plan|--table|--until|tomorrow 12:00' <<'TABLE'
START                    FROM NOW        JOB      RUNS
Sun 2025-03-30 01:30:00  in 13 h 30 min  a.timer  a.service
Sun 2025-03-30 03:00:00  in 14 h         a.timer  a.service
Sun 2025-03-30 03:30:00  in 14 h 30 min  a.timer  a.service
3 starts from Sat 2025-03-29 12:00:00 to Sun 2025-03-30 12:00:00, No/Where
TABLE
# 2025-10-25T22:00:00Z
program_still 1761429600
program_make "$table_zone $(table_timer a '2025-10-26 00:30 UTC' '2025-10-26 01:30 UTC')"
table_is 'quiet|--nominal|--table|--until|2025-10-26 04:00' <<'TABLE'
START                          END             FROM NOW       LENGTH
Sun 2025-10-26 00:00:00+02:00  02:30:00+02:00  now            2 h 30 min
Sun 2025-10-26 02:30:00+02:00  02:30:00+01:00  in 2 h 30 min  1 h
Sun 2025-10-26 02:30:00+01:00  04:00:00+01:00  in 3 h 30 min  1 h 30 min
3 gaps from Sun 2025-10-26 00:00:00+02:00 to Sun 2025-10-26 04:00:00+01:00, No/Where
TABLE
# 2025-10-25T12:00:00Z
program_still 1761393600
program_make "$table_zone $(table_timer a '2025-10-25 21:30 UTC' '2025-10-25 23:00 UTC' '2025-10-26 00:30 UTC' '2025-10-26 01:30 UTC' '2025-10-27 01:30 UTC')"
table_is 'plan|--table|--until|2025-10-27 14:00' <<'TABLE'
START                          FROM NOW        JOB      RUNS
Sat 2025-10-25 23:30:00        in 9 h 30 min   a.timer  a.service
Sun 2025-10-26 01:00:00+02:00  in 11 h         a.timer  a.service
Sun 2025-10-26 02:30:00+02:00  in 12 h 30 min  a.timer  a.service
Sun 2025-10-26 02:30:00+01:00  in 13 h 30 min  a.timer  a.service
Mon 2025-10-27 02:30:00        in 1 d 13 h     a.timer  a.service
5 starts from Sat 2025-10-25 14:00:00 to Mon 2025-10-27 14:00:00, No/Where
TABLE
# the end of the span is on that day too, or its start
program_make "$table_zone $(table_timer a '2025-10-26 00:30 UTC')"
table_is 'plan|--table|--until|2025-10-26 12:00' <<'TABLE'
START                          FROM NOW        JOB      RUNS
Sun 2025-10-26 02:30:00+02:00  in 12 h 30 min  a.timer  a.service
1 start from Sat 2025-10-25 14:00:00 to Sun 2025-10-26 12:00:00+01:00, No/Where
TABLE
program_make "$table_zone $(table_timer a '2025-10-26 01:30 UTC') $(table_timer b 2020-01-01)"
table_is 'upcoming|--table|--after|2025-10-26 00:00' <<'TABLE'
START                          JOB      RUNS
Sun 2025-10-26 02:30:00+01:00  a.timer  a.service
none                           b.timer  b.service
2 jobs after Sun 2025-10-26 00:00:00+02:00, No/Where
TABLE
# a time from before the change, or from after it, isn't on that day
program_make "$table_zone $(table_timer a '2025-10-25 21:30 UTC') $(table_timer b '2025-10-26 01:30 UTC')"
table_is 'upcoming|--table' <<'TABLE'
START                    FROM NOW        JOB      RUNS
Sat 2025-10-25 23:30:00  in 9 h 30 min   a.timer  a.service
Sun 2025-10-26 02:30:00  in 13 h 30 min  b.timer  b.service
2 jobs after Sat 2025-10-25 14:00:00, No/Where
TABLE
# the latest time, on the next day or on the same, may be read before an earlier start
program_make "$table_zone *a.timer U/a.timer=[Timer]\\nOnCalendar=2025-10-25\\x2023:30\\nRandomizedDelaySec=5h\\x2029min\\n $(table_timer b '2025-10-25 23:00 UTC')"
table_is 'upcoming|--delays|--table' <<'TABLE'
START                          LATEST                         FROM NOW       JOB      RUNS
Sat 2025-10-25 23:30:00        Sun 2025-10-26 04:00:00+01:00  in 9 h 30 min  a.timer  a.service
Sun 2025-10-26 01:00:00+02:00  01:01:00+02:00                 in 11 h        b.timer  b.service
2 jobs after Sat 2025-10-25 14:00:00, No/Where
TABLE

# A zone whose local time is in 1969 until 05:00 UTC: such times stay in UTC.
machine_zone_text -18000 -05 '<-05>5'
program_still 0
program_make "etc/localtime=$tzif $(table_timer a '1970-01-01 00:10 UTC') $(table_timer b '1970-01-01 05:00 UTC')"
table_is 'upcoming|--table' <<'TABLE'
START                     FROM NOW   JOB      RUNS
Thu 1970-01-01 00:10:00Z  in 10 min  a.timer  a.service
Thu 1970-01-01 00:00:00   in 5 h     b.timer  b.service
2 jobs after Thu 1970-01-01 00:00:00Z, local
TABLE
table_is 'upcoming|--table|--utc' <<'TABLE'
START                    FROM NOW   JOB      RUNS
Thu 1970-01-01 00:10:00  in 10 min  a.timer  a.service
Thu 1970-01-01 05:00:00  in 5 h     b.timer  b.service
2 jobs after Thu 1970-01-01 00:00:00, UTC
TABLE

# ---- errors in files, and streams

# What is skipped comes before the table, and the status is 1.
program_still 1743246000
program_make 'C/a=A\n0\x2012\x20*\x20*\x20*\x20root\x20b\n C/b=0\x2012\x20*\x20*\x20*\x20root\x20b\n'
table_skipped='agenda: not planned: root/etc/cron.d/a: cron ignores this file because of line 1
root/etc/cron.d/a:1: error: expected NAME=VALUE, or five fields and a command [BadSetting]'
table_is 'upcoming|--table' "$table_skipped\n" 1 <<'TABLE'
START                    FROM NOW  JOB  RUNS
Sat 2025-03-29 12:00:00  in 1 h    b:1  root b
1 job after Sat 2025-03-29 11:00:00, UTC
TABLE
table_is 'upcoming|--table|--strict' "$table_skipped\n" 1 </dev/null
machine_by=(bash -c 'exec "$@" 2>&1' both "${machine_by[@]}")
table_is 'upcoming|--table' '' 1 <<TABLE
$table_skipped
START                    FROM NOW  JOB  RUNS
Sat 2025-03-29 12:00:00  in 1 h    b:1  root b
1 job after Sat 2025-03-29 11:00:00, UTC
TABLE
machine_by=()

# A table that can't be written: the status is 3, and standard error says so, except if a reader has gone.
for table_to in '>&-' '>/dev/full'; do
  [[ $table_to != *full ]] || [ -c /dev/full ] || continue
  machine_by=(bash -c "exec \"\$@\" $table_to" streams)
  program_make 'S/u=@daily\x20a\n'
  table_is 'upcoming|--table|--after|2024-01-01' 'agenda: Device\n' 3 </dev/null
done
# more than a pipe holds
program_make 'S/u=*\x20*\x20*\x20*\x20*\x20a\n'
machine_by=(bash -c '{ "$@"; echo "$?" >"$0"; } | head -n 1' "$work/status")
table_is 'plan|--table|--since|2024-01-01|--until|+1w' <<'TABLE'
START                    JOB  RUNS
TABLE
[ "$(cat "$work/status")" = 3 ] || tell "status $(cat "$work/status")"
count "agenda machine: the status if the reader of a table goes"
machine_by=()

# 28,800 lines.
program_make S/u=
printf '* * * * * a%02d\n' {1..20} >"$machine_folder/root/var/spool/cron/crontabs/u"
{
  echo 'START                    JOB   RUNS'
  awk 'BEGIN {
    for (minute = 0; minute < 1440; minute++)
      for (job = 1; job <= 20; job++)
        printf "Mon 2024-01-01 %02d:%02d:00  %-4s  a%02d\n", int(minute / 60), minute % 60, "u:" job, job
  }'
  echo '28800 starts from Mon 2024-01-01 00:00:00 to Tue 2024-01-02 00:00:00, UTC'
} >"$work/table"
table_is 'plan|--table|--since|2024-01-01|--until|2024-01-02' <"$work/table"

# ---- a terminal

# Rows of COLUMNS, and of the columns to which a line of 250 characters is cut. The program doesn't ask the terminal.
table_widths() {
  local given width said
  printf -v said '%0250d' 0
  program_make "etc/crontab=0\\x205\\x201\\x201\\x20*\\x20root\\x20$said\\n"
  while IFS='|' read -r given width; do
    {
      printf '%s\n' 'START                    JOB       RUNS' "Mon 2024-01-01 05:00:00  system:1  root $said" |
        if [ "$width" = all ]; then cat; else sed -E "s/^(.{$((width - 1))}).{2,}/\\1…/"; fi
      echo '1 start from Mon 2024-01-01 00:00:00 to Tue 2024-01-02 00:00:00, UTC'
    } >"$work/table"
    machine_by=(env ${given:+"COLUMNS=$given"})
    [ -n "$given" ] || machine_by=(env -u COLUMNS)
    table_is 'plan|--table|--since|2024-01-01|--until|2024-01-02' <"$work/table"
  done
  machine_by=()
}
table_widths <<'ROWS'
20|20
39|39
40|40
80|80
200|200
290|290
291|all
999999|all
19|all
0|all
-5|all
+40|all
040|all
x|all
4x|all
1000000|all
12345678|all
|all
ROWS

if passed_over "agenda machine: the rows on a terminal" script stty; then
  return 0
fi

# The present root answers the arguments $2, with bars between them, on a terminal with COLUMNS=$1, or without that if $1 is
# empty, with what is on standard input.
table_terminal() {
  local words command columns=(-u COLUMNS)
  IFS='|' read -r -a words <<<"$2"
  cat >"$work/out.wanted"
  [ -z "$1" ] || columns=("COLUMNS=$1")
  printf -v command '%q ' "$machine_folder/whole/agenda" machine "${words[@]}" --root root
  run_in "$machine_folder" env "${columns[@]}" TERM=xterm SHELL=/bin/sh script -qec "stty cols 30; exec $command" /dev/null
  sed -i 's/\r$//' "$work/out"
  program_compare "'$2' on a terminal with COLUMNS='$1'" "$work/out.wanted" /dev/null 0
}

# Control characters are shown as ? on a terminal, also those of two bytes. No character is cut: 😀 has two columns.
table_characters() {
  local width shown
  program_make 'etc/crontab=0\x205\x201\x201\x20*\x20root\x20\x01\t\x1b[31mr\x7f\xc2\x85\xc2\x9fe\xc3\xa9\xe2\x82\xac\xf0\x9f\x98\x80.\xc2\xa0|\xce\xb1\n'
  while IFS= read -r shown; do
    width=${shown%% *}
    printf '%s\n' 'START                    JOB       RUNS' "Mon 2024-01-01 05:00:00  system:1  root ${shown#* }" \
      '1 start from Mon 2024-01-01 00:00:00 to Tue 2024-01-02 00:00:00, UTC' >"$work/table"
    [ "$width" != - ] || width=
    table_terminal "$width" 'plan|--since|2024-01-01|--until|2024-01-02' <"$work/table"
    table_terminal "$width" 'plan|--table|--since|2024-01-01|--until|2024-01-02' <"$work/table"
  done
  # without a terminal they stay
  printf '%b\n' 'START                    JOB       RUNS' \
    'Mon 2024-01-01 05:00:00  system:1  root \x01\t\x1b[31mr\x7f\xc2\x85\xc2\x9feé€😀.\xc2\xa0|α' \
    '1 start from Mon 2024-01-01 00:00:00 to Tue 2024-01-02 00:00:00, UTC' >"$work/table"
  table_is 'plan|--table|--since|2024-01-01|--until|2024-01-02' <"$work/table"
}
printf -v table_blank '\xc2\xa0'
table_characters <<ROWS
- ???[31mr???eé€😀.$table_blank|α
60 ???[31mr???eé€😀.$table_blank|α
59 ???[31mr???eé€😀.$table_blank…
58 ???[31mr???eé€😀.…
57 ???[31mr???eé€😀…
56 ???[31mr???eé€…
55 ???[31mr???eé€…
54 ???[31mr???eé…
ROWS

# On a terminal --text and --json print lines as they are.
program_make 'etc/crontab=0\x205\x201\x201\x20*\x20root\x20\x01a\n'
printf '2024-01-01T05:00:00Z\tsystem:1\troot \x01a\n' >"$work/table"
table_terminal 40 'upcoming|--text|--utc|--after|2024-01-01' <"$work/table"
table_terminal 40 'upcoming|--table|--utc|--after|2024-01-01' <<'TABLE'
START                    JOB       RUNS
Mon 2024-01-01 05:00:00  system:1  root…
1 job after Mon 2024-01-01 00:00:00, UTC
TABLE
