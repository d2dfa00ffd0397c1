# shellcheck shell=bash disable=SC2154,SC2034
# Rows of the tables of `agenda machine next`: the columns and the last line, `none`, the dates on which times have their
# offset, how far away starts are, and when a table is printed. Expected tables are written by hand: CET is the zone of
# Berlin, where clocks skip 02:00 to 03:00 on 30 March 2025, and show it twice on 26 October 2025.

# shellcheck source=/dev/null
. "$top/rows/lib/program.sh"

# The rule $1 with the arguments $2 has the table on standard input, with the status 0.
next_is() {
  local words
  cat >"$work/out.wanted"
  IFS=' ' read -r -a words <<<"$2"
  program_run next "$1" "${words[@]}"
  program_compare "the table of next '$1' $2" "$work/out.wanted" /dev/null 0
}

# The rule $1 with the arguments $2 is rejected with the line $3, and nothing is printed.
next_fails() {
  local words
  echo "$3" >"$work/err.wanted"
  IFS=' ' read -r -a words <<<"$2"
  program_run next "$1" "${words[@]}"
  program_compare "the error of next '$1' $2" /dev/null "$work/err.wanted" 1
}

# The rule $3 with the arguments $2 prints what is on standard input on a terminal, after the command $1 there.
next_on_terminal() {
  local words command
  cat >"$work/out.wanted"
  IFS=' ' read -r -a words <<<"$2"
  printf -v command '%q ' "$machine_folder/whole/agenda" machine next "${words[@]}" "$3"
  run_in "$machine_folder" env TERM=xterm SHELL=/bin/sh script -qec "$1 exec $command" /dev/null
  sed -i 's/\r$//' "$work/out"
  program_compare "next '$3' $2 on a terminal, after '$1'" "$work/out.wanted" /dev/null 0
}

# ---- rules of both kinds, and the number of starts

next_is '30 2 * * *' '--table --utc --count 2 --after 2024-03-30T12:00:00Z' <<'TABLE'
START
Sun 2024-03-31 02:30:00
Mon 2024-04-01 02:30:00
2 starts after Sat 2024-03-30 12:00:00, UTC
TABLE
next_is 'Mon..Fri 09:00' '--table --utc --after 2024-03-30T12:00:00Z' <<'TABLE'
START
Mon 2024-04-01 09:00:00
Tue 2024-04-02 09:00:00
Wed 2024-04-03 09:00:00
Thu 2024-04-04 09:00:00
Fri 2024-04-05 09:00:00
5 starts after Sat 2024-03-30 12:00:00, UTC
TABLE
next_is @daily '--table --utc --count 1 --after 2024-03-30T12:00:00Z' <<'TABLE'
START
Sun 2024-03-31 00:00:00
1 start after Sat 2024-03-30 12:00:00, UTC
TABLE
next_is '0 0 31 2 *' '--table --utc --after 2024-03-30T12:00:00Z' <<'TABLE'
START
none
0 starts after Sat 2024-03-30 12:00:00, UTC
TABLE
# the last day of the planner's years: there is one start, and `none` follows only if more are requested
next_is 2999-12-31 '--table --utc --after 2024-03-30T12:00:00Z' <<'TABLE'
START
Tue 2999-12-31 00:00:00
none
1 start after Sat 2024-03-30 12:00:00, UTC
TABLE
next_is 2999-12-31 '--table --utc --count 1 --after 2024-03-30T12:00:00Z' <<'TABLE'
START
Tue 2999-12-31 00:00:00
1 start after Sat 2024-03-30 12:00:00, UTC
TABLE
next_is '* * * * *' '--table --utc --count 1 --after 3000-01-01T00:00:00Z' <<'TABLE'
START
none
0 starts after Wed 3000-01-01 00:00:00, UTC
TABLE

# The number of starts is rejected before the rule. Neither leaves a part of a table.
next_fails x '--table --utc --count 0' "agenda: --count: not from 1 to 1000: '0' [BadCount]"
next_fails @daily '--table --utc --count 1001' "agenda: --count: not from 1 to 1000: '1001' [BadCount]"
next_fails '99 * * * *' '--table --utc' "agenda: rule: minute '99': out of range 0-59 [OutOfRange]"

# ---- clocks that are put forward and back

program_make etc/zone=CET
next_zone=$machine_folder/$machine_root/etc/zone
# a cron rule starts once where clocks show its time twice
next_is '30 2 * * *' "--table --zone $next_zone --count 2 --after 2025-03-29T12:00:00Z" <<TABLE
START
Sun 2025-03-30 03:00:00
Mon 2025-03-31 02:30:00
2 starts after Sat 2025-03-29 13:00:00, $next_zone
TABLE
next_is '30 2 * * *' "--table --zone $next_zone --count 2 --after 2025-10-25T12:00:00Z" <<TABLE
START
Sun 2025-10-26 02:30:00
Mon 2025-10-27 02:30:00
2 starts after Sat 2025-10-25 14:00:00, $next_zone
TABLE
# on a date on which the clock is put back between two of the times each has its offset: between rows, or after the last line's
next_is '30 * * * *' "--table --zone $next_zone --count 5 --after 2025-10-25T21:00:00Z" <<TABLE
START
Sat 2025-10-25 23:30:00
Sun 2025-10-26 00:30:00+02:00
Sun 2025-10-26 01:30:00+02:00
Sun 2025-10-26 02:30:00+02:00
Sun 2025-10-26 02:30:00+01:00
5 starts after Sat 2025-10-25 23:00:00, $next_zone
TABLE
# an event doesn't start at a time that is shown again
next_is '*:30' "--table --zone $next_zone --count 2 --after 2025-10-26T00:00:00Z" <<TABLE
START
Sun 2025-10-26 02:30:00+02:00
Sun 2025-10-26 03:30:00+01:00
2 starts after Sun 2025-10-26 02:00:00+02:00, $next_zone
TABLE
next_is '30 * * * *' "--table --zone $next_zone --count 1 --after 2025-10-26T00:45:00Z" <<TABLE
START
Sun 2025-10-26 02:30:00+01:00
1 start after Sun 2025-10-26 02:45:00+02:00, $next_zone
TABLE
next_is '30 * * * *' "--table --zone $next_zone --count 1 --after 2025-10-26T01:15:00Z" <<TABLE
START
Sun 2025-10-26 02:30:00
1 start after Sun 2025-10-26 02:15:00, $next_zone
TABLE
# the zone of an event decides when it starts, and that of the machine how it is shown
next_is '09:00 UTC' "--table --zone $next_zone --count 1 --after 2024-03-31T12:00:00Z" <<TABLE
START
Mon 2024-04-01 11:00:00
1 start after Sun 2024-03-31 14:00:00, $next_zone
TABLE
# the end of the planner's years is shown in UTC there: its local time is after them
next_is 2999-12-31 "--table --zone $next_zone --count 2 --after 2999-12-31T00:30:00Z" <<TABLE
START
none
0 starts after Tue 2999-12-31 01:30:00, $next_zone
TABLE
next_is '2999-12-31 23:30 UTC' "--table --zone $next_zone --count 1 --after 2999-12-31T22:00:00Z" <<TABLE
START
Tue 2999-12-31 23:30:00Z
1 start after Tue 2999-12-31 23:00:00, $next_zone
TABLE

# ---- how far away starts are

if ! passed_over "rows/machine-next.sh, a clock that stands still" cc &&
  cc -shared -fPIC -o "$work/next-clock.so" "$top/rows/lib/still-clock.c"; then
  # a Friday, 2026-03-27T17:04:05Z
  machine_by=(env "LD_PRELOAD=$work/next-clock.so" STILL_CLOCK=1774631045)
  next_is '*:04:50' '--table --utc --count 3' <<'TABLE'
START                    FROM NOW
Fri 2026-03-27 17:04:50  in 45 s
Fri 2026-03-27 18:04:50  in 1 h
Fri 2026-03-27 19:04:50  in 2 h
3 starts after Fri 2026-03-27 17:04:05, UTC
TABLE
  # after now, whether that is given or not
  next_is '0 18 * * *' '--table --utc --count 2 --after now' <<'TABLE'
START                    FROM NOW
Fri 2026-03-27 18:00:00  in 55 min
Sat 2026-03-28 18:00:00  in 1 d
2 starts after Fri 2026-03-27 17:04:05, UTC
TABLE
  next_is '0 18 * * *' '--table --utc --count 1 --after 2026-03-27T17:04:05Z' <<'TABLE'
START                    FROM NOW
Fri 2026-03-27 18:00:00  in 55 min
1 start after Fri 2026-03-27 17:04:05, UTC
TABLE
  next_is '0 18 * * *' '--table --utc --count 1 --after today' <<'TABLE'
START
Fri 2026-03-27 18:00:00
1 start after Fri 2026-03-27 00:00:00, UTC
TABLE
  # nothing follows `none`, not even blanks
  next_is '2026-03-27 17:10' '--table --utc' <<'TABLE'
START                    FROM NOW
Fri 2026-03-27 17:10:00  in 5 min
none
1 start after Fri 2026-03-27 17:04:05, UTC
TABLE
  next_is 2026-01-01 '--table --utc' <<'TABLE'
START  FROM NOW
none
0 starts after Fri 2026-03-27 17:04:05, UTC
TABLE
  machine_by=()
fi

# ---- where lines are cut, and a terminal

# In a pipe too: 19 columns of a line, and an ellipsis. The last line isn't cut.
machine_by=(env COLUMNS=20)
next_is '30 2 * * *' '--table --utc --count 1 --after 2024-03-30T12:00:00Z' <<'TABLE'
START
Sun 2024-03-31 02:3…
1 start after Sat 2024-03-30 12:00:00, UTC
TABLE
machine_by=(env COLUMNS=23)
next_is '30 2 * * *' '--table --utc --count 1 --after 2024-03-30T12:00:00Z' <<'TABLE'
START
Sun 2024-03-31 02:30:00
1 start after Sat 2024-03-30 12:00:00, UTC
TABLE
machine_by=()
# in a pipe there is no table without the option
next_is '30 2 * * *' '--utc --count 1 --after 2024-03-30T12:00:00Z' <<'LINES'
2024-03-31T02:30:00Z
LINES
next_is '30 2 * * *' '--text --utc --count 1 --after 2024-03-30T12:00:00Z' <<'LINES'
2024-03-31T02:30:00Z
LINES

if passed_over "agenda machine next: the table on a terminal" script; then
  return 0
fi
next_on_terminal 'unset COLUMNS;' '--utc --count 1 --after 2024-03-30T12:00:00Z' '30 2 * * *' <<'TABLE'
START
Sun 2024-03-31 02:30:00
1 start after Sat 2024-03-30 12:00:00, UTC
TABLE
next_on_terminal 'export COLUMNS=20;' '--utc --count 2 --after 2999-12-30T12:00:00Z' 2999-12-31 <<'TABLE'
START
Tue 2999-12-31 00:0…
none
1 start after Mon 2999-12-30 12:00:00, UTC
TABLE
next_on_terminal 'export COLUMNS=20;' '--text --utc --count 1 --after 2024-03-30T12:00:00Z' '30 2 * * *' <<'LINES'
2024-03-31T02:30:00Z
LINES
next_on_terminal 'export COLUMNS=20;' '--json --utc --count 1 --after 2024-03-30T12:00:00Z' '30 2 * * *' <<'LINES'
{"start":"2024-03-31T02:30:00Z"}
LINES
