# shellcheck shell=bash disable=SC2154,SC2034
# Rows of the tables of `agenda machine upcoming`, `plan` and `quiet`: their columns and last lines, the dates on which times
# have their offset, when a table is printed, and where lines are cut. Expected tables are written by hand: CET is the zone of
# Berlin, where clocks skip 02:00 to 03:00 on 30 March 2025, and show it twice on 26 October 2025.

# shellcheck source=/dev/null
. "$top/rows/lib/program.sh"

# The present root answers the arguments $1 with the table on standard input. `|` at the end of a line shows blanks there.
tables_are() {
  local words
  sed 's/|$//' >"$work/out.wanted"
  : >"$work/err.wanted"
  IFS=' ' read -r -a words <<<"$1"
  program_run "${words[@]}" --root root
  program_compare "the table of $1" "$work/out.wanted" "$work/err.wanted" 0
}

# The present root answers the arguments $2 on a terminal, after the command $1 there, with what is on standard input.
tables_on_terminal() {
  local words command
  sed 's/|$//' >"$work/out.wanted"
  : >"$work/err.wanted"
  IFS=' ' read -r -a words <<<"$2"
  printf -v command '%q ' "$machine_folder/whole/agenda" machine "${words[@]}" --root root
  run_in "$machine_folder" env TERM=xterm SHELL=/bin/sh script -qec "$1 exec $command" /dev/null
  sed -i 's/\r$//' "$work/out"
  program_compare "$2 on a terminal, after '$1'" "$work/out.wanted" "$work/err.wanted" 0
}

# ---- clocks that are put forward and back

# The job of the crontab starts once where clocks show its time twice, and a timer starts twice.
program_make 'usr/sbin/cron= etc/localtime=CET etc/crontab=30\x202\x20*\x20*\x20*\x20root\x20a\n *a.timer U/a.timer=[Timer]\nOnCalendar=04:00\nRandomizedDelaySec=1h\n'
tables_are 'plan --table --since 2025-03-29T11:00:00Z --until 2025-03-31T10:00:00Z' <<'TABLE'
START                    JOB       RUNS
Sun 2025-03-30 03:00:00  system:1  root a
Sun 2025-03-30 04:00:00  a.timer   a.service
Mon 2025-03-31 02:30:00  system:1  root a
Mon 2025-03-31 04:00:00  a.timer   a.service
4 starts from Sat 2025-03-29 12:00:00 to Mon 2025-03-31 12:00:00, local
TABLE
tables_are 'upcoming --table --delays --after 2025-03-29T11:00:00Z' <<'TABLE'
START                    LATEST    JOB       RUNS
Sun 2025-03-30 03:00:00  03:00:00  system:1  root a
Sun 2025-03-30 04:00:00  05:01:00  a.timer   a.service
2 jobs after Sat 2025-03-29 12:00:00, local
TABLE
tables_are 'quiet --table --since 2025-03-29T11:00:00Z --until 2025-03-30T22:00:00Z --least 50400' <<'TABLE'
START                    END                      LENGTH
Sat 2025-03-29 12:00:00  Sun 2025-03-30 03:00:00  14 h
Sun 2025-03-30 05:01:00  Mon 2025-03-31 00:00:00  18 h 59 min
2 gaps from Sat 2025-03-29 12:00:00 to Mon 2025-03-31 00:00:00, local
TABLE
tables_are 'plan --table --utc --since 2025-03-29T11:00:00Z --until 2025-03-30T04:00:00Z' <<'TABLE'
START                    JOB       RUNS
Sun 2025-03-30 02:30:00  system:1  root a
1 start from Sat 2025-03-29 11:00:00 to Sun 2025-03-30 04:00:00, UTC
TABLE

# On a date on which the clock is put back between two of the times, each has its offset: between rows, or up to the last line.
program_make 'usr/sbin/cron= etc/localtime=CET etc/crontab=30\x20*\x20*\x20*\x20*\x20root\x20a\n'
tables_are 'plan --table --since 2025-10-25T22:00:00Z --until 2025-10-26T02:00:00Z' <<'TABLE'
START                          JOB       RUNS
Sun 2025-10-26 00:30:00+02:00  system:1  root a
Sun 2025-10-26 01:30:00+02:00  system:1  root a
Sun 2025-10-26 02:30:00+02:00  system:1  root a
Sun 2025-10-26 02:30:00+01:00  system:1  root a
4 starts from Sun 2025-10-26 00:00:00+02:00 to Sun 2025-10-26 03:00:00+01:00, local
TABLE
tables_are 'plan --table --since 2025-10-26T00:15:00Z --until 2025-10-26T00:45:00Z' <<'TABLE'
START                    JOB       RUNS
Sun 2025-10-26 02:30:00  system:1  root a
1 start from Sun 2025-10-26 02:15:00 to Sun 2025-10-26 02:45:00, local
TABLE
tables_are 'upcoming --table --after 2025-10-26T00:45:00Z' <<'TABLE'
START                          JOB       RUNS
Sun 2025-10-26 02:30:00+01:00  system:1  root a
1 job after Sun 2025-10-26 02:45:00+02:00, local
TABLE
tables_are 'quiet --table --nominal --since 2025-10-26T00:30:00Z --until 2025-10-26T02:30:00Z' <<'TABLE'
START                          END             LENGTH
Sun 2025-10-26 02:30:00+02:00  02:30:00+01:00  1 h
Sun 2025-10-26 02:30:00+01:00  03:30:00+01:00  1 h
2 gaps from Sun 2025-10-26 02:30:00+02:00 to Sun 2025-10-26 03:30:00+01:00, local
TABLE

# ---- jobs without a start, no jobs, and the end of the years

program_make 'usr/sbin/cron= etc/crontab=0\x200\x2030\x202\x20*\x20root\x20a\xc3\xa9\n@daily\x20root\x20b\x20\x20c\n'
tables_are 'upcoming --table --delays --after 2024-01-01T00:00:00Z' <<'TABLE'
START                    LATEST    JOB       RUNS
Tue 2024-01-02 00:00:00  00:00:00  system:2  root b  c
none                     none      system:1  root aé
2 jobs after Mon 2024-01-01 00:00:00, UTC
TABLE
program_make x/
tables_are 'plan --table --since 1970-01-01T00:00:00Z --until 3000-01-01T00:00:00Z' <<'TABLE'
START  JOB  RUNS
0 starts from Thu 1970-01-01 00:00:00 to Wed 3000-01-01 00:00:00, UTC
TABLE
tables_are 'quiet --table --since 2024-01-01T00:00:00Z --until 2024-01-02T00:00:00Z' <<'TABLE'
START                    END                      LENGTH
Mon 2024-01-01 00:00:00  Tue 2024-01-02 00:00:00  1 d
1 gap from Mon 2024-01-01 00:00:00 to Tue 2024-01-02 00:00:00, UTC
TABLE

# ---- a terminal

if passed_over "agenda machine: the tables on a terminal" script; then
  return 0
fi
program_make 'usr/sbin/cron= etc/crontab=@daily\x20root\x20b\x1b[1mlong\n'
tables_on_terminal 'unset COLUMNS;' 'upcoming --after 2024-01-01T00:00:00Z' <<'TABLE'
START                    JOB       RUNS
Tue 2024-01-02 00:00:00  system:1  root b?[1mlong
1 job after Mon 2024-01-01 00:00:00, UTC
TABLE
tables_on_terminal 'export COLUMNS=40;' 'upcoming --after 2024-01-01T00:00:00Z' <<'TABLE'
START                    JOB       RUNS
Tue 2024-01-02 00:00:00  system:1  root…
1 job after Mon 2024-01-01 00:00:00, UTC
TABLE
tables_on_terminal 'export COLUMNS=19;' 'upcoming --after 2024-01-01T00:00:00Z' <<'TABLE'
START                    JOB       RUNS
Tue 2024-01-02 00:00:00  system:1  root b?[1mlong
1 job after Mon 2024-01-01 00:00:00, UTC
TABLE
tables_on_terminal 'export COLUMNS=40;' 'upcoming --text --after 2024-01-01T00:00:00Z' <<TABLE
2024-01-02T00:00:00+00:00${tab}system:1${tab}root b$(printf '\033')[1mlong
TABLE
