# shellcheck shell=bash disable=SC2154,SC2034
# Rows of `agenda machine downtime`, `clear`, `changes` and `week`: what a machine's jobs miss, whether one starts, what differs from an earlier
# agenda, and how many start in each hour, with what is skipped and with local times; their tables, their spans if none is given, and their errors. Expected lines are worked out by hand: CET
# is the zone of Berlin, where clocks skip 02:00 to 03:00 on 31 March 2024 and 30 March 2025, and show it twice on 26 October 2025.

# shellcheck source=/dev/null
. "$top/rows/lib/program.sh"
# shellcheck source=/dev/null
. "$top/rows/lib/pictures.sh"

# The present root answers the arguments $1, with bars between them, with what is on standard input, and nothing on standard error. $2 is the
# status.
windows_is() {
  local words
  cat >"$work/out.wanted"
  IFS='|' read -r -a words <<<"$1"
  program_run "${words[@]}" --root root
  program_compare "'$1'" "$work/out.wanted" /dev/null "${2:-0}"
}

# The present root answers the arguments $1, with bars between them, with the picture of standard input, as in picture_of; $2 is its last line.
windows_picture() {
  picture_of "$2"
  windows_is "$1" <"$work/picture.wanted"
}

# The same on a terminal of 40 columns.
windows_terminal() {
  local words command
  cat >"$work/out.wanted"
  IFS='|' read -r -a words <<<"$1"
  printf -v command '%q ' "$machine_folder/whole/agenda" machine "${words[@]}" --root root
  run_in "$machine_folder" env COLUMNS=40 TERM=xterm SHELL=/bin/sh script -qec "exec $command" /dev/null
  sed -i 's/\r$//' "$work/out"
  program_compare "'$1' on a terminal" "$work/out.wanted" /dev/null "${2:-0}"
}

# ---- downtime

# Times are local, or in UTC. A job of @reboot has the end of the span twice.
program_answers <<'ROWS'
etc/crontab=0\x202\x20*\x20*\x20*\x20root\x20a\n@reboot\x20root\x20b\n *p.timer U/p.timer=[Timer]\nOnCalendar=03:00\nPersistent=yes\nAccuracySec=1us\n|downtime --utc --since 2024-01-01T01:30:00Z --until 2024-01-01T04:00:00Z|2024-01-01T02:00:00Z>2024-01-01T02:00:00Z>1>lost>system:1>root a;2024-01-01T03:00:00Z>2024-01-01T03:00:00Z>1>made up>p.timer>p.service;2024-01-01T04:00:00Z>2024-01-01T04:00:00Z>1>at boot>system:2>root b|||0
etc/crontab=0\x202\x20*\x20*\x20*\x20root\x20a\n@reboot\x20root\x20b\n|downtime --since 2024-01-01T01:30:00Z --upto 2024-01-01T04:00:00Z|2024-01-01T02:00:00+00:00>2024-01-01T02:00:00+00:00>1>lost>system:1>root a;2024-01-01T04:00:00+00:00>2024-01-01T04:00:00+00:00>1>at boot>system:2>root b|||0
etc/localtime=CET etc/crontab=30\x202\x20*\x20*\x20*\x20root\x20a\n@reboot\x20root\x20b\n|downtime --since 2024-03-30T23:00:00Z --until 2024-03-31T22:00:00Z|2024-03-31T03:00:00+02:00>2024-03-31T03:00:00+02:00>1>lost>system:1>root a;2024-04-01T00:00:00+02:00>2024-04-01T00:00:00+02:00>1>at boot>system:2>root b|||0
etc/localtime=CET S/u=*/30\x20*\x20*\x20*\x20*\x20a\n|downtime --since 2025-10-26T00:00:00Z --until 2025-10-26T02:00:00Z|2025-10-26T02:00:00+02:00>2025-10-26T02:30:00+01:00>4>lost>u:1>a|||0
x/|downtime --since 2024-01-01 --until 2024-01-02||||0
S/u=@daily\x20a\n|downtime --since 2024-01-01T00:00:01Z --until 2024-01-01T01:00:00Z||||0
S/u=@daily\x20a\n@daily\x20b\n|downtime --utc --since 2024-01-01 --until 2024-01-02 --except u:1|2024-01-01T00:00:00Z>2024-01-01T00:00:00Z>1>lost>u:2>b|||0
S/u=@daily\x20a\n@daily\x20b\n|downtime --utc --since 2024-01-01 --until 2024-01-02 --only *:2|2024-01-01T00:00:00Z>2024-01-01T00:00:00Z>1>lost>u:2>b|||0
ROWS

# JSON has the local times after those in UTC, and the file of each job and its line there.
program_answers <<'ROWS'
etc/localtime=CET etc/crontab=30\x202\x20*\x20*\x20*\x20root\x20a\n@reboot\x20root\x20b\n *p.timer U/p.timer=[Timer]\nOnCalendar=04:00\nPersistent=yes\n|downtime --json --since 2024-03-30T23:00:00Z --until 2024-03-31T22:00:00Z|{"first":"2024-03-31T01:00:00Z","first_local":"2024-03-31T03:00:00+02:00","last":"2024-03-31T01:00:00Z","last_local":"2024-03-31T03:00:00+02:00","starts":1,"then":"lost","job":"system:1","path":"root/etc/crontab","line":1,"user":"root","run":"a"};{"first":"2024-03-31T02:00:00Z","first_local":"2024-03-31T04:00:00+02:00","last":"2024-03-31T02:00:00Z","last_local":"2024-03-31T04:00:00+02:00","starts":1,"then":"made up","job":"p.timer","path":"root/usr/lib/systemd/system/p.timer","line":null,"run":"p.service"};{"first":"2024-03-31T22:00:00Z","first_local":"2024-04-01T00:00:00+02:00","last":"2024-03-31T22:00:00Z","last_local":"2024-04-01T00:00:00+02:00","starts":1,"then":"at boot","job":"system:2","path":"root/etc/crontab","line":2,"user":"root","run":"b"}|||0
S/u=#\n*/20\x20*\x20*\x20*\x20*\x20a\n|downtime --json --utc --since 2024-01-01T00:00:00Z --until 2024-01-01T01:00:00Z|{"first":"2024-01-01T00:00:00Z","last":"2024-01-01T00:40:00Z","starts":3,"then":"lost","job":"u:2","path":"root/var/spool/cron/crontabs/u","line":2,"run":"a"}|||0
S/u=@daily\x20a\n|downtime --json --since 2024-01-01T00:00:01Z --until 2024-01-01T01:00:00Z||||0
ROWS

# The last boolean counts, that of a drop-in too. The accuracy of timers that set none is that of systemd's configuration. Only enabled timers
# are planned, unless --all is given.
program_answers <<'ROWS'
*p.timer U/p.timer=[Timer]\nOnCalendar=03:00\nPersistent=yes\n E/p.timer.d/x.conf=[Timer]\nPersistent=no\n|downtime --utc --since 2024-01-01 --until 2024-01-02|2024-01-01T03:00:00Z>2024-01-01T03:00:00Z>1>lost>p.timer>p.service|||0
*p.timer U/p.timer=[Timer]\nOnCalendar=03:00\n E/p.timer.d/x.conf=[Timer]\nPersistent=true\nPersistent=\n|downtime --utc --since 2024-01-01 --until 2024-01-02|2024-01-01T03:00:00Z>2024-01-01T03:00:00Z>1>made up>p.timer>p.service|||0
*a.timer U/a.timer=DAILY etc/systemd/system.conf=[Manager]\nDefaultTimerAccuracySec=1h\n|downtime --utc --since 2024-01-01T01:00:00Z --until 2024-01-01T02:00:00Z|2024-01-01T00:00:00Z>2024-01-01T00:00:00Z>1>lost>a.timer>a.service|||0
*a.timer U/a.timer=DAILY|downtime --utc --since 2024-01-01T01:00:00Z --until 2024-01-01T02:00:00Z||||0
U/a.timer=DAILY|downtime --utc --since 2024-01-01 --until 2024-01-02||||0
U/a.timer=DAILY|downtime --all --utc --since 2024-01-01 --until 2024-01-02|2024-01-01T00:00:00Z>2024-01-01T00:00:00Z>1>lost>a.timer>a.service|||0
ROWS

# What is skipped is reported before the answer. With --strict the first error stops it.
program_answers <<'ROWS'
C/a/ S/u=@daily\x20a\n|downtime --utc --since 2024-01-01 --until 2024-01-02|2024-01-01T00:00:00Z>2024-01-01T00:00:00Z>1>lost>u:1>a||C/a not readable|1
S/u=x\n@daily\x20a\n S/v=@daily\x20b\n|downtime --utc --since 2024-01-01 --until 2024-01-02|2024-01-01T00:00:00Z>2024-01-01T00:00:00Z>1>lost>v:1>b|root/var/spool/cron/crontabs/u:1: error: expected NAME=VALUE, or five fields and a command [BadSetting]|not S/u cron ignores this file because of line 1|1
S/u=x\n@daily\x20a\n S/v=@daily\x20b\n|downtime --strict --utc --since 2024-01-01 --until 2024-01-02||root/var/spool/cron/crontabs/u:1: error: expected NAME=VALUE, or five fields and a command [BadSetting]|not S/u cron ignores this file because of line 1|1
*a.timer E/a.timer= U/a.timer|downtime --utc --since 2024-01-01 --until 2024-01-02|||E/a.timer masked|0
ROWS

# ---- the table of downtime

# Columns are as wide as their longest field. The last line has how many jobs are lost, made up and at boot.
program_make 'usr/sbin/cron= etc/crontab=0\x202\x20*\x20*\x20*\x20root\x20a\x20\x20b\n@reboot\x20root\x20c\n
  *p.timer U/p.timer=[Timer]\nOnCalendar=03:00\nPersistent=yes\nAccuracySec=1us\n
  *q.timer U/q.timer=[Timer]\nOnCalendar=hourly\nRandomizedDelaySec=30min\nAccuracySec=1us\n'
windows_is 'downtime|--table|--since|2024-01-01T01:30:00Z|--until|2024-01-01T04:00:00Z' <<'TABLE'
FIRST                    LAST                     COUNT  THEN     JOB       RUNS
Mon 2024-01-01 01:00:00  Mon 2024-01-01 03:00:00  3      lost     q.timer   q.service
Mon 2024-01-01 02:00:00  Mon 2024-01-01 02:00:00  1      lost     system:1  root a  b
Mon 2024-01-01 03:00:00  Mon 2024-01-01 03:00:00  1      made up  p.timer   p.service
Mon 2024-01-01 04:00:00  Mon 2024-01-01 04:00:00  1      at boot  system:2  root c
4 jobs: 2 lost, 1 made up, 1 at boot; down from Mon 2024-01-01 01:30:00 to Mon 2024-01-01 04:00:00, UTC
TABLE
windows_is 'downtime|--table|--utc|--except|system:2|--since|2024-01-01T01:40:00Z|--until|2024-01-01T02:00:00Z' <<'TABLE'
FIRST  LAST  COUNT  THEN  JOB  RUNS
0 jobs: 0 lost, 0 made up, 0 at boot; down from Mon 2024-01-01 01:40:00 to Mon 2024-01-01 02:00:00, UTC
TABLE
windows_is 'downtime|--table|--except|q.timer|--except|system:2|--since|2024-01-01|--until|2024-01-04|--zone|UTC' <<'TABLE'
FIRST                    LAST                     COUNT  THEN     JOB       RUNS
Mon 2024-01-01 02:00:00  Wed 2024-01-03 02:00:00  3      lost     system:1  root a  b
Mon 2024-01-01 03:00:00  Wed 2024-01-03 03:00:00  3      made up  p.timer   p.service
2 jobs: 1 lost, 1 made up, 0 at boot; down from Mon 2024-01-01 00:00:00 to Thu 2024-01-04 00:00:00, UTC
TABLE

# On a date on which the clock is put back between two of the times, each has its offset.
program_make 'usr/sbin/cron= etc/localtime=CET etc/crontab=30\x20*\x20*\x20*\x20*\x20root\x20a\n'
windows_is 'downtime|--table|--since|2025-10-25T22:00:00Z|--until|2025-10-26T02:00:00Z' <<'TABLE'
FIRST                          LAST                           COUNT  THEN  JOB       RUNS
Sun 2025-10-26 00:30:00+02:00  Sun 2025-10-26 02:30:00+01:00  4      lost  system:1  root a
1 job: 1 lost, 0 made up, 0 at boot; down from Sun 2025-10-26 00:00:00+02:00 to Sun 2025-10-26 03:00:00+01:00, local
TABLE
windows_is 'downtime|--table|--since|2025-10-26T00:15:00Z|--until|2025-10-26T00:45:00Z' <<'TABLE'
FIRST                    LAST                     COUNT  THEN  JOB       RUNS
Sun 2025-10-26 02:30:00  Sun 2025-10-26 02:30:00  1      lost  system:1  root a
1 job: 1 lost, 0 made up, 0 at boot; down from Sun 2025-10-26 02:15:00 to Sun 2025-10-26 02:45:00, local
TABLE

# ---- clear

# The line of the first start has local times, as plan has them, and the status is 1.
program_answers <<'ROWS'
S/u=0\x202\x20*\x20*\x20*\x20a\n|clear --since 2024-01-01T02:01:00Z --until 2024-01-02T02:00:00Z||||0
S/u=0\x202\x20*\x20*\x20*\x20a\n|clear --since 2024-01-01T02:00:59Z --until 2024-01-02T02:00:00Z|2024-01-01T02:00:00+00:00>2024-01-01T02:00:00+00:00>u:1>a|||1
S/u=0\x202\x20*\x20*\x20*\x20a\n|clear --since 2024-01-01T02:01:00Z --until 2024-01-02T02:00:01Z|2024-01-02T02:00:00+00:00>2024-01-02T02:00:00+00:00>u:1>a|||1
S/u=0\x202\x20*\x20*\x20*\x20a\n|clear --utc --since 2024-01-01T02:00:00Z --upto 2024-01-02T02:00:00Z|2024-01-01T02:00:00Z>2024-01-01T02:00:00Z>u:1>a|||1
etc/localtime=CET S/u=30\x202\x20*\x20*\x20*\x20a\n|clear --since 2024-03-31T00:00:00Z --until 2024-03-31T02:00:00Z|2024-03-31T03:00:00+02:00>2024-03-31T03:00:00+02:00>u:1>a|||1
*q.timer U/q.timer=[Timer]\nOnCalendar=hourly\nRandomizedDelaySec=30min\nAccuracySec=1us\n|clear --utc --since 2024-01-01T02:10:00Z --until 2024-01-01T02:20:00Z|2024-01-01T02:00:00Z>2024-01-01T02:30:01Z>q.timer>q.service|||1
*q.timer U/q.timer=[Timer]\nOnCalendar=hourly\nRandomizedDelaySec=30min\nAccuracySec=1us\n|clear --nominal --since 2024-01-01T02:10:00Z --until 2024-01-01T02:20:00Z||||0
*q.timer U/q.timer=[Timer]\nOnCalendar=hourly\nRandomizedDelaySec=30min\nAccuracySec=1us\n|clear --nominal --since 2024-01-01T02:10:00Z --until 2024-01-01T03:20:00Z|2024-01-01T03:00:00+00:00>q.timer>q.service|||1
*a.timer U/a.timer=DAILY etc/systemd/system.conf=[Manager]\nDefaultTimerAccuracySec=1h\n|clear --utc --since 2024-01-01T01:00:00Z --until 2024-01-01T02:00:00Z|2024-01-01T00:00:00Z>2024-01-01T01:00:00Z>a.timer>a.service|||1
*a.timer U/a.timer=DAILY|clear --utc --since 2024-01-01T01:00:00Z --until 2024-01-01T02:00:00Z||||0
S/u=@daily\x20a\n|clear --except u:1 --since 2024-01-01 --until 2024-01-02||||0
S/u=@reboot\x20a\n|clear --since 2024-01-01 --until 2024-01-02||||0
x/|clear --since 1970-01-01T00:00:00Z --until 3000-01-01T00:00:00Z||||0
S/u=*\x20*\x20*\x20*\x20*\x20a\n|clear --utc --since 1970-01-01T00:00:00Z --until 3000-01-01T00:00:00Z|1970-01-01T00:00:00Z>1970-01-01T00:00:00Z>u:1>a|||1
ROWS

# If something is invalid or can't be read, the span isn't known to be clear, unless a daemon ignores the whole file. If a job starts,
# nothing more is said.
program_answers <<'ROWS'
S/u=x\n@daily\x20a\n|clear --since 2024-01-01T00:01:00Z --until 2024-01-01T01:00:00Z||root/var/spool/cron/crontabs/u:1: error: expected NAME=VALUE, or five fields and a command [BadSetting]|not S/u cron ignores this file because of line 1|0
C/a/ S/u=@daily\x20a\n|clear --since 2024-01-01T00:01:00Z --until 2024-01-01T01:00:00Z|||C/a not readable,clear 1|4
C/a/|clear --since 2024-01-01 --until 2024-01-02|||C/a not readable,clear 1|4
C/a/ S/u=@daily\x20a\n|clear --utc --since 2024-01-01 --until 2024-01-02|2024-01-01T00:00:00Z>2024-01-01T00:00:00Z>u:1>a||C/a not readable|1
*a.timer U/a.timer=[Timer]\nOnCalendar=24:00\n|clear --since 2024-01-01 --until 2024-01-02||root/usr/lib/systemd/system/a.timer:2: error: hour in '24:00': out of range 0-23 [OutOfRange]|clear 1|4
C/a/ S/u=@daily\x20a\n|clear --strict --since 2024-01-01T00:01:00Z --until 2024-01-01T01:00:00Z|||C/a not readable,clear 1|4
ROWS

# With --strict an error stops the answer, and nothing is said about it.
program_answers <<'ROWS'
S/u=x\n@daily\x20a\n|clear --strict --since 2024-01-01T00:01:00Z --until 2024-01-01T01:00:00Z||root/var/spool/cron/crontabs/u:1: error: expected NAME=VALUE, or five fields and a command [BadSetting]|not S/u cron ignores this file because of line 1|4
ROWS

# What is skipped on purpose, and what starts nothing, leaves the span clear. What starts at times that files don't tell doesn't.
program_answers <<'ROWS'
*a.timer E/a.timer= U/a.timer|clear --since 2024-01-01 --until 2024-01-02|||E/a.timer masked|0
*a.timer U/a.timer=[Timer]\nOnBootSec=5\n|clear --since 2024-01-01 --until 2024-01-02|||monotonic U/a.timer,clear 1|4
etc/anacrontab|clear --since 2024-01-01 --until 2024-01-02|||anacron,clear 1|4
etc/localtime/ S/u=@daily\x20a\n|clear --since 2024-01-01T00:01:00Z --until 2024-01-02|||zone,clear 1|4
ROWS
machine_has_cron=no
program_answers <<'ROWS'
S/u=@daily\x20a\n|clear --since 2024-01-01T00:01:00Z --until 2024-01-02|||cron|0
ROWS
machine_has_cron=yes

# ---- changes

# Earlier agendas: one of a day, one of the night in which the clock shows two o'clock twice, one of an hour without a start, and one with a
# wrong line.
printf 'agenda 2\t2024-01-01T00:00:00Z\t2024-01-02T00:00:00Z\t1\n2024-01-01T02:00:00Z\tu:1\ta\n' >"$machine_folder/before"
printf '%b' 'agenda 2 local\t2024-10-27T02:00:00+02:00\t2024-10-27T03:00:00+01:00\t2\n' \
  '2024-10-27T02:30:00+02:00\tu:1\ta\n2024-10-27T02:30:00+01:00\tu:1\ta\n' >"$machine_folder/night"
printf 'agenda 2\t2024-01-01T00:00:00Z\t2024-01-01T01:00:00Z\t0\n' >"$machine_folder/hour"
printf 'agenda 2\t2024-01-01T00:00:00Z\t2024-01-01T01:00:00Z\t0\nx\n' >"$machine_folder/wrong"

# Times are local, or in UTC. Jobs are compared by when they start and what they run, so one may move to another file.
program_answers <<'ROWS'
S/u=0\x202\x20*\x20*\x20*\x20a\n|changes before||||0
S/u=#\n0\x202\x20*\x20*\x20*\x20a\n|changes before --utc||||0
S/v=@reboot\x20b\n0\x202\x20*\x20*\x20*\x20a\n|changes before||||0
S/u=0\x203\x20*\x20*\x20*\x20a\n|changes before|->2024-01-01T02:00:00+00:00>u:1>a;+>2024-01-01T03:00:00+00:00>u:1>a|||1
S/u=0\x203\x20*\x20*\x20*\x20a\n|changes before --utc|->2024-01-01T02:00:00Z>u:1>a;+>2024-01-01T03:00:00Z>u:1>a|||1
etc/crontab=0\x202\x20*\x20*\x20*\x20root\x20a\n|changes before --utc|->2024-01-01T02:00:00Z>u:1>a;+>2024-01-01T02:00:00Z>system:1>root a|||1
x/|changes before|->2024-01-01T02:00:00+00:00>u:1>a|||1
x/|changes hour||||0
etc/localtime=CET S/u=0\x202\x20*\x20*\x20*\x20a\n|changes before|+>2024-01-01T02:00:00+01:00>u:1>a;->2024-01-01T03:00:00+01:00>u:1>a|||1
etc/localtime=CET S/u=0\x202\x20*\x20*\x20*\x20a\n|changes before --zone UTC||||0
etc/localtime=CET S/u=0\x203\x20*\x20*\x20*\x20a\n|changes before||||0
etc/localtime=CET S/u=30\x20*\x20*\x20*\x20*\x20a\n|changes night||||0
etc/localtime=CET S/u=30\x202\x20*\x20*\x20*\x20a\n|changes night|->2024-10-27T02:30:00+01:00>u:1>a|||1
etc/localtime=CET S/u=30\x202\x20*\x20*\x20*\x20a\n|changes night --utc|->2024-10-27T00:30:00Z>u:1>a;->2024-10-27T01:30:00Z>u:1>a|||1
S/u=0\x202\x20*\x20*\x20*\x20a\n0\x202\x20*\x20*\x20*\x20a\n|changes before --planners 8 --room 1|+>2024-01-01T02:00:00+00:00>u:2>a|||1
S/u=0\x202\x20*\x20*\x20*\x20a\n *a.timer U/a.timer=[Timer]\nOnCalendar=06:00\nRandomizedDelaySec=1d\n|changes before|+>2024-01-01T06:00:00+00:00>a.timer>a.service|||1
S/u=0\x202\x20*\x20*\x20*\x20a\n U/a.timer=DAILY|changes before||||0
S/u=0\x202\x20*\x20*\x20*\x20a\n U/a.timer=DAILY|changes before --all|+>2024-01-01T00:00:00+00:00>a.timer>a.service|||1
S/u=0\x202\x20*\x20*\x20*\x20a\n|changes before --except u:1|->2024-01-01T02:00:00+00:00>u:1>a|||1
S/u=0\x202\x20*\x20*\x20*\x20a\n S/v=0\x203\x20*\x20*\x20*\x20a\n|changes before --except v:1||||0
S/u=0\x202\x20*\x20*\x20*\x20a\n S/v=0\x203\x20*\x20*\x20*\x20a\n|changes before --only u||||0
S/u=0\x203\x20*\x20*\x20*\x20a\n|changes before --json|{"change":"-","start":"2024-01-01T02:00:00Z","local":"2024-01-01T02:00:00+00:00","job":"u:1","run":"a"};{"change":"+","start":"2024-01-01T03:00:00Z","local":"2024-01-01T03:00:00+00:00","job":"u:1","run":"a"}|||1
etc/crontab=0\x203\x20*\x20*\x20*\x20root\x20a\n S/u=0\x202\x20*\x20*\x20*\x20a\n|changes before --json --utc|{"change":"+","start":"2024-01-01T03:00:00Z","job":"system:1","run":"root a"}|||1
ROWS

# The table has a row for each text that runs and has a difference, in the order of first changes, with all its starts before and now.
program_make 'S/u=0\x203\x20*\x20*\x20*\x20a\n0\x20*/6\x20*\x20*\x20*\x20b\n S/v=15\x203\x20*\x20*\x20*\x20a\n'
windows_is 'changes|--table|before' 1 <<'TABLE'
RUNS  BEFORE  NOW  FIRST CHANGE
b     0       4    Mon 2024-01-01 00:00:00
a     1       2    Mon 2024-01-01 02:00:00
1 start fewer, 6 more, from Mon 2024-01-01 00:00:00 to Tue 2024-01-02 00:00:00, UTC
TABLE
windows_is 'changes|--table|--except|u:2|--except|v:1|before' 1 <<'TABLE'
RUNS  BEFORE  NOW  FIRST CHANGE
a     1       1    Mon 2024-01-01 02:00:00
1 start fewer, 1 more, from Mon 2024-01-01 00:00:00 to Tue 2024-01-02 00:00:00, UTC
TABLE
program_make 'S/u=0\x202\x20*\x20*\x20*\x20a\n'
windows_is 'changes|--table|before' <<'TABLE'
RUNS  BEFORE  NOW  FIRST CHANGE
0 starts fewer, 0 more, from Mon 2024-01-01 00:00:00 to Tue 2024-01-02 00:00:00, UTC
TABLE
program_make 'etc/localtime=CET S/u=30\x202\x20*\x20*\x20*\x20a\n'
windows_is 'changes|night|--table' 1 <<'TABLE'
RUNS  BEFORE  NOW  FIRST CHANGE
a     2       1    Sun 2024-10-27 02:30:00+01:00
1 start fewer, 0 more, from Sun 2024-10-27 02:00:00+02:00 to Sun 2024-10-27 03:00:00+01:00, local
TABLE

# What is skipped is reported, and its status is 1, also if nothing changed. The jobs of a crontab that cron ignores are gone. With --strict an
# error stops the answer.
program_answers <<'ROWS'
S/u=x\n0\x202\x20*\x20*\x20*\x20a\n|changes before|->2024-01-01T02:00:00+00:00>u:1>a|root/var/spool/cron/crontabs/u:1: error: expected NAME=VALUE, or five fields and a command [BadSetting]|not S/u cron ignores this file because of line 1|1
S/u=0\x202\x20*\x20*\x20*\x20a\n *a.timer U/a.timer=[Timer]\nOnCalendar=24:00\n|changes before||root/usr/lib/systemd/system/a.timer:2: error: hour in '24:00': out of range 0-23 [OutOfRange]||1
S/u=0\x203\x20*\x20*\x20*\x20a\n *a.timer U/a.timer=[Timer]\nOnCalendar=24:00\n|changes before|->2024-01-01T02:00:00+00:00>u:1>a;+>2024-01-01T03:00:00+00:00>u:1>a|root/usr/lib/systemd/system/a.timer:2: error: hour in '24:00': out of range 0-23 [OutOfRange]||1
S/u=x\n0\x203\x20*\x20*\x20*\x20a\n|changes before --strict||root/var/spool/cron/crontabs/u:1: error: expected NAME=VALUE, or five fields and a command [BadSetting]|not S/u cron ignores this file because of line 1|1
C/a/ S/u=0\x202\x20*\x20*\x20*\x20a\n|changes before|||C/a not readable|1
C/a/ S/u=0\x203\x20*\x20*\x20*\x20a\n|changes before --utc --strict|->2024-01-01T02:00:00Z>u:1>a;+>2024-01-01T03:00:00Z>u:1>a||C/a not readable|1
etc/anacrontab S/u=0\x202\x20*\x20*\x20*\x20a\n|changes before|||anacron|0
S/u=0\x202\x20*\x20*\x20*\x20a\n *a.timer U/a.timer=[Timer]\nOnBootSec=5\n|changes before|||monotonic U/a.timer|0
ROWS

# What plan prints of a machine is read, in its zone and in UTC, and from standard input.
windows_round_trips() {
  local words
  program_make 'etc/localtime=CET etc/crontab=*/30\x20*\x20*\x20*\x20*\x20root\x20a\x20\x20b\n S/u=30\x202\x20*\x20*\x20*\x20c\n *a.timer U/a.timer=DAILY'
  for words in '' --utc '--zone UTC'; do
    # shellcheck disable=SC2086
    program_run plan --root root --since 2025-10-25 --until 2025-10-27 $words
    cp -- "$work/out" "$machine_folder/plan"
    { [ "$(wc -l <"$work/out")" -gt 90 ] || cat "$work/out" "$work/err"; } >"$work/told"
    count "agenda machine: a plan $words"
    # shellcheck disable=SC2086
    program_run changes plan --root root $words
    program_compare "changes of what plan $words printed" /dev/null /dev/null 0
    run_in "$machine_folder" bash -c "exec agenda machine changes --root root - $words <plan"
    program_compare "changes - $words" /dev/null /dev/null 0
  done
}
windows_round_trips

# ---- week

# Days and hours are those of the machine's zone. The hour that its clock skips is a blank, and the one that it shows twice counts twice.
# Delays don't count.
program_make 'usr/sbin/cron= etc/localtime=CET etc/crontab=30\x20*\x20*\x20*\x20*\x20root\x20a\n'
windows_picture 'week|--since|2025-03-30|--until|2025-03-31' \
  '23 starts from 2025-03-30T00:00:00+01:00 to 2025-03-31T00:00:00+02:00, local' <<'DAYS'
Sun 2025-03-30|11_111111111111111111111|23
all days|11_111111111111111111111|23
DAYS
windows_picture 'week|--since|2025-10-26|--until|2025-10-27' \
  '25 starts from 2025-10-26T00:00:00+02:00 to 2025-10-27T00:00:00+01:00, local' <<'DAYS'
Sun 2025-10-26|112111111111111111111111|25
all days|112111111111111111111111|25
DAYS
windows_picture 'week|--utc|--since|2025-03-30|--until|2025-03-31' '24 starts from 2025-03-30T00:00:00Z to 2025-03-31T00:00:00Z, UTC' <<'DAYS'
Sun 2025-03-30|111111111111111111111111|24
all days|111111111111111111111111|24
DAYS
windows_picture 'week|--zone|UTC|--since|2025-03-30 22:45|--until|2025-03-31 01:00' \
  '2 starts from 2025-03-30T22:45:00+00:00 to 2025-03-31T01:00:00+00:00, UTC' <<'DAYS'
Sun 2025-03-30|______________________.1|1
Mon 2025-03-31|1_______________________|1
all days|1_____________________.1|2
DAYS
windows_picture 'week|--except|system:1|--since|2025-03-28 12:00|--until|2025-03-28 12:00' \
  '0 starts from 2025-03-28T12:00:00+01:00 to 2025-03-28T12:00:00+01:00, local' <<'DAYS'
all days|________________________|0
DAYS
program_answers <<'ROWS'
etc/localtime=CET S/u=*/30\x202,4\x20*\x20*\x20*\x20a\n|week --json --since 2025-10-26 --until 2025-10-27|{"day":"2025-10-26","hour":2,"starts":4};{"day":"2025-10-26","hour":4,"starts":2}|||0
etc/localtime=CET S/u=*/30\x202,4\x20*\x20*\x20*\x20a\n|week --json --utc --since 2025-10-26 --until 2025-10-27|{"day":"2025-10-26","hour":2,"starts":2};{"day":"2025-10-26","hour":4,"starts":2}|||0
*a.timer U/a.timer=[Timer]\nOnCalendar=06:00\nRandomizedDelaySec=3h\n|week --json --since 2024-01-01T06:00:01Z --until 2024-01-02T06:00:01Z|{"day":"2024-01-02","hour":6,"starts":1}|||0
S/u=@reboot\x20a\n|week --json --since 2024-01-01 --until 2024-01-02||||0
S/u=@daily\x20a\n S/v=0\x203\x20*\x20*\x20*\x20a\n|week --json --since 2024-01-01 --until 2024-01-02 --only v|{"day":"2024-01-01","hour":3,"starts":1}|||0
C/a/ S/u=@daily\x20a\n|week --json --since 2024-01-01 --until 2024-01-02|{"day":"2024-01-01","hour":0,"starts":1}||C/a not readable|1
S/u=x\n|week --json --strict --since 2024-01-01 --until 2024-01-02||root/var/spool/cron/crontabs/u:1: error: expected NAME=VALUE, or five fields and a command [BadSetting]|not S/u cron ignores this file because of line 1|1
ROWS

# ---- errors

# Rows from standard input: arguments, and the line on standard error. Nothing is printed, and the status is $1.
windows_errors() {
  local words line
  program_make 'S/u=*\x20*\x20*\x20*\x20*\x20a\n'
  while IFS='|' read -r words line; do
    echo "$line" >"$work/err.wanted"
    read -r -a words <<<"$words"
    program_run "${words[@]}" --root root
    program_compare "${words[*]}" /dev/null "$work/err.wanted" "$1"
  done
}

# The zone comes first, then the times, their order, the numbers, and the limit of starts, which clear doesn't have. Of clear the status 1
# says that a job may start.
for windows_command in downtime clear week; do
  windows_status=1
  [ "$windows_command" != clear ] || windows_status=2
  windows_errors "$windows_status" <<ROWS
$windows_command --zone Nowhere/At_all --since x --planners 0|agenda: zone 'Nowhere/At_all': no such zone [NoSuchZone]
$windows_command --since x --until y --planners 0|agenda: --since: not a time: 'x' (such as 'tomorrow 02:00', '+8h', '2026-12-01 22:00') [BadTime]
$windows_command --since 2024-01-01 --until 90min|agenda: --until: not a time: '90min' (such as 'tomorrow 02:00', '+8h', '2026-12-01 22:00') [BadTime]
$windows_command --since 3001-01-01 --until y|agenda: --since: before 1970 or after 2999: '3001-01-01' [OutOfYears]
$windows_command --utc --planners 0 --since 2024-01-02 --until 2024-01-01|agenda: --until is before --since (2024-01-02T00:00:00+00:00) [Backwards]
$windows_command --planners 0|agenda: --planners: not from 1 to 8: '0' [BadSize]
$windows_command --planners 9 --room 0|agenda: --planners: not from 1 to 8: '9' [BadSize]
$windows_command --room 1025|agenda: --room: not from 1 to 1024: '1025' [BadSize]
ROWS
done
windows_errors 1 <<'ROWS'
changes before --zone Nowhere/At_all|agenda: zone 'Nowhere/At_all': no such zone [NoSuchZone]
changes wrong --planners 0|agenda: wrong:2: not a line of agenda plan [BadBaseline]
changes before --planners 0|agenda: --planners: not from 1 to 8: '0' [BadSize]
changes before --room 0 --limit 0|agenda: --room: not from 1 to 1024: '0' [BadSize]
changes before --limit 1000001|agenda: --limit: not from 1 to 1000000: '1000001' [BadLimit]
changes before --limit 1439|agenda: more than 1439 starts: give a shorter span, or --limit N [TooMany]
downtime --limit 0|agenda: --limit: not from 1 to 1000000: '0' [BadLimit]
downtime --room 0 --limit 0|agenda: --room: not from 1 to 1024: '0' [BadSize]
week --limit 1000001|agenda: --limit: not from 1 to 1000000: '1000001' [BadLimit]
downtime --limit 59 --since 2024-01-01T00:00:00Z --until 2024-01-01T01:00:00Z|agenda: more than 59 starts: give a shorter span, or --limit N [TooMany]
downtime --table --limit 59 --since 2024-01-01T00:00:00Z --until 2024-01-01T01:00:00Z|agenda: more than 59 starts: give a shorter span, or --limit N [TooMany]
week --limit 59 --since 2024-01-01T00:00:00Z --until 2024-01-01T01:00:00Z|agenda: more than 59 starts: give a shorter span, or --limit N [TooMany]
week --since 2024-01-01T00:00:00Z --until 2026-01-01T00:00:00Z|agenda: more than 1000000 starts: give a shorter span, or --limit N [TooMany]
ROWS
program_answers <<'ROWS'
S/u=x\n|clear --planners 0||agenda: --planners: not from 1 to 8: '0' [BadSize]||2
S/u=x\n|changes wrong||agenda: wrong:2: not a line of agenda plan [BadBaseline]||1
S/u=x\n|changes nothing --planners 0||agenda: nothing: Device||3
S/u=x\n|changes root||agenda: root: Device||3
S/u=*\x20*\x20*\x20*\x20*\x20a\n S/v=x\n|week --limit 59 --since 2024-01-01T00:00:00Z --until 2024-01-01T01:00:00Z||root/var/spool/cron/crontabs/v:1: error: expected NAME=VALUE, or five fields and a command [BadSetting];agenda: more than 59 starts: give a shorter span, or --limit N [TooMany]|not S/v cron ignores this file because of line 1|1
ROWS

# Standard output fails.
program_make 'S/u=@daily\x20a\n'
for windows_words in 'downtime' 'downtime --table' 'downtime --json' 'clear' 'week' 'week --json'; do
  for windows_to in '>&-' '>/dev/full'; do
    [[ $windows_to != *full ]] || [ -c /dev/full ] || continue
    echo 'agenda: Device' >"$work/err.wanted"
    run_in "$machine_folder" bash -c "exec agenda machine $windows_words --root root --since 2024-01-01 --until 2024-01-02 $windows_to"
    program_compare "$windows_words $windows_to" /dev/null "$work/err.wanted" 3
  done
done

for windows_to in '>&-' '>/dev/full'; do
  [[ $windows_to != *full ]] || [ -c /dev/full ] || continue
  for windows_words in --text --table; do
    run_in "$machine_folder" bash -c "exec agenda machine changes before $windows_words --root root $windows_to"
    program_compare "changes $windows_words $windows_to" /dev/null "$work/err.wanted" 3
  done
done

# ---- a terminal

# There downtime and changes print their tables, whose lines but the last are cut. A picture and the line of clear are as in a pipe.
windows_on_terminal() {
  program_make 'S/u=30\x20*\x20*\x20*\x20*\x20aaaaaaaaaaaaaaaaaaaaaaaaaaaaaa\n'
  windows_terminal 'downtime|--since|2024-01-01|--until|2024-01-02' <<'TABLE'
FIRST                    LAST          …
Mon 2024-01-01 00:30:00  Mon 2024-01-01…
1 job: 1 lost, 0 made up, 0 at boot; down from Mon 2024-01-01 00:00:00 to Tue 2024-01-02 00:00:00, UTC
TABLE
  windows_terminal 'downtime|--text|--utc|--since|2024-01-01|--until|2024-01-02' <<TABLE
2024-01-01T00:30:00Z${tab}2024-01-01T23:30:00Z${tab}24${tab}lost${tab}u:1${tab}aaaaaaaaaaaaaaaaaaaaaaaaaaaaaa
TABLE
  windows_terminal 'clear|--since|2024-01-01|--until|2024-01-02' 1 <<TABLE
2024-01-01T00:30:00+00:00${tab}2024-01-01T00:30:00+00:00${tab}u:1${tab}aaaaaaaaaaaaaaaaaaaaaaaaaaaaaa
TABLE
  windows_terminal 'clear|--utc|--nominal|--since|2024-01-01|--until|2024-01-02' 1 <<TABLE
2024-01-01T00:30:00Z${tab}u:1${tab}aaaaaaaaaaaaaaaaaaaaaaaaaaaaaa
TABLE
  windows_terminal 'clear|--since|2024-01-01T00:31:00Z|--until|2024-01-01T01:30:00Z' </dev/null
  windows_terminal 'changes|hour' 1 <<'TABLE'
RUNS                            BEFORE …
aaaaaaaaaaaaaaaaaaaaaaaaaaaaaa  0      …
0 starts fewer, 1 more, from Mon 2024-01-01 00:00:00 to Mon 2024-01-01 01:00:00, UTC
TABLE
  windows_terminal 'changes|--text|hour' 1 <<TABLE
+${tab}2024-01-01T00:30:00+00:00${tab}u:1${tab}aaaaaaaaaaaaaaaaaaaaaaaaaaaaaa
TABLE
  picture_of '24 starts from 2024-01-01T00:00:00Z to 2024-01-02T00:00:00Z, UTC' <<'DAYS'
Mon 2024-01-01|111111111111111111111111|24
all days|111111111111111111111111|24
DAYS
  windows_terminal 'week|--utc|--since|2024-01-01|--until|2024-01-02' <"$work/picture.wanted"
}
passed_over "agenda machine: downtime, clear, changes and week on a terminal" script || windows_on_terminal

# ---- at 2025-03-29T11:00:00Z, a Saturday

if ! program_still 1743246000; then
  echo "agenda machine: skipped the spans from a time that stands still, since no C compiler is here"
  return 0
fi

# The span is from now for 24 hours if it isn't given. Of a week it is from the start of today for 7 times 24 hours.
program_answers <<'ROWS'
S/u=0\x2011\x2029\x203\x20*\x20a\n0\x2011\x2030\x203\x20*\x20b\n59\x2010\x2030\x203\x20*\x20c\n|downtime --utc|2025-03-29T11:00:00Z>2025-03-29T11:00:00Z>1>lost>u:1>a;2025-03-30T10:59:00Z>2025-03-30T10:59:00Z>1>lost>u:3>c|||0
S/u=@reboot\x20a\n|downtime --utc|2025-03-30T11:00:00Z>2025-03-30T11:00:00Z>1>at boot>u:1>a|||0
S/u=@reboot\x20a\n|downtime --utc --until +90min|2025-03-29T12:30:00Z>2025-03-29T12:30:00Z>1>at boot>u:1>a|||0
S/u=@reboot\x20a\n|downtime --utc --since 22:00 --until 06:00|2025-03-30T06:00:00Z>2025-03-30T06:00:00Z>1>at boot>u:1>a|||0
S/u=0\x2011\x2030\x203\x20*\x20b\n|clear||||0
S/u=59\x2010\x2030\x203\x20*\x20b\n|clear|2025-03-30T10:59:00+00:00>2025-03-30T10:59:00+00:00>u:1>b|||1
S/u=30\x2012\x20*\x20*\x20*\x20b\n|clear --until +90min||||0
S/u=29\x2012\x20*\x20*\x20*\x20b\n|clear --utc --until +90min|2025-03-29T12:29:00Z>2025-03-29T12:29:00Z>u:1>b|||1
S/u=0\x200\x2029\x203\x20*\x20a\n0\x200\x205\x204\x20*\x20b\n59\x2023\x204\x204\x20*\x20c\n|week --utc --json|{"day":"2025-03-29","hour":0,"starts":1};{"day":"2025-04-04","hour":23,"starts":1}|||0
ROWS
program_make 'usr/sbin/cron= etc/crontab=0\x206\x20*\x20*\x20*\x20root\x20a\n'
windows_picture 'week|--utc' '7 starts from 2025-03-29T00:00:00Z to 2025-04-05T00:00:00Z, UTC' <<'DAYS'
Sat 2025-03-29|......1.................|1
Sun 2025-03-30|......1.................|1
Mon 2025-03-31|......1.................|1
Tue 2025-04-01|......1.................|1
Wed 2025-04-02|......1.................|1
Thu 2025-04-03|......1.................|1
Fri 2025-04-04|......1.................|1
all days|......7.................|7
DAYS
# the clock is put forward on the Sunday, so 7 times 24 hours end at 01:00
program_make 'usr/sbin/cron= etc/localtime=CET etc/crontab=30\x20*\x20*\x20*\x20*\x20root\x20a\n'
windows_picture week '168 starts from 2025-03-29T00:00:00+01:00 to 2025-04-05T01:00:00+02:00, local' <<'DAYS'
Sat 2025-03-29|111111111111111111111111|24
Sun 2025-03-30|11_111111111111111111111|23
Mon 2025-03-31|111111111111111111111111|24
Tue 2025-04-01|111111111111111111111111|24
Wed 2025-04-02|111111111111111111111111|24
Thu 2025-04-03|111111111111111111111111|24
Fri 2025-04-04|111111111111111111111111|24
Sat 2025-04-05|1_______________________|1
all days|876777777777777777777777|168
DAYS
