# shellcheck shell=bash disable=SC2154,SC2034
# Rows of `agenda machine upcoming`, `plan` and `quiet`: the starts of a machine's jobs, the times and the zone in which they are
# shown, jobs that are left out, the errors that are skipped, and the question that is answered if none is given. And rows of
# `agenda machine next`. Expected lines are worked out by hand: CET is the zone of Berlin, where clocks are put forward on 31 March 2024 at 01:00 UTC; cron's @daily starts at midnight.

# shellcheck source=/dev/null
. "$top/rows/lib/program.sh"

# ---- jobs that are left out

program_answers <<'ROWS'
S/u=@daily\x20a\n@daily\x20b\n@daily\x20c\n|upcoming --utc --after 2024-03-31T00:00:00Z --except u:2|2024-04-01T00:00:00Z>u:1>a;2024-04-01T00:00:00Z>u:3>c||
S/u=@daily\x20a\n@daily\x20b\n|--utc --after 2024-03-31T00:00:00Z --except=u:1 --except=u:2|||
S/u=@daily\x20a\n@daily\x20b\n|plan --utc --since 2024-03-31T00:00:00Z --until 2024-04-01T00:00:00Z --except u:2|agenda 2>2024-03-31T00:00:00Z>2024-04-01T00:00:00Z>1;2024-03-31T00:00:00Z>u:1>a||
S/u=@daily\x20a\n@daily\x20b\n|plan --json --utc --since 2024-03-31T00:00:00Z --until 2024-04-01T00:00:00Z --except u:1|{"start":"2024-03-31T00:00:00Z","job":"u:2","path":"root/var/spool/cron/crontabs/u","line":2,"run":"b"}||
*t.timer U/t.timer=[Timer]\nOnCalendar=daily\n S/t=@daily\x20a\n|upcoming --utc --after 2024-03-31T00:00:00Z --except t.timer|2024-04-01T00:00:00Z>t:1>a||
*t.timer U/t.timer=[Timer]\nOnCalendar=daily\n S/t=@daily\x20a\n|upcoming --utc --after 2024-03-31T00:00:00Z --except t*:?|2024-04-01T00:00:00Z>t.timer>t.service||
*t.timer U/t.timer=[Timer]\nOnCalendar=daily\n S/t=@daily\x20a\n|--utc --after 2024-03-31T00:00:00Z --only=t|2024-04-01T00:00:00Z>t:1>a||
S/u=@daily\x20a\n@daily\x20b\n@daily\x20c\n|plan --utc --since 2024-03-31T00:00:00Z --until 2024-04-01T00:00:00Z --only u:1 --only=u:3 --except u:3|agenda 2>2024-03-31T00:00:00Z>2024-04-01T00:00:00Z>1;2024-03-31T00:00:00Z>u:1>a||
ROWS

# ---- the forms of an answer

program_answers <<'ROWS'
x/|plan --since 2024-03-31T00:00:00Z --until 2024-04-01T00:00:00Z|agenda 2 UTC>2024-03-31T00:00:00+00:00>2024-04-01T00:00:00+00:00>0||
x/|plan --utc --since 2024-03-31T00:00:00Z --until 2024-04-01T00:00:00Z|agenda 2>2024-03-31T00:00:00Z>2024-04-01T00:00:00Z>0||
x/|upcoming --after 2024-03-31T00:00:00Z|||
x/|quiet --since 2024-03-31T00:00:00Z --until 2024-03-31T00:30:00Z|2024-03-31T00:00:00+00:00>2024-03-31T00:30:00+00:00>1800||
S/u=@daily\x20a\n|upcoming --after 2024-03-31T00:00:00Z|2024-04-01T00:00:00+00:00>u:1>a||
S/u=@daily\x20a\n|upcoming --utc --after 2024-03-31T00:00:00Z|2024-04-01T00:00:00Z>u:1>a||
S/u=@daily\x20a\n|upcoming --json --utc --after 2024-03-31T00:00:00Z|{"start":"2024-04-01T00:00:00Z","job":"u:1","path":"root/var/spool/cron/crontabs/u","line":1,"run":"a"}||
S/u=@daily\x20a\n|upcoming --json --after 2024-03-31T00:00:00Z|{"start":"2024-04-01T00:00:00Z","local":"2024-04-01T00:00:00+00:00","job":"u:1","path":"root/var/spool/cron/crontabs/u","line":1,"run":"a"}||
S/u=@daily\x20a\n|quiet --utc --least 43200 --since 2024-03-31T06:00:00Z --until 2024-04-01T12:00:00Z|2024-03-31T06:00:00Z>2024-04-01T00:00:00Z>64800;2024-04-01T00:00:00Z>2024-04-01T12:00:00Z>43200||
ROWS

# The default question is `upcoming`, whatever option comes first.
program_answers <<'ROWS'
S/u=@daily\x20a\n|--after 2024-03-31T00:00:00Z|2024-04-01T00:00:00+00:00>u:1>a||
S/u=@daily\x20a\n|--utc --after 2024-03-31T00:00:00Z|2024-04-01T00:00:00Z>u:1>a||
S/u=0\x200\x2030\x202\x20*\x20a\n||none>u:1>a||
ROWS

# ---- zones

program_answers <<'ROWS'
etc/localtime>/usr/share/zoneinfo/CET usr/share/zoneinfo/CET=CET S/u=30\x203\x20*\x20*\x20*\x20a\n|upcoming --after 2024-03-30T12:00:00Z|2024-03-31T03:30:00+02:00>u:1>a||
etc/localtime=CET S/u=30\x203\x20*\x20*\x20*\x20a\n|upcoming --after 2024-03-31T12:00:00Z|2024-04-01T03:30:00+02:00>u:1>a||
etc/localtime=CET S/u=30\x203\x20*\x20*\x20*\x20a\n|upcoming --utc --after 2024-03-31T12:00:00Z|2024-04-01T03:30:00Z>u:1>a||
etc/localtime/ S/u=@daily\x20a\n|upcoming --after 2024-03-31T00:00:00Z|2024-04-01T00:00:00+00:00>u:1>a||zone
etc/localtime/ S/u=@daily\x20a\n|upcoming --zone UTC --after 2024-03-31T00:00:00Z|2024-04-01T00:00:00+00:00>u:1>a||
ROWS

# The zones of events: their files are below the root, or else on this machine. EAST is UTC+5, which no zone of these names is.
program_answers <<'ROWS'
*a.timer U/a.timer=[Timer]\nOnCalendar=02:30\x20No/Where\n usr/share/zoneinfo/No/Where=EAST|upcoming --utc --after 2024-03-31T00:00:00Z|2024-03-31T21:30:00Z>a.timer>a.service||
*a.timer U/a.timer=[Timer]\nOnCalendar=02:30\x20No/Where\n usr/share/zoneinfo/No/Where=EAST|plan --utc --since 2024-03-31T00:00:00Z --until 2024-04-01T00:00:00Z|agenda 2>2024-03-31T00:00:00Z>2024-04-01T00:00:00Z>1;2024-03-31T21:30:00Z>a.timer>a.service||
*a.timer U/a.timer=[Timer]\nOnCalendar=02:30\x20No/Where\n usr/share/zoneinfo/No/Where=EAST|quiet --utc --nominal --since 2024-03-31T00:00:00Z --until 2024-03-31T22:00:00Z|2024-03-31T00:00:00Z>2024-03-31T21:30:00Z>77400;2024-03-31T21:30:00Z>2024-03-31T22:00:00Z>1800||
*a.timer U/a.timer=[Timer]\nOnCalendar=02:30\x20No/Where\n usr/share/zoneinfo/No/Where=EAST|check|||
*a.timer U/a.timer=[Timer]\nOnCalendar=02:30\x20Europe/Oslo\n usr/share/zoneinfo/Europe/Oslo=EAST|upcoming --utc --after 2024-03-31T00:00:00Z|2024-03-31T21:30:00Z>a.timer>a.service||
*a.timer U/a.timer=[Timer]\nOnCalendar=02:30\x20No/Where\n usr/share/zoneinfo/No/Where>/opt/x opt/x=EAST|upcoming --utc --after 2024-03-31T00:00:00Z|2024-03-31T21:30:00Z>a.timer>a.service||
etc/localtime>/usr/share/zoneinfo/No/Where *a.timer U/a.timer=[Timer]\nOnCalendar=02:30\x20No/Where\n *b.timer U/b.timer=[Timer]\nOnCalendar=02:30\n usr/share/zoneinfo/No/Where=EAST|upcoming --after 2024-03-31T00:00:00Z|2024-04-01T02:30:00+05:00>a.timer>a.service;2024-04-01T02:30:00+05:00>b.timer>b.service||
etc/localtime=CET *a.timer U/a.timer=[Timer]\nOnCalendar=02:30\x20No/Where\nOnCalendar=20:00\n usr/share/zoneinfo/No/Where=EAST|upcoming --after 2024-03-31T00:00:00Z|2024-03-31T20:00:00+02:00>a.timer>a.service||
etc/localtime=CET *a.timer U/a.timer=[Timer]\nOnCalendar=02:30\x20No/Where\nOnCalendar=20:00\n usr/share/zoneinfo/No/Where=EAST|upcoming --after 2024-03-31T18:00:00Z|2024-03-31T23:30:00+02:00>a.timer>a.service||
*a.timer U/a.timer=[Timer]\nOnCalendar=02:30\x20Asia/Tokyo\n usr/share/zoneinfo/Asia/Tokyo=x|upcoming --utc --after 2024-03-31T00:00:00Z|none>a.timer>a.service|root/usr/lib/systemd/system/a.timer:2: error: time zone in '02:30 Asia/Tokyo': unknown [Zone]|
*a.timer U/a.timer=[Timer]\nOnCalendar=02:30\x20No/Where\n usr/share/zoneinfo/No/Where/|upcoming --utc --after 2024-03-31T00:00:00Z|none>a.timer>a.service|root/usr/lib/systemd/system/a.timer:2: error: time zone in '02:30 No/Where': unknown [Zone]|
ROWS
if [ -r /usr/share/zoneinfo/Asia/Tokyo ]; then
  program_answers <<'ROWS'
*a.timer U/a.timer=[Timer]\nOnCalendar=02:30\x20Asia/Tokyo\n|upcoming --utc --after 2024-03-31T00:00:00Z|2024-03-31T17:30:00Z>a.timer>a.service||
*a.timer U/a.timer=[Timer]\nOnCalendar=02:30\x20Asia/Tokyo\n usr/share/zoneinfo/Asia/Tokyo/|upcoming --utc --after 2024-03-31T00:00:00Z|2024-03-31T17:30:00Z>a.timer>a.service||
*a.timer U/a.timer=[Timer]\nOnCalendar=02:30\x20Asia/Tokyo\n usr/share/zoneinfo/Asia/Tokyo=EAST|upcoming --zone Asia/Tokyo --after 2024-03-31T00:00:00Z|2024-04-01T06:30:00+09:00>a.timer>a.service||
ROWS
else
  echo "agenda machine: skipped the zones of events, since this machine has no tz database"
fi

# ---- timers, and their delays

program_answers <<'ROWS'
*a.timer U/a.timer=DAILY|upcoming --utc --after 2024-03-31T00:00:00Z|2024-04-01T00:00:00Z>a.timer>a.service||
*a.timer U/a.timer=[Timer]\nOnCalendar=daily\nRandomizedDelaySec=1h\nAccuracySec=1s\n|upcoming --utc --after 2024-03-31T00:00:00Z|2024-04-01T00:00:00Z>a.timer>a.service||
*a.timer U/a.timer=[Timer]\nOnCalendar=daily\nRandomizedDelaySec=1h\nAccuracySec=1s\n|upcoming --utc --delays --after 2024-03-31T00:00:00Z|2024-04-01T00:00:00Z>2024-04-01T01:00:01Z>a.timer>a.service||
*a.timer U/a.timer=[Timer]\nOnCalendar=daily\nRandomizedDelaySec=1h\nAccuracySec=1s\n|quiet --utc --since 2024-04-01T00:00:00Z --until 2024-04-01T02:00:00Z|2024-04-01T01:00:01Z>2024-04-01T02:00:00Z>3599||
*a.timer U/a.timer=[Timer]\nOnCalendar=daily\nRandomizedDelaySec=1h\nAccuracySec=1s\n|quiet --utc --nominal --since 2024-04-01T00:00:00Z --until 2024-04-01T02:00:00Z|2024-04-01T00:00:00Z>2024-04-01T02:00:00Z>7200||
U/a.timer=DAILY|plan --utc --since 2024-04-01T00:00:00Z --upto 2024-04-02T00:00:00Z|agenda 2>2024-04-01T00:00:00Z>2024-04-02T00:00:00Z>0||
U/a.timer=DAILY|plan --utc --all --since 2024-04-01T00:00:00Z --upto 2024-04-02T00:00:00Z|agenda 2>2024-04-01T00:00:00Z>2024-04-02T00:00:00Z>1;2024-04-01T00:00:00Z>a.timer>a.service||
ROWS

# The accuracy of timers that set none is one minute, unless systemd's configuration has another (systemd-system.conf(5)).
program_answers <<'ROWS'
*a.timer U/a.timer=DAILY|upcoming --utc --delays --after 2024-03-31T00:00:00Z|2024-04-01T00:00:00Z>2024-04-01T00:01:00Z>a.timer>a.service||
*a.timer U/a.timer=DAILY etc/systemd/system.conf=[Manager]\nDefaultTimerAccuracySec=1h\n|upcoming --utc --delays --after 2024-03-31T00:00:00Z|2024-04-01T00:00:00Z>2024-04-01T01:00:00Z>a.timer>a.service||
*a.timer U/a.timer=DAILY etc/systemd/system.conf=[Manager]\nDefaultTimerAccuracySec=1h\n|plan --utc --delays --since 2024-04-01T00:00:00Z --until 2024-04-02T00:00:00Z|agenda 3>2024-04-01T00:00:00Z>2024-04-02T00:00:00Z>1;2024-04-01T00:00:00Z>2024-04-01T01:00:00Z>a.timer>a.service||
*a.timer U/a.timer=DAILY etc/systemd/system.conf=[Manager]\nDefaultTimerAccuracySec=1h\n|quiet --utc --since 2024-04-01T00:00:00Z --until 2024-04-01T02:00:00Z|2024-04-01T01:00:00Z>2024-04-01T02:00:00Z>3600||
*a.timer U/a.timer=DAILY etc/systemd/system.conf=[Manager]\nDefaultTimerAccuracySec=1h\n|upcoming --utc --after 2024-03-31T00:00:00Z|2024-04-01T00:00:00Z>a.timer>a.service||
*a.timer U/a.timer=[Timer]\nOnCalendar=daily\nAccuracySec=1s\n etc/systemd/system.conf=[Manager]\nDefaultTimerAccuracySec=1h\n|upcoming --utc --delays --after 2024-03-31T00:00:00Z|2024-04-01T00:00:00Z>2024-04-01T00:00:01Z>a.timer>a.service||
*a.timer U/a.timer=[Timer]\nOnCalendar=daily\nRandomizedDelaySec=1s\n etc/systemd/system.conf=[Manager]\nDefaultTimerAccuracySec=1h\n|upcoming --utc --delays --after 2024-03-31T00:00:00Z|2024-04-01T00:00:00Z>2024-04-01T01:00:01Z>a.timer>a.service||
*a.timer U/a.timer=DAILY etc/systemd/system.conf=[Manager]\nDefaultTimerAccuracySec=1h\n usr/lib/systemd/system.conf.d/x.conf=[Manager]\nDefaultTimerAccuracySec=2h\n|upcoming --utc --delays --after 2024-03-31T00:00:00Z|2024-04-01T00:00:00Z>2024-04-01T02:00:00Z>a.timer>a.service||
*a.timer U/a.timer=DAILY usr/lib/systemd/system.conf.d/x.conf=[Manager]\nDefaultTimerAccuracySec=2h\n run/systemd/system.conf.d/x.conf=[Manager]\nDefaultTimerAccuracySec=3h\n|upcoming --utc --delays --after 2024-03-31T00:00:00Z|2024-04-01T00:00:00Z>2024-04-01T03:00:00Z>a.timer>a.service||
*a.timer U/a.timer=DAILY etc/systemd/system.conf=#\xe9\n[Manager]\nDefaultTimerAccuracySec=1h\nLogColor=\xe9\nDefaultTimerAccuracySec=2h\n|upcoming --utc --delays --after 2024-03-31T00:00:00Z|2024-04-01T00:00:00Z>2024-04-01T01:00:00Z>a.timer>a.service||
*a.timer U/a.timer=DAILY etc/systemd/system.conf=DefaultTimerAccuracySec=1h\n[Other]\nDefaultTimerAccuracySec=1h\n[Manager]\nDefaultTimerAccuracySec=soon\n|upcoming --utc --delays --after 2024-03-31T00:00:00Z|2024-04-01T00:00:00Z>2024-04-01T00:01:00Z>a.timer>a.service||
S/u=@daily\x20a\n etc/systemd/system.conf=[Manager]\nDefaultTimerAccuracySec=1h\n|upcoming --utc --delays --after 2024-03-31T00:00:00Z|2024-04-01T00:00:00Z>2024-04-01T00:00:00Z>u:1>a||
ROWS

# ---- timers without events

# A timer that has a monotonic setting is reported by its file, after anacron, timers without a unit, the jobs of at and the timers of
# users, in the order of the sources: each instance of a template, too. Its events are planned.
program_answers <<'ROWS'
*a.timer U/a.timer=[Timer]\nOnBootSec=5\n|upcoming --utc --after 2024-03-31T00:00:00Z|none>a.timer>a.service||monotonic U/a.timer
*a.timer U/a.timer=[Timer]\nOnBootSec=5\n|plan --utc --since 2024-04-01T00:00:00Z --until 2024-04-02T00:00:00Z|agenda 2>2024-04-01T00:00:00Z>2024-04-02T00:00:00Z>0||monotonic U/a.timer
*a.timer U/a.timer=[Timer]\nOnBootSec=5\n|quiet --utc --since 2024-04-01T00:00:00Z --until 2024-04-01T01:00:00Z|2024-04-01T00:00:00Z>2024-04-01T01:00:00Z>3600||monotonic U/a.timer,quiet 1
*a.timer U/a.timer=[Timer]\nOnBootSec=5\n|check|root/usr/lib/systemd/system/a.timer: warning: also starts by OnBootSec= or the like, which is not planned [Monotonic]||
*a.timer U/a.timer=[Timer]\nOnBootSec=5\n|sources|timer>a.timer>root/usr/lib/systemd/system/a.timer||
U/a.timer=[Timer]\nOnBootSec=5\n|upcoming|||
U/a.timer=[Timer]\nOnBootSec=5\n|upcoming --all|none>a.timer>a.service||monotonic U/a.timer
*a.timer U/a.timer=[Timer]\nOnBootSec=5\nOnCalendar=daily\n|upcoming --utc --after 2024-03-31T00:00:00Z|2024-04-01T00:00:00Z>a.timer>a.service||also U/a.timer OnBootSec
*a.timer U/a.timer=[Timer]\nOnBootSec=5\n E/a.timer.d/x.conf=[Timer]\nAccuracySec=1h\n|upcoming|none>a.timer>a.service||monotonic U/a.timer
*a@b.timer *a@c.timer U/a@.timer=[Timer]\nOnBootSec=5\n N/a@.service|upcoming|none>a-b.timer>a-b.service;none>a-c.timer>a-c.service||monotonic U/a@.timer,monotonic U/a@.timer
*a@OnBootSec.timer *a@b.timer U/a@.timer=[Timer]\n%i=5\n N/a@.service|upcoming|none>a-OnBootSec.timer>a-OnBootSec.service||monotonic U/a@.timer,not U/a@.timer systemd 252 rejects this timer: it has no valid trigger
etc/anacrontab F/atjobs/a root/.config/systemd/user/c.timer *b.timer U/b.timer=[Timer]\nUnit=x.service\n *a.timer U/a.timer=[Timer]\nOnBootSec=5\n|upcoming|none>a.timer>a.service||anacron,missing U/b.timer x.service,at F/atjobs,user root/.config/systemd/user,monotonic U/a.timer
*b.timer *a.timer U/a.timer=[Timer]\nOnBootSec=5\n E/b.timer=[Timer]\nOnActiveSec=5|upcoming|none>a.timer>a.service;none>b.timer>b.service||monotonic U/a.timer,monotonic E/b.timer OnActiveSec
*a.timer U/a.timer=[Timer]\nOnBootSec=5\n#\xff\n|upcoming||root/usr/lib/systemd/system/a.timer: error: not UTF-8 [NotUtf8]|
ROWS

# ---- what is skipped

# An error has the path and the line of the file that it is in, and the jobs of other files are planned.
program_answers <<'ROWS'
S/u=x\n@daily\x20a\n|upcoming --utc --after 2024-03-31T00:00:00Z||root/var/spool/cron/crontabs/u:1: error: expected NAME=VALUE, or five fields and a command [BadSetting]|not S/u cron ignores this file because of line 1
*a.timer U/a.timer=DAILY E/a.timer.d/x.conf=\n[Timer]\nOnCalendar=24:00\n S/u=@daily\x20a\n|upcoming --utc --after 2024-03-31T00:00:00Z|2024-04-01T00:00:00Z>u:1>a;2024-04-01T00:00:00Z>a.timer>a.service|root/etc/systemd/system/a.timer.d/x.conf:3: error: hour in '24:00': out of range 0-23 [OutOfRange]|
C/a/ S/u=@daily\x20a\n|upcoming --utc --after 2024-03-31T00:00:00Z|2024-04-01T00:00:00Z>u:1>a||C/a not readable
*a.timer E/a.timer= U/a.timer|upcoming --after 2024-03-31T00:00:00Z|||E/a.timer masked
ROWS

# With --strict the first error stops the answer. What is reported of the machine stays.
program_answers <<'ROWS'
S/u=x\n@daily\x20a\ny\n|upcoming --strict --utc --after 2024-03-31T00:00:00Z||root/var/spool/cron/crontabs/u:1: error: expected NAME=VALUE, or five fields and a command [BadSetting]|not S/u cron ignores this file because of line 1
S/u=x\n@daily\x20a\ny\n|--strict --after 2024-03-31T00:00:00Z||root/var/spool/cron/crontabs/u:1: error: expected NAME=VALUE, or five fields and a command [BadSetting]|not S/u cron ignores this file because of line 1
S/u=x\n@daily\x20a\ny\n|plan --strict --limit 1 --since 2024-03-31T00:00:00Z --until 2024-04-03T00:00:00Z||root/var/spool/cron/crontabs/u:1: error: expected NAME=VALUE, or five fields and a command [BadSetting]|not S/u cron ignores this file because of line 1
S/u=x\n@daily\x20a\ny\n|quiet --strict --limit 1 --since 2024-03-31T00:00:00Z --until 2024-04-03T00:00:00Z||root/var/spool/cron/crontabs/u:1: error: expected NAME=VALUE, or five fields and a command [BadSetting]|not S/u cron ignores this file because of line 1
*a.timer U/a.timer=DAILY E/a.timer.d/x.conf=\n[Timer]\nOnCalendar=24:00\n S/u=@daily\x20a\n|upcoming --strict --after 2024-03-31T00:00:00Z||root/etc/systemd/system/a.timer.d/x.conf:3: error: hour in '24:00': out of range 0-23 [OutOfRange]|
C/a/ S/u=x\n|upcoming --strict --after 2024-03-31T00:00:00Z||root/var/spool/cron/crontabs/u:1: error: expected NAME=VALUE, or five fields and a command [BadSetting]|C/a not readable,not S/u cron ignores this file because of line 1
C/a/ S/u=@daily\x20a\n|upcoming --strict --utc --after 2024-03-31T00:00:00Z|2024-04-01T00:00:00Z>u:1>a||C/a not readable
S/u=@daily\x20a\n|upcoming --strict --utc --after 2024-03-31T00:00:00Z|2024-04-01T00:00:00Z>u:1>a||
ROWS

machine_has_cron=no
program_answers <<'ROWS'
S/u=@daily\x20a\n|upcoming --utc --after 2024-03-31T00:00:00Z|2024-04-01T00:00:00Z>u:1>a||cron
S/u=x\n|upcoming --utc --after 2024-03-31T00:00:00Z||root/var/spool/cron/crontabs/u:1: error: expected NAME=VALUE, or five fields and a command [BadSetting]|cron
ROWS
machine_has_cron=yes

# ---- errors

# Rows from standard input: arguments, and the line on standard error. Nothing is printed.
jobs_errors() {
  local words line
  program_make 'S/u=*\x20*\x20*\x20*\x20*\x20a\n'
  while IFS='|' read -r words line; do
    echo "$line" >"$work/err.wanted"
    read -r -a words <<<"$words"
    program_run "${words[@]}" --root root
    program_compare "${words[*]}" /dev/null "$work/err.wanted" 1
  done
}
jobs_errors <<'ROWS'
plan --limit 59 --since 2024-01-01T00:00:00Z --until 2024-01-01T01:00:00Z|agenda: more than 59 starts: give a shorter span, or --limit N [TooMany]
quiet --limit 1 --since 2024-01-01T00:00:00Z --until 2024-01-01T01:00:00Z|agenda: more than 1 starts: give a shorter span, or --limit N [TooMany]
ROWS

# A number that is out of its range: after the times, the span and the length, and before anything is reported. The planners come first,
# then the room, and then the limit.
jobs_errors <<'ROWS'
plan --limit 0|agenda: --limit: not from 1 to 1000000: '0' [BadLimit]
plan --limit 1000001|agenda: --limit: not from 1 to 1000000: '1000001' [BadLimit]
quiet --limit 4294967295|agenda: --limit: not from 1 to 1000000: '4294967295' [BadLimit]
plan --planners 0|agenda: --planners: not from 1 to 8: '0' [BadSize]
quiet --planners 9|agenda: --planners: not from 1 to 8: '9' [BadSize]
plan --room 0|agenda: --room: not from 1 to 1024: '0' [BadSize]
quiet --room 1025|agenda: --room: not from 1 to 1024: '1025' [BadSize]
plan --planners 9 --room 0 --limit 0|agenda: --planners: not from 1 to 8: '9' [BadSize]
plan --room 0 --limit 0|agenda: --room: not from 1 to 1024: '0' [BadSize]
plan --zone Nowhere/At_all --limit 0|agenda: zone 'Nowhere/At_all': no such zone [NoSuchZone]
plan --utc --limit 0 --since 2024-01-02 --until 2024-01-01|agenda: --until is before --since (2024-01-02T00:00:00+00:00) [Backwards]
quiet --room 0 --least x|agenda: --least: not a length: 'x' (such as '90min' or '2h') [BadLength]
ROWS
program_answers <<'ROWS'
S/u=x\n|plan --limit 0||agenda: --limit: not from 1 to 1000000: '0' [BadLimit]|
S/u=x\n|quiet --strict --room 0||agenda: --room: not from 1 to 1024: '0' [BadSize]|
ROWS

# ---- the next starts of a rule

# Rows from standard input: a rule, the other arguments, and the lines on standard output, with `;` between them.
next_starts() {
  local rule words lines
  while IFS='|' read -r rule words lines; do
    read -r -a words <<<"$words"
    program_run next "$rule" "${words[@]}"
    printf '%s\n' "${lines//;/$'\n'}" >"$work/out.wanted"
    program_compare "next '$rule' ${words[*]}" "$work/out.wanted" /dev/null 0
  done
}

# Rows from standard input: a rule, the other arguments, and the line on standard error. Nothing is printed.
next_errors() {
  local rule words line
  while IFS='|' read -r rule words line; do
    read -r -a words <<<"$words"
    program_run next "$rule" "${words[@]}"
    echo "$line" >"$work/err.wanted"
    program_compare "next '$rule' ${words[*]}" /dev/null "$work/err.wanted" 1
  done
}

# The zone of these rows is a file: CET.
program_make etc/zone=CET
next_zone=$machine_folder/$machine_root/etc/zone

# Five words, or an @ in front, are a cron rule; all else is a calendar event. Blanks around words don't count.
next_starts <<'ROWS'
30 2 * * *|--utc --count 2 --after 2024-03-30T12:00:00Z|2024-03-31T02:30:00Z;2024-04-01T02:30:00Z
  30 2	* * *  |--utc --count 1 --after 2024-03-30T12:00:00Z|2024-03-31T02:30:00Z
@daily|--utc --count 1 --after 2024-03-30T12:00:00Z|2024-03-31T00:00:00Z
 @weekly |--utc --count 1 --after 2024-03-30T12:00:00Z|2024-03-31T00:00:00Z
weekly|--utc --count 1 --after 2024-03-30T12:00:00Z|2024-04-01T00:00:00Z
Mon *-*-* 09:00|--utc --count 1 --after 2024-03-30T12:00:00Z|2024-04-01T09:00:00Z
09:00|--utc --after 2024-03-30T12:00:00Z|2024-03-31T09:00:00Z;2024-04-01T09:00:00Z;2024-04-02T09:00:00Z;2024-04-03T09:00:00Z;2024-04-04T09:00:00Z
0 0 31 2 *|--utc --after 2024-03-30T12:00:00Z|none
2999-12-31|--utc --after 2024-03-30T12:00:00Z|2999-12-31T00:00:00Z;none
@daily|--utc --count 1 --json --after 2024-03-30T12:00:00Z|{"start":"2024-03-31T00:00:00Z"}
@daily|--zone UTC --count 1 --after 2024-03-30T12:00:00Z|2024-03-31T00:00:00+00:00
@daily|--zone UTC --count 1 --json --after 2024-03-30T12:00:00Z|{"start":"2024-03-31T00:00:00Z","local":"2024-03-31T00:00:00+00:00"}
ROWS
next_starts <<ROWS
30 2 * * *|--zone $next_zone --count 2 --after 2024-03-30T12:00:00Z|2024-03-31T03:00:00+02:00;2024-04-01T02:30:00+02:00
09:00 UTC|--zone $next_zone --count 1 --after 2024-03-31T12:00:00Z|2024-04-01T11:00:00+02:00
ROWS

# The time is now if it isn't given: 1970 is over.
next_starts <<'ROWS'
1970-01-01 12:00|--utc|none
ROWS

# An invalid rule is reported as `check` reports it.
next_errors <<'ROWS'
99 * * * *|--utc|agenda: rule: minute '99': out of range 0-59 [OutOfRange]
0 0 * * mon-x|--utc|agenda: rule: day of week 'mon-x': unknown name [BadName]
@dayly|--utc|agenda: rule: unknown word '@dayly' [UnknownWord]
* * * *|--utc|agenda: rule: '* * * *' is not a calendar event [WrongParts]
Mon 25:00|--utc|agenda: rule: hour in 'Mon 25:00': out of range 0-23 [OutOfRange]
09:00 Nowhere/At_all|--utc|agenda: rule: time zone in '09:00 Nowhere/At_all': unknown [Zone]
|--utc|agenda: rule: '' is not a calendar event [WrongParts]
ROWS

# The zone comes first, then the time, the number of starts, and the rule.
next_errors <<'ROWS'
x|--zone Nowhere/At_all --after x --count 0|agenda: zone 'Nowhere/At_all': no such zone [NoSuchZone]
x|--utc --after x --count 0|agenda: --after: not a time: 'x' (such as 'tomorrow 02:00', '+8h', '2026-12-01 22:00') [BadTime]
x|--utc --count 0|agenda: --count: not from 1 to 1000: '0' [BadCount]
x|--utc --count 1001|agenda: --count: not from 1 to 1000: '1001' [BadCount]
ROWS
