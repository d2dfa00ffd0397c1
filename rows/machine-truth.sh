# shellcheck shell=bash disable=SC2154,SC2034
# Rows of what a machine may start at times that its files don't tell: how it is reported, what `agenda machine clear` and `quiet` say of it,
# the statuses of clear, and what --except and --only leave out. Expected lines are worked out by hand from systemd.timer(5), docs/FORMATS.md and
# agenda-machine(1).

# shellcheck source=/dev/null
. "$top/rows/lib/program.sh"

# Rows from standard input: a root, two times of 1 January 2024 with `-` between them, further options, and the fields of program_answers after
# the arguments, with the status. The question is whether the span between the times is clear.
truth_clear() {
  local root span options lines errors reports code
  while IFS='|' read -r root span options lines errors reports code; do
    program_make "$root"
    program_answers_are "clear --since 2024-01-01T${span%-*}Z --until 2024-01-01T${span#*-}Z $options" "$lines" "$errors" "$reports" "$root" "$code"
  done
}

# ---- timers

# Beside its events a timer starts by a monotonic setting. Where its events may start it, that is the answer; elsewhere nothing is known, unless
# the timer is left out. It is reported in any case.
truth_clear <<'ROWS'
*m.timer U/m.timer=[Timer]\nOnCalendar=03:00\nOnUnitActiveSec=6h\n|12:00:00-13:00:00||||also U/m.timer OnUnitActiveSec,clear 1|4
*m.timer U/m.timer=[Timer]\nOnCalendar=03:00\nOnUnitActiveSec=6h\n|12:00:00-13:00:00|--except m.timer|||also U/m.timer OnUnitActiveSec|0
*m.timer U/m.timer=[Timer]\nOnCalendar=03:00\nOnUnitActiveSec=6h\n|12:00:00-13:00:00|--except m.service||agenda: --except: nothing is named 'm.service' [NothingNamed]||2
*m.timer U/m.timer=[Timer]\nOnCalendar=03:00\nOnUnitActiveSec=6h\n|02:30:00-03:30:00||2024-01-01T03:00:00+00:00>2024-01-01T03:01:00+00:00>m.timer>m.service||also U/m.timer OnUnitActiveSec|1
*m.timer U/m.timer=[Timer]\nOnCalendar=03:00\nOnUnitActiveSec=6h\n|02:30:00-03:30:00|--except m.timer|||also U/m.timer OnUnitActiveSec|0
*m.timer U/m.timer=[Timer]\nOnCalendar=03:00\nOnUnitActiveSec=6h\n|02:30:00-03:30:00|--nominal|2024-01-01T03:00:00+00:00>m.timer>m.service||also U/m.timer OnUnitActiveSec|1
*m.timer U/m.timer=[Timer]\nOnCalendar=03:00\n E/m.timer.d/x.conf=[Timer]\nOnStartupSec=1h\n|12:00:00-13:00:00||||also U/m.timer OnStartupSec,clear 1|4
U/m.timer=[Timer]\nOnCalendar=03:00\nOnUnitActiveSec=6h\n|12:00:00-13:00:00|||||0
U/m.timer=[Timer]\nOnCalendar=03:00\nOnUnitActiveSec=6h\n|12:00:00-13:00:00|--all|||also U/m.timer OnUnitActiveSec,clear 1|4
ROWS

# A timer without events. Of several settings the first one is named that has a time span, since the last empty value.
truth_clear <<'ROWS'
*a.timer U/a.timer=[Timer]\nOnBootSec=5min\n|12:00:00-13:00:00||||monotonic U/a.timer OnBootSec,clear 1|4
*a.timer U/a.timer=[Timer]\nOnBootSec=5min\n|12:00:00-13:00:00|--except a.timer|||monotonic U/a.timer OnBootSec|0
*a.timer U/a.timer=[Timer]\nOnUnitActiveSec=1d\nOnBootSec=15min\n|12:00:00-13:00:00||||monotonic U/a.timer OnUnitActiveSec,clear 1|4
*a.timer U/a.timer=[Timer]\nOnActiveSec=bogus\nOnUnitInactiveSec=1h\nOnActiveSec=1h\nOnCalendar=03:00\n|12:00:00-13:00:00||||also U/a.timer OnUnitInactiveSec,clear 1|4
*a.timer U/a.timer=[Timer]\nOnBootSec=5\nOnCalendar=\nOnActiveSec=5\nOnCalendar=03:00\n|12:00:00-13:00:00||||also U/a.timer OnActiveSec,clear 1|4
*a.timer U/a.timer=[Timer]\nOnCalendar=03:00\nOnBootSec=\nOnActiveSec=5\n|02:30:00-03:30:00||||monotonic U/a.timer OnActiveSec,clear 1|4
ROWS

# An empty value removes the settings before it, and one that is no time span does nothing.
truth_clear <<'ROWS'
*a.timer U/a.timer=[Timer]\nOnUnitActiveSec=10min\nOnCalendar=\nOnCalendar=03:00\n|12:00:00-13:00:00|||||0
*a.timer U/a.timer=[Timer]\nOnUnitActiveSec=10min\nOnBootSec=\nOnCalendar=03:00\n|12:00:00-13:00:00|||||0
*a.timer U/a.timer=[Timer]\nOnUnitActiveSec=10min\nOnBootSec=\nOnCalendar=03:00\n|02:30:00-03:30:00||2024-01-01T03:00:00+00:00>2024-01-01T03:01:00+00:00>a.timer>a.service|||1
*a.timer U/a.timer=[Timer]\nOnUnitActiveSec=10min\n E/a.timer.d/x.conf=[Timer]\nOnUnitActiveSec=\nOnCalendar=03:00\n|12:00:00-13:00:00|||||0
*a.timer U/a.timer=[Timer]\nOnBootSec=bogus\nOnCalendar=03:00\n|12:00:00-13:00:00|||||0
*a.timer U/a.timer=[Timer]\nOnCalendar=03:00\nOnUnitActiveSec=6\x20parsecs\n|12:00:00-13:00:00|||||0
*a.timer U/a.timer=[Timer]\nOnCalendar=03:00\n[Install]\nOnUnitActiveSec=6h\n|12:00:00-13:00:00|||||0
ROWS

# The changes of the clock and of the time zone. The last boolean counts, and an empty value of another setting doesn't change it.
truth_clear <<'ROWS'
*a.timer U/a.timer=[Timer]\nOnCalendar=03:00\nOnClockChange=yes\n|12:00:00-13:00:00||||also U/a.timer OnClockChange,clear 1|4
*a.timer U/a.timer=[Timer]\nOnCalendar=03:00\nOnTimezoneChange=true\n|12:00:00-13:00:00||||also U/a.timer OnTimezoneChange,clear 1|4
*a.timer U/a.timer=[Timer]\nOnCalendar=03:00\nOnTimezoneChange=1\n|12:00:00-13:00:00|--except a.timer|||also U/a.timer OnTimezoneChange|0
*a.timer U/a.timer=[Timer]\nOnTimezoneChange=on\nOnClockChange=on\nOnBootSec=5\nOnCalendar=03:00\n|12:00:00-13:00:00|--except a.timer|||also U/a.timer OnBootSec,also U/a.timer OnClockChange,also U/a.timer OnTimezoneChange|0
*a.timer U/a.timer=[Timer]\nOnClockChange=yes\nOnCalendar=\nOnCalendar=03:00\n|12:00:00-13:00:00||||also U/a.timer OnClockChange,clear 1|4
*a.timer U/a.timer=[Timer]\nOnCalendar=03:00\nOnClockChange=no\nOnTimezoneChange=0\n|12:00:00-13:00:00|||||0
*a.timer U/a.timer=[Timer]\nOnCalendar=03:00\nOnClockChange=yes\nOnClockChange=no\n|12:00:00-13:00:00|||||0
*a.timer U/a.timer=[Timer]\nOnCalendar=03:00\nOnClockChange=maybe\n|12:00:00-13:00:00|||||0
*a.timer U/a.timer=[Timer]\nOnCalendar=03:00\nOnClockChange=yes\n|02:30:00-03:30:00||2024-01-01T03:00:00+00:00>2024-01-01T03:01:00+00:00>a.timer>a.service||also U/a.timer OnClockChange|1
ROWS

# Instances of a template are timers of their own, and have one file.
truth_clear <<'ROWS'
*a@b.timer *a@c.timer U/a@.timer=[Timer]\nOnBootSec=5\n N/a@.service|12:00:00-13:00:00||||monotonic U/a@.timer,monotonic U/a@.timer,clear 2|4
*a@b.timer *a@c.timer U/a@.timer=[Timer]\nOnBootSec=5\n N/a@.service|12:00:00-13:00:00|--except a-b.timer --except a-c.timer|||monotonic U/a@.timer,monotonic U/a@.timer|0
*a@b.timer U/a@.timer=[Timer]\nOnBootSec=5\n N/a@.service|12:00:00-13:00:00|--except a-b.timer|||monotonic U/a@.timer|0
ROWS

# What systemd reads otherwise: a range of days from the end of the month, and a line with a carriage return in it. An empty value doesn't change that.
truth_clear <<'ROWS'
*a.timer U/a.timer=[Timer]\nOnCalendar=*-*~1..4/2\x2003:00\n|12:00:00-13:00:00||||otherwise U/a.timer:2,clear 1|4
*a.timer U/a.timer=[Timer]\nOnCalendar=*-*~1..4/2\x2003:00\n|12:00:00-13:00:00|--except a.timer|||otherwise U/a.timer:2|0
*a.timer U/a.timer=[Timer]\nOnCalendar=*-*~1..3/2\x2003:00\n|12:00:00-13:00:00|||||0
*a.timer U/a.timer=[Timer]\nOnCalendar=03:00\n E/a.timer.d/x.conf=[Timer]\nOnCalendar=*-*~1..4/2\x2004:00\n|12:00:00-13:00:00||||otherwise E/a.timer.d/x.conf:2,clear 1|4
*a.timer U/a.timer=[Timer]\nOnCalendar=03:00\nX-A=b\x0dc\n|12:00:00-13:00:00||||otherwise U/a.timer:3,clear 1|4
ROWS

# What agenda rejects, systemd may take: an event with a fraction of a second, and a file that isn't UTF-8. What systemd rejects starts nothing.
truth_clear <<'ROWS'
*a.timer U/a.timer=[Timer]\nOnCalendar=*:*:00.5\n|12:00:00-13:00:00|||root/usr/lib/systemd/system/a.timer:2: error: second in '*:*:00.5': fractions are not supported [Fraction]|clear 1|4
*a.timer U/a.timer=[Timer]\nOnCalendar=*:*:00.5\n|12:00:00-13:00:00|--except a.timer||root/usr/lib/systemd/system/a.timer:2: error: second in '*:*:00.5': fractions are not supported [Fraction]||0
*a.timer U/a.timer=[Timer]\nOnCalendar=03:00\nOnCalendar=*:*:00.5\n|02:30:00-03:30:00||2024-01-01T03:00:00+00:00>2024-01-01T03:01:00+00:00>a.timer>a.service|root/usr/lib/systemd/system/a.timer:3: error: second in '*:*:00.5': fractions are not supported [Fraction]||1
*a.timer U/a.timer=[Timer]\nOnCalendar=03:00\n E/a.timer.d/x.conf=[Timer]\nOnCalendar=*:*:00.5\nOnUnitActiveSec=1h\n|12:00:00-13:00:00|||root/etc/systemd/system/a.timer.d/x.conf:2: error: second in '*:*:00.5': fractions are not supported [Fraction]|also U/a.timer OnUnitActiveSec,clear 2|4
*a.timer U/a.timer=[Timer]\nOnCalendar=03:00\n E/a.timer.d/x.conf=[Timer]\nOnCalendar=*:*:00.5\nOnUnitActiveSec=1h\n|12:00:00-13:00:00|--except a.timer||root/etc/systemd/system/a.timer.d/x.conf:2: error: second in '*:*:00.5': fractions are not supported [Fraction]|also U/a.timer OnUnitActiveSec|0
*a.timer U/a.timer=[Timer]\nOnCalendar=03:00\n#\xff\n|12:00:00-13:00:00|||root/usr/lib/systemd/system/a.timer: error: not UTF-8 [NotUtf8]|clear 1|4
*a.timer U/a.timer=[Timer]\nOnCalendar=03:00\n#\xff\n|12:00:00-13:00:00|--except a.timer||root/usr/lib/systemd/system/a.timer: error: not UTF-8 [NotUtf8]||0
*a.timer U/a.timer=[Timer]\nOnCalendar=*:*/15\nOnCalendar=03:00\n|12:00:00-13:00:00||||not U/a.timer:2 systemd 252 rejects '*:*/15': write 0/15 for */15|0
*a.timer U/a.timer=[Timer]\nOnBootSec=bogus\n|12:00:00-13:00:00||||not U/a.timer systemd 252 rejects this timer: it has no valid trigger|0
*a.timer U/a.timer=[Timer]\nOnCalendar=x\nOnCalendar=\n|12:00:00-13:00:00|||root/usr/lib/systemd/system/a.timer:2: error: 'x' is not a calendar event [UnknownWord]|not U/a.timer systemd 252 rejects this timer: it has no valid trigger|0
*a.timer U/a.timer=[Timer]\nOnCalendar=x\n[Install\n|12:00:00-13:00:00|||root/usr/lib/systemd/system/a.timer:2: error: 'x' is not a calendar event [UnknownWord]|not U/a.timer systemd 252 rejects this file: bad section header|0
*a.timer U/a.timer=[Timer]\nOnBootSec=5\n[Install\n|12:00:00-13:00:00||||not U/a.timer systemd 252 rejects this file: bad section header|0
ROWS

# The errors of a timer that systemd rejects don't count, but those of its drop-ins do, since the report has the timer's file alone. Those of
# another instance of its template count, too.
truth_clear <<'ROWS'
*a.timer U/a.timer=[Timer]\nOnCalendar=x\n E/a.timer.d/x.conf=[Timer]\nOnCalendar=y\nOnCalendar=\n|12:00:00-13:00:00|||root/usr/lib/systemd/system/a.timer:2: error: 'x' is not a calendar event [UnknownWord];root/etc/systemd/system/a.timer.d/x.conf:2: error: 'y' is not a calendar event [UnknownWord]|not U/a.timer systemd 252 rejects this timer: it has no valid trigger,clear 1|4
*a.timer U/a.timer=[Timer]\nOnCalendar=*:*/15\x20Nowhere/City\nOnCalendar=03:00\n|12:00:00-13:00:00|||root/usr/lib/systemd/system/a.timer:2: error: time zone in '*:*/15 Nowhere/City': unknown [Zone]|not U/a.timer:2 systemd 252 rejects '*:*/15 Nowhere/City': write 0/15 for */15|0
*a.timer U/a.timer=[Timer]\nOnCalendar=*:*/15\nOnCalendar=*:*:00.5\nOnCalendar=03:00\n|12:00:00-13:00:00|||root/usr/lib/systemd/system/a.timer:3: error: second in '*:*:00.5': fractions are not supported [Fraction]|not U/a.timer:2 systemd 252 rejects '*:*/15': write 0/15 for */15,clear 1|4
*a@2300-01-01.timer *a@12:00:00.5.timer U/a@.timer=[Timer]\nOnCalendar=%i\n N/a@.service|12:00:00-13:00:00|||root/usr/lib/systemd/system/a@.timer:2: error: second in '12:00:00.5': fractions are not supported [Fraction]|not U/a@.timer:2 systemd 252 rejects '2300-01-01': years end at 2199,not U/a@.timer systemd 252 rejects this timer: it has no valid trigger,clear 1|4
*a@2300-01-01.timer *a@12:00:00.5.timer U/a@.timer=[Timer]\nOnCalendar=%i\nOnCalendar=03:00\n N/a@.service|12:00:00-13:00:00|||root/usr/lib/systemd/system/a@.timer:2: error: second in '12:00:00.5': fractions are not supported [Fraction]|not U/a@.timer:2 systemd 252 rejects '2300-01-01': years end at 2199,clear 1|4
ROWS

# A timer that only a unit outside of the boot wants. It is no source, so it is left out by its path, which is that of the line.
truth_clear <<'ROWS'
E/y.target.wants/a.timer>y U/a.timer=[Timer]\nOnCalendar=03:00\n|12:00:00-13:00:00||||wanted E/y.target.wants/a.timer y.target,clear 1|4
E/y.target.wants/a.timer>y U/a.timer=[Timer]\nOnCalendar=03:00\n|02:30:00-03:30:00||||wanted E/y.target.wants/a.timer y.target,clear 1|4
E/y.target.wants/a.timer>y U/a.timer=[Timer]\nOnCalendar=03:00\n|12:00:00-13:00:00|--except root/etc/systemd/system/y.target.wants/a.timer|||wanted E/y.target.wants/a.timer y.target|0
E/y.target.wants/a.timer>y U/a.timer=[Timer]\nOnCalendar=03:00\n|12:00:00-13:00:00|--all||||0
E/a\nb.target.wants/c.timer>y U/c.timer=DAILY|12:00:00-13:00:00|--except root/etc/systemd/system/a\x0ab.target.wants/c.timer|||wanted E/a\nb.target.wants/c.timer a\x0ab.target|0
ROWS

# The timer of a user who lingers has the user in its name.
truth_ann='etc/passwd=ann:x:1:1::/home/ann:/bin/sh\n var/lib/systemd/linger/ann usr/lib/systemd/user/default.target home/ann/.config/systemd/user/a.service=[Service]\nExecStart=/bin/a\n
  home/ann/.config/systemd/user/default.target.wants/a.timer>../a.timer home/ann/.config/systemd/user/a.timer=[Timer]\nOnCalendar=03:00\nOnUnitActiveSec=5\n'
truth_ann=${truth_ann//$'\n'/ }
truth_clear <<ROWS
$truth_ann|12:00:00-13:00:00||||also home/ann/.config/systemd/user/a.timer OnUnitActiveSec,clear 1|4
$truth_ann|12:00:00-13:00:00|--except ann/a.timer|||also home/ann/.config/systemd/user/a.timer OnUnitActiveSec|0
$truth_ann|12:00:00-13:00:00|--except a.timer||agenda: --except: nothing is named 'a.timer' [NothingNamed]||2
$truth_ann|02:30:00-03:30:00||2024-01-01T03:00:00+00:00>2024-01-01T03:01:00+00:00>ann/a.timer>ann a.service||also home/ann/.config/systemd/user/a.timer OnUnitActiveSec|1
ROWS

# A timer whose unit can't start, or whose user doesn't linger, starts nothing.
truth_clear <<'ROWS'
*a.timer U/a.timer=[Timer]\nOnBootSec=5\nUnit=x.service\n|12:00:00-13:00:00||||missing U/a.timer x.service|0
*a.timer U/a.timer=[Timer]\nOnBootSec=5\n E/a.service>/dev/null|12:00:00-13:00:00||||mask U/a.timer a.service|0
*a.timer U/a.timer=[Timer]\nOnBootSec=5\n E/a.service=[Service]\nExecStart=\n|12:00:00-13:00:00||||idle U/a.timer a.service|0
*a.timer E/a.timer>/dev/null U/a.timer=[Timer]\nOnBootSec=5\n|12:00:00-13:00:00||||E/a.timer masked|0
etc/passwd=ann:x:1:1::/home/ann:/bin/sh\n usr/lib/systemd/user/default.target home/ann/.config/systemd/user/a.timer=DAILY home/ann/.config/systemd/user/default.target.wants/a.timer>../a.timer|12:00:00-13:00:00||||not home/ann/.config/systemd/user/a.timer user ann does not linger|0
ROWS

# ---- crontabs

# An error in what cron loads counts, and one in a file that cron ignores doesn't. A line is left out by its name, or with all other lines by
# that of the crontab.
truth_clear <<'ROWS'
C/a=0\x203\x20*\x20jan#2\x20*\x20root\x20x\n0\x204\x20*\x20*\x20*\x20root\x20x\n|12:00:00-13:00:00|||root/etc/cron.d/a:1: error: month 'jan#2': unknown name [BadName]|clear 1|4
C/a=0\x203\x20*\x20jan#2\x20*\x20root\x20x\n0\x204\x20*\x20*\x20*\x20root\x20x\n|12:00:00-13:00:00|--except a:1||root/etc/cron.d/a:1: error: month 'jan#2': unknown name [BadName]||0
C/a=0\x203\x20*\x20jan#2\x20*\x20root\x20x\n0\x204\x20*\x20*\x20*\x20root\x20x\n|12:00:00-13:00:00|--except a:2||root/etc/cron.d/a:1: error: month 'jan#2': unknown name [BadName]|clear 1|4
C/a=0\x203\x20*\x20jan#2\x20*\x20root\x20x\n0\x204\x20*\x20*\x20*\x20root\x20x\n|12:00:00-13:00:00|--except a||root/etc/cron.d/a:1: error: month 'jan#2': unknown name [BadName]||0
C/a=0\x203\x20*\x20jan#2\x20*\x20root\x20x\n0\x204\x20*\x20*\x20*\x20root\x20x\n|03:30:00-04:30:00|--except a||root/etc/cron.d/a:1: error: month 'jan#2': unknown name [BadName]||0
C/a=0\x203\x20*\x20jan#2\x20*\x20root\x20x\n0\x204\x20*\x20*\x20*\x20root\x20x\n|03:30:00-04:30:00|--except a:1|2024-01-01T04:00:00+00:00>2024-01-01T04:00:00+00:00>a:2>root x|root/etc/cron.d/a:1: error: month 'jan#2': unknown name [BadName]||1
C/a=0\x203\x20*\x20jan#2\x20*\x20root\x20x\n0\x204\x20*\x20*\x20*\x20root\x20x\n|03:30:00-04:30:00|--except root/etc/cron.d/a --except a:2||root/etc/cron.d/a:1: error: month 'jan#2': unknown name [BadName]|clear 1|4
etc/crontab=0\x203\x20*\x20jan#2\x20*\x20root\x20x\n|12:00:00-13:00:00|--except system:1||root/etc/crontab:1: error: month 'jan#2': unknown name [BadName]||0
etc/crontab=0\x203\x20*\x20jan#2\x20*\x20root\x20x\n|12:00:00-13:00:00|--except system||root/etc/crontab:1: error: month 'jan#2': unknown name [BadName]||0
etc/crontab=0\x203\x20*\x20jan#2\x20*\x20root\x20x\n|12:00:00-13:00:00|--except crontab||agenda: --except: nothing is named 'crontab' [NothingNamed]||2
C/a=\n S/a=0\x203\x20*\x20jan#2\x20*\x20x\n|12:00:00-13:00:00|--except a.user:1||root/var/spool/cron/crontabs/a:1: error: month 'jan#2': unknown name [BadName]||0
S/u=\xff\n|12:00:00-13:00:00|||root/var/spool/cron/crontabs/u: error: not UTF-8 [NotUtf8]|clear 1|4
S/u=\xff\n|12:00:00-13:00:00|--except u||root/var/spool/cron/crontabs/u: error: not UTF-8 [NotUtf8]||0
S/u=0\x2024\x20*\x20*\x20*\x20x\n0\x203\x20*\x20jan#2\x20*\x20x\n|12:00:00-13:00:00|||root/var/spool/cron/crontabs/u:1: error: hour '24': out of range 0-23 [OutOfRange];root/var/spool/cron/crontabs/u:2: error: month 'jan#2': unknown name [BadName]|not S/u cron ignores this file because of line 1|0
S/u=0\x2024\x20*\x20*\x20*\x20x\n S/v=0\x203\x20*\x20jan#2\x20*\x20x\n0\x203\x20*\x20feb#2\x20*\x20x\n|12:00:00-13:00:00|||root/var/spool/cron/crontabs/u:1: error: hour '24': out of range 0-23 [OutOfRange];root/var/spool/cron/crontabs/v:1: error: month 'jan#2': unknown name [BadName];root/var/spool/cron/crontabs/v:2: error: month 'feb#2': unknown name [BadName]|not S/u cron ignores this file because of line 1,clear 2|4
etc/passwd=root:x:0:0::/:/bin/sh\n C/a=0\x203\x20*\x20jan#2\x20*\x20root\x20x\n0\x203\x20*\x20*\x20*\x20carl\x20x\n|12:00:00-13:00:00|||root/etc/cron.d/a:1: error: month 'jan#2': unknown name [BadName]|not C/a:2 user 'carl' does not exist: cron ignores this file|0
C/a=0\x203\x20*\x20jan#2\x20*\x20root\x20x\nA\x20B=c\n|12:00:00-13:00:00|||root/etc/cron.d/a:1: error: month 'jan#2': unknown name [BadName]|not C/a:2 cron ignores this file: not a setting|0
etc/passwd=root:x:0:0::/:/bin/sh\n C/a=0\x203\x20*\x20*\x20*\x20carl\x20x\n|02:30:00-03:30:00||||not C/a:1 user 'carl' does not exist: cron ignores this file|0
ROWS

# cronie starts the jobs after CRON_TZ= in another zone. Another daemon than Debian's ignores no file for its text.
machine_daemon=usr/sbin/crond
truth_clear <<'ROWS'
C/a=0\x204\x20*\x20*\x20*\x20root\x20x\nCRON_TZ=UTC\n0\x205\x20*\x20*\x20*\x20root\x20y\n@daily\x20root\x20z\n|12:00:00-13:00:00||||zoned C/a:3,zoned C/a:4,clear 2|4
C/a=0\x204\x20*\x20*\x20*\x20root\x20x\nCRON_TZ=UTC\n0\x205\x20*\x20*\x20*\x20root\x20y\n@daily\x20root\x20z\n|12:00:00-13:00:00|--except a:4|||zoned C/a:3,zoned C/a:4,clear 1|4
C/a=0\x204\x20*\x20*\x20*\x20root\x20x\nCRON_TZ=UTC\n0\x205\x20*\x20*\x20*\x20root\x20y\n@daily\x20root\x20z\n|12:00:00-13:00:00|--except a:4 --except a:3|||zoned C/a:3,zoned C/a:4|0
C/a=0\x204\x20*\x20*\x20*\x20root\x20x\nCRON_TZ=UTC\n0\x205\x20*\x20*\x20*\x20root\x20y\n@daily\x20root\x20z\n|12:00:00-13:00:00|--except a|||zoned C/a:3,zoned C/a:4|0
C/a=0\x204\x20*\x20*\x20*\x20root\x20x\nCRON_TZ=UTC\n0\x205\x20*\x20*\x20*\x20root\x20y\n@daily\x20root\x20z\n|03:30:00-04:30:00|--except a|||zoned C/a:3,zoned C/a:4|0
C/a=0\x204\x20*\x20*\x20*\x20root\x20x\nCRON_TZ=UTC\n0\x205\x20*\x20*\x20*\x20root\x20y\n@daily\x20root\x20z\n|03:30:00-04:30:00|--except a:3 --except a:4|2024-01-01T04:00:00+00:00>2024-01-01T04:00:00+00:00>a:1>root x||zoned C/a:3,zoned C/a:4|1
S/u=0\x2024\x20*\x20*\x20*\x20x\n|12:00:00-13:00:00|||root/var/spool/cron/crontabs/u:1: error: hour '24': out of range 0-23 [OutOfRange]|clear 1|4
ROWS
machine_daemon=usr/sbin/cron

# Without a cron daemon crontabs are planned too, so an error in one counts. No cron daemon is none.
machine_has_cron=no
truth_clear <<'ROWS'
usr/x S/u=0\x203\x20*\x20*\x20*\x20x\n|12:00:00-13:00:00||||cron|0
usr/x S/u=0\x203\x20*\x20*\x20*\x20x\n|02:30:00-03:30:00||2024-01-01T03:00:00+00:00>2024-01-01T03:00:00+00:00>u:1>x||cron|1
usr/x S/u=0\x2024\x20*\x20*\x20*\x20x\n|12:00:00-13:00:00|||root/var/spool/cron/crontabs/u:1: error: hour '24': out of range 0-23 [OutOfRange]|cron,clear 1|4
ROWS
machine_has_cron=yes

# ---- other jobs, and files that can't be read

# What belongs to no crontab and no timer is left out by its path, as the line has it.
truth_clear <<'ROWS'
etc/anacrontab|12:00:00-13:00:00||||anacron,clear 1|4
etc/anacrontab|12:00:00-13:00:00|--except root/etc/anacrontab|||anacron|0
etc/anacrontab|12:00:00-13:00:00|--except etc/anacrontab||agenda: --except: nothing is named 'etc/anacrontab' [NothingNamed]||2
etc/anacrontab|12:00:00-13:00:00|--except /etc/anacrontab||agenda: --except: nothing is named '/etc/anacrontab' [NothingNamed]||2
F/atjobs/a|12:00:00-13:00:00||||at F/atjobs,clear 1|4
F/atjobs/a|12:00:00-13:00:00|--except root/var/spool/cron/atjobs|||at F/atjobs|0
root/.config/systemd/user/a.timer|12:00:00-13:00:00||||user root/.config/systemd/user,clear 1|4
root/.config/systemd/user/a.timer|12:00:00-13:00:00|--except root/root/.config/systemd/user|||user root/.config/systemd/user|0
etc/anacrontab F/atjobs/a root/.config/systemd/user/a.timer|12:00:00-13:00:00||||anacron,at F/atjobs,user root/.config/systemd/user,clear 3|4
etc/anacrontab F/atjobs/a root/.config/systemd/user/a.timer S/u=30\x2012\x20*\x20*\x20*\x20x\n|12:00:00-13:00:00||2024-01-01T12:30:00+00:00>2024-01-01T12:30:00+00:00>u:1>x||anacron,at F/atjobs,user root/.config/systemd/user|1
ROWS

# What can't be read may hold any job, and a name that agenda can't use may be that of one. What cron and systemd skip by its name holds none.
# The crontab of a user is planned whatever name the user has.
truth_clear <<'ROWS'
C/a/|12:00:00-13:00:00||||C/a not readable,clear 1|4
C/a/|12:00:00-13:00:00|--except root/etc/cron.d/a|||C/a not readable|0
C/a/ S/b>nowhere *c.timer U/c.timer!|12:00:00-13:00:00||||C/a not readable,S/b not readable,U/c.timer not readable,clear 3|4
C/a/ S/u=30\x2012\x20*\x20*\x20*\x20x\n|12:00:00-13:00:00||2024-01-01T12:30:00+00:00>2024-01-01T12:30:00+00:00>u:1>x||C/a not readable|1
*a.timer U/a.timer=[Timer]\nOnCalendar=03:00\n U/a.timer.d/x.conf/|12:00:00-13:00:00||||U/a.timer.d/x.conf not readable,clear 1|4
*a.timer U/a.timer=[Timer]\nOnCalendar=03:00\n U/a.timer.d/x.conf/|12:00:00-13:00:00|--except root/usr/lib/systemd/system/a.timer.d/x.conf|||U/a.timer.d/x.conf not readable|0
C/\xff|12:00:00-13:00:00||||etc/cron.d a name that isn't UTF-8,clear 1|4
C/\xff|12:00:00-13:00:00|--except root/etc/cron.d|||etc/cron.d a name that isn't UTF-8|0
*d@e\\.timer|12:00:00-13:00:00||||D/d@e\\.timer escape,clear 1|4
*d@e\\.timer|12:00:00-13:00:00|--except root/etc/systemd/system/x.target.wants/d@e\\.timer|||D/d@e\\.timer escape|0
etc/crontab C/system|12:00:00-13:00:00||||C/system name taken,clear 1|4
etc/crontab C/system|12:00:00-13:00:00|--except root/etc/cron.d/system|||C/system name taken|0
C/a.b=x\n|12:00:00-13:00:00||||C/a.b bad name|0
S/a:b=x\n|12:00:00-13:00:00||||S/a:b bad name|0
S/a\x20b=x\n|12:00:00-13:00:00||||S/a\x20b escape,clear 1|4
S/\xc3\xa0=x\n|12:00:00-13:00:00|--except root/var/spool/cron/crontabs/à|||S/\xc3\xa0 escape|0
S/ann@corp=30\x2012\x20*\x20*\x20*\x20x\n|12:00:00-13:00:00||2024-01-01T12:30:00+00:00>2024-01-01T12:30:00+00:00>ann@corp:1>x|||1
S/ann@corp=30\x2012\x20*\x20*\x20*\x20x\n S/CORP\\ann=31\x2012\x20*\x20*\x20*\x20x\n|12:00:00-13:00:00|--except ann@*|2024-01-01T12:31:00+00:00>2024-01-01T12:31:00+00:00>CORP\ann:1>x|||1
S/ann@corp=30\x2012\x20*\x20*\x20*\x20x\n S/CORP\\ann=31\x2012\x20*\x20*\x20*\x20x\n|12:00:00-13:00:00|--except ann@corp:1 --except CORP\ann||||0
D/b.timer|12:00:00-13:00:00||||D/b.timer no link|0
*f.timer|12:00:00-13:00:00||||D/f.timer no such timer|0
ROWS

# A time zone that can't be told. It is left out by the path of the root, and known if it is given.
truth_clear <<'ROWS'
etc/localtime/|12:00:00-13:00:00||||zone,clear 1|4
etc/localtime>UTC S/u=30\x2012\x20*\x20*\x20*\x20x\n|12:00:00-13:00:00||2024-01-01T12:30:00+00:00>2024-01-01T12:30:00+00:00>u:1>x||zone|1
etc/localtime/|12:00:00-13:00:00|--except root/|||zone|0
etc/localtime/|12:00:00-13:00:00|--utc||||0
etc/localtime/ etc/anacrontab|12:00:00-13:00:00||||anacron,zone,clear 2|4
ROWS

# ---- patterns

# `*` stands for any bytes and `?` for one. Any other byte is itself, also a backslash. The name of a crontab leaves out all its jobs, and
# that of another one isn't a part of it.
truth_clear <<'ROWS'
C/backup=0\x203\x20*\x20*\x20*\x20root\x20x\n0\x203\x20*\x20*\x20*\x20root\x20y\n|02:30:00-03:30:00|--except backup||||0
C/backup=0\x203\x20*\x20*\x20*\x20root\x20x\n0\x203\x20*\x20*\x20*\x20root\x20y\n|02:30:00-03:30:00|--except backup:?||||0
C/backup=0\x203\x20*\x20*\x20*\x20root\x20x\n0\x203\x20*\x20*\x20*\x20root\x20y\n|02:30:00-03:30:00|--except *:1|2024-01-01T03:00:00+00:00>2024-01-01T03:00:00+00:00>backup:2>root y|||1
C/backup=0\x203\x20*\x20*\x20*\x20root\x20x\n0\x203\x20*\x20*\x20*\x20root\x20y\n|02:30:00-03:30:00|--except backup:[12]||agenda: --except: nothing is named 'backup:[12]' [NothingNamed]||2
C/ab=0\x203\x20*\x20*\x20*\x20root\x20x\n C/abc=0\x203\x20*\x20*\x20*\x20root\x20x\n|02:30:00-03:30:00|--except ab|2024-01-01T03:00:00+00:00>2024-01-01T03:00:00+00:00>abc:1>root x|||1
C/ab=0\x203\x20*\x20*\x20*\x20root\x20x\n C/abc=0\x203\x20*\x20*\x20*\x20root\x20x\n|02:30:00-03:30:00|--except ab?|2024-01-01T03:00:00+00:00>2024-01-01T03:00:00+00:00>ab:1>root x|||1
C/ab=0\x203\x20*\x20*\x20*\x20root\x20x\n C/abc=0\x203\x20*\x20*\x20*\x20root\x20x\n|02:30:00-03:30:00|--except a*b*||||0
etc/crontab=0\x203\x20*\x20*\x20*\x20root\x20x\n S/u=0\x203\x20*\x20*\x20*\x20x\n|02:30:00-03:30:00|--except s*m|2024-01-01T03:00:00+00:00>2024-01-01T03:00:00+00:00>u:1>x|||1
*a\\x2db.timer U/a\\x2db.timer=[Timer]\nOnCalendar=03:00\n|02:30:00-03:30:00|--except a\*||||0
*a\\x2db.timer U/a\\x2db.timer=[Timer]\nOnCalendar=03:00\n|02:30:00-03:30:00|--except a\?||agenda: --except: nothing is named 'a\?' [NothingNamed]||2
*m.timer U/m.timer=[Timer]\nOnCalendar=03:00\nOnUnitActiveSec=6h\n|12:00:00-13:00:00|--except m.*|||also U/m.timer OnUnitActiveSec|0
etc/anacrontab C/a/ *m.timer U/m.timer=[Timer]\nOnUnitActiveSec=6h\n S/u=0\x203\x20*\x20*\x20*\x20x\n|02:30:00-03:30:00|--except *|||C/a not readable,anacron,monotonic U/m.timer OnUnitActiveSec,clear 2|4
etc/anacrontab F/atjobs/a|12:00:00-13:00:00|--except root/*/anacrontab|||anacron,at F/atjobs,clear 1|4
ROWS

# A character of two bytes is two of them.
truth_clear <<'ROWS'
*a.timer U/a.timer=[Timer]\nOnCalendar=03:00\n U/a.timer.d/\xc3\xa9.conf/|12:00:00-13:00:00|--except root/*/?.conf|||U/a.timer.d/\xc3\xa9.conf not readable,clear 1|4
*a.timer U/a.timer=[Timer]\nOnCalendar=03:00\n U/a.timer.d/\xc3\xa9.conf/|12:00:00-13:00:00|--except root/*/??.conf|||U/a.timer.d/\xc3\xa9.conf not readable|0
ROWS

# What the instances of a template have in common is left out only if all of them are.
truth_clear <<'ROWS'
*x@b.timer *x@c.timer U/x@.timer=[Timer]\nOnBootSec=5\n N/x@.service|12:00:00-13:00:00|--except x-b.timer|||monotonic U/x@.timer,monotonic U/x@.timer,clear 2|4
*x@b.timer *x@c.timer U/x@.timer=[Timer]\nOnBootSec=5\n N/x@.service|12:00:00-13:00:00|--except x-?.timer|||monotonic U/x@.timer,monotonic U/x@.timer|0
ROWS

# With --only other jobs are left out, and what is unknown of them. What has no job's name stays: a directory, a zone, a whole crontab.
truth_clear <<'ROWS'
*m.timer U/m.timer=[Timer]\nOnCalendar=03:00\nOnUnitActiveSec=6h\n C/backup=0\x203\x20*\x20*\x20*\x20root\x20x\n|12:00:00-13:00:00|--only backup|||also U/m.timer OnUnitActiveSec|0
*m.timer U/m.timer=[Timer]\nOnCalendar=03:00\nOnUnitActiveSec=6h\n C/backup=0\x203\x20*\x20*\x20*\x20root\x20x\n|12:00:00-13:00:00|--only m.timer|||also U/m.timer OnUnitActiveSec,clear 1|4
*m.timer U/m.timer=[Timer]\nOnCalendar=03:00\nOnUnitActiveSec=6h\n C/backup=0\x203\x20*\x20*\x20*\x20root\x20x\n|02:30:00-03:30:00|--only b*:1|2024-01-01T03:00:00+00:00>2024-01-01T03:00:00+00:00>backup:1>root x||also U/m.timer OnUnitActiveSec|1
*t.timer U/t.timer=[Timer]\nOnCalendar=03:00\n S/u=30\x2012\x20*\x20*\x20*\x20x\n S/v=30\x2012\x20*\x20*\x20*\x20x\n|12:00:00-13:00:00|--only t.timer --only v|2024-01-01T12:30:00+00:00>2024-01-01T12:30:00+00:00>v:1>x|||1
*t.timer U/t.timer=[Timer]\nOnCalendar=03:00\n C/a/|12:00:00-13:00:00|--only t.timer|||C/a not readable,clear 1|4
*t.timer U/t.timer=[Timer]\nOnCalendar=03:00\n C/a/|12:00:00-13:00:00|--only t.timer --except root/etc/cron.d/a|||C/a not readable|0
*t.timer U/t.timer=[Timer]\nOnCalendar=03:00\n S/u=\xff\n|12:00:00-13:00:00|--only t.timer||root/var/spool/cron/crontabs/u: error: not UTF-8 [NotUtf8]|clear 1|4
*t.timer U/t.timer=[Timer]\nOnCalendar=03:00\n S/u=\xff\n|12:00:00-13:00:00|--only t.timer --except u||root/var/spool/cron/crontabs/u: error: not UTF-8 [NotUtf8]||0
*t.timer U/t.timer=[Timer]\nOnCalendar=03:00\n C/a=0\x203\x20*\x20jan#2\x20*\x20root\x20x\n|12:00:00-13:00:00|--only t.timer||root/etc/cron.d/a:1: error: month 'jan#2': unknown name [BadName]||0
*t.timer U/t.timer=[Timer]\nOnCalendar=03:00\n etc/localtime/|12:00:00-13:00:00|--only t.timer|||zone,clear 1|4
*t.timer U/t.timer=[Timer]\nOnCalendar=03:00\n etc/localtime/|12:00:00-13:00:00|--only t.timer --except root/|||zone|0
ROWS

# Then --except is applied. An idle job and a masked timer have names, but leave nothing else out.
truth_clear <<'ROWS'
C/backup=0\x203\x20*\x20*\x20*\x20root\x20x\n0\x203\x20*\x20*\x20*\x20root\x20y\n S/u=0\x203\x20*\x20*\x20*\x20x\n|02:30:00-03:30:00|--only backup --except backup:1|2024-01-01T03:00:00+00:00>2024-01-01T03:00:00+00:00>backup:2>root y|||1
C/backup=0\x203\x20*\x20*\x20*\x20root\x20x\n0\x203\x20*\x20*\x20*\x20root\x20y\n S/u=0\x203\x20*\x20*\x20*\x20x\n|02:30:00-03:30:00|--except backup --only *:1 --except u||||0
C/a=0\x203\x20*\x20*\x20*\x20root\x20true\n0\x203\x20*\x20*\x20*\x20root\x20x\n|02:30:00-03:30:00|--except a:1|2024-01-01T03:00:00+00:00>2024-01-01T03:00:00+00:00>a:2>root x|agenda: idle: root/etc/cron.d/a:1: it runs nothing||1
C/a=0\x203\x20*\x20*\x20*\x20root\x20true\n0\x203\x20*\x20*\x20*\x20root\x20x\n|02:30:00-03:30:00|--only a:1||agenda: idle: root/etc/cron.d/a:1: it runs nothing||0
*m.timer E/m.timer>/dev/null U/m.timer=[Timer]\nOnCalendar=03:00\n S/u=0\x203\x20*\x20*\x20*\x20x\n|02:30:00-03:30:00|--except m.timer|2024-01-01T03:00:00+00:00>2024-01-01T03:00:00+00:00>u:1>x||E/m.timer masked|1
ROWS

# Among more than 1,000 jobs any may be missing: no name leaves that out, but the path of the root does.
printf -v truth_many '@daily\\x20root\\x20x\\n%.0s' {1..1001}
for truth_name in a u root/etc/cron.d/a '*' root/; do
  program_make "C/a=$truth_many S/u=@daily\\x20x\\n"
  echo 'root/etc/cron.d/a:1001: error: more than 1000 jobs [Full]' >"$work/err.wanted"
  [ "$truth_name" = root/ ] ||
    echo "agenda: not known to be clear: 1 job may start at times that files don't tell; --except NAME leaves one out" >>"$work/err.wanted"
  program_run clear --root root --since 2024-01-01T12:00:00Z --until 2024-01-01T13:00:00Z --only u --except "$truth_name"
  program_compare "clear with 1,001 jobs, --except $truth_name" /dev/null "$work/err.wanted" "$([ "$truth_name" = root/ ] && echo 0 || echo 4)"
done

# A pattern that no name fits is an error, and nothing else is said of the machine. Of several the first one of --except is named.
program_answers <<'ROWS'
C/backup=@daily\x20root\x20x\n|clear --except bakcup*||agenda: --except: nothing is named 'bakcup*' [NothingNamed]||2
C/backup=@daily\x20root\x20x\n|clear --only bakcup*||agenda: --only: nothing is named 'bakcup*' [NothingNamed]||2
C/backup=@daily\x20root\x20x\n|plan --utc --since 2024-01-01 --until 2024-01-01 --except backup:2||agenda: --except: nothing is named 'backup:2' [NothingNamed]||1
C/backup=@daily\x20root\x20x\n|plan --utc --since 2024-01-01 --until 2024-01-01 --only BACKUP||agenda: --only: nothing is named 'BACKUP' [NothingNamed]||1
etc/anacrontab C/a/ C/backup=@daily\x20root\x20x\n|clear --only y --except backup --except x --except z||agenda: --except: nothing is named 'x' [NothingNamed]||2
x/|upcoming --utc --except *||agenda: --except: nothing is named '*' [NothingNamed]||1
C/backup=@daily\x20root\x20x\n|describe --utc --only *k||agenda: --only: nothing is named '*k' [NothingNamed]||1
ROWS

# ---- no answer

# Status 1 says that a job may start, so errors have another one: 2 for what is asked, and 4 if the first error in a file stops the answer.
program_answers <<'ROWS'
x/|clear --utc --since 2024-01-01 --until 2024-01-01||agenda: --until is not after --since (2024-01-01T00:00:00+00:00) [EmptySpan]||2
etc/localtime=CET S/u=x\n|clear --planners 0 --since 2024-07-01T12:00:00Z --until +0||agenda: --until is not after --since (2024-07-01T14:00:00+02:00) [EmptySpan]||2
x/|clear --utc --since 2024-01-01 --until 2024-01-01T00:00:01Z||||0
x/|clear --utc --since 2024-01-02 --until 2024-01-01||agenda: --until is before --since (2024-01-02T00:00:00+00:00) [Backwards]||2
x/|clear --since frob||agenda: --since: not a time: 'frob' (such as 'tomorrow 02:00', '+8h', '2026-12-01 22:00') [BadTime]||2
x/|clear --until 3001-01-01||agenda: --until: before 1970 or after 2999: '3001-01-01' [OutOfYears]||2
x/|clear --zone Nowhere/At_all||agenda: zone 'Nowhere/At_all': no such zone [NoSuchZone]||2
etc/localtime=x|clear|||zone,clear 1|4
S/u=0\x2024\x20*\x20*\x20*\x20x\n|clear --strict||root/var/spool/cron/crontabs/u:1: error: hour '24': out of range 0-23 [OutOfRange]|not S/u cron ignores this file because of line 1|4
*a.timer U/a.timer=[Timer]\nOnCalendar=x\nOnCalendar=y\n|clear --strict --except a.timer||root/usr/lib/systemd/system/a.timer:2: error: 'x' is not a calendar event [UnknownWord]||4
*a.timer U/a.timer=[Timer]\nOnCalendar=03:00\nOnBootSec=5\n|clear --strict --since 2024-01-01T12:00:00Z --until 2024-01-01T13:00:00Z|||also U/a.timer OnBootSec,clear 1|4
*a.timer U/a.timer=[Timer]\nOnCalendar=03:00\n|clear --strict --since 2024-01-01T12:00:00Z --until 2024-01-01T13:00:00Z||||0
ROWS
for truth_root in missing root/file; do
  program_make file
  echo "agenda: $truth_root: not a directory" >"$work/err.wanted"
  program_run clear --root "$truth_root"
  program_compare "clear --root $truth_root" /dev/null "$work/err.wanted" 2
done

# So does a disk that isn't mounted: it has neither etc nor usr. Either is enough.
machine_has_cron=no program_has_boot=no
for truth_root in var/spool/cron/crontabs/u=@daily\\x20x home/a; do
  machine_has_system=no
  program_make "$truth_root"
  echo "agenda: root: neither etc nor usr is there" >"$work/err.wanted"
  program_run clear --root root
  program_compare "clear with '$truth_root' alone" /dev/null "$work/err.wanted" 2
  program_run check --root root
  program_compare "check with '$truth_root' alone" /dev/null "$work/err.wanted" 1
  machine_has_system=yes
done
program_answers <<'ROWS'
etc/x|clear||||0
usr/x|clear||||0
etc>nowhere|clear||||0
ROWS

# So may a disk be missing below var, which isn't known either: each machine has var/lib, and one with a cron daemon the directory of users'
# crontabs, of any layout. Other answers name these places, too, but neither check nor sources. A link is followed below the root.
machine_has_system=no
program_answers <<'ROWS'
usr/x|clear|||lib,clear 1|4
usr/x var/lib/|clear||||0
usr/sbin/cron var/lib/|clear|||spool,clear 1|4
usr/sbin/cron|clear|||spool,lib,clear 2|4
usr/bin/crond var/lib/|clear|||spool,clear 1|4
usr/sbin/crond/ var/lib/|clear||||0
usr/sbin/cron var/lib/ F/|clear||||0
usr/sbin/cron var/lib/ S/|clear||||0
usr/sbin/cron var/lib/ T/|clear||||0
usr/sbin/cron var/lib/ var/spool/|clear|||spool,clear 1|4
usr/sbin/cron var/lib F/|clear|||lib,clear 1|4
usr/x var/lib>/srv/lib srv/lib/|clear||||0
usr/x var/lib>../srv/lib srv/lib/x|clear||||0
usr/x var/lib>/srv/lib srv/lib|clear|||lib,clear 1|4
usr/x var/lib>/srv/lib|clear|||lib,clear 1|4
usr/x var/lib>/usr/share|clear|||lib,clear 1|4
usr/x var/lib>lib|clear|||lib,clear 1|4
usr/sbin/cron var/lib/ var/spool/cron>/srv/cron srv/cron/crontabs/|clear||||0
usr/sbin/cron var/lib/ var/spool>/srv|clear|||spool,clear 1|4
usr/sbin/cron|clear --except root/var/lib|||spool,lib,clear 1|4
usr/sbin/cron|clear --except root/var/*|||spool,lib|0
usr/sbin/cron etc/crontab=0\x203\x20*\x20*\x20*\x20root\x20x\n|clear --only root/var/*||agenda: --only: nothing is named 'root/var/*' [NothingNamed]||2
usr/sbin/cron etc/crontab=0\x203\x20*\x20*\x20*\x20root\x20x\n|plan --utc --since 2024-01-01T03:00:00Z --until +1min|agenda 2>2024-01-01T03:00:00Z>2024-01-01T03:01:00Z>1;2024-01-01T03:00:00Z>system:1>root x||spool,lib|0
usr/sbin/cron etc/crontab=0\x203\x20*\x20*\x20*\x20root\x20x\n|check||||0
usr/sbin/cron etc/crontab=0\x203\x20*\x20*\x20*\x20root\x20x\n|sources|system-crontab>crontab>root/etc/crontab|||0
ROWS
machine_has_system=yes machine_has_cron=yes program_has_boot=yes

# Of other questions an empty span is none, and errors have status 1.
program_answers <<'ROWS'
x/|plan --utc --since 2024-01-01 --until 2024-01-01|agenda 2>2024-01-01T00:00:00Z>2024-01-01T00:00:00Z>0|||0
x/|downtime --utc --since 2024-01-01 --until 2024-01-01||||0
x/|plan --since frob||agenda: --since: not a time: 'frob' (such as 'tomorrow 02:00', '+8h', '2026-12-01 22:00') [BadTime]||1
*a.timer U/a.timer=[Timer]\nOnCalendar=x\n|plan --strict||root/usr/lib/systemd/system/a.timer:2: error: 'x' is not a calendar event [UnknownWord]||1
*a.timer U/a.timer=[Timer]\nOnCalendar=03:00\nOnBootSec=5\n|plan --utc --since 2024-01-01 --until 2024-01-02|agenda 2>2024-01-01T00:00:00Z>2024-01-02T00:00:00Z>1;2024-01-01T03:00:00Z>a.timer>a.service||also U/a.timer OnBootSec|0
*a.timer U/a.timer=[Timer]\nOnCalendar=03:00\nOnBootSec=5\n|upcoming --utc --after 2024-01-01|2024-01-01T03:00:00Z>a.timer>a.service||also U/a.timer OnBootSec|0
*a.timer U/a.timer=[Timer]\nOnCalendar=03:00\nOnBootSec=5\nPersistent=yes\n|downtime --utc --since 2024-01-01 --until 2024-01-02|2024-01-01T03:00:00Z>2024-01-01T03:00:00Z>1>made up>a.timer>a.service||also U/a.timer OnBootSec|0
*a.timer U/a.timer=[Timer]\nOnCalendar=03:00\nOnBootSec=5\n|week --json --utc --since 2024-01-01 --until 2024-01-02|{"day":"2024-01-01","hour":3,"starts":1}||also U/a.timer OnBootSec|0
*a.timer U/a.timer=[Timer]\nOnCalendar=03:00\nOnBootSec=5\n|describe --utc --text|a.timer>at 03:00>a.service||also U/a.timer OnBootSec|0
*a.timer U/a.timer=[Timer]\nOnCalendar=03:00\nOnBootSec=5\n|sources|timer>a.timer>root/usr/lib/systemd/system/a.timer|||0
ROWS

# ---- quiet

# After the gaps, and after what is said if there is none, a line says how much is unknown. The status is that of other questions.
program_answers <<'ROWS'
*m.timer U/m.timer=[Timer]\nOnCalendar=03:00\nOnUnitActiveSec=6h\n|quiet --utc --nominal --since 2024-01-01 --until 2024-01-02|2024-01-01T00:00:00Z>2024-01-01T03:00:00Z>10800;2024-01-01T03:00:00Z>2024-01-02T00:00:00Z>75600||also U/m.timer OnUnitActiveSec,quiet 1|0
*m.timer U/m.timer=[Timer]\nOnCalendar=03:00\nOnUnitActiveSec=6h\n|quiet --utc --except m.timer --since 2024-01-01 --until 2024-01-02|2024-01-01T00:00:00Z>2024-01-02T00:00:00Z>86400||also U/m.timer OnUnitActiveSec|0
*m.timer U/m.timer=[Timer]\nOnCalendar=03:00\n|quiet --utc --nominal --since 2024-01-01 --until 2024-01-01T03:00:00Z|2024-01-01T00:00:00Z>2024-01-01T03:00:00Z>10800|||0
etc/anacrontab *a.timer U/a.timer=[Timer]\nOnBootSec=5\n|quiet --json --utc --since 2024-01-01 --until 2024-01-02|{"from":"2024-01-01T00:00:00Z","until":"2024-01-02T00:00:00Z","seconds":86400}||anacron,monotonic U/a.timer,quiet 2|0
etc/anacrontab *a.timer U/a.timer=[Timer]\nOnBootSec=5\n|quiet --json --utc --except a.timer --since 2024-01-01 --until 2024-01-02|{"from":"2024-01-01T00:00:00Z","until":"2024-01-02T00:00:00Z","seconds":86400}||anacron,monotonic U/a.timer,quiet 1|0
etc/anacrontab|quiet --utc --since 2024-01-01 --until 2024-01-01T00:20:00Z||agenda: no gap of 30 min: the longest is 20 min|anacron,quiet 1|0
C/a/|quiet --utc --since 2024-01-01 --until 2024-01-02|2024-01-01T00:00:00Z>2024-01-02T00:00:00Z>86400||C/a not readable,quiet 1|1
C/a/|quiet --utc --strict --except root/etc/cron.d/a --since 2024-01-01 --until 2024-01-02|2024-01-01T00:00:00Z>2024-01-02T00:00:00Z>86400||C/a not readable|1
*a.timer U/a.timer=[Timer]\nOnCalendar=*:*:00.5\n|quiet --utc --since 2024-01-01 --until 2024-01-02|2024-01-01T00:00:00Z>2024-01-02T00:00:00Z>86400|root/usr/lib/systemd/system/a.timer:2: error: second in '*:*:00.5': fractions are not supported [Fraction]|quiet 1|1
*a.timer U/a.timer=[Timer]\nOnCalendar=*:*:00.5\n|quiet --utc --strict --since 2024-01-01 --until 2024-01-02||root/usr/lib/systemd/system/a.timer:2: error: second in '*:*:00.5': fractions are not supported [Fraction]||1
S/u=0\x2024\x20*\x20*\x20*\x20x\n|quiet --utc --since 2024-01-01 --until 2024-01-02|2024-01-01T00:00:00Z>2024-01-02T00:00:00Z>86400|root/var/spool/cron/crontabs/u:1: error: hour '24': out of range 0-23 [OutOfRange]|not S/u cron ignores this file because of line 1|1
etc/localtime/|quiet --since 2024-01-01 --until 2024-01-02|2024-01-01T00:00:00+00:00>2024-01-02T00:00:00+00:00>86400||zone,quiet 1|0
etc/anacrontab|quiet --least x||agenda: --least: not a length: 'x' (such as '90min' or '2h') [BadLength]||1
etc/anacrontab|quiet --utc --limit 1 --since 2024-01-01 --until 2024-01-02|2024-01-01T00:00:00Z>2024-01-02T00:00:00Z>86400||anacron,quiet 1|0
etc/anacrontab S/u=@hourly\x20x\n|quiet --utc --limit 1 --since 2024-01-01 --until 2024-01-02||agenda: more than 1 starts: give a shorter span, or --limit N [TooMany]|anacron|1
ROWS
program_make 'etc/anacrontab'
printf 'START                    END                      LENGTH\nMon 2024-01-01 00:00:00  Tue 2024-01-02 00:00:00  1 d\n1 gap from Mon 2024-01-01 00:00:00 to Tue 2024-01-02 00:00:00, UTC\n' >"$work/out.wanted"
program_lines 'anacron,quiet 1'
printf '%s' "$last" >>"$work/err.wanted"
program_run quiet --table --root root --since 2024-01-01 --until 2024-01-02
program_compare 'quiet --table, with an unknown job' "$work/out.wanted" "$work/err.wanted" 0
