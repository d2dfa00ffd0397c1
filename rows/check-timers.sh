# shellcheck shell=bash disable=SC2154
# Rows of bin/check-examples: what `agenda check` says of timers that systemd 252 rejects as a whole, of units and lines that it reads
# otherwise, and of timers without events. `systemd-analyze verify` of systemd 252 says the same of these files.

check_timers_folder="$work/check-timers"
mkdir -p "$check_timers_folder"

# Rows from standard input: the escaped text of the timer a.timer, and all findings about it. Each begins with the `:` after the path, and
# between them is `;`. The status is 1 if one of them is an error.
check_timers_texts() {
  local text findings wanted
  while IFS='|' read -r text findings; do
    printf '%b' "$text" >"$check_timers_folder/a.timer"
    printf '%s' "${findings:+a.timer${findings//;:/$'\n'a.timer:}$'\n'}" >"$work/findings.wanted"
    wanted=0
    ! grep -q ': error: ' "$work/findings.wanted" || wanted=1
    run_in "$check_timers_folder" agenda check a.timer
    compare "check the timer '$text'" "$work/findings.wanted" /dev/null "$wanted"
  done
}

# A whole line that begins with `[` and doesn't end with `]`.
check_timers_texts <<'ROWS'
[Timer]\nOnCalendar=daily\n[Install\n|: warning: systemd 252 rejects this file: bad section header [TimerRejected]
[Timer]\nOnCalendar=daily\n[Install] x\n|: warning: systemd 252 rejects this file: bad section header [TimerRejected]
[Timer]\nOnCalendar=daily\n[\n|: warning: systemd 252 rejects this file: bad section header [TimerRejected]
[Timer]\nOnCalendar=daily\n \t[Install] \t\n|
[Timer]\nOnCalendar=daily\n[]\n|
[Timer]\nOnCalendar=daily\n#[\n;[\n|
[Timer]\nOnCalendar=daily\n[Install\\\n]\n|
[Timer]\nOnCalendar=daily\nDescription=\\\n[x\n|:3: warning: unknown setting 'Description' in [Timer] [UnknownKey]
ROWS

# A byte that the name of a section can't have.
check_timers_texts <<'ROWS'
[Timer]\nOnCalendar=daily\n[a"b]\n|: warning: systemd 252 rejects this file: bad section header [TimerRejected]
[Timer]\nOnCalendar=daily\n[a'b]\n|: warning: systemd 252 rejects this file: bad section header [TimerRejected]
[Timer]\nOnCalendar=daily\n[a\\\\b]\n|: warning: systemd 252 rejects this file: bad section header [TimerRejected]
[Timer]\nOnCalendar=daily\n[a\tb]\n|: warning: systemd 252 rejects this file: bad section header [TimerRejected]
[Timer]\nOnCalendar=daily\n[a\x7fb]\n|: warning: systemd 252 rejects this file: bad section header [TimerRejected]
[Timer]\nOnCalendar=daily\n[X-a b.c:d%e]\n[X-\xc3\xa4]\n|
ROWS

# A timer that never elapses: no event that systemd accepts, no time span and no change. If that is so, NoEvents isn't reported.
check_timers_texts <<'ROWS'
[Timer]\n|: warning: systemd 252 rejects this timer: it has no valid trigger [TimerRejected]
[Timer]\nUnit=b.service\nPersistent=yes\n|: warning: systemd 252 rejects this timer: it has no valid trigger [TimerRejected]
[Timer]\nOnCalendar=daily\nOnBootSec=\n|: warning: systemd 252 rejects this timer: it has no valid trigger [TimerRejected]
[Timer]\nOnBootSec=1h\nOnCalendar=\n|: warning: systemd 252 rejects this timer: it has no valid trigger [TimerRejected]
[Timer]\nOnCalendar=*:*/15\n|: warning: systemd 252 rejects this timer: it has no valid trigger [TimerRejected];:2: warning: systemd 252 rejects '*:*/15': write 0/15 for */15 [SystemdRejects]
[Timer]\nOnCalendar=*:*/15\nOnCalendar=daily\n|:2: warning: systemd 252 rejects '*:*/15': write 0/15 for */15 [SystemdRejects]
[Timer]\nOnBootSec=soon\n|: warning: systemd 252 rejects this timer: it has no valid trigger [TimerRejected];: warning: also starts by OnBootSec= or the like, which is not planned [Monotonic]
[Timer]\nOnClockChange=yes\nOnClockChange=0\n|: warning: systemd 252 rejects this timer: it has no valid trigger [TimerRejected]
[Timer]\nOnTimezoneChange=on\nOnTimezoneChange=off\n|: warning: systemd 252 rejects this timer: it has no valid trigger [TimerRejected]
[Timer]\nOnClockChange=maybe\n|: warning: systemd 252 rejects this timer: it has no valid trigger [TimerRejected]
[Timer]\nOnClockChange=\n|: warning: systemd 252 rejects this timer: it has no valid trigger [TimerRejected]
[Timer]\n[Install\n|: warning: systemd 252 rejects this file: bad section header [TimerRejected]
[Unit]\n|: error: no [Timer] section [NoTimerSection]
ROWS

# A timer with time spans alone has one warning. A timer that elapses only when the clock or the time zone is changed has no event.
check_timers_texts <<'ROWS'
[Timer]\nOnBootSec=1h\n|: warning: also starts by OnBootSec= or the like, which is not planned [Monotonic]
[Timer]\nOnBootSec=soon\nOnUnitActiveSec=infinity\n|: warning: also starts by OnBootSec= or the like, which is not planned [Monotonic]
[Timer]\nOnCalendar=daily\nOnStartupSec=5\n|: warning: also starts by OnBootSec= or the like, which is not planned [Monotonic]
[Timer]\nOnClockChange=1\n|: warning: no OnCalendar= event, so no start is planned [NoEvents]
[Timer]\nOnClockChange=Yes\n|: warning: no OnCalendar= event, so no start is planned [NoEvents]
[Timer]\nOnClockChange=y\n|: warning: no OnCalendar= event, so no start is planned [NoEvents]
[Timer]\nOnClockChange=TRUE\n|: warning: no OnCalendar= event, so no start is planned [NoEvents]
[Timer]\nOnClockChange=t\n|: warning: no OnCalendar= event, so no start is planned [NoEvents]
[Timer]\nOnTimezoneChange=on\nOnClockChange=no\n|: warning: no OnCalendar= event, so no start is planned [NoEvents]
[Timer]\nOnClockChange=yes\nOnClockChange=maybe\nOnCalendar=\n|: warning: no OnCalendar= event, so no start is planned [NoEvents]
[Timer]\nOnClockChange=f\nOnTimezoneChange=n\nOnTimezoneChange=true\n|: warning: no OnCalendar= event, so no start is planned [NoEvents]
ROWS

# The unit that is started.
check_timers_texts <<'ROWS'
[Timer]\nOnCalendar=daily\nUnit=b\n|:3: warning: systemd 252 ignores Unit='b' [UnitIgnored]
[Timer]\nOnCalendar=daily\nUnit=b.servce\n|:3: warning: systemd 252 ignores Unit='b.servce' [UnitIgnored]
[Timer]\nOnCalendar=daily\nUnit=.service\n|:3: warning: systemd 252 ignores Unit='.service' [UnitIgnored]
[Timer]\nOnCalendar=daily\nUnit=b c.service\n|:3: warning: systemd 252 ignores Unit='b c.service' [UnitIgnored]
[Timer]\nOnCalendar=daily\nUnit=@b.service\n|:3: warning: systemd 252 ignores Unit='@b.service' [UnitIgnored]
[Timer]\nOnCalendar=daily\nUnit=/b.service\n|:3: warning: systemd 252 ignores Unit='/b.service' [UnitIgnored]
[Timer]\nOnCalendar=daily\nUnit=a.timer\n|: warning: systemd 252 ignores Unit='a.timer' [UnitIgnored]
[Timer]\nOnCalendar=daily\nUnit=\n|
[Timer]\nOnCalendar=daily\nUnit=b.timer\n|
[Timer]\nOnCalendar=daily\nUnit=b@c.target\n|
[Timer]\nOnCalendar=daily\nUnit=b@.service\n|
[Timer]\nOnCalendar=daily\nUnit=%p-x.service\n|
[Unit]\nUnit=b\n[Timer]\nOnCalendar=daily\n|
ROWS

# A carriage return inside a line, or a NUL byte. Comments have lines too.
check_timers_texts <<'ROWS'
[Timer]\r\nOnCalendar=daily\r\n|
[Timer]\nOnCalendar=daily\r|
[Timer]\nOnCalendar=daily\n#\rx\n|:3: warning: systemd ends the line at a carriage return or NUL byte [LineEnd]
[Timer]\nOnCalendar=daily\n[Unit]\nX=y\r\r\n|:4: warning: systemd ends the line at a carriage return or NUL byte [LineEnd]
[Timer]\nOnCalendar=daily\n# \x00\n\n;\x00\n|:3: warning: systemd ends the line at a carriage return or NUL byte [LineEnd];:5: warning: systemd ends the line at a carriage return or NUL byte [LineEnd]
ROWS

# The hint of a rejected event.
check_timers_texts <<'ROWS'
[Timer]\nOnCalendar=Mon-Fri 10:00\n|:2: error: weekday in 'Mon-Fri 10:00': unknown name (write Mon..Fri) [BadName]
[Timer]\nOnCalendar=Wed,monday-FRIDAY\n|:2: error: weekday in 'Wed,monday-FRIDAY': unknown name (write Mon..Fri) [BadName]
[Timer]\nOnCalendar=Mon-Foo 10:00\n|:2: error: weekday in 'Mon-Foo 10:00': unknown name [BadName]
[Timer]\nOnCalendar=Mon..Fri 25:00\n|:2: error: hour in 'Mon..Fri 25:00': out of range 0-23 [OutOfRange]
ROWS
