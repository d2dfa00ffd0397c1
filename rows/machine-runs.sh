# shellcheck shell=bash disable=SC2154,SC2034,SC2016
# Rows of whole answers of `agenda machine`: the plans of crontabs, timers, drop-ins and instances, delays, what is skipped and
# what stops an answer, files that may not be read, and streams that fail. Expected lines are worked out by hand.

# shellcheck source=/dev/null
. "$top/rows/lib/program.sh"

# This daemon ignores no crontab that agenda can read.
machine_daemon=usr/sbin/fcron

# Rows of a root, the starts in its plan of a day, with `;` between them and `>` for a tab, the errors and the lines, as in
# program_answers. In a start the day and `:00Z` are missing.
runs_plans() {
  local root starts errors lines list
  while IFS='|' read -r root starts errors lines; do
    list=()
    [ -z "$starts" ] || IFS=';' read -r -a list <<<"$starts"
    starts="agenda 2>2024-01-01T00:00:00Z>2024-01-02T00:00:00Z>${#list[@]}"
    for start in "${list[@]}"; do
      starts+=";2024-01-01T${start%%>*}:00Z>${start#*>}"
    done
    program_make "$root"
    program_answers_are 'plan --utc --since 2024-01-01 --until 2024-01-02' "$starts" "$errors" "$lines" "$root"
  done
}

# ---- plans

runs_plans <<'ROWS'
x/|||
etc/crontab=0\x201\x20*\x20*\x20*\x20root\x20a\n|01:00>system:1>root a||
etc/crontab=@daily\x20root\x20a\n C/b=@daily\x20root\x20b\n C/a=\n@daily\x20u\x20c\n|00:00>system:1>root a;00:00>a:2>u c;00:00>b:1>root b||
S/u=@daily\x20a\n S/t.x=@daily\x20b|00:00>t.x:1>b;00:00>u:1>a||
C/a=@daily\x20root\x20a S/a=@daily\x20b|00:00>a:1>root a;00:00>a.user:1>b||
T/u=@daily\x20a\n F/v=?|00:00>u:1>a||
C/u=@daily\x20root\x20a F/u=@daily\x20b\n F/v=\n0\x206\x20*\x20*\x20*\x20c\n|00:00>u:1>root a;00:00>u.user:1>b;06:00>v:2>c||
C/a.b=? S/a:=? S/a\x20b=?|||C/a.b bad name,S/a\x20b escape,S/a: bad name
S/ann@corp=@daily\x20a S/CORP\\ann=0\x201\x20*\x20*\x20*\x20b S/host$=@daily\x20c\n\n@daily\x20d|00:00>ann@corp:1>a;00:00>host$:1>c;00:00>host$:3>d;01:00>CORP\ann:1>b||
*a.timer U/a.timer=[Timer]\nOnCalendar=daily\n|00:00>a.timer>a.service||
*a.timer U/a.timer=[Timer]\nOnCalendar=daily E/a.timer.d/x.conf=[Timer]\nOnCalendar=\nOnCalendar=3:00|03:00>a.timer>a.service||
*a.timer U/a.timer=[Timer]\nOnCalendar=daily\n E/a.timer.d/x.conf=OnCalendar=3:00|00:00>a.timer>a.service||
*a.timer U/a.timer=[Timer]\nOnCalendar=daily\\ E/a.timer.d/x.conf=[Timer]\nUnit=b.service N/b.service|00:00>a.timer>b.service||
*a@b.timer *a@c.timer U/a@.timer=[Timer]\nOnCalendar=daily\nUnit=x-%i@%p.service\n N/x-b@.service N/x-c@.service|00:00>a-b.timer>x-b@a.service;00:00>a-c.timer>x-c@a.service||
*a@4.timer U/a@.timer=[Timer]\nOnCalendar=%i:00\n|04:00>a-4.timer>a-4.service||
*a.timer E/a.timer>/dev/null U/a.timer=?|||E/a.timer masked
ROWS
program_answers <<'ROWS'
etc/crontab=@daily\x20root\x20a\n *a@b.timer U/a@.timer=[Timer]\nOnCalendar=6:00\n|upcoming --utc --after 2024-01-01|2024-01-01T06:00:00Z>a-b.timer>a-b.service;2024-01-02T00:00:00Z>system:1>root a||
C/a=@reboot\x20root\x20a S/a=@daily\x20b|upcoming --utc --after 2024-01-01|2024-01-02T00:00:00Z>a.user:1>b;none>a:1>root a||
etc/crontab=@daily\x20root\x20a\n *a@b.timer U/a@.timer=[Timer]\nOnCalendar=6:00\n|quiet --utc --since 2024-01-01|2024-01-01T00:00:00Z>2024-01-01T06:00:00Z>21600;2024-01-01T06:01:00Z>2024-01-02T00:00:00Z>64740||
x/|quiet --utc --since 2024-01-01 --until +1hour --least 3600|2024-01-01T00:00:00Z>2024-01-01T01:00:00Z>3600||
ROWS

# Delays, which quiet counts by itself: a setting of a drop-in, which its last value decides, and one of a template.
program_answers <<'ROWS'
*a.timer U/a.timer=[Timer]\nOnCalendar=6:00\nAccuracySec=1us\n E/a.timer.d/x.conf=[Timer]\nRandomizedDelaySec=1h|quiet --utc --since 2024-01-01|2024-01-01T00:00:00Z>2024-01-01T06:00:00Z>21600;2024-01-01T07:00:01Z>2024-01-02T00:00:00Z>61199||
*a.timer U/a.timer=[Timer]\nOnCalendar=6:00\nAccuracySec=1us\n E/a.timer.d/x.conf=[Timer]\nRandomizedDelaySec=1h|quiet --nominal --utc --since 2024-01-01|2024-01-01T00:00:00Z>2024-01-01T06:00:00Z>21600;2024-01-01T06:00:00Z>2024-01-02T00:00:00Z>64800||
*a.timer U/a.timer=[Timer]\nOnCalendar=6:00\nAccuracySec=1us\n E/a.timer.d/x.conf=[Timer]\nRandomizedDelaySec=1h|plan --utc --since 2024-01-01|agenda 2>2024-01-01T00:00:00Z>2024-01-02T00:00:00Z>1;2024-01-01T06:00:00Z>a.timer>a.service||
*a.timer U/a.timer=[Timer]\nOnCalendar=6:00\nAccuracySec=1us\n E/a.timer.d/x.conf=[Timer]\nRandomizedDelaySec=1h|plan --delays --utc --since 2024-01-01|agenda 3>2024-01-01T00:00:00Z>2024-01-02T00:00:00Z>1;2024-01-01T06:00:00Z>2024-01-01T07:00:01Z>a.timer>a.service||
*a.timer U/a.timer=[Timer]\nOnCalendar=6:00\nAccuracySec=1us\n E/a.timer.d/x.conf=[Timer]\nRandomizedDelaySec=1h|upcoming --delays --utc --after 2024-01-01|2024-01-01T06:00:00Z>2024-01-01T07:00:01Z>a.timer>a.service||
*a.timer U/a.timer=[Timer]\nOnCalendar=6:00\nAccuracySec=1us\n E/a.timer.d/x.conf=[Timer]\nRandomizedDelaySec=1h\nAccuracySec=1h E/a.timer.d/y.conf=[Timer]\nRandomizedDelaySec=0|quiet --utc --since 2024-01-01|2024-01-01T00:00:00Z>2024-01-01T06:00:00Z>21600;2024-01-01T07:00:00Z>2024-01-02T00:00:00Z>61200||
*a.timer U/a.timer=[Timer]\nOnCalendar=6:00\nAccuracySec=1us\n E/a.timer.d/x.conf=[Timer]\nRandomizedDelaySec=1h E/a.timer.d/y.conf=RandomizedDelaySec=0|quiet --utc --since 2024-01-01|2024-01-01T00:00:00Z>2024-01-01T06:00:00Z>21600;2024-01-01T07:00:01Z>2024-01-02T00:00:00Z>61199||
*a@b.timer U/a@.timer=[Timer]\nOnCalendar=18:00\nRandomizedDelaySec=12h\n|quiet --utc --since 2024-01-01|2024-01-01T06:01:00Z>2024-01-01T18:00:00Z>43140||
ROWS

# ---- errors in files

# With --strict the first error stops the answer.
program_answers <<'ROWS'
C/a=@daily\n|plan --strict||root/etc/cron.d/a:1: error: expected a user and a command [NoCommand]|
S/u=\n@daily\n|plan --strict||root/var/spool/cron/crontabs/u:2: error: no command [NoCommand]|
C/a=@daily\x20root\x20a S/a=@daily\n|plan --strict||root/var/spool/cron/crontabs/a:1: error: no command [NoCommand]|
*a.timer U/a.timer=[Unit]\n|plan --strict||root/usr/lib/systemd/system/a.timer: error: no [Timer] section [NoTimerSection]|
*a.timer U/a.timer=[Timer]\nOnCalendar=daily\n E/a.timer.d/x.conf=[Timer]\nOnCalendar=fortnightly\n|plan --strict||root/etc/systemd/system/a.timer.d/x.conf:2: error: 'fortnightly' is not a calendar event [UnknownWord]|
*a@b.timer U/a@.timer=[Timer]\nOnCalendar=%H\n|plan --strict||root/usr/lib/systemd/system/a@.timer:2: error: specifiers in '%H' are not expanded [Specifier]|
*a.timer U/a.timer=[Timer]\nOnCalendar=daily\\\n E/a.timer.d/x.conf=[Timer]\nOnCalendar=%i\n|plan --strict||root/etc/systemd/system/a.timer.d/x.conf:2: error: specifiers in '%i' are not expanded [Specifier]|
ROWS

# Errors in lines, in whole files, in drop-ins and in instances, and files that can't be read, are skipped.
runs_plans <<'ROWS'
C/a=@daily\n C/b=@daily\x20root\x20b\n|00:00>b:1>root b|root/etc/cron.d/a:1: error: expected a user and a command [NoCommand]|
S/u=\n@daily\n@daily\x20x|00:00>u:3>x|root/var/spool/cron/crontabs/u:2: error: no command [NoCommand]|
C/a=@daily\x20root\x20a S/a=@daily\n@daily\x20b|00:00>a:1>root a;00:00>a.user:2>b|root/var/spool/cron/crontabs/a:1: error: no command [NoCommand]|
etc/crontab=60\x20*\x20*\x20*\x20*\x20root\x20a\n0\x206\x20*\x20*\x20*\x20root\x20b S/u=\xff|06:00>system:2>root b|root/etc/crontab:1: error: minute '60': out of range 0-59 [OutOfRange];root/var/spool/cron/crontabs/u: error: not UTF-8 [NotUtf8]|
*a.timer *b.timer U/a.timer=[Unit]\n U/b.timer=[Timer]\nOnCalendar=daily|00:00>b.timer>b.service|root/usr/lib/systemd/system/a.timer: error: no [Timer] section [NoTimerSection]|
*a.timer U/a.timer=[Timer]\nOnCalendar=daily\n E/a.timer.d/x.conf=[Timer]\nOnCalendar=fortnightly\nOnCalendar=6:00|00:00>a.timer>a.service;06:00>a.timer>a.service|root/etc/systemd/system/a.timer.d/x.conf:2: error: 'fortnightly' is not a calendar event [UnknownWord]|
*a.timer *b.timer U/a.timer=[Timer]\nOnCalendar=daily\n E/a.timer.d/x.conf=\xff U/b.timer=[Timer]\nOnCalendar=6:00|06:00>b.timer>b.service|root/usr/lib/systemd/system/a.timer: error: not UTF-8 [NotUtf8]|
*a@4.timer *a@24.timer U/a@.timer=[Timer]\nOnCalendar=%i:00\n|04:00>a-4.timer>a-4.service|root/usr/lib/systemd/system/a@.timer:2: error: hour in '24:00': out of range 0-23 [OutOfRange]|
C/a/ C/b=@daily\x20root\x20b|00:00>b:1>root b||C/a not readable
C/a! C/b=@daily\n@daily\x20root\x20b|00:00>b:2>root b|root/etc/cron.d/b:1: error: expected a user and a command [NoCommand]|C/a not readable
C/a=A||root/etc/cron.d/a:1: error: expected NAME=VALUE, or five fields and a command [BadSetting]|
*a.timer E/a.timer/ U/a.timer=[Timer]\nOnCalendar=daily E/a.timer.d/x.conf!|00:00>a.timer>a.service||E/a.timer.d/x.conf not readable
ROWS

# The other questions, and errors that come after what is skipped.
runs_error='root/etc/cron.d/a:1: error: expected NAME=VALUE, or five fields and a command [BadSetting]'
program_answers <<ROWS
C/a=A\n@daily\x20root\x20a|upcoming --utc --after 2024-01-01|2024-01-02T00:00:00Z>a:2>root a|$runs_error|
C/a=A\n@daily\x20root\x20a|quiet --utc --since 2024-01-01|2024-01-01T00:00:00Z>2024-01-02T00:00:00Z>86400|$runs_error|quiet 1
C/a=A\n@daily\x20root\x20a|upcoming --strict||$runs_error|
C/a=A\n@daily\x20root\x20a|plan --utc --since 2024-01-01 --until 2024-01-03 --limit 1||$runs_error;agenda: more than 1 starts: give a shorter span, or --limit N [TooMany]|
C/a/ S/b=@daily\x20x|upcoming --utc --after 2024-01-01|2024-01-02T00:00:00Z>b:1>x||C/a not readable
C/a/ S/b=@daily\x20x|upcoming --utc --strict --after 2024-01-01|2024-01-02T00:00:00Z>b:1>x||C/a not readable
ROWS

# What the caller's environment says changes nothing.
machine_by=(env LC_ALL=C.UTF-8 LANG=de_DE.UTF-8 POSIXLY_CORRECT=1 TZ=Asia/Tokyo IFS=/ TMPDIR=/nowhere HOME=/nowhere)
runs_plans <<'ROWS'
C/_=@daily\x20root\x20a C/B=@daily\x20root\x20b *a@b.timer U/a@.timer=[Timer]\nOnCalendar=6:00\n|00:00>B:1>root b;00:00>_:1>root a;06:00>a-b.timer>a-b.service||
ROWS
machine_by=()

# ---- files that may not be read

# Rows of a root, files or directories in it without permissions, and what is skipped, with the last line of quiet. The status is 1 if
# that isn't readable, also of check and with --strict.
runs_locked() {
  local root locked lines words path wanted last
  while IFS='|' read -r root locked lines; do
    program_make "$root"
    for path in $locked; do
      machine_path "$path"
      chmod 000 "$machine_folder/root/$path"
    done
    for words in plan 'plan --strict' upcoming quiet downtime week scripts check sources; do
      program_lines "$lines"
      [ "$words" != quiet ] || printf '%s' "$last" >>"$work/err.wanted"
      # shellcheck disable=SC2086
      program_run $words --root root
      cp -- "$work/out" "$work/out.wanted"
      program_compare "$words of '$root' without rights on $locked" "$work/out.wanted" "$work/err.wanted" "$wanted"
    done
    chmod -R u+rwX "$machine_folder/root"
  done
}

if machine_as_nobody && "${machine_by[@]}" "$machine_folder/whole/agenda" --version >/dev/null 2>&1; then
  runs_locked <<'ROWS'
etc/crontab C/a S/b *a.timer U/a.timer=DAILY *b.timer U/b.timer|etc/crontab C/a S/b U/b.timer|etc/crontab not readable,C/a not readable,S/b not readable,U/b.timer not readable,quiet 4
C/a.b S/a: S/a\x20|C/a.b S/a: S/a\x20|C/a.b bad name,S/a\x20 escape,S/a: bad name,quiet 1
C/a S/a S/a.user|S/a|S/a not readable,quiet 1
*a@b.timer *a@c.timer U/a@.timer|U/a@.timer|U/a@.timer not readable,quiet 1
*a.timer E/a.timer= U/a.timer|E/a.timer|E/a.timer masked
ROWS
else
  echo "agenda machine: skipped the rows without rights, since setpriv can't drop those of root here"
fi
machine_by=()

# ---- streams

# Standard output fails: the status of each question is 3, and standard error says so. The crontab has a warning, so that check
# would end with 0.
runs_streams() {
  local to words
  program_make 'C/a=0\x200\x2031\x202\x20*\x20root\x20x\n'
  echo 'agenda: Device' >"$work/err.wanted"
  for to in '>&-' '>/dev/full'; do
    [[ $to != *full ]] || [ -c /dev/full ] || continue
    machine_by=(bash -c "exec \"\$@\" $to" streams)
    for words in sources 'sources --json' check 'check --json' plan 'plan --strict' upcoming quiet 'plan --table' 'quiet --json' \
      'downtime --table' week; do
      # shellcheck disable=SC2086
      program_run $words --root root
      program_compare "$words $to" /dev/null "$work/err.wanted" 3
    done
    for words in 'next @daily' --help {plan,upcoming,quiet,downtime,clear,changes,week,scripts,check,sources,next}' --help'; do
      # shellcheck disable=SC2086
      program_run $words
      program_compare "$words $to" /dev/null "$work/err.wanted" 3
    done
  done
  machine_by=()
}
runs_streams

# A reader that goes away: the status is 3, and nothing is said.
program_make S/u=
seq -f '@daily a%0200.0f' 1000 >"$machine_folder/root/var/spool/cron/crontabs/u"
machine_by=(bash -c '{ "$@"; echo "$?" >"$0"; } | head -c 1' "$work/status")
printf 2 >"$work/out.wanted"
program_run upcoming --root root
program_compare "a reader that goes away" "$work/out.wanted" /dev/null 0
[ "$(cat "$work/status")" = 3 ] || tell "status $(cat "$work/status")"
count "agenda machine: the status if a reader goes away"
machine_by=()

# Rows of a root, of questions with commas between them, and of their status if standard error fails. With status 3 nothing is
# written to standard output, and otherwise the answer.
runs_unreported() {
  local root questions wanted words to
  local -a list
  while IFS='|' read -r root questions wanted; do
    machine_has_cron=no program_make "$root"
    IFS=, read -r -a list <<<"$questions"
    for words in "${list[@]}"; do
      machine_by=()
      # shellcheck disable=SC2086
      program_run $words --root root
      cp -- "$work/out" "$work/out.wanted"
      [ "$wanted" != 3 ] || : >"$work/out.wanted"
      for to in '2>&-' '2>/dev/full'; do
        [[ $to != *full ]] || [ -c /dev/full ] || continue
        machine_by=(bash -c "exec \"\$@\" $to" streams)
        # shellcheck disable=SC2086
        program_run $words --root root
        program_compare "$words of '$root' $to" "$work/out.wanted" /dev/null "$wanted"
      done
    done
  done
  machine_by=()
}

printf 'agenda 2\t2024-01-01T00:00:00Z\t2024-01-02T00:00:00Z\t0\n' >"$machine_folder/before"
# A name that is skipped, a file that can't be read, what isn't planned, crontabs without a cron daemon, the zone, and an error
# that is skipped; then errors, whose status stays, and none of these.
runs_unreported <<'ROWS'
C/a.b|sources,plan,plan --strict,plan --table --since 2024-01-01|3
C/a/|sources,check,downtime,clear,changes before,week|3
etc/anacrontab|sources,check|3
*a.timer U/a.timer=[Timer]\nOnBootSec=5|upcoming|3
F/atjobs/a root/.config/systemd/user/a.timer|quiet|3
etc/crontab|sources,plan|3
etc/localtime>UTC|check,upcoming|3
S/u=A|upcoming|3
etc/anacrontab|plan x,sources x,clear x,changes,--frob,clear --until frob|2
etc/anacrontab|quiet --since frob,plan --zone Nowhere/At_all|1
C/.b|sources,plan --utc --since 2024-01-01,check,plan --table --utc --since 2024-01-01,clear,changes before,week --since 2024-01-01 --until 2024-01-03|0
ROWS

# Standard input isn't used.
program_make 'S/u=@daily\x20a'
machine_by=(bash -c 'exec "$@" <&-' closed)
printf '2024-01-02T00:00:00Z\tu:1\ta\n' >"$work/out.wanted"
program_run upcoming --root root --utc --after 2024-01-01
program_compare "standard input that is closed" "$work/out.wanted" /dev/null 0
machine_by=()
machine_daemon=usr/sbin/cron
