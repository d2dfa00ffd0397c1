# shellcheck shell=bash disable=SC2154,SC2034
# Rows of `agenda machine check`: the findings in a machine's crontabs, timers and drop-ins, with the paths and lines that
# people see, and the zones by which rules are read. Expected lines are worked out by hand from docs/FORMATS.md.

# shellcheck source=/dev/null
. "$top/rows/lib/program.sh"

# Writes the findings $1 to the file out.wanted, and as objects to the file objects.wanted. They have `;` between them, and
# each is a path, a line or nothing, a code and a text, with `,` between them. The text has the escapes of printf. Sets
# `found` to 1 if one of them is an error, otherwise to 0.
check_findings() {
  local finding path line code said severity text string
  local -a findings
  found=0
  : >"$work/out.wanted"
  : >"$work/objects.wanted"
  IFS=';' read -r -a findings <<<"$1"
  for finding in "${findings[@]}"; do
    IFS=, read -r path line code said <<<"$finding"
    printf -v said '%b' "$said"
    case $code in
      NeverStarts | EitherDay | Percent | CarriageReturn | ZoneSetting | SkippedStarts) severity=warning ;;
      UnknownKey | BadBoolean | BadDelay | NoEvents | Monotonic | Delayed | TimerRejected | UnitIgnored | LineEnd | Merged) severity=warning ;;
      SystemdRejects | RangeFromEnd | MayStop | CronIgnores | CronDiffers | NoUser) severity=warning ;;
      *) severity=error found=1 ;;
    esac
    machine_path "$path"
    program_shown "$machine_root/$path"
    echo "$text${line:+:$line}: $severity: $said [$code]" >>"$work/out.wanted"
    program_string "$machine_root/$path"
    string=$text
    program_string "$said"
    printf '{"path":"%s","line":%s,"severity":"%s","code":"%s","text":"%s"}\n' "$string" "${line:-null}" "$severity" "$code" \
      "$text" >>"$work/objects.wanted"
  done
}

# Compares the findings in the present root with $1, and its lines with $2. The root has the name $3, and the options are the
# others.
check_is() {
  local wanted found name=$3
  check_findings "$1"
  program_lines "$2"
  shift 3
  program_run check --root "$machine_root" "$@"
  program_compare "check $* of '$name'" "$work/out.wanted" "$work/err.wanted" $((found | wanted))
  [ -s "$work/out.wanted" ] || return 0
  program_run check --json --root "$machine_root" "$@"
  program_compare "check --json $* of '$name'" "$work/objects.wanted" "$work/err.wanted" $((found | wanted))
}

# Rows from standard input: a root, the findings in it as in check_findings, and the lines on standard error as in
# program_lines. The options of the command are $@.
check_roots() {
  local root findings lines
  while IFS='|' read -r root findings lines; do
    program_make "$root"
    check_is "$findings" "$lines" "$root" "$@"
  done
}

# ---- crontabs

check_roots <<'ROWS'
x/||
etc/crontab C/a S/b||
etc/crontab= C/a= S/b= ||
etc/crontab=0\x204\x20*\x20*\x20*\x20root\x20a\n C/a=@daily\x20root\x20b\n S/u=@daily\x20c\n *a.timer U/a.timer=DAILY||
etc/crontab=0\x2024\x20*\x20*\x20*\x20root\x20a\n|etc/crontab,1,OutOfRange,hour '24': out of range 0-23|
etc/crontab=@daily\x20root\n|etc/crontab,1,NoCommand,expected a user and a command|
C/a=\n#\x20x\n@daily\x20root\n@daily\x20root\x20a\n|C/a,3,NoCommand,expected a user and a command|
S/u=@daily\n@daily\x20a\n|S/u,1,NoCommand,no command|
S/u=@daily\x20a\n@hour\x20a\n|S/u,2,UnknownWord,unknown word '@hour'|
S/u=MAILTO\n|S/u,1,BadSetting,expected NAME=VALUE, or five fields and a command|
S/u=1\x202\n\n*\x20*\x20*\x20*\x208\x20a\n|S/u,1,WrongParts,expected five fields and a command;S/u,3,OutOfRange,day of week '8': out of range 0-7|
T/u=@daily\n|T/u,1,NoCommand,no command|
F/u=@daily\n|F/u,1,NoCommand,no command|
C/a=@daily\n S/a=@daily\n|C/a,1,NoCommand,expected a user and a command;S/a,1,NoCommand,no command|
S/u=0\x209\x2013\x20*\x205\x20b\n|S/u,1,EitherDay,starts on days that match either day field, not both|
S/u=@daily\x20a%b\n|S/u,1,Percent,cron ends the command at the first % and passes the rest as input|
S/u=@daily\x20a\r\n|S/u,1,CarriageReturn,the command ends with a carriage return|
S/u=0\x200\x2030\x202\x20*\x20a\n|S/u,1,NeverStarts,never starts|
S/u=CRON_TZ=UTC\n|S/u,1,ZoneSetting,CRON_TZ is read by cronie alone\x3b agenda reads all rules in one zone|
S/u=@daily\x20a%b\nx\n|S/u,1,Percent,cron ends the command at the first % and passes the rest as input;S/u,2,BadSetting,expected NAME=VALUE, or five fields and a command|
S/u=*/\\\x20*\x20*\x20*\x20*\x20c\n|S/u,1,BadNumber,minute '*/\\\\': not a number of one to four digits|
S/u=@a\x01\x1b"\x7f\x20c\n|S/u,1,UnknownWord,unknown word '@a\\x01\\x1b"\\x7f'|
C/a=\xff\n|C/a,,NotUtf8,not UTF-8|
C/a=@daily\x20root\x20\xff\n S/b=x\n|C/a,,NotUtf8,not UTF-8;S/b,1,BadSetting,expected NAME=VALUE, or five fields and a command|
C/a>/opt/x opt/x=x\n|C/a,1,BadSetting,expected NAME=VALUE, or five fields and a command|
etc/cron.d>/opt/c opt/c/a>b opt/c/b=x\n|C/a,1,BadSetting,expected NAME=VALUE, or five fields and a command;C/b,1,BadSetting,expected NAME=VALUE, or five fields and a command|
ROWS

# The order: that of the sources, and of the lines in each.
check_roots <<'ROWS'
etc/crontab=x\n C/b=x\n C/a=x\ny\n S/v=x\n S/u=x\n *b.timer *a.timer *c@i.timer U/a.timer=[Unit]\n E/b.timer=[Timer]\nOnCalendar=12\n U/c@.timer=[Unit]\n|etc/crontab,1,BadSetting,expected NAME=VALUE, or five fields and a command;C/a,1,BadSetting,expected NAME=VALUE, or five fields and a command;C/a,2,BadSetting,expected NAME=VALUE, or five fields and a command;C/b,1,BadSetting,expected NAME=VALUE, or five fields and a command;S/u,1,BadSetting,expected NAME=VALUE, or five fields and a command;S/v,1,BadSetting,expected NAME=VALUE, or five fields and a command;U/a.timer,,NoTimerSection,no [Timer] section;E/b.timer,2,WrongParts,'12' is not a calendar event;U/c@.timer,,NoTimerSection,no [Timer] section|
ROWS

# ---- timers

check_roots <<'ROWS'
*a.timer U/a.timer=DAILY||
*a.timer U/a.timer=[Timer]\nOnCalendar=24:00\n|U/a.timer,2,OutOfRange,hour in '24:00': out of range 0-23|
*a.timer U/a.timer=[Timer]\nOnCalendar=Mo\n|U/a.timer,2,UnknownWord,'Mo' is not a calendar event|
*a.timer U/a.timer|U/a.timer,,NoTimerSection,no [Timer] section|
*a.timer U/a.timer=[Timer]\n|U/a.timer,,TimerRejected,systemd 252 rejects this timer: it has no valid trigger|
*a.timer U/a.timer=[Timer]\nOnBootSec=5\n|U/a.timer,,Monotonic,also starts by OnBootSec= or the like, which is not planned|
*a.timer U/a.timer=[Timer]\nOnBootSec=5\nOnCalendar=daily\n|U/a.timer,,Monotonic,also starts by OnBootSec= or the like, which is not planned|
*a.timer U/a.timer=[Timer]\nOnCalendar=daily\nRandomizedDelaySec=1h\n|U/a.timer,,Delayed,starts up to '1h' later than planned (RandomizedDelaySec=)|
*a.timer U/a.timer=[Timer]\nOnCalender=daily\nOnCalendar=daily\nAccuracySec=x\n|U/a.timer,2,UnknownKey,unknown setting 'OnCalender' in [Timer];U/a.timer,4,BadDelay,'x' is not a time span|
*a.timer U/a.timer=[Timer]\nOnCalendar=2024-02-30\n|U/a.timer,2,NeverStarts,never starts|
*a.timer U/a.timer=\xff\n|U/a.timer,,NotUtf8,not UTF-8|
*a.timer E/a.timer>/opt/t opt/t=[Timer]\nOnCalendar=24:00\n|E/a.timer,2,OutOfRange,hour in '24:00': out of range 0-23|
*a.timer lib>usr/lib U/a.timer=[Timer]\nOnCalendar=24:00\n|B/a.timer,2,OutOfRange,hour in '24:00': out of range 0-23|
*a.timer E/a.timer>b.timer U/b.timer=[Timer]\nOnCalendar=24:00\n|U/b.timer,2,OutOfRange,hour in '24:00': out of range 0-23|
*a\\x2db.timer U/a\\x2db.timer|U/a\\x2db.timer,,NoTimerSection,no [Timer] section|
U/a.timer=[Timer]\nOnCalendar=24:00\n||
E/y.target.wants/a.timer>y U/a.timer=[Timer]\nOnCalendar=24:00\n||wanted E/y.target.wants/a.timer y.target
D/s.service>y U/s.service=[Unit]\nWants=a.timer\n U/a.timer=[Timer]\nOnCalendar=24:00\n|U/a.timer,2,OutOfRange,hour in '24:00': out of range 0-23|
*a@.timer U/a@.timer=[Timer]\nOnCalendar=%i\n|U/a@.timer,2,UnknownWord,'x' is not a calendar event|
ROWS
check_roots --all <<'ROWS'
U/a.timer=[Timer]\nOnCalendar=24:00\n|U/a.timer,2,OutOfRange,hour in '24:00': out of range 0-23|
U/b.timer E/a.timer=DAILY U/c@.timer|U/b.timer,,NoTimerSection,no [Timer] section|
ROWS

# Drop-ins: a finding has the path and the line of the file that the line comes from. One about the whole text has the path
# of the timer's file.
check_roots <<'ROWS'
*a.timer U/a.timer=DAILY E/a.timer.d/x.conf=[Timer]\nOnCalendar=24:00\n|E/a.timer.d/x.conf,2,OutOfRange,hour in '24:00': out of range 0-23|
*a.timer U/a.timer=DAILY E/a.timer.d/x.conf=\n\n[Timer]\n#\nOnCalendar=24:00|E/a.timer.d/x.conf,5,OutOfRange,hour in '24:00': out of range 0-23|
*a.timer U/a.timer=[Timer]\nOnCalendar=24:00 E/a.timer.d/x.conf=[Timer]\nOnCalendar=25:00 U/timer.d/y.conf=[Timer]\n\nOnCalendar=26:00\n|U/a.timer,2,OutOfRange,hour in '24:00': out of range 0-23;E/a.timer.d/x.conf,2,OutOfRange,hour in '25:00': out of range 0-23;U/timer.d/y.conf,3,OutOfRange,hour in '26:00': out of range 0-23|
*a.timer U/a.timer=[Timer]\nOnCalendar=daily\n\n\n\n E/a.timer.d/x.conf=[Timer]\nOnCalendar=24:00\n|E/a.timer.d/x.conf,2,OutOfRange,hour in '24:00': out of range 0-23|
*a.timer U/a.timer=DAILY E/a.timer.d/x.conf=[Timer]\nOnCalendar=24:00\n\n E/a.timer.d/y.conf=\n E/a.timer.d/z.conf=[Timer]\nOnCalendar=25:00\n|E/a.timer.d/x.conf,2,OutOfRange,hour in '24:00': out of range 0-23;E/a.timer.d/z.conf,2,OutOfRange,hour in '25:00': out of range 0-23|
*a.timer U/a.timer=DAILY E/a.timer.d/x.conf=OnCalendar=24:00\n||
*a.timer U/a.timer=[Unit]\n E/a.timer.d/x.conf=[Timer]\nOnCalendar=24:00\n|E/a.timer.d/x.conf,2,OutOfRange,hour in '24:00': out of range 0-23|
*a.timer U/a.timer=[Unit]\n E/a.timer.d/x.conf=[Unit]\n|U/a.timer,,NoTimerSection,no [Timer] section|
*a.timer U/a.timer=[Timer]\nOnCalendar=24:00\\ E/a.timer.d/x.conf=[Timer]\nOnCalendar=25:00\\\n E/a.timer.d/y.conf=[Timer]\nOnCalendar=daily|U/a.timer,2,OutOfRange,hour in '24:00': out of range 0-23;E/a.timer.d/x.conf,2,OutOfRange,hour in '25:00': out of range 0-23|
*a.timer U/a.timer=DAILY E/a.timer.d/x.conf=[Timer]\nOnCalendar=Mon\\\n#\x20x\n\x2024:00\nOnCalendar=25:00\n|E/a.timer.d/x.conf,2,OutOfRange,hour in 'Mon 24:00': out of range 0-23;E/a.timer.d/x.conf,5,OutOfRange,hour in '25:00': out of range 0-23|
*a.timer U/a.timer=[Timer]\nOnCalendar=24:00\n E/a.timer.d/x.conf=[Timer]\nOnCalendar=\nOnCalendar=daily\n|U/a.timer,2,OutOfRange,hour in '24:00': out of range 0-23|
*a.timer U/a.timer=DAILY E/a.timer.d/x.conf=[Timer]\nOnCalendar=\n|U/a.timer,,TimerRejected,systemd 252 rejects this timer: it has no valid trigger|
*a.timer U/a.timer=DAILY E/a.timer.d/x.conf=[Timer]\nOnBootSec=5\nRandomizedDelaySec=5min\n|U/a.timer,,Monotonic,also starts by OnBootSec= or the like, which is not planned;U/a.timer,,Delayed,starts up to '5min' later than planned (RandomizedDelaySec=)|
*a.timer U/a.timer=DAILY E/a.timer.d/x.conf=[Timer]\nFoo=1\nRandomizedDelaySec=y\n|E/a.timer.d/x.conf,2,UnknownKey,unknown setting 'Foo' in [Timer];E/a.timer.d/x.conf,3,BadDelay,'y' is not a time span|
*a.timer U/a.timer=DAILY E/a.timer.d/x.conf=[Timer]\nOnCalendar=2024-02-30\n|E/a.timer.d/x.conf,2,NeverStarts,never starts|
*a.timer U/a.timer=DAILY E/a.timer.d/x.conf=\xff\n|U/a.timer,,NotUtf8,not UTF-8|
*a.timer U/a.timer=DAILY E/a.timer.d/x.conf>/opt/x opt/x=[Timer]\nOnCalendar=24:00\n|E/a.timer.d/x.conf,2,OutOfRange,hour in '24:00': out of range 0-23|
*a.timer U/a.timer=[Timer]\nOnCalendar=24:00\n E/a.timer.d/x.conf= U/a.timer.d/x.conf=[Timer]\nOnCalendar=25:00\n|U/a.timer,2,OutOfRange,hour in '24:00': out of range 0-23|E/a.timer.d/x.conf masked
*a.timer U/a.timer=DAILY E/a.timer.d/x.conf/ U/a.timer.d/y.conf=[Timer]\nOnCalendar=24:00\n|U/a.timer.d/y.conf,2,OutOfRange,hour in '24:00': out of range 0-23|E/a.timer.d/x.conf not readable
*a-b.timer U/a-b.timer=DAILY U/a-.timer.d/x.conf=[Timer]\nOnCalendar=24:00\n|U/a-.timer.d/x.conf,2,OutOfRange,hour in '24:00': out of range 0-23|
*a.timer *b.timer U/a.timer=DAILY U/b.timer=DAILY U/timer.d/x.conf=[Timer]\nOnCalendar=24:00\n|U/timer.d/x.conf,2,OutOfRange,hour in '24:00': out of range 0-23;U/timer.d/x.conf,2,OutOfRange,hour in '24:00': out of range 0-23|
*a.timer U/a.timer=DAILY E/a.timer.d/x\x20y:1.conf=[Timer]\nOnCalendar=24:00\n|E/a.timer.d/x\x20y:1.conf,2,OutOfRange,hour in '24:00': out of range 0-23|
ROWS

# Instances: specifiers are replaced before, so a text is what the timer has, and a line is that of the file.
check_roots <<'ROWS'
*a@24.timer U/a@.timer=[Timer]\nOnCalendar=%i:00\n|U/a@.timer,2,OutOfRange,hour in '24:00': out of range 0-23|
*a@4.timer U/a@.timer=[Timer]\nOnCalendar=%i:00\n||
*a@24.timer *a@4.timer *a@25.timer U/a@.timer=[Timer]\nOnCalendar=%i:00\n|U/a@.timer,2,OutOfRange,hour in '24:00': out of range 0-23;U/a@.timer,2,OutOfRange,hour in '25:00': out of range 0-23|
*a@24.timer U/a@.timer=DAILY E/a@.timer.d/x.conf=\n[Timer]\nOnCalendar=%i:00\n E/a@24.timer.d/y.conf=[Timer]\nOnCalendar=%i:01\n|E/a@.timer.d/x.conf,3,OutOfRange,hour in '24:00': out of range 0-23;E/a@24.timer.d/y.conf,2,OutOfRange,hour in '24:01': out of range 0-23|
*a@b.timer U/a@.timer=[Timer]\nOnCalendar=%%i:00\n|U/a@.timer,2,Specifier,specifiers in '%i:00' are not expanded|
*a@b.timer U/a@.timer=[Timer]\nOnCalendar=%H\n|U/a@.timer,2,Specifier,specifiers in '%H' are not expanded|
*a.timer U/a.timer=[Timer]\nOnCalendar=%i:00\n|U/a.timer,2,Specifier,specifiers in '%i:00' are not expanded|
*OnCalendar@x.timer U/OnCalendar@.timer=[Timer]\n%p=24:00\n|U/OnCalendar@.timer,2,OutOfRange,hour in '24:00': out of range 0-23|
*a@b.timer U/a@b.timer=[Timer]\nOnCalendar=24:00\n U/a@.timer=DAILY|U/a@b.timer,2,OutOfRange,hour in '24:00': out of range 0-23|
ROWS

# More than 64 events: the first that finds 64 is reported, wherever it is.
check_events() {
  printf '*a.timer U/a.timer=[Timer]\\n'
  printf 'OnCalendar=daily\\n%.0s' {1..64}
  printf ' E/a.timer.d/x.conf=[Timer]\\n%s|%s|\n' "$1" "$2"
}
check_roots < <(
  check_events 'AccuracySec=1h\n' ''
  check_events '\nOnCalendar=daily\nOnCalendar=24:00\n' 'E/a.timer.d/x.conf,3,TooManyLines,more than 64 events'
  check_events 'OnCalendar=\nOnCalendar=daily\n' ''
)

# ---- what is reported beside the findings

check_roots <<'ROWS'
C/a/ C/b.c C/d=x\n|C/d,1,BadSetting,expected NAME=VALUE, or five fields and a command|C/a not readable,C/b.c bad name
C/a/||C/a not readable
C/a.b||C/a.b bad name
etc/crontab C/system=x\n||C/system name taken
C/\xff C/a|| etc/cron.d a name that isn't UTF-8
*a.timer E/a.timer= U/a.timer||E/a.timer masked
*a.timer E/a.timer>/nowhere||E/a.timer not readable
*a.timer||D/a.timer no such timer
*a@b\\c.timer U/a@.timer||D/a@b\\c.timer escape
*a\nb.timer U/a\nb.timer||D/a\nb.timer bad name
etc/anacrontab F/atjobs/a root/.config/systemd/user/a.timer||anacron,at F/atjobs,user root/.config/systemd/user
*a.timer U/a.timer=DAILY U/timer.d/a\nb\\.conf=[Timer]\nOnCalendar=24:00\n|U/timer.d/a\nb\\.conf,2,OutOfRange,hour in '24:00': out of range 0-23|
*a.timer U/a.timer=DAILY U/timer.d/"\x01\x08\t\x0c\x0d\x1f\x7f\xc3\xa0.conf=[Timer]\nOnCalendar=24:00\n|U/timer.d/"\x01\x08\t\x0c\x0d\x1f\x7f\xc3\xa0.conf,2,OutOfRange,hour in '24:00': out of range 0-23|
ROWS

# A timer whose unit can't start isn't checked, and doesn't change the status.
program_has_services=no
check_roots <<'ROWS'
*a.timer U/a.timer=[Timer]\nOnCalendar=24:00\n||missing U/a.timer a.service
*a.timer U/a.timer=[Timer]\nOnCalendar=24:00\n E/a.service>/dev/null U/a.service||mask U/a.timer a.service
*a.timer *b.timer U/a.timer=[Timer]\nOnCalendar=24:00\n U/b.timer=[Timer]\nOnCalendar=25:00\n U/b.service|U/b.timer,2,OutOfRange,hour in '25:00': out of range 0-23|missing U/a.timer a.service
*a@24.timer *a@25.timer U/a@.timer=[Timer]\nOnCalendar=%i:00\n U/a@25.service|U/a@.timer,2,OutOfRange,hour in '25:00': out of range 0-23|missing U/a@.timer a@24.service
ROWS
program_has_services=yes
machine_has_cron=no
check_roots <<'ROWS'
C/a||cron
C/a/ C/b.c C/d=x\n etc/anacrontab etc/localtime>nowhere|C/d,1,BadSetting,expected NAME=VALUE, or five fields and a command|C/a not readable,C/b.c bad name,anacron,cron,zone
ROWS
machine_has_cron=yes

# ---- zones

# Two events by which the zone is known: the first is skipped by the clocks of CET, and in CET and EAST the second is before
# 1970. The third is that in UTC.
check_events='*a.timer U/a.timer=[Timer]\nOnCalendar=2024-03-31\x2002:30\nOnCalendar=1970-01-01\x2000:00\nOnCalendar=1970-01-01\x2000:00\x20UTC\n'

# Sets `findings` to those of these events in the zone $1: CET, EAST or UTC.
check_in_zone() {
  case $1 in
    CET) findings='U/a.timer,2,NeverStarts,never starts;U/a.timer,3,NeverStarts,never starts' ;;
    EAST) findings='U/a.timer,3,NeverStarts,never starts' ;;
    UTC) findings= ;;
    *) refuse "no such zone: $1" ;;
  esac
}

# Rows of a root, to which a timer of these events is added, its zone, and the lines. The options of the command are $@.
check_zones() {
  local root zone lines findings
  while IFS='|' read -r root zone lines; do
    program_make "$root $check_events"
    check_in_zone "$zone"
    check_is "$findings" "$lines" "$root in $zone" "$@"
  done
}

# No etc/localtime; files; what isn't a file; links whose text names no zone.
check_zones <<'ROWS'
x/|UTC|
etc/Localtime=CET etc/timezone=Europe/Oslo|UTC|
usr/share/zoneinfo/Europe/Oslo=EAST|UTC|
etc/localtime=CET|CET|
etc/localtime=EAST|EAST|
etc/localtime=CET usr/share/zoneinfo/Europe/Oslo=EAST|CET|
etc/localtime/|UTC|zone
etc/localtime!|UTC|zone
etc/localtime>localtime|UTC|zone
etc/localtime>nowhere|UTC|zone
etc/localtime>UTC|UTC|zone
etc/localtime>/dev/null|UTC|zone
etc/localtime>/opt/x opt/x=CET|UTC|zone
etc/localtime>x etc/x=CET|UTC|zone
etc/localtime>x etc/x>/usr/share/zoneinfo/Europe/Oslo usr/share/zoneinfo/Europe/Oslo=EAST|UTC|zone
etc/localtime>/usr/share/zoneinfo/|UTC|zone
etc/localtime>/usr/share/zoneinfo usr/share/zoneinfo=CET|UTC|zone
etc/localtime=no\x20zone\n|UTC|zone
etc/localtime=|UTC|zone
etc/localtime>/usr/share/zoneinfo/No/Where usr/share/zoneinfo/No/Where=x|UTC|zone
etc/localtime>/usr/share/zoneinfo/No/Where usr/share/zoneinfo/No/Where=|UTC|zone
ROWS

# Directories on the way that are links. The timer isn't in etc then.
check_events='U/x.target.wants/a.timer>y U/a.timer=[Timer]\nOnCalendar=2024-03-31\x2002:30\nOnCalendar=1970-01-01\x2000:00\n'
check_zones <<'ROWS'
etc|UTC|
etc/|UTC|
etc>nowhere|UTC|
etc>/opt/e opt/e/|UTC|
etc>/opt/e opt/e/localtime=CET|CET|
etc>opt/e opt/e/localtime=EAST|EAST|
etc>/ localtime=CET|CET|
etc>etc|UTC|etc/crontab not readable,etc/cron.d not readable,zone
etc>/opt/e opt/e/localtime>/usr/share/zoneinfo/No/Where usr/share/zoneinfo/No/Where=EAST|EAST|
ROWS

# Links that name a file below the root, which is followed below the root.
check_zones <<'ROWS'
etc/localtime>/usr/share/zoneinfo/Europe/Oslo usr/share/zoneinfo/Europe/Oslo=EAST|EAST|
etc/localtime>../usr/share/zoneinfo/Europe/Oslo usr/share/zoneinfo/Europe/Oslo=EAST|EAST|
etc/localtime>/usr/share/zoneinfo/Etc/UTC usr/share/zoneinfo/Etc/UTC=EAST|EAST|
etc/localtime>/usr/share/zoneinfo/UTC|UTC|
etc/localtime>/usr/share/zoneinfo/posix/Europe/Oslo usr/share/zoneinfo/posix/Europe/Oslo=EAST|EAST|
etc/localtime>/usr/share/zoneinfo/Etc/GMT+5 usr/share/zoneinfo/Etc/GMT+5=EAST|EAST|
etc/localtime>/usr/share/zoneinfo/A_b/C-9 usr/share/zoneinfo/A_b/C-9=CET|CET|
etc/localtime>/opt/zoneinfo/No/Where usr/share/zoneinfo/No/Where=EAST|EAST|
etc/localtime>zoneinfo/No/Where usr/share/zoneinfo/No/Where=EAST|EAST|
etc/localtime>/zoneinfo/No/zoneinfo/Where usr/share/zoneinfo/No/zoneinfo/Where=EAST|EAST|
etc/localtime>/zoneinfo/No/zoneinfo/Where usr/share/zoneinfo/Where=EAST|UTC|zone
etc/localtime>/usr/share/zoneinfo/No/Where usr/share/zoneinfo/No/Where>/opt/x opt/x=EAST|EAST|
etc/localtime>/usr/share/zoneinfo/No/Where usr/share/zoneinfo/No/Where>../Else usr/share/zoneinfo/Else=EAST|EAST|
etc/localtime>/usr/share/zoneinfo/No/Where usr/share>/opt/s opt/s/zoneinfo/No/Where=EAST|EAST|
ROWS

# Links that name a zone of which neither the root nor this machine has a file, or something that isn't a name.
check_zones <<'ROWS'
etc/localtime>/usr/share/zoneinfo/No/Where|UTC|zone
etc/localtime>/usr/share/zoneinfo/No/Where usr/share/zoneinfo/No/Where/|UTC|zone
etc/localtime>/usr/share/zoneinfo/No/Where usr/share/zoneinfo/No/Where!|UTC|zone
etc/localtime>/usr/share/zoneinfo/No/Where usr/share/zoneinfo/No/Where>/dev/null|UTC|zone
etc/localtime>/usr/share/zoneinfo/No/Where usr/share/zoneinfo/No/Where>Where|UTC|zone
etc/localtime>/usr/share/zoneinfo/No/Where usr/share/zoneinfo/No/Where>nowhere|UTC|zone
etc/localtime>/usr/share/zoneinfo/No//Where usr/share/zoneinfo/No/Where=EAST|UTC|zone
etc/localtime>/usr/share/zoneinfo//No usr/share/zoneinfo/No=EAST|UTC|zone
etc/localtime>/usr/share/zoneinfo/No/ usr/share/zoneinfo/No=EAST|UTC|zone
etc/localtime>/usr/share/zoneinfo/./No usr/share/zoneinfo/No=EAST|UTC|zone
etc/localtime>/usr/share/zoneinfo/No/../No usr/share/zoneinfo/No=EAST|UTC|zone
etc/localtime>/usr/share/zoneinfo/No.x usr/share/zoneinfo/No.x=EAST|UTC|zone
etc/localtime>/usr/share/zoneinfo/No\x20x usr/share/zoneinfo/No\x20x=EAST|UTC|zone
etc/localtime>/usr/share/zoneinfo/No\n usr/share/zoneinfo/No=EAST|UTC|zone
etc/localtime>/usr/share/zoneinfo/N\xc3\xb8 usr/share/zoneinfo/N\xc3\xb8=EAST|UTC|zone
etc/localtime>/usr/share/zoneinfo/N\xff usr/share/zoneinfo/No=EAST|UTC|zone
etc/localtime>/usr/share/Zoneinfo/No usr/share/zoneinfo/No=EAST|UTC|zone
ROWS

# Links that name a zone of this machine. In Oslo these events start as in CET.
if [ -r /usr/share/zoneinfo/Europe/Oslo ] && [ -r /usr/share/zoneinfo/Etc/UTC ]; then
  check_zones <<'ROWS'
etc/localtime>/usr/share/zoneinfo/Europe/Oslo|CET|
etc/localtime>../usr/share/zoneinfo/Europe/Oslo|CET|
etc/localtime>/usr/share/zoneinfo/Etc/UTC|UTC|
etc/localtime>/usr/share/zoneinfo/Europe/Oslo usr/share/zoneinfo/Europe/Oslo/|CET|
etc/localtime>/usr/share/zoneinfo/Europe/Oslo usr/share/zoneinfo/Europe/Oslo>Oslo|CET|
etc/localtime>/usr/share/zoneinfo/Europe/Oslo usr/share/zoneinfo/Europe/Oslo>/usr/share/zoneinfo/Europe/Oslo|CET|
etc/localtime>/usr/share/zoneinfo/Europe|UTC|zone
etc/localtime>/usr/share/zoneinfo/Europe/|UTC|zone
etc/localtime>/usr/share/zoneinfo/Europe//Oslo|UTC|zone
ROWS
  check_zones --zone Europe/Oslo <<'ROWS'
x/|CET|
etc/localtime=EAST|CET|
ROWS
else
  echo "agenda machine check: skipped the zones of this machine, since it has no tz database"
fi

# With --zone or --utc, etc/localtime isn't read.
printf '%b' "$machine_east" >"$machine_folder/east"
check_zones --utc <<'ROWS'
etc/localtime=CET|UTC|
etc/localtime=no\x20zone|UTC|
etc/localtime>nowhere|UTC|
ROWS
check_zones --zone UTC <<'ROWS'
etc/localtime=CET|UTC|
ROWS
check_zones --zone ./east <<'ROWS'
etc/localtime=CET|EAST|
etc/localtime>nowhere|EAST|
ROWS
check_zones "--zone=$machine_folder/east" <<'ROWS'
x/|EAST|
ROWS

# Rows of a root, a code that is reported, and options, with blanks between them: nothing else is printed. Some error lines
# have further words.
check_refused() {
  local root code words
  while IFS='|' read -r root code words; do
    program_make "$root $check_events"
    IFS=' ' read -r -a words <<<"$words"
    program_run check --root root "${words[@]}"
    grep -qE "^agenda: .*zone.*$code" "$work/err" || echo "no line with $code" >>"$work/out"
    program_compare "check ${words[*]} of '$root': $code" /dev/null "$work/err" 1
  done
}
check_refused <<'ROWS'
x/|NoSuchZone|--zone No/Where
x/|NoSuchZone|--zone Europe
x/|BadZoneName|--zone Europe/
x/|BadZoneName|--zone=
x/|BadZone|--zone ./root/usr/lib/systemd/system/a.timer
ROWS
program_make "etc/localtime=CET $check_events"
head -c 1048576 /dev/zero >>"$machine_folder/root/etc/localtime"
check_in_zone UTC
check_is "$findings" zone 'a large etc/localtime'

# The zones of events are those of this machine.
check_roots <<'ROWS'
*a.timer U/a.timer=[Timer]\nOnCalendar=02:30\x20No/Where\n|U/a.timer,2,Zone,time zone in '02:30 No/Where': unknown|
*a.timer U/a.timer=[Timer]\nOnCalendar=02:30\x20No/Where\n usr/share/zoneinfo/No/Where=x|U/a.timer,2,Zone,time zone in '02:30 No/Where': unknown|
*a.timer U/a.timer=[Timer]\nOnCalendar=02:30\x20utc\n||
*a.timer U/a.timer=[Timer]\nOnCalendar=1970-01-01\x2000:00\x20UTC\n etc/localtime=CET||
*a.timer U/a.timer=DAILY E/a.timer.d/x.conf=[Timer]\nOnCalendar=02:30\x20No/Where\n|E/a.timer.d/x.conf,2,Zone,time zone in '02:30 No/Where': unknown|
*a@No.timer U/a@.timer=[Timer]\nOnCalendar=02:30\x20%i/Where\n|U/a@.timer,2,Zone,time zone in '02:30 No/Where': unknown|
ROWS
if [ -r /usr/share/zoneinfo/Europe/Oslo ]; then
  check_roots <<'ROWS'
*a.timer U/a.timer=[Timer]\nOnCalendar=2024-03-31\x2002:30\x20Europe/Oslo\n|U/a.timer,2,NeverStarts,never starts|
*a.timer U/a.timer=[Timer]\nOnCalendar=2024-03-31\x2002:30\x20Europe/Oslo\n usr/share/zoneinfo/Europe/Oslo/|U/a.timer,2,NeverStarts,never starts|
ROWS
fi

# ---- sizes

# Adds `#` and so many bytes to the file $1 of the root that it has $2 bytes.
check_fill() {
  local path size
  machine_path "$1"
  size=$(stat -c %s "$machine_folder/root/$path")
  { printf '#' && head -c "$(($2 - size - 1))" /dev/zero | tr '\0' x; } >>"$machine_folder/root/$path"
}

# Rows of a root, a file in it and its size, and the findings. A merged text has 8 bytes more between its parts, and a newline
# after each of them.
check_sizes() {
  local root path size findings
  while IFS='|' read -r root path size findings; do
    program_make "$root"
    check_fill "$path" "$size"
    check_is "$findings" '' "$root with $size bytes"
  done
}

check_sizes <<'ROWS'
etc/crontab=@daily\n|etc/crontab|1048576|etc/crontab,1,NoCommand,expected a user and a command
etc/crontab=@daily\n S/b=x\n|etc/crontab|1048577|etc/crontab,,TooLarge,larger than 1048576 bytes;S/b,1,BadSetting,expected NAME=VALUE, or five fields and a command
C/a=@daily\n|C/a|1048577|C/a,,TooLarge,larger than 1048576 bytes
C/a=@daily\n|C/a|3000000|C/a,,TooLarge,larger than 1048576 bytes
S/a=@daily\n|S/a|1048577|S/a,,TooLarge,larger than 1048576 bytes
*a.timer U/a.timer=[Timer]\nOnCalendar=24:00\n|U/a.timer|1048576|U/a.timer,2,OutOfRange,hour in '24:00': out of range 0-23
*a.timer U/a.timer=[Timer]\nOnCalendar=24:00\n|U/a.timer|1048577|U/a.timer,,TooLarge,larger than 1048576 bytes
*a.timer U/a.timer=DAILY E/a.timer.d/x.conf=\n|E/a.timer.d/x.conf|1048542|
*a.timer U/a.timer=DAILY E/a.timer.d/x.conf=\n|E/a.timer.d/x.conf|1048543|U/a.timer,,TooLarge,larger than 1048576 bytes
*a.timer U/a.timer=DAILY E/a.timer.d/x.conf=\n|E/a.timer.d/x.conf|1048577|U/a.timer,,TooLarge,larger than 1048576 bytes
ROWS

# 1,000 jobs, and more: the first that isn't added is reported.
program_make 'S/u= *a.timer U/a.timer=DAILY *b.timer U/b.timer=DAILY'
seq -f '@daily a%.0f' 998 >"$machine_folder/root/var/spool/cron/crontabs/u"
check_is '' '' '1,000 jobs'
seq -f '@daily a%.0f' 999 >"$machine_folder/root/var/spool/cron/crontabs/u"
check_is 'U/b.timer,,Full,more than 1000 jobs' '' '1,001 jobs'
seq -f '@daily a%.0f' 1005 >"$machine_folder/root/var/spool/cron/crontabs/u"
check_is 'S/u,1001,Full,more than 1000 jobs' '' '1,007 jobs'

# ---- the root, the arguments, and what can't be written

check_names=('a b' '[r]*' -r "'r\"" 'r\x' 'r:1: x' '%i' $'r\nr')
program_make 'C/a=x\n C/b/'
for check_name in "${check_names[@]}"; do
  cp -R -- "$machine_folder/root" "$machine_folder/$check_name"
done
for check_name in "${check_names[@]}"; do
  machine_root=$check_name
  check_findings 'C/a,1,BadSetting,expected NAME=VALUE, or five fields and a command'
  program_lines 'C/b not readable'
  program_run check --root="$check_name"
  program_compare "check of a root with an odd name" "$work/out.wanted" "$work/err.wanted" 1
  program_run check --json --root="$check_name"
  program_compare "check --json of a root with an odd name" "$work/objects.wanted" "$work/err.wanted" 1
  machine_root=root
  rm -rf -- "${machine_folder:?}/$check_name"
done
program_make 'C/a=x\n'
for check_name in root/ root/// ./root "$machine_folder/root/"; do
  machine_root=${check_name%"${check_name##*[!/]}"}
  check_findings 'C/a,1,BadSetting,expected NAME=VALUE, or five fields and a command'
  program_run check --root "$check_name"
  program_compare "check --root $check_name" "$work/out.wanted" /dev/null 1
  machine_root=root
done
program_make etc/localtime/
program_lines zone
program_run check --root root//
program_compare "check --root root// in an unknown zone" /dev/null "$work/err.wanted" 0
program_run check --root missing
echo 'agenda: missing: not a directory' >"$work/err.wanted"
program_compare "check --root missing" /dev/null "$work/err.wanted" 1

program_usage <<'ROWS'
check|x
check|tomorrow
check|x.timer
check|--frob
check|--root
check|--root|root|--root|root
check|--root|root|--utc|--zone|UTC
check|--root|root|--zone|UTC|--utc
check|--root|root|--zone
check|--root|root|--zone|UTC|--zone|UTC
check|--root|root|--utc=yes
check|--root|root|--since|now
check|--root|root|--after|now
check|--root|root|--delays
check|--root|root|--table
check|--root|root|--text
check|--root|root|--strict
check|--root|root|--keep-going
check|--root|root|--event-zones
check|--root|root|--local
check|--root|root|--crontab|root/etc/crontab
ROWS

program_make 'C/a=x\n'
if [ -c /dev/full ]; then
  run_in "$machine_folder" bash -c 'exec agenda machine check --root root >/dev/full'
  : >"$work/err"
  program_compare "check >/dev/full" /dev/null /dev/null 3
fi
run_in "$machine_folder" bash -c 'exec agenda machine check --root root >&-'
: >"$work/err"
program_compare "check, standard output closed" /dev/null /dev/null 3

# ---- without rights

# Rows of a root, a path in it without permissions, the findings and the lines.
check_locked() {
  local root locked findings lines path
  while IFS='|' read -r root locked findings lines; do
    program_make "$root"
    machine_path "$locked"
    chmod 000 "$machine_folder/root/$path"
    check_is "$findings" "$lines" "$root without rights on $locked"
    chmod -R u+rwX "$machine_folder/root"
  done
}

if machine_as_nobody && "${machine_by[@]}" "$machine_folder/whole/agenda" --version >/dev/null 2>&1; then
  check_locked <<'ROWS'
C/a=x\n C/b=x\n|C/a|C/b,1,BadSetting,expected NAME=VALUE, or five fields and a command|C/a not readable
C/a=x\n S/b=x\n|etc/cron.d|S/b,1,BadSetting,expected NAME=VALUE, or five fields and a command|etc/cron.d not readable
*a.timer U/a.timer=[Timer]\nOnCalendar=24:00\n|U/a.timer||U/a.timer not readable
*a.timer U/a.timer=DAILY U/a.timer.d/x.conf=[Timer]\nOnCalendar=24:00\n|U/a.timer.d/x.conf||U/a.timer.d/x.conf not readable
*a.timer U/a.timer=DAILY U/a.timer.d/x.conf=[Timer]\nOnCalendar=24:00\n|U/a.timer.d||U/a.timer.d not readable
etc/localtime>/usr/share/zoneinfo/No/Where usr/share/zoneinfo/No/Where=EAST|usr/share/zoneinfo/No/Where||zone
etc/localtime>/usr/share/zoneinfo/No/Where usr/share/zoneinfo/No/Where=EAST|usr/share/zoneinfo||zone
etc/localtime=CET|etc||etc/crontab not readable,etc/cron.d not readable,etc not readable,zone
etc/localtime=CET|etc/localtime||zone
ROWS
else
  echo "agenda machine check: skipped the rows without rights, since setpriv can't drop those of root here"
fi
machine_by=()
