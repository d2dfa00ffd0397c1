# shellcheck shell=bash disable=SC2154,SC2034
# Rows of which sources of a machine its daemons load. Crontabs that cron ignores are not planned, and neither are timers that
# systemd doesn't start. The rules of cron are those of load_database and load_entry of Debian's cron 3.0pl1; those of
# services are the errors of `systemd-analyze verify` of systemd 252.

# shellcheck source=/dev/null
. "$top/rows/lib/program.sh"

loads_users='etc/passwd=root:x:0:0:root:/root:/bin/sh\nann:x:1000:1000:Ann,,,:/home/ann:/bin/sh\nbob:*:1001:1001\n'
# The time of the questions.
loads_when=2024-01-01T00:00:00Z

# Changes the present root as $1 says: words like `C/a=664`, which is a mode, `C/a@1000`, which is the number of an owner,
# and `C/a+C/b`, which is another hard link. `.` is the root. A link itself changes its owner.
loads_change() {
  local change
  local -a changes
  IFS=' ' read -r -a changes <<<"$1"
  for change in "${changes[@]}"; do
    machine_path "${change%%[=@+]*}"
    path=$machine_folder/$machine_root/$path
    case $change in
      *=*) chmod -- "${change#*=}" "$path" ;;
      *@*) chown -h -- "${change#*@}" "$path" ;;
      *+*)
        local from=$path
        machine_path "${change#*+}"
        ln -- "$from" "$machine_folder/$machine_root/$path"
        ;;
    esac
  done
}

# Rows of changes, a root, the jobs that are planned, and the lines on standard error as in program_lines. In a root FOUR is
# a line of a job of root, and MINE one of a user, both at 04:00. `upcoming` and `sources` both report the lines; sources
# has the files all the same.
loads_rows() {
  local changes root jobs lines
  while IFS='|' read -r changes root jobs lines; do
    root=${root//FOUR/'0\x204\x20*\x20*\x20*\x20root\x20x\n'}
    root=${root//MINE/'0\x204\x20*\x20*\x20*\x20x\n'}
    program_make "$loads_users $root"
    loads_change "$changes"
    loads_are "$jobs" "$lines" "$changes $root"
  done
}

# Compares the jobs that `upcoming` prints of the present root with $1, and what is reported with the lines $2. The root has
# the name $3.
loads_are() {
  local job wanted
  local -a jobs
  program_lines "$2"
  IFS=' ' read -r -a jobs <<<"$1"
  for job in "${jobs[@]}"; do
    echo "$job"
  done >"$work/out.wanted"
  program_run upcoming --root "$machine_root" --after "$loads_when" --utc --text
  awk -F '\t' 'NR > 1 || !/^agenda/ { print $2 }' "$work/out" >"$work/jobs"
  mv -- "$work/jobs" "$work/out"
  program_compare "which jobs are planned of '$3'" "$work/out.wanted" "$work/err.wanted" "$wanted"
}

# ---- the owner, the mode and the links of a crontab

# Only root can make files of other owners.
if [ "$(id -u)" = 0 ]; then
  # Of the system: root owns the file and a link to it, nobody else may write it, and it has one hard link.
  loads_rows <<'ROWS'
|etc/crontab=FOUR C/a=FOUR|system:1 a:1|
etc/crontab=600 C/a=755|etc/crontab=FOUR C/a=FOUR|system:1 a:1|
C/a=664|C/a=FOUR C/b=FOUR|b:1|not C/a cron ignores this file: mode 0664; not 0644
C/a=646|C/a=FOUR||not C/a cron ignores this file: mode 0646; not 0644
C/a=4777|C/a=FOUR||not C/a cron ignores this file: mode 4777; not 4755
C/a=000|C/a=FOUR|a:1|
etc/crontab=620|etc/crontab=FOUR||not etc/crontab cron ignores this file: mode 0620; not 0600
C/a@1000|C/a=FOUR||not C/a cron ignores this file: owned by user 1000; not root
C/a@1000 C/a=666|C/a=FOUR||not C/a cron ignores this file: owned by user 1000; not root
etc/crontab@1|etc/crontab=FOUR||not etc/crontab cron ignores this file: owned by user 1; not root
C/a+etc/b|C/a=FOUR||not C/a cron ignores this file: 2 hard links; not 1
C/a+C/b C/a+etc/b|C/a=FOUR||not C/a cron ignores this file: 3 hard links; not 1,not C/b cron ignores this file: 3 hard links; not 1
|C/a>/etc/x etc/x=FOUR|a:1|
C/a@1000|C/a>/etc/x etc/x=FOUR||not C/a cron ignores this file: link owned by user 1000; not root
etc/crontab@7|etc/crontab>x etc/x=FOUR||not etc/crontab cron ignores this file: link owned by user 7; not root
etc/x@1000|C/a>/etc/x etc/x=FOUR||not C/a cron ignores this file: owned by user 1000; not root
etc/x=666|C/a>/etc/x etc/x=FOUR||not C/a cron ignores this file: mode 0666; not 0644
etc/x+etc/y|C/a>/etc/x etc/x=FOUR||not C/a cron ignores this file: 2 hard links; not 1
etc/y@1000|C/a>/etc/y etc/y>x etc/x=FOUR|a:1|
opt@1000 etc/cron.d@1000|etc/cron.d>/opt opt/a=FOUR|a:1|
ROWS
  # Of a user: root or the user owns the file, whose mode is 0600; it is no link, and has one hard link.
  loads_rows <<'ROWS'
|S/ann=MINE S/root=MINE|ann:1 root:1|
S/ann@1000 S/bob@1001|S/ann=MINE S/bob=MINE|ann:1 bob:1|
S/ann@1001|S/ann=MINE||not S/ann cron ignores this file: owned by user 1001; not ann or root
S/root@1000|S/root=MINE||not S/root cron ignores this file: owned by user 1000; not root or root
S/ann=644|S/ann=MINE||not S/ann cron ignores this file: mode 0644; not 0600
S/ann=400|S/ann=MINE||not S/ann cron ignores this file: mode 0400; not 0600
S/ann=1600|S/ann=MINE||not S/ann cron ignores this file: mode 1600; not 0600
S/ann=601 S/ann@1001|S/ann=MINE||not S/ann cron ignores this file: owned by user 1001; not ann or root
S/ann+etc/x|S/ann=MINE||not S/ann cron ignores this file: 2 hard links; not 1
etc/x=600|S/ann>/etc/x etc/x=MINE||not S/ann cron ignores this file: a link; not a regular file
|S/carl=MINE||not S/carl user 'carl' does not exist: cron ignores this file
S/carl=644|S/carl=MINE||not S/carl user 'carl' does not exist: cron ignores this file
|S/tmp.x=MINE||not S/tmp.x user 'tmp.x' does not exist: cron ignores this file
|C/ann=FOUR S/ann=MINE|ann:1 ann.user:1|
S/ann=644|C/ann=FOUR S/ann=MINE|ann:1|not S/ann cron ignores this file: mode 0644; not 0600
ROWS
  # Owners and modes count only if root owns the root directory. Links and users count anyway.
  loads_rows <<'ROWS'
.@1000 C/a=666 C/b@1000 C/c@1000 S/ann=644 S/ann@1001|C/a=FOUR C/b=FOUR C/c>/etc/x etc/x=FOUR S/ann=MINE|a:1 b:1 c:1 ann:1|
.@1000 C/a+etc/y S/ann+etc/z|C/a=FOUR S/ann=MINE||not C/a cron ignores this file: 2 hard links; not 1,not S/ann cron ignores this file: 2 hard links; not 1
.@1000 etc/x=600|S/ann>/etc/x etc/x=MINE||not S/ann cron ignores this file: a link; not a regular file
.@1000|S/carl=MINE||not S/carl user 'carl' does not exist: cron ignores this file
ROWS
fi

# ---- users

# A crontab of the system is ignored with all its lines if one of them names a user who doesn't exist. Users are those of
# etc/passwd, if that can be read (passwd(5)).
loads_rows <<'ROWS'
|C/a=FOUR0\x205\x20*\x20*\x20*\x20carl\x20x\n0\x206\x20*\x20*\x20*\x20dave\x20x\n||not C/a:2 user 'carl' does not exist: cron ignores this file
|etc/crontab=@daily\x20carl\x20x\n||not etc/crontab:1 user 'carl' does not exist: cron ignores this file
|C/a=#\x20*\x20*\x20*\x20*\x20*\x20carl\x20x\nA=carl\n0\x204\x20*\x20*\x20*\x20bob\x20carl\n|a:3|
|C/a=0\x204\x20*\x20*\x20*\x20Ann\x20x\n||not C/a:1 user 'Ann' does not exist: cron ignores this file
|etc/passwd=ann\n\nbob:x\nann:x:one:1\nbob::7\nbob::7:\nann::7:8\n:x:8:8\n C/a=0\x204\x20*\x20*\x20*\x20ann\x20x\n C/b=0\x204\x20*\x20*\x20*\x20bob\x20x\n|a:1|not C/b:1 user 'bob' does not exist: cron ignores this file
|etc/passwd= C/a=FOUR||not C/a:1 user 'root' does not exist: cron ignores this file
|S/ann@corp=MINE S/ann~=MINE||not S/ann@corp user 'ann@corp' does not exist: cron ignores this file,not S/ann~ user 'ann~' does not exist: cron ignores this file
|etc/passwd=ann@corp:x:7:7\nCORP\\ann:x:8:8\nhost$:x:9:9\n S/ann@corp=MINE S/CORP\\ann=MINE S/host$=MINE S/host=MINE|CORP\ann:1 ann@corp:1 host$:1|not S/host user 'host' does not exist: cron ignores this file
ROWS
loads_users_of_root=$loads_users
loads_users=
loads_rows <<'ROWS'
|C/a=0\x204\x20*\x20*\x20*\x20carl\x20x\n S/dave=MINE|a:1 dave:1|
|etc/passwd/ C/a=0\x204\x20*\x20*\x20*\x20carl\x20x\n S/dave=MINE|a:1 dave:1|
|etc/passwd=root:x:0:0:\xff\n C/a=0\x204\x20*\x20*\x20*\x20carl\x20x\n||not C/a:1 user 'carl' does not exist: cron ignores this file
|etc/passwd=b\xfc:x:1:1\ncarl:x:2:2:\xfc:/\xfc C/a=0\x204\x20*\x20*\x20*\x20carl\x20x\n|a:1|
|etc/passwd=#carl:x:1:1\n+dave:x:2:2\n C/a=0\x204\x20*\x20*\x20*\x20#carl\x20x\n C/b=0\x204\x20*\x20*\x20*\x20+dave\x20x\n||not C/a:1 user '#carl' does not exist: cron ignores this file,not C/b:1 user '+dave' does not exist: cron ignores this file
ROWS
loads_users=$loads_users_of_root

# Another daemon than Debian's has other rules.
machine_has_cron=no
loads_rows <<'ROWS'
S/ann=644|S/ann=MINE S/carl=MINE C/a=0\x204\x20*\x20*\x20*\x20carl\x20x\n usr/sbin/crond|a:1 ann:1 carl:1|
S/ann=644|S/ann=MINE usr/sbin/cron>/bin/cron bin/cron||not S/ann cron ignores this file: mode 0644; not 0600
S/ann=644|S/ann=MINE usr/sbin/cron>/bin/cron usr/bin/crond|ann:1|
ROWS
machine_has_cron=yes

# ---- services

# A timer whose service has no command isn't planned, unless the service is oneshot and stays active, or acts on success.
program_has_services=no
loads_rows <<'ROWS'
|*a.timer U/a.timer=DAILY U/a.service=[Service]\nExecStart=/bin/true\n|a.timer|
|*a.timer U/a.timer=DAILY U/a.service=[Service]\nType=oneshot\n||idle U/a.timer a.service
|*a.timer U/a.timer=DAILY U/a.service=[Service]\nExecStart=\n||idle U/a.timer a.service
|*a.timer U/a.timer=DAILY U/a.service=[Service]\nExecStart=/bin/true\nExecStart=\n||idle U/a.timer a.service
|*a.timer U/a.timer=DAILY U/a.service=[Service]\nExecStart=\nExecStart=/bin/true\n|a.timer|
|*a.timer U/a.timer=DAILY U/a.service=[Service]\nExecStop=/bin/true\n||idle U/a.timer a.service
|*a.timer U/a.timer=DAILY U/a.service=[Service]\nExecStop=/bin/true\nRemainAfterExit=Yes\n|a.timer|
|*a.timer U/a.timer=DAILY U/a.service=[Service]\nExecStop=/bin/true\nRemainAfterExit=on\nRemainAfterExit=0\n||idle U/a.timer a.service
|*a.timer U/a.timer=DAILY U/a.service=[Service]\nRemainAfterExit=yes\n||idle U/a.timer a.service
|*a.timer U/a.timer=DAILY U/a.service=[Service]\nType=simple\nExecStop=/bin/true\nRemainAfterExit=yes\n||idle U/a.timer a.service
|*a.timer U/a.timer=DAILY U/a.service=[Service]\nBusName=a.b\nExecStop=/bin/true\nRemainAfterExit=yes\n||idle U/a.timer a.service
|*a.timer U/a.timer=DAILY U/a.service=[Unit]\nSuccessAction=none\n[Service]\nType=oneshot\n||idle U/a.timer a.service
|*a.timer U/a.timer=DAILY U/a.service=[Unit]\nSuccessAction=reboot\n[Service]\nType=oneshot\n|a.timer|
|*a.timer U/a.timer=DAILY U/a.service=[Unit]\nSuccessAction=reboot\n|a.timer|
|*a.timer U/a.timer=DAILY U/a.service=[Unit]\nSuccessAction=reboot\n[Service]\nType=exec\n||idle U/a.timer a.service
|*a.timer U/a.timer=DAILY U/a.service=[Unit]\nExecStart=/bin/true\n||idle U/a.timer a.service
|*a.timer U/a.timer=DAILY U/a.service=[Unit]\nDescription=x\n E/a.service.d/x.conf=[Service]\nExecStart=/bin/true\n|a.timer|
|*a.timer U/a.timer=DAILY U/a.service=[Service]\nExecStart=/bin/true\n E/a.service.d/x.conf=[Service]\nExecStart=\n||idle U/a.timer a.service
|*a.timer U/a.timer=DAILY U/a.service=#\xe9\n[Service]\nExecStart=\n||idle U/a.timer a.service
|*a.timer U/a.timer=DAILY U/a.service=[Service]\nExecStart=/bin/true\n E/a.service.d/x.conf=#\xe9\n[Service]\nExecStart=\n||idle U/a.timer a.service
|*a.timer U/a.timer=DAILY U/a.service=[Service]\n#\xe9\n E/a.service.d/x.conf=#\xe9\n[Service]\nExecStart=/bin/true\n|a.timer|
|*a.timer U/a.timer=DAILY U/a.service=[Service]\nExecStart=/bin/true\n E/a.service.d/x.conf=[Service]\nUser=\xe9\nExecStart=\n|a.timer|
|*a.timer U/a.timer=DAILY U/a.service=[Service]\nExecStart=/bin/true\n E/a.service.d/x.conf=[Service]\nExecStart=\nUser=\xe9\nExecStart=/bin/true\n||idle U/a.timer a.service
|*a@b.timer U/a@.timer=DAILY U/a@.service=[Service]\nType=oneshot\n||idle U/a@.timer a@b.service
|*a.timer U/a.timer=[Timer]\nOnCalendar=daily\nUnit=b.target\n U/b.target=[Unit]\n|a.timer|
ROWS
program_has_services=yes

# ---- crontabs that cron ignores for their text

# The first line for which Debian's cron ignores the file, or its end; `sources` has the file all the same. What agenda rejects
# is an error beside that, in the last field: a path with its line and the message.
loads_errors() {
  local root jobs lines error errors
  while IFS='|' read -r root jobs lines errors; do
    root=${root//FOUR/'0\x204\x20*\x20*\x20*\x20root\x20x\n'}
    root=${root//MINE/'0\x204\x20*\x20*\x20*\x20x\n'}
    root=${root//FIELDS/'0\x204\x20*\x20*\x20*\x20'}
    root=${root//\~/'\x20'}
    program_make "$loads_users $root"
    loads_errors_are "$jobs" "$lines" "$errors" "$root"
  done
}

# The same for the present root with the name $4.
loads_errors_are() {
  local job wanted
  local -a jobs
  program_lines "$2"
  if [ -n "$3" ]; then
    echo "$machine_root/$3" >>"$work/err.wanted"
    wanted=1
  fi
  IFS=' ' read -r -a jobs <<<"$1"
  for job in "${jobs[@]}"; do
    echo "$job"
  done >"$work/out.wanted"
  program_run upcoming --root "$machine_root" --after "$loads_when" --utc --text
  cut -f 2 "$work/out" >"$work/jobs"
  mv -- "$work/jobs" "$work/out"
  program_compare "which jobs are planned of '$4'" "$work/out.wanted" "$work/err.wanted" "$wanted"
}

# A blank is `~`. The rules are those of load_user, load_env and load_entry of cron 3.0pl1.
printf -v loads_998 'x%.0s' {1..998}
printf -v loads_lines '#\\n%.0s' {1..10002}
loads_errors <<ROWS
C/a=FOUR|a:1||
C/a=FIELDSroot~x||not C/a cron ignores this file: no newline at its end|
C/a=FOUR#~x|a:1||
C/a=FOUR~|a:1||
C/a=FOURA=b||not C/a cron ignores this file: no newline at its end|
C/a=MAILTO=\n0~4~*~*~*~root~x\n||not C/a:1 cron ignores this file: write MAILTO="" for MAILTO=|
C/a=0~4~*~*~*~root~x\nA~B=c\n||not C/a:2 cron ignores this file: not a setting|
C/a=A="b"~c\n0~4~*~*~*~root~x\n||not C/a:1 cron ignores this file: not a setting|
C/a=A~=~b\nMAILTO=""\nFOUR|a:3||
S/ann=FIELDS*~x\n||not S/ann:1 cron ignores this file: the command begins with *|
C/a=FIELDSroot~*~x\n|a:1||
S/ann=FIELDS$loads_998\n|ann:1||
S/ann=FIELDS${loads_998}y\n||not S/ann:1 cron ignores this file: command over 998 bytes|
C/a=FIELDSroot~$loads_998\n|a:1||
C/a=FIELDSroot~${loads_998}y\n||not C/a:1 cron ignores this file: command over 998 bytes|
C/a=${loads_lines}FOUR|a:10003||
C/a=FOUR${loads_lines}FOUR||not C/a:10004 cron ignores this file: more than 10003 lines|
C/a=FOUR${loads_lines}#\n|a:1||
ROWS

# Lines that agenda rejects: those that cron rejects too let it ignore the file; the others leave the rest planned.
loads_errors <<'ROWS'
C/a=FOUR0~24~*~*~*~root~x\n||not C/a cron ignores this file because of line 2|etc/cron.d/a:2: error: hour '24': out of range 0-23 [OutOfRange]
C/a=0~*/0~*~*~*~root~x\nFOUR||not C/a cron ignores this file because of line 1|etc/cron.d/a:1: error: hour '*/0': step of zero [ZeroStep]
C/a=FOUR@never~root~x\n||not C/a cron ignores this file because of line 2|etc/cron.d/a:2: error: unknown word '@never' [UnknownWord]
C/a=FOUR0~4~*~jan#2~*~root~x\n|a:1||etc/cron.d/a:2: error: month 'jan#2': unknown name [BadName]
C/a=FOUR0~4~*~mond~*~root~x\n||not C/a cron ignores this file because of line 2|etc/cron.d/a:2: error: month 'mond': unknown name [BadName]
C/a=FOUR0~5-4~*~*~*~root~x\n|a:1||etc/cron.d/a:2: error: hour '5-4': range runs backwards [Backwards]
C/a=FOUR0~12345~*~*~*~root~x\n|a:1||etc/cron.d/a:2: error: hour '12345': not a number of one to four digits [BadNumber]
C/a=FOUR1=2\n|a:1||etc/cron.d/a:2: error: expected five fields and a command [WrongParts]
C/a=FOURabc\n||not C/a cron ignores this file because of line 2|etc/cron.d/a:2: error: expected NAME=VALUE, or five fields and a command [BadSetting]
C/a=FOURFIELDSroot\n||not C/a cron ignores this file because of line 2|etc/cron.d/a:2: error: expected a user and a command [NoCommand]
C/a=FOURFIELDSroot~\n|a:1||etc/cron.d/a:2: error: expected a user and a command [NoCommand]
ROWS

# ---- cronie

machine_has_cron=no
loads_errors <<'ROWS'
usr/sbin/crond C/a=FOURCRON_TZ=UTC\nFIELDSroot~y\n#~x\n@reboot~root~z\n|a:1|zoned C/a:3,zoned C/a:5|
usr/sbin/crond C/a=FOUR~"CRON_TZ"~=~UTC\n|a:1||
usr/sbin/crond S/ann='CRON_TZ'=UTC\nMINE||zoned S/ann:2|
usr/sbin/crond C/a=FIELDSroot~CRON_TZ=UTC\nFOUR|a:1 a:2||
usr/bin/crond C/a=CRON_TZ=UTC\nFOUR|a:2||
ROWS
machine_has_cron=yes
loads_errors <<'ROWS'
usr/sbin/crond C/a=CRON_TZ=UTC\nFOUR|a:2||
ROWS

# ---- timers that systemd rejects

# What systemd 252 says of them was asked by systemd-analyze calendar and verify.
loads_errors <<'ROWS'
%a U/a.timer=[Timer]\nOnCalendar=*:*/15\n||not U/a.timer:2 systemd 252 rejects '*:*/15': write 0/15 for */15,not U/a.timer systemd 252 rejects this timer: it has no valid trigger|
%a U/a.timer=[Timer]\nOnCalendar=*:*/15\nOnCalendar=daily\n|a.timer|not U/a.timer:2 systemd 252 rejects '*:*/15': write 0/15 for */15|
%a U/a.timer=[Timer]\nOnCalendar=daily\n E/a.timer.d/x.conf=[Timer]\n\nOnCalendar=*:*/15\n|a.timer|not E/a.timer.d/x.conf:3 systemd 252 rejects '*:*/15': write 0/15 for */15|
%a U/a.timer=[Timer]\nOnCalendar=\\\n*:*/15\nOnCalendar=daily\n|a.timer|not U/a.timer:2 systemd 252 rejects '*:*/15': write 0/15 for */15|
%a U/a.timer=[Timer]\nOnCalendar=daily\nOnCalendar=\n||not U/a.timer systemd 252 rejects this timer: it has no valid trigger|
%a U/a.timer=[Timer]\nAccuracySec=1s\n||not U/a.timer systemd 252 rejects this timer: it has no valid trigger|
%a U/a.timer=[Timer]\nOnBootSec=x\n||not U/a.timer systemd 252 rejects this timer: it has no valid trigger|
%a U/a.timer=[Timer]\nOnClockChange=yes\n|a.timer|also U/a.timer OnClockChange|
%a U/a.timer=[Timer]\nOnTimezoneChange=on\nOnTimezoneChange=0\n||not U/a.timer systemd 252 rejects this timer: it has no valid trigger|
%a U/a.timer=[Timer]\nOnCalendar=daily\n[Install\n||not U/a.timer systemd 252 rejects this file: bad section header|
%a U/a.timer=[Timer]\nOnCalendar=daily\n[x\\\\y]\n||not U/a.timer systemd 252 rejects this file: bad section header|
ROWS
