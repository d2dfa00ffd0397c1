# shellcheck shell=bash disable=SC2154,SC2034
# Rows of `agenda machine upcoming` and `plan` with --json: the file that each job comes from, and its line there. Expected
# lines are worked out by hand: a path is the root, without slashes at its end, and the path in the description.

# shellcheck source=/dev/null
. "$top/rows/lib/program.sh"

# Compares what the root with the description $1 answers to the arguments $2 with the lines $3, in which `;` is a newline, and the
# errors $4, with `;` between them. The root is the directory $5, which is given as $6.
json_is() {
  local wanted=0 errors words
  program_make "$1"
  printf '%s' "${3:+${3//;/$'\n'}$'\n'}" >"$work/out.wanted"
  errors=${4//;/$'\n'}
  printf '%s' "${errors:+$errors$'\n'}" >"$work/err.wanted"
  [ -z "$errors" ] || wanted=1
  IFS=' ' read -r -a words <<<"$2"
  program_run "${words[@]}" --json --root "$6"
  program_compare "$2 --json --root '$6' of '$1'" "$work/out.wanted" "$work/err.wanted" "$wanted"
}

# Rows from standard input: a root, arguments, lines and errors as in json_is.
json_rows() {
  local root words lines errors
  while IFS='|' read -r root words lines errors; do
    json_is "$root" "$words" "$lines" "$errors" root root
  done
}

# ---- crontabs

# The line is counted with empty lines, comments and settings. Cron ignores a file with a line that it rejects.
json_rows <<'ROWS'
C/p=@daily\x20root\x20a\n|upcoming --utc --after 2024-03-31T00:00:00Z|{"start":"2024-04-01T00:00:00Z","job":"p:1","path":"root/etc/cron.d/p","line":1,"user":"root","run":"a"}|
C/p=#\x20x\nA=b\n\n@daily\x20root\x20a\n|upcoming --utc --after 2024-03-31T00:00:00Z|{"start":"2024-04-01T00:00:00Z","job":"p:4","path":"root/etc/cron.d/p","line":4,"user":"root","run":"a"}|
etc/crontab=@daily\x20root\x20a\n|upcoming --utc --after 2024-03-31T00:00:00Z|{"start":"2024-04-01T00:00:00Z","job":"system:1","path":"root/etc/crontab","line":1,"user":"root","run":"a"}|
S/u=\n@daily\x20a\n|upcoming --utc --after 2024-03-31T00:00:00Z|{"start":"2024-04-01T00:00:00Z","job":"u:2","path":"root/var/spool/cron/crontabs/u","line":2,"run":"a"}|
S/"A\\b"=@daily\x20a\n|upcoming --utc --after 2024-03-31T00:00:00Z|{"start":"2024-04-01T00:00:00Z","job":"\"A\\b\":1","path":"root/var/spool/cron/crontabs/\"A\\b\"","line":1,"run":"a"}|
T/u=@daily\x20a\n|upcoming --utc --after 2024-03-31T00:00:00Z|{"start":"2024-04-01T00:00:00Z","job":"u:1","path":"root/var/spool/cron/tabs/u","line":1,"run":"a"}|
C/p=x\n@daily\x20root\x20a\n|upcoming --utc --after 2024-03-31T00:00:00Z||agenda: not planned: root/etc/cron.d/p: cron ignores this file because of line 1;root/etc/cron.d/p:1: error: expected NAME=VALUE, or five fields and a command [BadSetting]
C/p=@reboot\x20root\x20a\n|upcoming --utc --after 2024-03-31T00:00:00Z|{"start":null,"job":"p:1","path":"root/etc/cron.d/p","line":1,"user":"root","run":"a"}|
C/p>/opt/p opt/p=@daily\x20root\x20a\n|upcoming --utc --after 2024-03-31T00:00:00Z|{"start":"2024-04-01T00:00:00Z","job":"p:1","path":"root/etc/cron.d/p","line":1,"user":"root","run":"a"}|
ROWS

# Several crontabs: jobs in the order of their starts, and a user who has the name of a package.
json_rows <<'ROWS'
C/p=0\x202\x20*\x20*\x20*\x20root\x20a\n0\x201\x20*\x20*\x20*\x20root\x20b\n C/q=30\x201\x20*\x20*\x20*\x20root\x20c\n|plan --utc --since 2024-03-31T00:00:00Z --until 2024-04-01T00:00:00Z|{"start":"2024-03-31T01:00:00Z","job":"p:2","path":"root/etc/cron.d/p","line":2,"user":"root","run":"b"};{"start":"2024-03-31T01:30:00Z","job":"q:1","path":"root/etc/cron.d/q","line":1,"user":"root","run":"c"};{"start":"2024-03-31T02:00:00Z","job":"p:1","path":"root/etc/cron.d/p","line":1,"user":"root","run":"a"}|
C/p=@daily\x20root\x20a\n S/p=#\n@daily\x20b\n|upcoming --utc --after 2024-03-31T00:00:00Z|{"start":"2024-04-01T00:00:00Z","job":"p:1","path":"root/etc/cron.d/p","line":1,"user":"root","run":"a"};{"start":"2024-04-01T00:00:00Z","job":"p.user:2","path":"root/var/spool/cron/crontabs/p","line":2,"run":"b"}|
etc/crontab=@daily\x20root\x20a\n C/crontab=@daily\x20root\x20b\n S/cron=@daily\x20c\n|upcoming --utc --after 2024-03-31T00:00:00Z|{"start":"2024-04-01T00:00:00Z","job":"system:1","path":"root/etc/crontab","line":1,"user":"root","run":"a"};{"start":"2024-04-01T00:00:00Z","job":"crontab:1","path":"root/etc/cron.d/crontab","line":1,"user":"root","run":"b"};{"start":"2024-04-01T00:00:00Z","job":"cron:1","path":"root/var/spool/cron/crontabs/cron","line":1,"run":"c"}|
ROWS

# ---- timers

# A timer has the path of its unit file, also if its only event is in a drop-in. An instance has that of its template, unless it has a
# file of its own.
json_rows <<'ROWS'
*t.timer U/t.timer=DAILY|upcoming --utc --after 2024-03-31T00:00:00Z|{"start":"2024-04-01T00:00:00Z","job":"t.timer","path":"root/usr/lib/systemd/system/t.timer","line":null,"run":"t.service"}|
*t.timer U/t.timer=DAILY E/t.timer.d/x.conf=[Timer]\nOnCalendar=06:00\n|upcoming --utc --after 2024-03-31T00:00:00Z|{"start":"2024-03-31T06:00:00Z","job":"t.timer","path":"root/usr/lib/systemd/system/t.timer","line":null,"run":"t.service"}|
*t.timer U/t.timer=[Timer]\n E/t.timer.d/x.conf=[Timer]\nOnCalendar=06:00\n|upcoming --utc --after 2024-03-31T00:00:00Z|{"start":"2024-03-31T06:00:00Z","job":"t.timer","path":"root/usr/lib/systemd/system/t.timer","line":null,"run":"t.service"}|
*t.timer U/t.timer=DAILY E/t.timer>/opt/t.timer opt/t.timer=[Timer]\nOnCalendar=06:00\n|upcoming --utc --after 2024-03-31T00:00:00Z|{"start":"2024-03-31T06:00:00Z","job":"t.timer","path":"root/etc/systemd/system/t.timer","line":null,"run":"t.service"}|
*t@x.timer U/t@.timer=DAILY|upcoming --utc --after 2024-03-31T00:00:00Z|{"start":"2024-04-01T00:00:00Z","job":"t-x.timer","path":"root/usr/lib/systemd/system/t@.timer","line":null,"run":"t-x.service"}|
*t@x.timer *t@y.timer U/t@.timer=DAILY E/t@y.timer=DAILY|upcoming --utc --after 2024-03-31T00:00:00Z|{"start":"2024-04-01T00:00:00Z","job":"t-x.timer","path":"root/usr/lib/systemd/system/t@.timer","line":null,"run":"t-x.service"};{"start":"2024-04-01T00:00:00Z","job":"t-y.timer","path":"root/etc/systemd/system/t@y.timer","line":null,"run":"t-y.service"}|
*t.timer U/t.timer=[Timer]\nOnCalendar=daily\nRandomizedDelaySec=1h\nAccuracySec=1s\n|plan --utc --delays --since 2024-04-01T00:00:00Z --until 2024-04-02T00:00:00Z|{"start":"2024-04-01T00:00:00Z","latest":"2024-04-01T01:00:01Z","job":"t.timer","path":"root/usr/lib/systemd/system/t.timer","line":null,"run":"t.service"}|
*t.timer U/t.timer=DAILY|upcoming --delays --after 2024-03-31T00:00:00Z|{"start":"2024-04-01T00:00:00Z","local":"2024-04-01T00:00:00+00:00","latest":"2024-04-01T00:01:00Z","latest_local":"2024-04-01T00:01:00+00:00","job":"t.timer","path":"root/usr/lib/systemd/system/t.timer","line":null,"run":"t.service"}|
ROWS

# Names of timers that begin like those of a crontab's jobs, and a crontab with the name of a timer.
json_rows <<'ROWS'
S/u=@daily\x20a\n *u:1.timer U/u:1.timer=DAILY|upcoming --utc --after 2024-03-31T00:00:00Z|{"start":"2024-04-01T00:00:00Z","job":"u:1","path":"root/var/spool/cron/crontabs/u","line":1,"run":"a"};{"start":"2024-04-01T00:00:00Z","job":"u:1.timer","path":"root/usr/lib/systemd/system/u:1.timer","line":null,"run":"u:1.service"}|
S/t.timer=@daily\x20a\n *t.timer U/t.timer=DAILY|upcoming --utc --after 2024-03-31T00:00:00Z|{"start":"2024-04-01T00:00:00Z","job":"t.timer:1","path":"root/var/spool/cron/crontabs/t.timer","line":1,"run":"a"};{"start":"2024-04-01T00:00:00Z","job":"t.timer","path":"root/usr/lib/systemd/system/t.timer","line":null,"run":"t.service"}|
ROWS

# ---- roots

# The path has the root without slashes at its end, and the escapes of JSON.
json_roots() {
  local machine_root=$1
  json_is 'C/p=@daily\x20root\x20a\n' 'upcoming --utc --after 2024-03-31T00:00:00Z' \
    '{"start":"2024-04-01T00:00:00Z","job":"p:1","path":"'"$3"'/etc/cron.d/p","line":1,"user":"root","run":"a"}' '' "$1" "$2"
}
json_roots root root/ root
json_roots root root/// root
json_roots root ./root ./root
json_roots root "$machine_folder/root" "$machine_folder/root"
json_roots $'r"o\\\x01\tt' $'r"o\\\x01\tt' 'r\"o\\\u0001\tt'

# ---- other answers

# Gaps have no files, and without starts there are no objects.
json_rows <<'ROWS'
C/p=@daily\x20root\x20a\n|quiet --utc --since 2024-03-31T01:00:00Z --until 2024-03-31T02:00:00Z|{"from":"2024-03-31T01:00:00Z","until":"2024-03-31T02:00:00Z","seconds":3600}|
C/p=@daily\x20root\x20a\n|plan --utc --since 2024-03-31T01:00:00Z --until 2024-03-31T02:00:00Z||
ROWS
