# shellcheck shell=bash disable=SC2154,SC2034
# Rows about what `agenda machine` reports beside the sources: what starts jobs but isn't planned, crontabs that no program
# reads, and the exit status. Then whole roots in the layouts of distributions.

# shellcheck source=/dev/null
. "$top/rows/lib/program.sh"

# Compares standard error of the commands $1 on the present root with the lines $2, as in program_lines, and their status.
# What they print isn't compared. All but check and sources report monotonic timers, and only quiet has the line of `quiet COUNT`. The
# root has the name $3, and the options are the others.
others_are() {
  local command lines=$2 name=$3 commands=$1 wanted last
  shift 3
  for command in $commands; do
    case $command in
      plan | upcoming | quiet | downtime | week) program_lines "$lines" ;;
      *) program_lines "$(sed -E 's/(^|,)monotonic [^,]*//g; s/^,//' <<<"$lines")" ;;
    esac
    [ "$command" != quiet ] || printf '%s' "$last" >>"$work/err.wanted"
    program_run "$command" --root "$machine_root" "$@"
    cp -- "$work/out" "$work/out.wanted"
    program_compare "$command $*, what is reported of '$name'" "$work/out.wanted" "$work/err.wanted" "$wanted"
  done
}

# Rows of a root and of the lines on standard error, as in others_are. The options are the arguments after $1.
others_told() {
  local root lines
  while IFS='|' read -r root lines; do
    program_make "$root"
    others_are "$1" "$lines" "$root" "${@:2}"
  done
}

# Rows of the texts of files: the timer a.timer and its drop-ins, with `|` between them, after the setting by which it is reported to
# start alone, those with `+` by which it is reported to start beside its events, or `no`. The program reports more about these texts, so
# only these lines are compared.
others_texts() {
  local keys key texts root number lines wanted last
  local -a list
  while IFS='|' read -r keys texts; do
    IFS='|' read -r -a list <<<"$texts"
    root="*a.timer U/a.timer=${list[0]}"
    for ((number = 1; number < ${#list[@]}; number++)); do
      root+=" E/a.timer.d/$number.conf=${list[number]}"
    done
    program_make "$root"
    lines=
    for key in $keys; do
      case $key in
        no) ;;
        +*) lines+=",also U/a.timer ${key#+}" ;;
        *) lines+=",monotonic U/a.timer $key" ;;
      esac
    done
    program_lines "${lines#,}"
    program_run quiet --since 2024-01-01T00:00:00Z --until 2024-01-01T00:00:01Z --root "$machine_root"
    sed -i -E '/: (also )?starts by [^ ]*=$/!d' "$work/err"
    program_compare "what else starts a timer: '$texts'" /dev/null "$work/err.wanted" "$status"
  done
}

# ---- what isn't planned

# What has no line, or leads to one by links; more of these are among the rows of sources.
program_sources <<'ROWS'
F/atjobs/||
F/atjobs|F/atjobs|
var/spool/at/.SEQ var/spool/at/spool/b||
home/ann>/srv/ann srv/ann/.config/systemd/user/a.timer||user home/ann/.config/systemd/user
home||
ROWS

# All lines in their order, after what is skipped, by each question.
others_told 'plan upcoming quiet downtime week check sources' <<'ROWS'
etc/anacrontab C/a.b F/atjobs/a var/spool/at/b home/ann/.config/systemd/user/a.timer root/.config/systemd/user/b.timer *a.timer U/a.timer=[Timer]\nOnBootSec=5|C/a.b bad name,anacron,at F/atjobs,at var/spool/at,user home/ann/.config/systemd/user,user root/.config/systemd/user,monotonic U/a.timer,quiet 6
ROWS
machine_has_cron=no
others_told 'plan upcoming quiet downtime week check sources' <<'ROWS'
etc/anacrontab C/a.b C/a F/atjobs/a root/.config/systemd/user/b.timer *a.timer U/a.timer=[Timer]\nOnBootSec=5|C/a.b bad name,anacron,at F/atjobs,user root/.config/systemd/user,monotonic U/a.timer,cron,quiet 4
*a.timer U/a.timer=DAILY|
ROWS
machine_has_cron=yes

# With --all, each timer that isn't a template.
others_told 'plan check' --all <<'ROWS'
U/a.timer=[Timer]\nOnBootSec=5\n U/b@.timer=[Timer]\nOnBootSec=5\n|monotonic U/a.timer
U/a.timer=[Timer]\nOnBootSec=5\n E/a.timer.d/x.conf=[Timer]\nAccuracySec=1h|monotonic U/a.timer
ROWS

# A timer that is skipped for another reason isn't reported again; each instance is reported by the file that it is read from.
others_told plan <<'ROWS'
*a.timer E/a.timer>/dev/null U/a.timer=[Timer]\nOnBootSec=5\n|E/a.timer masked
*a.timer E/a.timer>b.timer E/b.timer=[Timer]\nOnBootSec=5\n|monotonic E/b.timer
*a@.timer U/a@.timer=[Timer]\nOnBootSec=5\n|monotonic U/a@.timer
*a@b.timer *a@c.timer U/a@.timer=[Timer]\nOnBootSec=5\n E/a@c.timer.d/x.conf=[Timer]\nOnCalendar=daily|monotonic U/a@.timer,also U/a@.timer OnBootSec
*a@b.timer U/a@.timer=[Timer]\n%i=5\n|not U/a@.timer systemd 252 rejects this timer: it has no valid trigger
*a.timer U/a.timer=[Timer]\nOnBootSec=5\n C/a|monotonic U/a.timer
ROWS

# Which timers have a monotonic setting, and whether they have an event too: in their merged text after the last empty value.
others_texts <<'ROWS'
OnActiveSec|[Timer]\nOnActiveSec=5
OnBootSec|[Timer]\nOnBootSec=5
OnStartupSec|[Timer]\nOnStartupSec=5
OnUnitActiveSec|[Timer]\nOnUnitActiveSec=5
OnUnitInactiveSec|[Timer]\nOnUnitInactiveSec=5
OnBootSec|[Timer]\nOnBootSec=5\nOnUnitActiveSec=1d\nAccuracySec=1h\n
no|[Timer]\nOnCalendar=daily
+OnBootSec|[Timer]\nOnBootSec=5\nOnCalendar=daily
+OnBootSec|[Timer]\nOnCalendar=daily\nOnBootSec=5
+OnBootSec|[Timer]\nOnCalendar=x\nOnBootSec=5
+OnClockChange +OnTimezoneChange|[Timer]\nOnClockChange=yes\nOnTimezoneChange=yes
no|[Timer]\n
no|OnBootSec=5
no|OnBootSec=5\n[Timer]\n
no|[Unit]\nOnBootSec=5\n[Timer]\n
no|[timer]\nOnBootSec=5
no|[Timer]\n[Install]\nOnBootSec=5
OnBootSec|[Timer]\n[Install]\n[Timer]\nOnBootSec=5
no|[Timer]\n[Install\nOnBootSec=5
no|[Timer]\n[Install=]x\nOnBootSec=5
no|[Timer]\n[Install=]\nOnBootSec=5
no|[Timer]\n[]\nOnBootSec=5
no|[Timer]\n[\xc3\xa9]\nOnBootSec=5
OnBootSec|\x20\t[Timer]\x20\t\n\x20\tOnBootSec\x20\t=\x20\t5\x20\t\n
OnBootSec|[Timer]\r\nOnBootSec=5\r\n
no|[Timer]x\nOnBootSec=5
no|[Timer\x20]\nOnBootSec=5
no|[Timer]\nonbootsec=5\nOnBootSecs=5\nXOnBootSec=5\nOn\x20BootSec=5\nOnBootSec\n
no|[Timer]\n#\x20OnBootSec=5\n;OnBootSec=5\n\x20#OnBootSec=5
no|[Timer]\nOnBootSec=#5
OnBootSec|[Timer]\n#\x20OnCalendar=daily\nOnBootSec=5
no|[Timer]\nOnBootSec=5\nOnBootSec=
no|[Timer]\nOnBootSec=5\nOnCalendar=
no|[Timer]\nOnBootSec=5\nOnActiveSec=\x20\t
OnBootSec|[Timer]\nOnBootSec=\nOnBootSec=5
OnBootSec|[Timer]\nOnCalendar=daily\nOnBootSec=\nOnBootSec=5
OnBootSec|[Timer]\nOnCalendar=daily\nOnUnitActiveSec=\nOnBootSec=5
no|[Timer]\nOnBootSec=5\nOnBootSec=\nOnCalendar=daily
OnBootSec|[Timer]\nOnBootSec=5\nAccuracySec=\nUnit=\n
ROWS

# Lines that continue: the number of backslashes, comments between them, and empty lines.
others_texts <<'ROWS'
no|[Timer]\nOnCalendar=daily\\\nOnBootSec=5
OnBootSec|[Timer]\nOnCalendar=\\\n\nOnBootSec=5
OnBootSec|[Timer]\nPersistent=x\\\\\nOnBootSec=5
no|[Timer]\nPersistent=x\\\\\\\nOnBootSec=5
OnBootSec|[Timer]\n\\\nOnBootSec\\\n=5
OnBootSec|[Timer]\n\\\nOnBootSec=\\\n5
no|[Timer]\nOnBootSec=\\\n\n5
OnBootSec|[Timer]\nPersistent=x\\\n\nOnBootSec=5
OnBootSec|[Timer]\nPersistent=x\\\n\x20\nOnBootSec=5
no|[Timer]\nPersistent=x\\\n#\ny\\\n;\nOnBootSec=5
OnBootSec|[Timer]\nPersistent=x\\\x20\nOnBootSec=5
no|[Timer]\nPersistent=x\\\r\nOnBootSec=5
OnBootSec|[Timer]\n#\x20x\\\nOnBootSec=5
no|[Timer]\n\\\\\\\nOnBootSec=5
OnBootSec|[Timer]\n\\\\\nOnBootSec=5
OnBootSec|[Timer]\\\n\nOnBootSec=5
no|[Timer]\\\nOnBootSec=5
OnBootSec|[Timer]\nOnBootSec=5\\
no|[Timer]\nOnBootSec=5\nOnBootSec=\\
ROWS

# Drop-ins: no line and no section goes on in the next file, and an empty value empties what is before it.
others_texts <<'ROWS'
OnBootSec|[Timer]\n|[Timer]\nOnBootSec=5
OnBootSec|[Timer]\nOnBootSec=5|[Timer]\nAccuracySec=1h
+OnBootSec|[Timer]\nOnBootSec=5|[Timer]\nOnCalendar=daily
+OnBootSec|[Timer]\nOnCalendar=daily|[Timer]\nOnBootSec=5
OnBootSec|[Timer]\nOnCalendar=daily|[Timer]\nOnCalendar=\nOnBootSec=5
OnBootSec|[Timer]\nOnCalendar=daily|[Timer]\nOnCalendar=|[Timer]\nOnBootSec=5
OnBootSec|[Timer]\nOnCalendar=daily|OnCalendar=daily|[Timer]\nOnCalendar=\nOnBootSec=5
no|[Timer]\nOnBootSec=5|[Timer]\nOnBootSec=
no|[Timer]|OnBootSec=5
OnBootSec|[Timer]\nOnBootSec=5|OnCalendar=daily
OnBootSec|[Timer]\nOnBootSec=5|OnBootSec=
OnBootSec|[Timer]\nOnCalendar=\\|daily\n[Timer]\nOnBootSec=5
OnBootSec|[Timer]\nPersistent=x\\|[Timer]\nOnBootSec=5
ROWS

# Bytes that agenda rejects: it skips the whole timer, and reports that. A byte 0 is a character like others.
others_texts <<'ROWS'
OnBootSec|[Timer]\nOnBootSec=5\n#\xc3\xa9\xe2\x82\xac\xf0\x9f\x98\x80\xed\x9f\xbf\xee\x80\x80\xf4\x8f\xbf\xbf
no|[Timer]\nOnBootSec=5\n#\xe9
no|[Timer]\nOnBootSec=5\n#\xc3
no|[Timer]\nOnBootSec=5\n#\xc0\x80
no|[Timer]\nOnBootSec=5\n#\xe0\x80\x80
no|[Timer]\nOnBootSec=5\n#\xed\xa0\x80
no|[Timer]\nOnBootSec=5\n#\xf0\x80\x80\x80
no|[Timer]\nOnBootSec=5\n#\xf4\x90\x80\x80
no|[Timer]\nOnBootSec=5\n#\xf5\x80\x80\x80
no|[Timer]\nOnBootSec=5\n#\xe2\xc3\xa9\x82\xac
no|[Timer]\nOnBootSec=5|[Timer]\n#\xff
OnBootSec|[Timer]\nOnBootSec=5\n#\0
no|[Timer]\nOnBoot\0Sec=5
+OnBootSec|[Timer]\nOnBootSec=5\nOnCalendar=\0
no|[Timer]\nOnBootSec=\0
ROWS

# A timer of the largest size, and one of a byte more, which is an error; then the same of a merged text.
program_make '*a.timer *b.timer *c.timer U/a.timer=[Timer]\nOnBootSec=5\n U/b.timer=[Timer]\nOnBootSec=5\n U/c.timer=[Timer]\nOnBootSec=5\n E/c.timer.d/x.conf=x\n'
printf -v others_comment '#%.0s' {1..999}
for others_file in 'a 1048556' 'b 1048557' 'c 1048546'; do
  { yes "$others_comment" | head -c "$((${others_file#* } - 1))" && echo; } >>"$machine_folder/root/usr/lib/systemd/system/${others_file% *}.timer"
done
program_lines 'monotonic U/a.timer,monotonic U/c.timer'
echo 'root/usr/lib/systemd/system/b.timer: error: larger than 1048576 bytes [TooLarge]' >>"$work/err.wanted"
printf 'none\t%s.timer\t%s.service\n' a a c c >"$work/out.wanted"
program_run upcoming --root "$machine_root"
program_compare "the largest timers that aren't planned" "$work/out.wanted" "$work/err.wanted" 1
echo x >>"$machine_folder/root/etc/systemd/system/c.timer.d/x.conf"
program_lines 'monotonic U/a.timer'
printf 'root/usr/lib/systemd/system/%s.timer: error: larger than 1048576 bytes [TooLarge]\n' b c >>"$work/err.wanted"
printf 'none\t%s.timer\t%s.service\n' a a >"$work/out.wanted"
program_run upcoming --root "$machine_root"
program_compare "a merged timer that is too large" "$work/out.wanted" "$work/err.wanted" 1

# ---- the status

# What is skipped as not readable changes a status of 0 to 1. Nothing else that is skipped does.
others_told 'plan upcoming quiet downtime week check sources' <<'ROWS'
etc/crontab|
C/a/|C/a not readable,quiet 1
S/a>nowhere|S/a not readable,quiet 1
T/a! T/b|T/a not readable,quiet 1
F/a>a|F/a not readable,quiet 1
etc/crontab etc/cron.d|etc/cron.d not readable,quiet 1
*f.timer|D/f.timer no such timer
D/b.timer|D/b.timer no link
E/x.target.requires>y|
*c@.timer *d@e\\.timer|D/c@.timer no such timer,D/d@e\\.timer escape,quiet 1
*g.timer U/g.timer>h.timer|D/g.timer no such timer
etc/crontab C/system|C/system name taken,quiet 1
C/a.b|C/a.b bad name
*a.timer U/a.timer=|U/a.timer masked
*a.timer U/a.timer!|U/a.timer not readable,quiet 1
etc/anacrontab F/atjobs/a root/.config/systemd/user/a.timer|anacron,at F/atjobs,user root/.config/systemd/user,quiet 3
ROWS
others_told 'plan upcoming quiet sources' <<'ROWS'
*a.timer U/a.timer=[Timer]\nOnCalendar=daily\n U/a.timer.d/x.conf/|U/a.timer.d/x.conf not readable,quiet 1
ROWS

# ---- layouts of distributions

# Rows of a layout: its root, its sources, and what is reported, as in others_are.
others_layouts() {
  local root sources lines
  while IFS='|' read -r root sources lines; do
    program_make "$root"
    program_is "$sources" "$(sed -E 's/(^|,)monotonic [^,]*//g; s/^,//' <<<"$lines")" "the layout $root"
    others_are plan "$lines" "the layout $root"
  done
}

# Debian 12 with anacron and at; openSUSE; Fedora, whose usr/sbin is a link since release 42; Arch.
machine_has_cron=no
others_layouts <<'ROWS'
etc/crontab etc/anacrontab C/anacron C/e2scrub_all C/.placeholder S/ann F/atjobs/.SEQ F/atspool/ lib>usr/lib sbin>usr/sbin usr/sbin/cron usr/sbin/anacron *logrotate.timer U/logrotate.timer=[Timer]\nOnCalendar=daily\n *systemd-tmpfiles-clean.timer U/systemd-tmpfiles-clean.timer=[Timer]\nOnBootSec=15min\nOnUnitActiveSec=1d\n|etc/crontab C/anacron C/e2scrub_all S/ann B/logrotate.timer B/systemd-tmpfiles-clean.timer|anacron,monotonic B/systemd-tmpfiles-clean.timer
etc/crontab T/root T/ann F/lastrun/cron.daily usr/sbin/cron var/spool/atjobs/a0000501b *btrfs-balance.timer U/btrfs-balance.timer=[Timer]\nOnCalendar=monthly\n|etc/crontab T/ann T/root U/btrfs-balance.timer|at var/spool/atjobs
etc/crontab etc/anacrontab C/0hourly F/root F/ann lib>usr/lib sbin>usr/sbin usr/sbin>bin usr/bin/crond usr/bin/anacron var/spool/at/.SEQ var/spool/at/spool/ *fstrim.timer U/fstrim.timer=[Timer]\nOnCalendar=weekly\n|etc/crontab C/0hourly F/ann F/root B/fstrim.timer|anacron
C/0hourly etc/anacrontab F/root lib>usr/lib sbin>usr/bin usr/sbin>bin usr/bin/crond home/ann/.config/systemd/user/backup.timer *man-db.timer U/man-db.timer=[Timer]\nOnCalendar=daily\n|C/0hourly F/root B/man-db.timer|anacron,user home/ann/.config/systemd/user
C/e2scrub_all lib>usr/lib *fstrim.timer U/fstrim.timer=[Timer]\nOnCalendar=weekly\n|C/e2scrub_all B/fstrim.timer|cron
ROWS
machine_has_cron=yes

# ---- without rights

# Directories that may not be searched are reported by themselves: what is below them may start jobs.
if machine_as_nobody && "${machine_by[@]}" "$machine_folder/whole/agenda" --version >/dev/null 2>&1; then
  program_make 'C/a F/atjobs/a home/ann/.config/systemd/user/a.timer root/.config/systemd/user/a.timer home/bo/.config/systemd/user/a.timer'
  for path in var/spool/cron/atjobs home/ann root usr/sbin; do
    chmod 000 "$machine_folder/root/$path"
  done
  others_are 'check plan' "usr/sbin not readable,F/atjobs not readable,home/ann not readable,root not readable,user home/bo/.config/systemd/user" \
    'directories without rights'
  chmod -R u+rwX "$machine_folder/root"
  program_make 'C/a F/root'
  chmod 700 "$machine_folder/root/var/spool/cron"
  others_are 'check plan' 'var/spool/cron not readable' 'crontabs of Fedora without rights'
else
  echo "agenda machine: skipped the rows without rights, since setpriv can't drop those of root here"
fi
machine_by=()

# ---- the order of the streams

# What isn't planned and what is skipped come before the answer.
program_make 'etc/anacrontab F/ann=@daily\x20a\n@daily\n *a.timer U/a.timer=[Timer]\nOnBootSec=5\n *b.timer U/b.timer=[Timer]\nOnBootSec=5\n#\xff\n'
# shellcheck disable=SC2016
machine_by=(bash -c 'exec "$@" 2>&1' both)
program_lines 'anacron,monotonic U/a.timer'
{
  cat "$work/err.wanted"
  printf '%s\n' 'root/var/spool/cron/ann:2: error: no command [NoCommand]' 'root/usr/lib/systemd/system/b.timer: error: not UTF-8 [NotUtf8]' \
    "2024-01-02T00:00:00Z${tab}ann:1${tab}a" "none${tab}a.timer${tab}a.service"
} >"$work/out.wanted"
program_run upcoming --utc --root "$machine_root" --after 2024-01-01T00:00:00Z
program_compare "upcoming, and what isn't planned" "$work/out.wanted" /dev/null 1
machine_by=()
