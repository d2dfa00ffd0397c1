# shellcheck shell=bash disable=SC2154,SC2034
# Rows of idle jobs of a machine, whose commands run nothing that has an effect there, and of the scripts that jobs run by
# run-parts. Commands are those of packages of Debian 12 (anacron, php-common, certbot, e2fsprogs, sysstat, apticron, mdadm,
# cron-daemon-common) or made by hand from sh(1), test(1) and run-parts(8).

# shellcheck source=/dev/null
. "$top/rows/lib/program.sh"

# A machine with systemd, anacron, and no debian-sa1. Programs have their mode below. In /bin are the programs of /usr/bin.
idle_machine='etc/passwd=root:x:0:0:root:/root:/bin/sh\nann:x:1000:1000::/home/ann:/bin/sh\n bin>usr/bin lib/systemd/systemd
  sbin/init>../lib/systemd/systemd usr/sbin/anacron usr/lib/php/sessionclean usr/bin/certbot usr/bin/plain usr/empty= etc/empty= etc/cron.hourly/.placeholder
  etc/cron.daily/man-db etc/cron.daily/dpkg etc/cron.daily/README.txt etc/cron.daily/plain'
idle_programs=(lib/systemd/systemd usr/sbin/anacron usr/lib/php/sessionclean usr/bin/certbot etc/cron.daily/man-db etc/cron.daily/dpkg
  etc/cron.daily/README.txt)
idle_when=2024-01-01T00:00:00Z

# Makes that machine with the crontab $1, the entries $2, and without the programs whose paths are from $3 on.
idle_make() {
  local crontab=${1//\\/\\\\} program
  crontab=${crontab//$'\n'/\\n}
  program_make "$idle_machine C/a=${crontab// /\\x20}\\n $2"
  for program in "${idle_programs[@]}"; do chmod 755 -- "$machine_folder/root/$program"; done
  for program in "${@:3}"; do rm -- "$machine_folder/root/$program"; done
}

# The present root has the jobs $1, and the idle ones $2, each `LINE WHY`, with `;` between them. It has the name $3, and the
# options are the others.
idle_is() {
  local job line
  local -a jobs idle
  : >"$work/out.wanted"
  : >"$work/err.wanted"
  IFS=' ' read -r -a jobs <<<"$1"
  for job in "${jobs[@]}"; do echo "$job" >>"$work/out.wanted"; done
  IFS=';' read -r -a idle <<<"$2"
  for line in "${idle[@]}"; do echo "agenda: idle: root/etc/cron.d/a:${line%% *}: ${line#* }" >>"$work/err.wanted"; done
  program_run upcoming --root root --after $idle_when --utc --text "${@:4}"
  cut -f 2 "$work/out" >"$work/jobs"
  mv -- "$work/jobs" "$work/out"
  program_compare "idle jobs of '$3' ${*:4}" "$work/out.wanted" "$work/err.wanted" 0
}

# Rows from standard input, with `~` between their fields: a command, why it is idle or nothing, and programs that are missing.
idle_rows() {
  local command why missing
  local -a programs
  while IFS='~' read -r command why missing; do
    IFS=' ' read -r -a programs <<<"$missing"
    idle_make "* * * * * root $command" '' "${programs[@]}"
    if [ -n "$why" ]; then idle_is '' "1 $why" "$command"; else idle_is a:1 '' "$command"; fi
  done
}

# ---- commands of packages

idle_rows <<'ROWS'
test -x /usr/sbin/anacron || { cd / && run-parts --report /etc/cron.daily; }~/usr/sbin/anacron is executable
test -x /usr/sbin/anacron || { cd / && run-parts --report /etc/cron.daily; }~~usr/sbin/anacron
[ -x /usr/lib/php/sessionclean ] && if [ ! -d /run/systemd/system ]; then /usr/lib/php/sessionclean; fi~/run/systemd/system is a directory
[ -x /usr/lib/php/sessionclean ] && if [ ! -d /run/systemd/system ]; then /usr/lib/php/sessionclean; fi~/usr/lib/php/sessionclean is not executable~usr/lib/php/sessionclean
[ -x /usr/lib/php/sessionclean ] && if [ ! -d /run/systemd/system ]; then /usr/lib/php/sessionclean; fi~~sbin/init
test -x /usr/bin/certbot -a \! -d /run/systemd/system && perl -e 'sleep int(rand(43200))' && certbot -q renew~/run/systemd/system is a directory
test -x /usr/bin/certbot -a \! -d /run/systemd/system && perl -e 'sleep int(rand(43200))' && certbot -q renew~/usr/bin/certbot is not executable~usr/bin/certbot
test -x /usr/bin/certbot -a \! -d /run/systemd/system && perl -e 'sleep int(rand(43200))' && certbot -q renew~~sbin/init
test -e /run/systemd/system || SERVICE_MODE=1 /sbin/e2scrub_all -A -r~/run/systemd/system exists
test -e /run/systemd/system || SERVICE_MODE=1 /sbin/e2scrub_all -A -r~~sbin/init
command -v debian-sa1 > /dev/null && debian-sa1 1 1~command debian-sa1 not found
command -v certbot > /dev/null && certbot renew~
cd / && run-parts --report /etc/cron.hourly~/etc/cron.hourly has no scripts
cd / && run-parts --report /etc/cron.daily~
cd / && run-parts --report /etc/cron.monthly~
if test -x /usr/sbin/apticron; then /usr/sbin/apticron --cron; else true; fi~/usr/sbin/apticron is not executable
if [ -x /usr/share/mdadm/checkarray ] && [ $(date +\%d) -le 7 ]; then /usr/share/mdadm/checkarray --cron; fi~
[ -x /etc/gone ] && x || y~
test -x /bin/sh || x; y~
[ -x /usr/sbin/anacron ] && x~
ROWS

# ---- values

# What each test is, of a file, a directory, a link and nothing.
idle_rows <<'ROWS'
[ -e /etc/empty ] || x~/etc/empty exists
[ -e /etc/gone ] && x~/etc/gone does not exist
[ -f /etc/empty ] || x~/etc/empty is a file
[ -f /etc ] && x~/etc is no file
[ -d /etc ] || x~/etc is a directory
[ -d /etc/empty ] && x~/etc/empty is no directory
[ -s /usr/bin/plain ] || x~/usr/bin/plain is not empty
[ -s /usr/bin ] || x~/usr/bin is not empty
[ -s /usr/empty ] && x~/usr/empty is empty or missing
[ -s /usr/gone ] && x~/usr/gone is empty or missing
[ -x /etc ] || x~/etc is executable
[ -x /usr/bin/plain ] && x~/usr/bin/plain is not executable
[ -x /sbin/init ] || x~/sbin/init is executable
command -v certbot >/dev/null 2>&1 || x~command certbot exists
command -v plain > /dev/null 2>&1 && x~command plain not found
cd /etc/gone && x~/etc/gone is no directory
run-parts /etc/cron.hourly || x~/etc/cron.hourly has no scripts
true~it runs nothing
: || x~it runs nothing
false && x~it runs nothing
! true && x~it runs nothing
ROWS

# Lists, pipelines and groups, from left to right.
idle_rows <<'ROWS'
false && x || true~it runs nothing
true || x && false~it runs nothing
false || true && x~
true || x && y~
[ -d /etc ] || x || y~/etc is a directory
[ -d /etc/gone ] && x && y; [ -d /etc ] || z~/etc is a directory
false; x~
true | false && x~it runs nothing
false | true && x~
x | false~
! [ -d /etc/gone ] || x~/etc/gone is no directory
! ! true~
{ false; } && x~it runs nothing
( false ) && x~it runs nothing
{ x; }~
if true; then false; fi && x~it runs nothing
if false; then x; fi || y~it runs nothing
if false; then x; elif true; then false; else y; fi && z~it runs nothing
if false; then x; elif false; then y; else z; fi~
if [ -d /etc/gone ]; then x; else [ -d /etc ]; fi || y~/etc is a directory
if x; then true; fi~
test -d /etc -a -d /etc/gone -a -d /usr && x~/etc/gone is no directory
test -d /etc/gone && x # && y~/etc/gone is no directory
test -d /etc/gone && x;~/etc/gone is no directory
\true~
'true'~
test -d "/etc/gone" && x~
[ -d /etc/gone* ] && x~
[ -d gone ] && x~
test -d /etc/gone -o -d /etc && x~
[ -r /etc/gone ] && x~
A=1~
true > /tmp/x~
run-parts --arg=x /etc/cron.hourly~
ROWS

# What isn't closed, or isn't read, is no idle job.
idle_rows <<'ROWS'
{ false && x~
( false && x~
false && x )~
if false; then x~
if false; then x; fi fi~
false && 'x~
false && "x~
false && x \~
false &&~
&& false~
false && x &~
false && x;; true~
false && x << y~
false && { x; } > /y~
while false; do x; done~
false && $(x)~
false && `x`~
false && "$(x)"~
exit && x~
false ; ; true~
() ~
ROWS

# ---- what is known

# Rows from standard input, with `~` between their fields: a command of the user idle_user, and why it is idle or nothing. The
# machine has the entries $1, too, and the commands $2 changed it.
idle_user=root
idle_places() {
  local command why missing
  while IFS='~' read -r command why; do
    idle_make "* * * * * $idle_user $command" "$1"
    (cd "$machine_folder/root" && eval "$2")
    if [ -n "$why" ]; then idle_is '' "1 $why" "$command ($1 $2)"; else idle_is a:1 '' "$command ($1 $2)"; fi
  done
}

# Only what is in the directories of the system is known, and all links on the way have to be there.
idle_places 'run/x run/lock/ tmp/x var/lib/x home/x srv/x proc/x dev/x sys/x usr/local/to-var>/var/lib/x usr/local/to-run>/run/x usr/local/to-etc>/etc/empty
  mnt/to-etc>/etc/empty usr/local/up>../../var/lib/x usr/local/around>/etc/../usr/bin' '' <<'ROWS'
[ -f /run/x ] || y~
[ -f /run/lock/x ] && y~
[ -e /tmp/x ] || y~
[ -e /tmp/gone ] && y~
[ -e /var/lib/x ] || y~
[ -e /var/gone ] && y~
[ -e /home/x ] || y~
[ -e /srv/x ] || y~
[ -e /proc/x ] || y~
[ -e /proc/gone ] && y~
[ -e /sys/x ] || y~
[ -e /dev/x ] || y~
[ -e /dev/null ] || y~
[ -e /gone ] && y~
[ -d /gone/below ] && y~
[ -d / ] || y~
cd /gone && y~
cd /tmp || y~
run-parts /gone && y~
run-parts /run/lock || y~
[ -e /usr/local/to-var ] || y~
[ -e /usr/local/to-run ] || y~
[ -e /usr/local/up ] || y~
[ -e /mnt/to-etc ] || y~
[ -e /usr/local/to-etc ] || y~/usr/local/to-etc exists
[ -d /usr/local/around ] || y~/usr/local/around is a directory
[ -e /usr/local/../../etc/empty ] || y~/usr/local/../../etc/empty exists
[ -e /usr/../tmp/x ] || y~
[ -s /etc/empty ] && y~
[ -s /etc ] || y~
[ -s /bin/plain ] || y~
ROWS

# A directory of the system without a name in it says nothing: another disk may be mounted there.
idle_places 'opt/ lib64/x' '' <<'ROWS'
[ -e /opt/x ] && y~
[ -d /opt ] || y~
[ -e /lib64/x ] || y~/lib64/x exists
ROWS
idle_places 'opt/x' '' <<'ROWS'
[ -e /opt/x ] || y~/opt/x exists
[ -e /opt/y ] && y~/opt/y does not exist
ROWS

# What others than root may write to, or own, is unknown, if root owns the root.
if [ "$(id -u)" = 0 ]; then
  idle_places 'usr/share/x etc/d/x etc/e/y opt/x' 'chmod g+w usr/share etc/empty; chmod o+w etc/d; chown 1000 etc/e/y opt' <<'ROWS'
[ -e /usr/share/x ] || y~
[ -e /usr/share/gone ] && y~
[ -d /usr/share ] || y~
[ -e /etc/d/x ] || y~
[ -e /etc/empty ] || y~
[ -e /etc/e/y ] || y~
[ -e /etc/e/gone ] && y~/etc/e/gone does not exist
[ -e /opt/x ] || y~
[ -d /etc/e ] || y~/etc/e is a directory
ROWS
  idle_places '' 'chmod o+w .' <<'ROWS'
[ -e /etc/empty ] || y~
ROWS
  # Without root's own root owners don't count.
  idle_places 'usr/share/x' 'chown -R 1000 .; chmod g+w usr/share' <<'ROWS'
[ -e /usr/share/x ] || y~/usr/share/x exists
ROWS
fi

# On a disk nothing at a mount point of etc/fstab is known, and on a machine that runs all is mounted.
idle_places 'usr/local/x usr/share/x usr/localx etc/to-local>/usr/local/x opt/x
  etc/fstab=#\x20/dev/sda0\x20/usr\n/dev/sda1\x20/\x20ext4\n\n/dev/sda2\t\x20/usr/local/\text4\nswap\x20none\x20swap\n/dev/sda3\x20/lib/../opt/x\n/x\n/y\x20/bin/new\n/z\x20/mnt/z\n' '' <<'ROWS'
[ -e /usr/local/x ] || y~
[ -e /usr/local/gone ] && y~
[ -d /usr/local ] || y~
[ -e /etc/to-local ] || y~
[ -e /opt/x ] || y~
[ -e /usr/bin/new/x ] && y~
[ -e /usr/share/x ] || y~/usr/share/x exists
[ -e /usr/localx ] || y~/usr/localx exists
[ -e /etc/empty ] || y~/etc/empty exists
ROWS
idle_places 'usr/local/x proc/uptime=12.34\x2056.78\n etc/fstab=/dev/sda2\x20/usr/local\n' '' <<'ROWS'
[ -e /usr/local/x ] || y~/usr/local/x exists
ROWS
idle_places 'usr/local/x proc/uptime=up etc/fstab=/dev/sda2\x20/usr/local\n' '' <<'ROWS'
[ -e /usr/local/x ] || y~
ROWS
idle_places 'usr/local/x etc/fstab/' '' <<'ROWS'
[ -e /usr/local/x ] || y~
ROWS

# ---- who looks

# Root searches and executes what it likes.
idle_places 'etc/secret/x etc/other' 'chmod 700 etc/secret; chmod 744 etc/other' <<'ROWS'
[ -x /etc/secret/x ] && y~/etc/secret/x is not executable
cd /etc/secret || y~/etc/secret is a directory
[ -x /etc/other ] || y~/etc/other is executable
ROWS

# Of another user it has to be plain that each user may.
idle_user=ann
idle_places 'etc/secret/x etc/other etc/closed/.placeholder etc/link>secret/x' \
  'chmod 700 etc/secret; chmod 744 etc/other; chmod 711 etc/closed' <<'ROWS'
[ -x /etc/secret/x ] || y~
[ -x /etc/secret/x ] && y~
[ -e /etc/secret/x ] || y~
[ -e /etc/secret/gone ] && y~
[ -e /etc/link ] || y~
cd /etc/secret || y~
[ -x /etc/other ] || y~
[ -e /etc/other ] || y~/etc/other exists
[ -e /etc/closed/.placeholder ] || y~/etc/closed/.placeholder exists
run-parts /etc/closed || y~
run-parts /etc/cron.hourly || y~/etc/cron.hourly has no scripts
[ -x /usr/bin/certbot ] || y~/usr/bin/certbot is executable
[ -x /usr/bin/plain ] && y~/usr/bin/plain is not executable
command -v certbot >/dev/null || y~command certbot exists
ROWS
idle_user=root

# A user's crontab is its owner's.
for user in root ann; do
  idle_make '' "S/$user=*\x20*\x20*\x20*\x20*\x20[\x20-x\x20/etc/secret/x\x20]\x20&&\x20y\n etc/secret/x"
  chmod 700 "$machine_folder/root/etc/secret"
  : >"$work/out.wanted"
  : >"$work/err.wanted"
  if [ $user = root ]; then
    echo "agenda: idle: root/var/spool/cron/crontabs/root:1: /etc/secret/x is not executable" >"$work/err.wanted"
  else
    echo "$user:1" >"$work/out.wanted"
  fi
  program_run upcoming --root root --after $idle_when --utc --text
  cut -f 2 "$work/out" >"$work/jobs" && mv -- "$work/jobs" "$work/out"
  program_compare "the crontab of $user" "$work/out.wanted" "$work/err.wanted" 0
done

# ---- commands that the shell has

# Without a PATH in the crontab, it is /usr/bin and /bin. Reserved words and builtins are found before it.
idle_rows <<'ROWS'
command -v anacron >/dev/null || y~
command -v anacron >/dev/null && y~command anacron not found
command -v cd >/dev/null || y~command cd exists
command -v echo >/dev/null || y~command echo exists
command -v if >/dev/null || y~command if exists
command -v until >/dev/null || y~command until exists
command -v . >/dev/null || y~command . exists
command -v cd >/dev/null && y~
command -v shopt >/dev/null || y~
command -v shopt >/dev/null && y~
command -v time >/dev/null && y~
command -v chdir >/dev/null && y~
command -v chdir >/dev/null || y~
command -v fc >/dev/null && y~
command -v wh >/dev/null && y~command wh not found
ROWS
idle_make "$(printf '%s\n' 'SHELL=/bin/bash' '* * * * * root command -v shopt > /dev/null || x' '* * * * * root command -v chdir > /dev/null && x' \
  'SHELL=/bin/dash' '* * * * * root command -v shopt > /dev/null || x' '* * * * * root command -v umask > /dev/null || x')" ''
idle_is 'a:5' '2 command shopt exists;3 command chdir not found;6 command umask exists' 'the words of shells'

# bash reads the file of BASH_ENV first, and sh doesn't.
idle_make "$(printf '%s\n' 'BASH_ENV=/etc/b' '* * * * * root false && x' 'SHELL=/bin/bash' '* * * * * root false && x' 'BASH_ENV=""' '* * * * * root false && x' \
  'SHELL=/bin/sh' '* * * * * root false && x')" ''
idle_is 'a:4 a:6' '2 it runs nothing;8 it runs nothing' 'BASH_ENV'

# ---- a crontab

# The part after a `%` is no part of the command, `\%` is a `%`, and a PATH above the line counts.
idle_make "$(printf '%s\n' '* * * * * root false && x % && y' '* * * * * root false || x %' 'PATH=/etc:/usr/lib/php' '* * * * * root command -v sessionclean > /dev/null || x' \
  '* * * * * root command -v certbot > /dev/null && x' 'PATH="/usr/bin"' '* * * * * root command -v certbot > /dev/null || x' 'SHELL=/usr/bin/fish' \
  '* * * * * root false && x' 'SHELL=/bin/bash' '* * * * * root false && x')" ''
idle_is 'a:2 a:9' '1 it runs nothing;4 command sessionclean exists;5 command certbot not found;7 command certbot exists;11 it runs nothing' 'settings'

# With --idle all are planned, and none is reported.
idle_is 'a:1 a:2 a:4 a:5 a:7 a:9 a:11' '' 'settings' --idle

# Other questions leave them out too, and `check` reports them without a change of its status.
for question in 'plan --until +1min' 'quiet --least 1min' 'downtime --until +1min' 'week --until +1min' 'describe' 'scripts'; do
  IFS=' ' read -r -a words <<<"$question"
  idle_make '* * * * * root false && x' ''
  echo 'agenda: idle: root/etc/cron.d/a:1: it runs nothing' >"$work/err.wanted"
  program_run "${words[@]}" --root root --utc
  cp -- "$work/out" "$work/out.wanted"
  grep -q 'false && x' "$work/out" && echo 'the job is planned' >>"$work/out.wanted"
  program_compare "$question without an idle job" "$work/out.wanted" "$work/err.wanted" 0
done
program_run clear --root root --until +1min
program_compare 'clear without an idle job' /dev/null "$work/err.wanted" 0
program_run check --root root
program_compare 'check of an idle job' /dev/null "$work/err.wanted" 0
program_run clear --idle --root root --until +1min --utc
cut -f 3- "$work/out" >"$work/rest" && mv -- "$work/rest" "$work/out"
printf 'a:1\troot false && x\n' >"$work/out.wanted"
program_compare 'clear --idle of an idle job' "$work/out.wanted" /dev/null 1

# ---- scripts

# Their names are letters, digits, `_` and `-`, and they are executable; what can't run is not listed.
idle_make "$(printf '%s\n' '25 6 * * * root cd / && run-parts --report /etc/cron.daily' '47 6 * * * root x; run-parts /etc/cron.daily/ && run-parts -v /opt/d' \
  '0 7 * * * root test -d /etc/gone && run-parts /etc/cron.daily; x' '0 8 * * * root x')" 'opt/d/Z opt/d/_a opt/d/0 opt/d/b.sh opt/d/c~ opt/d/link>Z opt/d/dir/'
chmod 755 "$machine_folder"/root/opt/d/{Z,_a,0,b.sh,c~}
cat >"$work/out.wanted" <<'TEXT'
{"start":"2024-01-01T06:25:00Z","job":"a:1","path":"root/etc/cron.d/a","line":1,"user":"root","run":"cd / && run-parts --report /etc/cron.daily","scripts":["/etc/cron.daily/dpkg","/etc/cron.daily/man-db"]}
{"start":"2024-01-01T06:47:00Z","job":"a:2","path":"root/etc/cron.d/a","line":2,"user":"root","run":"x; run-parts /etc/cron.daily/ && run-parts -v /opt/d","scripts":["/etc/cron.daily/dpkg","/etc/cron.daily/man-db","/opt/d/0","/opt/d/Z","/opt/d/_a","/opt/d/link"]}
{"start":"2024-01-01T07:00:00Z","job":"a:3","path":"root/etc/cron.d/a","line":3,"user":"root","run":"test -d /etc/gone && run-parts /etc/cron.daily; x"}
{"start":"2024-01-01T08:00:00Z","job":"a:4","path":"root/etc/cron.d/a","line":4,"user":"root","run":"x"}
TEXT
program_run upcoming --root root --after $idle_when --utc --json
program_compare 'scripts in JSON' "$work/out.wanted" /dev/null 0
sed 's/$/ /; s/ $//' >"$work/out.wanted" <<'TEXT'
START                    JOB  RUNS
Mon 2024-01-01 06:25:00  a:1  root cd / && run-parts --report /etc/cron.daily  [dpkg man-db]
Mon 2024-01-01 06:47:00  a:2  root x; run-parts /etc/cron.daily/ && run-parts -v /opt/d  [dpkg man-db 0 Z _a link]
Mon 2024-01-01 07:00:00  a:3  root test -d /etc/gone && run-parts /etc/cron.daily; x
Mon 2024-01-01 08:00:00  a:4  root x
4 starts from Mon 2024-01-01 00:00:00 to Tue 2024-01-02 00:00:00, UTC
TEXT
program_run plan --root root --since $idle_when --until +24h --utc --table
program_compare 'scripts in a table' "$work/out.wanted" /dev/null 0
program_run plan --root root --since $idle_when --until +8h --utc --text
printf '%s\n' "agenda 2${tab}2024-01-01T00:00:00Z${tab}2024-01-01T08:00:00Z${tab}3" \
  "2024-01-01T06:25:00Z${tab}a:1${tab}root cd / && run-parts --report /etc/cron.daily" \
  "2024-01-01T06:47:00Z${tab}a:2${tab}root x; run-parts /etc/cron.daily/ && run-parts -v /opt/d" \
  "2024-01-01T07:00:00Z${tab}a:3${tab}root test -d /etc/gone && run-parts /etc/cron.daily; x" >"$work/out.wanted"
program_compare 'no scripts in text' "$work/out.wanted" /dev/null 0
{
  printf 'a:1\t2024-01-01T06:25:00Z\t/etc/cron.daily/%s\n' dpkg man-db
  printf 'a:2\t2024-01-01T06:47:00Z\t%s\n' /etc/cron.daily/dpkg /etc/cron.daily/man-db /opt/d/{0,Z,_a,link}
} >"$work/out.wanted"
program_run scripts --root root --after $idle_when --utc
program_compare 'the list of scripts' "$work/out.wanted" /dev/null 0
grep -v '^a:1' "$work/out.wanted" >"$work/some.wanted"
program_run scripts --root root --after $idle_when --utc --except a:1
program_compare 'the list of scripts without a job' "$work/some.wanted" /dev/null 0
program_run scripts --root root --after $idle_when --utc --only '?:2'
program_compare 'the list of scripts of one job' "$work/some.wanted" /dev/null 0

# ---- long commands

# A line of 1 MiB, of tests that are false, is idle; with an unclosed bracket at its end it isn't. Not Debian's cron, which
# ignores such lines.
machine_daemon=usr/sbin/fcron
idle_long() {
  idle_make "" ''
  {
    printf '* * * * * root false'
    head -c 1048500 /dev/zero | tr '\0' x | fold -w 1000 | sed 's/^xxx/ \&\& /' | tr -d '\n' | head -c 1048400
    printf '%s\n' "$1"
  } >"$machine_folder/root/etc/cron.d/a"
}
idle_long ''
idle_is '' '1 it runs nothing' 'a line of 1 MiB'
idle_long ' && {'
idle_is 'a:1' '' 'a line of 1 MiB that is not closed'
machine_daemon=usr/sbin/cron
