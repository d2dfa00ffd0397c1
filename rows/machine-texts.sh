# shellcheck shell=bash disable=SC2154,SC2034
# Rows of the texts that `agenda machine` reads: links that are followed below the root, the merged files of a timer, specifiers of
# instances, and the path and the line that a finding names. Expected lines are worked out by hand.

# shellcheck source=/dev/null
. "$top/rows/lib/program.sh"

# Rows of a root, and of the jobs that `upcoming` lists in it, in their order: their name, a blank and what they run, with `;`
# between them. In a root JOB is a line of a system crontab that runs A, OWN one of a user's crontab, and EVENT a timer that starts
# A.service, each each day. They have the same start.
texts_jobs() {
  local root jobs job
  local -a list
  while IFS='|' read -r root jobs; do
    root=${root//JOB/'@daily\x20root\x20A\n'}
    root=${root//OWN/'@daily\x20A\n'}
    program_make "${root//EVENT/'[Timer]\nOnCalendar=daily\nUnit=A.service\n'} N/A.service"
    IFS=';' read -r -a list <<<"$jobs"
    for job in "${list[@]}"; do
      printf '2024-01-02T00:00:00Z\t%s\t%s\n' "${job%% *}" "${job#* }"
    done >"$work/out.wanted"
    program_run upcoming --utc --after 2024-01-01 --root root
    program_compare "the jobs of '$root'" "$work/out.wanted" /dev/null 0
  done
}

# Rows of a root, and of the settings in its timers that are unknown: a path and a line, a blank and the setting, with `;` between
# them and the escapes of printf. `check` warns about each. Without a setting the line has a NUL byte.
texts_settings() {
  local root settings setting path line
  local -a list
  while IFS='|' read -r root settings; do
    program_make "$root"
    IFS=';' read -r -a list <<<"$settings"
    for setting in "${list[@]}"; do
      printf -v line '%b' "${setting#* }"
      path=${setting%% *}
      machine_path "${path%:*}"
      program_shown "root/$path"
      path=${setting%% *}
      if [ "$setting" = "$path" ]; then
        echo "$text:${path##*:}: warning: systemd ends the line at a carriage return or NUL byte [LineEnd]"
      else
        echo "$text:${path##*:}: warning: unknown setting '$line' in [Timer] [UnknownKey]"
      fi
    done >"$work/out.wanted"
    program_run check --root root
    program_compare "the settings of '$root'" "$work/out.wanted" /dev/null 0
  done
}

# ---- links

# They are followed as if the root were the machine's.
echo outside >"$machine_folder/outside"
mkdir "$machine_folder/out.d"
echo outside >"$machine_folder/out.d/a"
texts_jobs <<'ROWS'
etc/crontab>/opt/x opt/x=JOB|system:1 root A
etc/crontab>../opt/x opt/x=JOB|system:1 root A
etc/crontab>../../../../../../../opt/x opt/x=JOB|system:1 root A
etc/crontab>../outside outside=JOB|system:1 root A
etc/crontab>/../outside outside=JOB|system:1 root A
etc/crontab>/opt/x opt/x>y opt/y>/opt/z opt/z>../../w w=JOB|system:1 root A
etc/crontab>/opt/x opt>/srv srv/x=JOB|system:1 root A
etc/crontab>/opt/x opt>srv/y/z srv/y/z/x=JOB|system:1 root A
etc/crontab>/opt/../x opt>srv/y srv/x=JOB srv/y/ x=B|system:1 root A
etc>o/p o/p/crontab>../x o/x=JOB|system:1 root A
etc>/o/p o/p/crontab=JOB|system:1 root A
etc>../../o o/crontab=JOB|system:1 root A
etc/crontab>\x2f\x2fopt\x2f\x2f.\x2fx opt/x=JOB|system:1 root A
C/a>/opt/b.c opt/b.c=JOB|a:1 root A
C/a>../crontab.x etc/crontab.x=JOB|a:1 root A
etc/cron.d>/opt/c opt/c/a>../x opt/x=JOB|a:1 root A
etc/cron.d>../../../out.d out.d/a=JOB|a:1 root A
var/spool>/opt/s opt/s/cron/crontabs/a=OWN|a:1 A
*a.timer E/a.timer>/opt/b opt/b=EVENT|a.timer A.service
*a.timer E/a.timer>../../../../../outside outside=EVENT|a.timer A.service
*a.timer lib>usr/lib U/a.timer=EVENT|a.timer A.service
*a.timer lib>/usr/lib U/a.timer=EVENT|a.timer A.service
etc/systemd/system>/opt/u opt/u/x.target.wants/a.timer>b opt/u/a.timer=EVENT|a.timer A.service
*a.timer U/a.timer=[Timer]\nUnit=A.service\n U/a.timer.d/x.conf>/opt/x opt/x=EVENT|a.timer A.service
*a.timer U/a.timer=[Timer]\nUnit=A.service\n E/a.timer.d/x.conf>../../../../../../../opt/x opt/x=EVENT|a.timer A.service
*a.timer usr/lib/systemd>/opt/s opt/s/system/a.timer.d/x.conf=EVENT opt/s/system/a.timer=[Timer]\n|a.timer A.service
etc/crontab>/opt/x opt/x=JOB C/a>../../opt/x|system:1 root A;a:1 root A
ROWS

# ---- the path and the line of a finding

texts_settings <<'ROWS'
*a.timer U/a.timer=DAILYp=1\n\nq=1\n|U/a.timer:3 p;U/a.timer:5 q
*a.timer U/a.timer=DAILYp=1\nq=1\n E/a.timer.d/x.conf=[Timer]\nr=1\n\ns=1\n|U/a.timer:3 p;U/a.timer:4 q;E/a.timer.d/x.conf:2 r;E/a.timer.d/x.conf:4 s
*a.timer U/a.timer=DAILYp=1 E/a.timer.d/x.conf=[Timer]\nr=1 U/timer.d/y.conf=[Timer]\ns=1\n B/a.timer.d/z.conf=\n[Timer]\nt=1|U/a.timer:3 p;E/a.timer.d/x.conf:2 r;U/timer.d/y.conf:2 s;B/a.timer.d/z.conf:3 t
*a.timer U/a.timer=DAILYp=1\n\n\n E/a.timer.d/x.conf=[Timer]\nr=1\n|U/a.timer:3 p;E/a.timer.d/x.conf:2 r
*a@b.timer U/a@.timer=DAILYp%i=1\n E/a@b.timer.d/x.conf=[Timer]\n%n=1\n|U/a@.timer:3 pb;E/a@b.timer.d/x.conf:2 a@b.timer
*a@b.timer *a@c.timer U/a@.timer=DAILY%i=1\n|U/a@.timer:3 b;U/a@.timer:3 c
*a:1.timer *a.timer U/a:1.timer=DAILYp=1\n U/a.timer=DAILYq=1\n U/timer.d/x:2.conf=[Timer]\nr=1\n|U/a.timer:3 q;U/timer.d/x:2.conf:2 r;U/a:1.timer:3 p;U/timer.d/x:2.conf:2 r
*a.timer U/a.timer=DAILYp=\0 E/a.timer.d/x.conf=[Timer]\nr=1\n|U/a.timer:3;U/a.timer:3 p;E/a.timer.d/x.conf:2 r
*a.timer U/a.timer=DAILYp=1\n\0\nq=1 E/a.timer.d/x.conf=[Timer]\n\nr=1|U/a.timer:4;U/a.timer:3 p;U/a.timer:5 q;E/a.timer.d/x.conf:3 r
*a.timer U/a.timer=DAILYp=1\n E/a.timer.d/x.conf=[Timer]\nq=\0 E/a.timer.d/y.conf=[Timer]\nr=1|E/a.timer.d/x.conf:2;U/a.timer:3 p;E/a.timer.d/x.conf:2 q;E/a.timer.d/y.conf:2 r
*a.timer E/a.timer>/opt/x opt/x=DAILYp=1 E/a.timer.d/x.conf=[Timer]\nr=1\n|E/a.timer:3 p;E/a.timer.d/x.conf:2 r
*a.timer U/a.timer=DAILYp=1 E/a.timer.d/x.conf>/opt/x opt/x=[Timer]\nq=1 E/a.timer.d/y.conf=[Timer]\nr=1|U/a.timer:3 p;E/a.timer.d/x.conf:2 q;E/a.timer.d/y.conf:2 r
*a@b.timer U/a@.timer=DAILY%i=\0 E/a@.timer.d/x.conf=[Timer]\nr=1|U/a@.timer:3;U/a@.timer:3 b;E/a@.timer.d/x.conf:2 r
*a.timer E/a.timer>../../../opt/x opt/x=DAILYp=1\n E/a.timer.d/x.conf>/opt/y opt/y=[Timer]\nq=1\n|E/a.timer:3 p;E/a.timer.d/x.conf:2 q
*a.timer lib>usr/lib U/a.timer=DAILYp=1\n|B/a.timer:3 p
*a.timer U/a.timer=DAILYp:1:\x20q=1\n E/a.timer.d/x\x20y.conf=[Timer]\nr:\x20s=1\n|U/a.timer:3 p:1: q;E/a.timer.d/x\x20y.conf:2 r: s
*a.timer U/a.timer=DAILY3=\n4=\n5=\n6=\n7=\n8=\n9=\n10=\n E/a.timer.d/x.conf=[Timer]\n\n\n\n\n\n\n\n\n10=\n|U/a.timer:3 3;U/a.timer:4 4;U/a.timer:5 5;U/a.timer:6 6;U/a.timer:7 7;U/a.timer:8 8;U/a.timer:9 9;U/a.timer:10 10;E/a.timer.d/x.conf:10 10
ROWS

# ---- merged files

# No line goes on in the next file, which begins before its first section.
texts_settings <<'ROWS'
*a.timer U/a.timer=DAILYp=1\\ E/a.timer.d/x.conf=[Timer]\nr=1\n|U/a.timer:3 p;E/a.timer.d/x.conf:2 r
*a.timer U/a.timer=DAILYp=1\\\n E/a.timer.d/x.conf=[Timer]\nr=1\n|U/a.timer:3 p;E/a.timer.d/x.conf:2 r
*a.timer U/a.timer=DAILYp\\ E/a.timer.d/x.conf=q=1\n[Timer]\nr=1\n|E/a.timer.d/x.conf:3 r
*a.timer U/a.timer=DAILY E/a.timer.d/x.conf=q=1\n[Timer]\nr=1\\\n E/a.timer.d/y.conf=s=1\n[Timer]\nt=1|E/a.timer.d/x.conf:3 r;E/a.timer.d/y.conf:3 t
*a.timer U/a.timer=DAILY# E/a.timer.d/x.conf=[Timer]\nr=1\n|E/a.timer.d/x.conf:2 r
*a.timer U/a.timer=DAILYp=1\r\n E/a.timer.d/x.conf=[Timer]\r\nr=1\r|U/a.timer:3 p;E/a.timer.d/x.conf:2 r
*a.timer U/a.timer=DAILYp=1 E/a.timer.d/x.conf=\n U/a.timer.d/y.conf=[Timer]\nr=1|U/a.timer:3 p;U/a.timer.d/y.conf:2 r
*a.timer U/a.timer=DAILYp=1 E/a.timer.d/y.conf=[Timer]\nr=1 U/timer.d/x.conf=[Timer]\nq=1|U/a.timer:3 p;U/timer.d/x.conf:2 q;E/a.timer.d/y.conf:2 r
ROWS

# ---- specifiers

# Only instances have specifiers: the text between the first @ and the end, and the text before it.
# shellcheck disable=SC2016
texts_settings <<'ROWS'
*a.timer U/a.timer=DAILYA%i%n%%=1\n E/a.timer.d/x.conf=[Timer]\n%p%%=1\n|U/a.timer:3 A%i%n%%;E/a.timer.d/x.conf:2 %p%%
*a@b.timer U/a@b.timer=DAILY%i=1\n U/a@.timer=DAILYA=1\n|U/a@b.timer:3 b
*a@b.timer U/a@.timer=DAILY%i,%n,%N,%p,%j,%%=1\n|U/a@.timer:3 b,a@b.timer,a@b,a,a,%
*x-y-z@b-c.d.timer U/x-y-z@.timer=DAILY%i,%n,%N,%p,%j=1\n|U/x-y-z@.timer:3 b-c.d,x-y-z@b-c.d.timer,x-y-z@b-c.d,x-y-z,z
*x-y-z@b-c.d.timer U/x-y-z@.timer=DAILY%I,%P,%J=1\n|U/x-y-z@.timer:3 b/c.d,x/y/z,z
*x-@-c-.timer U/x-@.timer=DAILY<%i,%I,%p,%P,%j,%J>=1\n|U/x-@.timer:3 <-c-,/c/,x-,x/,,>
*-x@b.timer U/-x@.timer=DAILY%p,%j,%P=1\n|U/-x@.timer:3 -x,x,/x
*a@b@c.timer U/a@.timer=DAILY%i,%n,%N,%p=1\n|U/a@.timer:3 b@c,a@b@c.timer,a@b@c,a
*a@@.timer U/a@.timer=DAILY%i,%n=1\n|U/a@.timer:3 @,a@@.timer
*a@b.timer.timer U/a@.timer=DAILY%i,%n,%N=1\n|U/a@.timer:3 b.timer,a@b.timer.timer,a@b.timer
*a@b.timer U/a@.timer=DAILY%%i,%%%i,%%%%i,%i%i%%=1\n|U/a@.timer:3 %i,%b,%%i,bb%
*a@b.timer U/a@.timer=DAILY%a,%f,%H,%t,%u,%b,%,%1,%.,%\x20i=1\n|U/a@.timer:3 %a,%f,%H,%t,%u,%b,%,%1,%.,% i
*a@b.timer U/a@.timer=DAILY%=1\n%i%=1\n|U/a@.timer:3 %;U/a@.timer:4 b%
*a@b.timer U/a@.timer=DAILY%q%i%%q%\xc3\xa0=1\n|U/a@.timer:3 %qb%q%\xc3\xa0
*a@b.timer U/a@.timer=DAILY\t\x20%i\x20\\%i*?[%i]$i\x20=1\n|U/a@.timer:3 b \\\\b*?[b]$i
*a@b.timer U/a@.timer=DAILY%i=1\n E/a@b.timer.d/x.conf=[Timer]\n%n%%=1\n|U/a@.timer:3 b;E/a@b.timer.d/x.conf:2 a@b.timer%
*a@b.timer U/a@.timer=DAILYA=% E/a@.timer.d/x.conf=[Timer]\ni%i%=1|U/a@.timer:3 A;E/a@.timer.d/x.conf:2 ib%
*a@b.timer U/a@.timer=DAILY%i=1\n\n\n|U/a@.timer:3 b
ROWS
