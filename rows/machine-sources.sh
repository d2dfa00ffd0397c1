# shellcheck shell=bash disable=SC2154,SC2034
# Rows of `agenda machine sources`: which crontabs and timers are found below a root, in which order, and what is said of
# the rest. The directories of units in their order are A G H I E J R K M L B U N; D has the enablement links of x.target,
# which the boot starts. Expected lines are worked out by hand from docs/FORMATS.md.

# shellcheck source=/dev/null
. "$top/rows/lib/program.sh"

# ---- crontabs

# The order of sources and of names, and files without text.
program_sources <<'ROWS'
x/||
etc||
etc/crontab|etc/crontab|
etc/crontab=|etc/crontab|
C/a|C/a|
C/a=|C/a|
S/a|S/a|
S/a=|S/a|
C/ S/ E/ U/||
U/a.timer||
%a|U/a.timer|
*e.timer *d.timer U/d.timer R/e.timer S/u S/t C/b C/a etc/crontab|etc/crontab C/a C/b S/t S/u U/d.timer R/e.timer|
C/a C/_ C/B C/0 C/- C/aa C/a-|C/- C/0 C/B C/_ C/a C/a- C/aa|
S/a S/_ S/B S/0 S/- S/a.b S/a. S/a0|S/- S/0 S/B S/_ S/a S/a. S/a.b S/a0|
C/.a C/.b.c S/.a S/.b~ C/.c/ S/.c>nowhere||
etc/cron.daily/a S/ F/a F/crontabs.x/a T/a||
ROWS

# What can't be a source, and which of the reasons is reported.
program_sources <<'ROWS'
C/a.b C/c|C/c|C/a.b bad name
C/a~ C/a\x20b C/\x20 C/a# C/\xc3\xa0 C/a@ C/* C/a:||C/\x20 bad name,C/* bad name,C/a\x20b bad name,C/a# bad name,C/a: bad name,C/a@ bad name,C/a~ bad name,C/\xc3\xa0 bad name
S/a~ S/a\x20b S/a\\b S/a,b S/? S/c|S/? S/a,b S/a\\b S/a~ S/c|S/a\x20b escape
S/ann@corp S/CORP\\ann S/host$ S/"a' S/-a S/[1] S/%s S/#|S/"a' S/# S/%s S/-a S/CORP\\ann S/[1] S/ann@corp S/host$|
S/a:1 S/: S/a: S/a\x09:||S/: bad name,S/a\x09: bad name,S/a: bad name,S/a:1 bad name
S/\x20 S/a\x09b S/a\x7f S/\xc3\xa0 S/\xc2\xa0 S/\xe2\x80\x8b||S/\x20 escape,S/a\x09b escape,S/a\x7f escape,S/\xc2\xa0 escape,S/\xc3\xa0 escape,S/\xe2\x80\x8b escape
C/a/ C/b!||C/a not readable,C/b not readable
S/a/ S/b!||S/a not readable,S/b not readable
etc/crontab/||etc/crontab not readable
etc/crontab!||etc/crontab not readable
etc/crontab>nowhere||etc/crontab not readable
etc/crontab>/dev/null||etc/crontab not readable
etc/crontab>/dev/null dev/null=x||etc/crontab not readable
C/a>nowhere C/b>/dev/null C/c>c C/d>e C/e>d C/f>/opt opt/x||C/a not readable,C/b not readable,C/c not readable,C/d not readable,C/e not readable,C/f not readable
S/a>nowhere S/b>/dev/null S/c>c||S/a not readable,S/b not readable,S/c not readable
C/a.b/ C/c.d>nowhere C/e~! S/a:/ S/b:>nowhere S/c\x20/||C/a.b bad name,C/c.d bad name,C/e~ bad name,S/a: bad name,S/b: bad name,S/c\x20 escape
S/a~/ S/b@>nowhere||S/a~ not readable,S/b@ not readable
etc/cron.d||etc/cron.d not readable
etc/cron.d>nowhere||etc/cron.d not readable
etc/cron.d>cron.d||etc/cron.d not readable
etc/cron.d!||etc/cron.d not readable
ROWS

# Names in the spool directory that cron.d has too.
program_sources <<'ROWS'
C/a S/a|C/a S/a=a.user|
C/a C/b S/a S/b S/c|C/a C/b S/a=a.user S/b=b.user S/c|
C/a S/a S/a.user|C/a S/a.user|S/a name taken
C/a S/a S/a.user S/a.user.user|C/a S/a.user S/a.user.user|S/a name taken
C/a S/a S/a.user/|C/a|S/a name taken,S/a.user not readable
C/a S/a S/a.user>nowhere|C/a|S/a name taken,S/a.user not readable
C/a S/a S/.a.user|C/a S/a=a.user|
C/a S/a>nowhere|C/a|S/a not readable
C/a S/a/ S/a.user|C/a S/a.user|S/a not readable
C/a/ S/a|S/a|C/a not readable
C/a/ S/a S/a.user|S/a S/a.user|C/a not readable
C/a>nowhere S/a|S/a|C/a not readable
C/a.b S/a.b|S/a.b|C/a.b bad name
etc/crontab C/crontab S/crontab|etc/crontab C/crontab S/crontab=crontab.user|
C/a S/a.user|C/a S/a.user|
etc/crontab C/system S/system|etc/crontab|C/system name taken,S/system name taken
C/system S/system|C/system S/system=system.user|
etc/crontab/ C/system|C/system|etc/crontab not readable
ROWS

# The users' crontabs where there is no directory var/spool/cron/crontabs: those of SUSE, or else those of Fedora,
# RHEL and Arch. What is named as such a directory, but is none, may be the crontab of a user who has that name.
program_sources <<'ROWS'
T/a T/b.c etc/crontab|etc/crontab T/a T/b.c|
T/a F/b|T/a|
T/ F/b||
T/.a T/a~ T/b T/c/ T/d:|T/a~ T/b|T/c not readable,T/d: bad name
C/a T/a|C/a T/a=a.user|
C/a T/a T/a.user|C/a T/a.user|T/a name taken
F/a F/b.c etc/crontab|etc/crontab F/a F/b.c|
F/root F/.b F/c~ F/d#e F/f:g F/h\x20i|F/c~ F/d#e F/root|F/f:g bad name,F/h\x20i escape
F/a F/atjobs/.SEQ F/atspool/x F/lastrun/cron.daily F/b~/|F/a|
C/a F/a|C/a F/a=a.user|
C/a F/a F/a.user|C/a F/a.user|F/a name taken
F/a>nowhere F/b>/opt/b opt/b F/c>atspool F/atspool/ F/d!|F/b|F/a not readable,F/d not readable,not F/b cron ignores this file: a link; not a regular file
etc/crontab F/system|etc/crontab|F/system name taken
F/||
F/crontabs F/tabs F/a|F/a F/crontabs F/tabs|
F/crontabs T/a|T/a|
F/tabs F/a S/b|S/b|
F/crontabs>/opt/c opt/c/a T/b|S/a|
F/crontabs>/opt/c opt/c T/b|T/b|
F/crontabs>nowhere T/a F/b||F/crontabs not readable
F/crontabs>crontabs T/a F/b||F/crontabs not readable
F/crontabs! T/a F/b||F/crontabs not readable
F/tabs>nowhere F/a||F/tabs not readable
var/spool/cron||var/spool/cron not readable
var/spool/cron>nowhere||var/spool/cron not readable
var/spool/cron>/opt/s opt/s/a|F/a|
var/spool/cron>/opt/s opt/s/tabs/a opt/s/b|T/a|
ROWS

# ---- the files of timers

# The first of the directories counts that has a file of the name.
sources_orders() {
  local from number letter root
  for from in "${!program_units[@]}"; do
    root='*a.timer'
    for ((number = ${#program_units[@]} - 1; number >= from; number--)); do
      letter=${program_units[number]}
      root+=" $letter/a.timer $letter/a.timer.d/x.conf"
    done
    letter=${program_units[from]}
    echo "$root|$letter/a.timer +$letter/a.timer.d/x.conf|"
  done
}
program_sources < <(sources_orders)

program_sources <<'ROWS'
*a.timer etc/systemd/user/a.timer usr/lib/systemd/user/a.timer usr/share/systemd/system/a.timer U/x/a.timer||D/a.timer no such timer
*a.timer run/systemd/generator.early/sub/a.timer run/systemd/a.timer etc/systemd/a.timer||D/a.timer no such timer
*a.timer E/a.timer/ R/a.timer/ U/a.timer|U/a.timer|
*a.timer E/a.timer/||D/a.timer no such timer
*a.timer U/a.timer! ||U/a.timer not readable
*a.timer E/a.timer! U/a.timer||E/a.timer not readable
*a.timer U/a.timer=[Timer]\nOnBootSec=5\n|U/a.timer|
*a.timer U/a.timer=[Unit]\n|U/a.timer|
*a.timer lib>usr/lib U/a.timer|B/a.timer|
*a.timer lib>/usr/lib U/a.timer U/a.timer.d/x.conf|B/a.timer +B/a.timer.d/x.conf|
usr/lib/systemd/system>/opt/u opt/u/x.target.wants/a.timer>b opt/u/a.timer opt/u/a.service|U/a.timer|
usr/lib/systemd/system>/etc/systemd/system *a.timer E/a.timer|E/a.timer|
run/systemd/system>/opt/u opt/u/a.timer usr/lib/systemd/system>/opt/u *a.timer|R/a.timer|
ROWS

# Links to the same name below one of the directories are ignored.
program_sources <<'ROWS'
*a.timer E/a.timer>/usr/lib/systemd/system/a.timer U/a.timer|U/a.timer|
*a.timer E/a.timer>/lib/systemd/system/a.timer U/a.timer|U/a.timer|
*a.timer E/a.timer>/run/systemd/system/a.timer U/a.timer|U/a.timer|
*a.timer E/a.timer>/run/systemd/transient/a.timer U/a.timer|U/a.timer|
*a.timer E/a.timer>/etc/systemd/system/sub/a.timer E/sub/a.timer U/a.timer|U/a.timer|
*a.timer E/a.timer>../../../usr/lib/systemd/system/a.timer U/a.timer|U/a.timer|
*a.timer E/a.timer>../../../../../../../usr/local/lib/systemd/system/a.timer L/a.timer|L/a.timer|
*a.timer E/a.timer>/usr/./lib//systemd/x/../system/a.timer U/a.timer|U/a.timer|
*a.timer E/a.timer>sub/a.timer U/a.timer|U/a.timer|
*a.timer E/a.timer>a.timer U/a.timer|U/a.timer|
*a.timer E/a.timer>/usr/lib/systemd/system/a.timer||D/a.timer no such timer
*a.timer E/a.timer>/usr/lib/systemd/system/a.timer U/a.timer>/etc/systemd/system/a.timer||D/a.timer no such timer
*a.timer U/a.timer>../../../local/lib/systemd/system/a.timer L/a.timer|L/a.timer|
ROWS

# Masks of timers.
program_sources <<'ROWS'
*a.timer E/a.timer= U/a.timer||E/a.timer masked
*a.timer E/a.timer>/dev/null U/a.timer||E/a.timer masked
*a.timer E/a.timer>../../../dev/null U/a.timer||E/a.timer masked
*a.timer E/a.timer>../../../../../../dev/null U/a.timer||E/a.timer masked
*a.timer E/a.timer>/opt/e opt/e= U/a.timer||E/a.timer masked
*a.timer E/a.timer>/opt/e opt/e>/opt/f opt/f>../dev/null||E/a.timer masked
*a.timer R/a.timer>/dev/null U/a.timer||R/a.timer masked
*a.timer E/a.timer>/dev/null dev/null=x U/a.timer||E/a.timer masked
*a.timer L/a.timer= B/a.timer U/a.timer||L/a.timer masked
*a.timer H/a.timer= E/a.timer||H/a.timer masked
D/a.timer>y B/a.timer= U/a.timer||B/a.timer masked
*a.timer B/a.timer= U/a.timer||D/a.timer masked
*a.timer E/a.timer U/a.timer= |E/a.timer|
*a.timer E/a.timer R/a.timer>/dev/null|E/a.timer|
*a.timer *b.timer E/a.timer>/dev/null U/b.timer|U/b.timer|E/a.timer masked
ROWS

# Enablement links: a link counts wherever it leads, but to a mask; nothing else counts. Of entries of one name in the
# directories of one unit and suffix only the first counts, whatever it is.
program_sources <<'ROWS'
D/a.timer>/nowhere U/a.timer|U/a.timer|
D/a.timer>../b.timer E/b.timer U/a.timer|U/a.timer|
D/a.timer>a.timer U/a.timer|U/a.timer|
D/a.timer>/opt opt/x U/a.timer|U/a.timer|
D/a.timer U/a.timer||D/a.timer no link
D/a.timer/ U/a.timer||D/a.timer no link
D/a.timer! U/a.timer||D/a.timer no link
D/a.timer= U/a.timer||D/a.timer masked
D/a.timer>/dev/null U/a.timer||D/a.timer masked
D/a.timer>../../../../../../../dev/null U/a.timer||D/a.timer masked
D/a.timer>/opt/e opt/e= U/a.timer||D/a.timer masked
D/.a.timer>y D/.timer>y D/a.timer.x>y U/a.timer||
E/x.target.wants/a.timer>y E/x.target.requires/b.timer>y U/x.target.wants/c.timer>y U/a.timer U/b.timer U/c.timer|U/a.timer U/b.timer U/c.timer|
E/x.target.want/a.timer>y E/x.target.upholds/a.timer>y E/x.target.wants.d/a.timer>y E/x.targets/a.timer>y U/a.timer||
D/a.timer>/dev/null U/x.target.wants/a.timer>y U/a.timer||D/a.timer masked
D/a.timer= B/x.target.wants/a.timer>y U/a.timer||D/a.timer masked
D/a.timer U/x.target.wants/a.timer>y U/a.timer||D/a.timer no link
D/a.timer/ U/x.target.wants/a.timer>y U/a.timer||D/a.timer no link
A/x.target.wants/a.timer>/dev/null D/a.timer>y U/a.timer||A/x.target.wants/a.timer masked
D/a.timer>y U/x.target.wants/a.timer>/dev/null U/a.timer|U/a.timer|
D/a.timer>y U/x.target.wants/a.timer U/a.timer|U/a.timer|
D/a.timer>/dev/null E/x.target.requires/a.timer>y U/a.timer|U/a.timer|D/a.timer masked
D/a.timer>y E/target.wants/a.timer>/dev/null U/a.timer|U/a.timer|E/target.wants/a.timer masked
ROWS

# Directories of links that are links are read where they lead, and what is found keeps the path in the directory of units.
program_sources <<'ROWS'
E/x.target.wants>/opt/w opt/w/a.timer>y U/a.timer|U/a.timer|
E/x.target.requires>../../../opt/w opt/w/a.timer>y U/a.timer|U/a.timer|
E/x.target.wants>/opt/v opt/v>w opt/w/a.timer>y U/a.timer|U/a.timer|
E/x.target.wants>/opt/w opt/w/a.timer>y||E/x.target.wants/a.timer no such timer
E/x.target.wants>/opt/w opt/w/a.timer>/dev/null U/x.target.wants/a.timer>y U/a.timer||E/x.target.wants/a.timer masked
E/x.target.wants>/opt/w opt/w/a.timer U/a.timer||E/x.target.wants/a.timer no link
E/x.target.requires>y.target.requires E/y.target.requires/a.timer>y U/a.timer|U/a.timer|
E/x.target.wants>y.target.wants E/y.target.wants>x.target.wants U/a.timer||
E/x.target.wants>/usr/lib/systemd/system U/a.timer||E/x.target.wants/a.timer no link
E/target.wants>/opt/w opt/w/a.timer>y U/a.timer|U/a.timer|
E/s.service.wants>/opt/w opt/w/a.timer>y D/s.service>y U/s.service U/a.timer|U/a.timer|
E/x.target.wants>/opt/w opt/w U/a.timer||
U/x.target.wants>nowhere||
ROWS

# Entries that enable nothing, of the directories that are read: those of units that are reached, have a file and aren't
# masked, of their templates, of shorter names and of their types. Of entries of one name in directories of one name only
# the first is looked at. The lines come in the order of the directories, before those of timers.
program_sources <<'ROWS'
D/a.timer D/b.service D/c.timer= D/d.conf U/a.timer||D/a.timer no link,D/c.timer masked
D/a.timer U/x.target.wants/a.timer= ||D/a.timer no link
U/x.target.wants/a.timer= N/x.target.wants/a.timer||U/x.target.wants/a.timer masked
D/a\x20b.timer D/c@.timer||D/a\x20b.timer no link,D/c@.timer no link
D/a\x20b.timer>y D/@c.timer>y D/.d.timer>y D/e@f.timer>y||D/@c.timer bad name,D/a\x20b.timer bad name,D/e@f.timer no such timer
D/a\x20b.timer>/dev/null D/c\x20d.service>y D/a\x20b.conf>y D/e@.timer>y||D/a\x20b.timer masked,D/e@.timer no such timer
E/x.target.requires/b.timer>/dev/null E/target.wants/a.timer U/x.target.wants/a.timer/||E/target.wants/a.timer no link,E/x.target.requires/b.timer masked,U/x.target.wants/a.timer no link
E/default.target.wants/a.timer||E/default.target.wants/a.timer no link
E/y.target.wants/a.timer E/y.target.wants/b.timer= E/service.wants/c.timer||
D/s.service>y U/s.service E/s.service.wants/a.timer E/service.wants/b.timer||E/s.service.wants/a.timer no link,E/service.wants/b.timer no link
D/s.service>y E/s.service.wants/a.timer||
D/s.service>y U/s.service= E/s.service.wants/a.timer||
D/s@i.service>y U/s@.service E/s@i.service.wants/a.timer E/s@.service.wants/b.timer E/s@j.service.wants/c.timer||E/s@.service.wants/b.timer no link,E/s@i.service.wants/a.timer no link
D/s-t.service>y U/s-t.service E/s-.service.wants/a.timer E/s.service.wants/b.timer E/-t.service.wants/c.timer||E/s-.service.wants/a.timer no link
D/s-t@i.service>y U/s-t@.service E/s-@i.service.wants/a.timer E/s-@.service.wants/b.timer E/s-.service.wants/c.timer E/s-@j.service.wants/d.timer||E/s-.service.wants/c.timer no link,E/s-@.service.wants/b.timer no link,E/s-@i.service.wants/a.timer no link
%a D/c.timer E/x.target.wants/b.timer>y|U/a.timer|D/c.timer no link,D/b.timer no such timer
ROWS

# Timers that only units want that aren't reached: a mask hides a link of its name only in a directory of the same name. What
# is read for all units of a type is wanted by no unit.
program_sources <<'ROWS'
E/o.target.wants/a.timer>/dev/null E/p.target.wants/a.timer>y U/a.timer||wanted E/p.target.wants/a.timer p.target
E/o.target.wants/a.timer E/p.target.wants/a.timer>y U/a.timer||wanted E/p.target.wants/a.timer p.target
A/p.target.wants/a.timer>/dev/null E/p.target.wants/a.timer>y U/a.timer||
A/p.target.wants/a.timer E/p.target.wants/a.timer>y U/a.timer||
A/p.target.wants/a.timer>/dev/null E/p.target.requires/a.timer>y U/a.timer||wanted E/p.target.requires/a.timer p.target
E/socket.wants/a.timer>y E/timer.requires/b.timer>y U/a.timer U/b.timer||
E/socket.wants/a.timer>y U/p.target.wants/a.timer>y U/a.timer||wanted U/p.target.wants/a.timer p.target
E/p.target.wants/b.timer>y A/o.target.wants/c.timer>y U/b.timer U/c.timer||wanted A/o.target.wants/c.timer o.target,wanted E/p.target.wants/b.timer p.target
ROWS

# Which link is reported: the first of the timer's name, in the order of the directories of units and then of names; without
# a link the file of the timer, or else the file that has the setting.
program_sources <<'ROWS'
*a.timer||D/a.timer no such timer
E/x.target.wants/a.timer>y E/x.target.requires/a.timer>y||E/x.target.requires/a.timer no such timer
U/x.target.wants/a.timer>y E/target.wants/a.timer>y||E/target.wants/a.timer no such timer
D/s.service>y U/s.service E/s.service.wants/a.timer>y U/x.target.wants/a.timer>y||E/s.service.wants/a.timer no such timer
E/x.target.wants/a.timer>/dev/null E/x.target.requires/a.timer>y||E/x.target.wants/a.timer masked,E/x.target.requires/a.timer no such timer
E/x.target.d/w.conf=[Unit]\nWants=a.timer\n E/x.target=[Unit]\n||E/x.target no such timer
E/x.target=[Unit]\nWants=a\\b.timer\x20@a.timer\n U/@a.timer||E/x.target no such timer
ROWS

# Names that are skipped, and the order of the reasons. A name that is invalid for a unit is reported only where a link that is
# read has it.
program_sources <<'ROWS'
*a\x20b.timer U/a\x20b.timer||D/a\x20b.timer bad name
*\xc3\xa0.timer *a~.timer *a,.timer *a%.timer *a+b.timer||D/a%.timer bad name,D/a+b.timer bad name,D/a\x2c.timer bad name,D/a~.timer bad name,D/\xc3\xa0.timer bad name
*a:b.timer *a_b.timer *a.b.timer *A-0.timer U/a:b.timer U/a_b.timer U/a.b.timer U/A-0.timer|U/A-0.timer U/a.b.timer U/a:b.timer U/a_b.timer|
*a\\b.timer U/a\\b.timer|U/a\\b.timer|
*a@b\x20c.timer||D/a@b\x20c.timer bad name
*@b.timer *@b@c.timer U/@.timer U/@b.timer||D/@b.timer bad name,D/@b@c.timer bad name
*@.timer U/@.timer||D/@.timer bad name
*a@b\\c.timer U/a@.timer||D/a@b\\c.timer escape
*a@b\\x2dc.timer||D/a@b\\x2dc.timer escape
*a@b\\c.timer E/a@b\\c.timer>/dev/null||D/a@b\\c.timer escape
*a\\b@c.timer U/a\\b@.timer||D/a\\b@c.timer escape
*a@b.timer U/a.timer U/a@c.timer||D/a@b.timer no such timer
E/x.target.wants/a\x20b.timer>y U/target.wants/a\x20b.timer>y||E/x.target.wants/a\x20b.timer bad name,U/target.wants/a\x20b.timer bad name
ROWS

# The longest name that a file can have. Its service's name would be longer, so it names another one.
printf -v sources_name 'n%.0s' {1..249}
program_has_services=no
program_sources <<ROWS
*$sources_name.timer U/$sources_name.timer=[Timer]\\nUnit=b.service\\n U/b.service E/a.timer|U/$sources_name.timer|
*$sources_name.timer U/$sources_name.timer||missing U/$sources_name.timer $sources_name.service
ROWS
program_has_services=yes
printf -v sources_name 'n%.0s' {1..255}
program_sources <<ROWS
C/$sources_name|C/$sources_name|
S/$sources_name|S/$sources_name|
ROWS

# Instances: the file with their own name, or else their template's. Names without `@` come first.
program_sources <<'ROWS'
*a@b.timer U/a@.timer|U/a@.timer=a-b.timer|
*a@b.timer E/a@.timer U/a@.timer|E/a@.timer=a-b.timer|
*a@b.timer U/a@.timer U/a@b.timer|U/a@b.timer=a-b.timer|
*a@b.timer E/a@.timer U/a@b.timer|U/a@b.timer=a-b.timer|
*a@b.timer U/a@b.timer|U/a@b.timer=a-b.timer|
*a@b@c.timer U/a@.timer|U/a@.timer=a-b-c.timer|
*a@b@c.timer U/a@b@.timer U/a@b.timer||D/a@b@c.timer no such timer
*a@@.timer U/a@.timer|U/a@.timer=a--.timer|
*a@b@.timer U/a@.timer U/a@b@.timer/|U/a@.timer=a-b-.timer|
*a@b.timer E/a@b.timer>/dev/null U/a@.timer||E/a@b.timer masked
*a@b.timer E/a@b.timer= U/a@.timer||E/a@b.timer masked
*a@b.timer *a@c.timer E/a@.timer>/dev/null U/a@.timer||E/a@.timer masked
*a@b.timer *a@c.timer E/a@b.timer>/dev/null U/a@.timer|U/a@.timer=a-c.timer|E/a@b.timer masked
*a@b.timer E/a@b.timer>/usr/lib/systemd/system/a@b.timer U/a@.timer|U/a@.timer=a-b.timer|
*a@b.timer E/a@b.timer>/usr/lib/systemd/system/a@.timer U/a@.timer|U/a@.timer=a-b.timer|
*a@b.timer *a@c.timer E/a@.timer>/nowhere||E/a@.timer not readable
*a@b.timer E/a@b.timer/ U/a@.timer|U/a@.timer=a-b.timer|
*a@b.timer E/a@b.timer>/opt/x opt/x|E/a@b.timer=a-b.timer|
*a@b.timer *z.timer U/a@.timer U/z.timer|U/z.timer U/a@.timer=a-b.timer|
*c@a.timer *b@z.timer *b@a.timer *Z@a.timer U/b@.timer U/c@.timer U/Z@.timer|U/Z@.timer=Z-a.timer U/b@.timer=b-a.timer U/b@.timer=b-z.timer U/c@.timer=c-a.timer|
*a@b.timer *a-x@b.timer U/a@.timer U/a-x@.timer|U/a-x@.timer=a-x-b.timer U/a@.timer=a-b.timer|
*a-b.timer *a@b.timer U/a-b.timer U/a@.timer|U/a-b.timer|D/a@b.timer name taken
*a@b-c.timer *a-b@c.timer U/a@.timer U/a-b@.timer|U/a-b@.timer=a-b-c.timer|D/a@b-c.timer name taken
*a@b@c.timer *a@b-c.timer U/a@.timer|U/a@.timer=a-b-c.timer|D/a@b@c.timer name taken
*a-b.timer *a@b.timer E/a-b.timer= U/a@.timer|U/a@.timer=a-b.timer|E/a-b.timer masked
*a-b.timer *a@b.timer U/a@.timer|U/a@.timer=a-b.timer|D/a-b.timer no such timer
*a-b.timer *a@b.timer U/a-b.timer E/a@.timer>/nowhere|U/a-b.timer|E/a@.timer not readable
*a-b.timer E/a-b.timer E/target.wants/a@b.timer>y U/x.target.requires/a@b.timer>y U/a@.timer|E/a-b.timer|E/target.wants/a@b.timer name taken
C/a-b.timer S/a-b.timer *a-b.timer U/a-b.timer|S/a-b.timer U/a-b.timer|C/a-b.timer bad name
ROWS

# With --all, each timer that has a file and isn't a template; then no timer is reported as wanted by another unit.
program_sources --all <<'ROWS'
U/a.timer|U/a.timer|
E/e.timer R/d.timer L/c.timer B/b.timer U/a.timer|U/a.timer B/b.timer L/c.timer R/d.timer E/e.timer|
A/m.timer G/l.timer H/k.timer I/j.timer J/i.timer K/h.timer M/g.timer N/f.timer|N/f.timer M/g.timer K/h.timer J/i.timer I/j.timer H/k.timer G/l.timer A/m.timer|
E/a.timer U/a.timer|E/a.timer|
U/a@.timer U/b.service U/.c.timer U/d.timer.x U/e.timer/ U/x.timer.d/y.timer U/x/f.timer||
U/a@b.timer U/a@.timer|U/a@b.timer=a-b.timer|
*a@b.timer U/a@.timer U/c.timer|U/c.timer U/a@.timer=a-b.timer|
U/a\x20b.timer||
E/a\x20b.timer U/a\x20b.timer||
*a\x20b.timer E/a\x20b.timer||D/a\x20b.timer bad name
E/@b.timer||
E/a@b\\c.timer||E/a@b\\c.timer escape
E/a.timer>b.timer U/b.timer|U/b.timer|
E/a.timer>/dev/null U/a.timer||E/a.timer masked
E/a.timer= U/b.timer|U/b.timer|E/a.timer masked
E/a.timer>/usr/lib/systemd/system/a.timer U/a.timer|U/a.timer|
E/a.timer>/usr/lib/systemd/system/a.timer||
U/a.timer>/nowhere||U/a.timer not readable
U/a.timer! ||U/a.timer not readable
D/a.timer>/dev/null U/a.timer|U/a.timer|D/a.timer masked
D/a.timer U/a.timer|U/a.timer|D/a.timer no link
E/y.target.wants/a.timer>y U/a.timer U/b.timer|U/a.timer U/b.timer|
U/a-b.timer U/a@b.timer|U/a-b.timer|U/a@b.timer name taken
*a.timer||D/a.timer no such timer
ROWS

# ---- the unit that a timer starts

program_has_services=no
program_sources <<'ROWS'
*a.timer U/a.timer||missing U/a.timer a.service
*a.timer U/a.timer U/a.service|U/a.timer|
*a.timer U/a.timer N/a.service|U/a.timer|
*a.timer U/a.timer U/a.service/||missing U/a.timer a.service
*a.timer U/a.timer U/a.target||missing U/a.timer a.service
*a.timer U/a.timer E/a.service>/dev/null U/a.service||mask U/a.timer a.service
*a.timer U/a.timer E/a.service= U/a.service||mask U/a.timer a.service
*a.timer U/a.timer U/a.service=||mask U/a.timer a.service
*a.timer U/a.timer E/a.service>/usr/lib/systemd/system/a.service U/a.service|U/a.timer|
*a.timer U/a.timer E/a.service>b.service U/b.service|U/a.timer|
*a.timer U/a.timer E/a.service>b.service||missing U/a.timer a.service
*a.timer U/a.timer E/a.service>b.service E/b.service>/dev/null||mask U/a.timer a.service
*a.timer U/a.timer=[Timer]\nUnit=b.service\n U/b.service|U/a.timer|
*a.timer U/a.timer=[Timer]\nUnit=b.service\n U/a.service||missing U/a.timer b.service
*a.timer U/a.timer=[Timer]\nUnit=b.target\n U/b.target|U/a.timer|
*a.timer U/a.timer=[Timer]\nUnit=b.service\n E/b.service= U/b.service||mask U/a.timer b.service
*a.timer U/a.timer=[Timer]\nUnit=\nUnit=b.service\nUnit=c.service\n U/b.service|U/a.timer|
*a.timer U/a.timer=[Timer]\nUnit=b.service\nUnit=c.service\n U/c.service U/a.service||missing U/a.timer b.service
*a.timer U/a.timer=[Timer]\nUnit=b.service\nUnit=\n U/a.service||missing U/a.timer b.service
*a.timer U/a.timer=[Timer]\nUnit=\n U/a.service|U/a.timer|
*a.timer U/a.timer=[Timer]\n\x20Unit\x20=\x20b.service\x20\n U/b.service|U/a.timer|
*a.timer U/a.timer=Unit=b.service\n[Unit]\nUnit=b.service\n[timer]\nUnit=b.service\n U/a.service|U/a.timer|
*a.timer U/a.timer=[Timer]\nunit=b.service\n U/a.service|U/a.timer|
*a.timer U/a.timer=[Timer]\nUnit=%n\n U/a.service|U/a.timer|
*a.timer U/a.timer=[Timer]\nUnit=b\x20c\n U/a.service|U/a.timer|
*a.timer U/a.timer=[Timer]\nUnit=b.service\x20c.service\n U/b.service||missing U/a.timer a.service
*a.timer U/a.timer=[Timer]\nUnit=b\nUnit=b.x\nUnit=@.service\nUnit=b.service\nUnit=c.service\n U/b.service|U/a.timer|
*a.timer U/a.timer=[Timer]\nUnit=a.timer\n U/a.service|U/a.timer|
*a.timer U/a.timer=[Timer]\nUnit=a.timer\nUnit=b.timer\n U/b.timer|U/a.timer|
*a.timer U/a.timer=[Timer]\nUnit=b@.service\n U/b@.service|U/a.timer|
*a.timer U/a.timer=[Timer]\nUnit=b@.service\n U/a.service||missing U/a.timer b@a.service
*a.timer U/a.timer=[Timer]\nUnit=\xff.service\n U/a.service|U/a.timer|
*a.timer U/a.timer=[Timer]\n U/a.timer.d/x.conf=[Timer]\nUnit=b.service\n U/b.service|U/a.timer +U/a.timer.d/x.conf|
*a.timer U/a.timer=[Timer]\nUnit=b.service\n U/a.timer.d/x.conf=[Timer]\nUnit=c.service\n U/b.service|U/a.timer +U/a.timer.d/x.conf|
*a.timer U/a.timer=[Timer]\nUnit=b.service\n U/a.timer.d/x.conf=[Timer]\nUnit=c.service\n U/c.service||missing U/a.timer b.service
*a.timer U/a.timer=[Timer]\n U/a.timer.d/y.conf=[Timer]\nUnit=c.service\n E/a.timer.d/x.conf=[Timer]\nUnit=b.service\n U/b.service|U/a.timer +E/a.timer.d/x.conf +U/a.timer.d/y.conf|
*a.timer U/a.timer=[Timer]\n U/a.timer.d/x.conf=Unit=c.service\n U/a.service|U/a.timer +U/a.timer.d/x.conf|
*a.timer E/a.timer>/opt/t opt/t=[Timer]\nUnit=b.service\n||missing E/a.timer b.service
*a@i.timer U/a@.timer U/a@.service|U/a@.timer=a-i.timer|
*a@i.timer U/a@.timer U/a@i.service|U/a@.timer=a-i.timer|
*a@i.timer U/a@.timer U/a.service U/a-i.service U/a@j.service||missing U/a@.timer a@i.service
*a@i.timer U/a@.timer E/a@i.service= U/a@.service||mask U/a@.timer a@i.service
*a@i.timer U/a@.timer E/a@.service>/dev/null||mask U/a@.timer a@i.service
*a@i.timer *a@j.timer U/a@.timer U/a@j.service|U/a@.timer=a-j.timer|missing U/a@.timer a@i.service
*a@i.timer U/a@.timer=[Timer]\nUnit=b@%i.service\n U/b@.service|U/a@.timer=a-i.timer|
*a@i.timer U/a@.timer=[Timer]\nUnit=b-%i.service\n||missing U/a@.timer b-i.service
*a@i.timer U/a@.timer=[Timer]\nUnit=%n\nUnit=a@.timer\n U/a@.service|U/a@.timer=a-i.timer|
*a@i.timer U/a@.timer=[Timer]\nUnit=b@.service\n||missing U/a@.timer b@i.service
*a@i.timer U/a@.timer=[Timer]\nUnit=%i\nUnit=b.service\n U/b.service|U/a@.timer=a-i.timer|
*c.timer *b.timer *a.timer U/a.timer U/b.timer U/c.timer E/b.service= U/c.service|U/c.timer|missing U/a.timer a.service,mask U/b.timer b.service
*a.timer U/a.timer= ||U/a.timer masked
*a.timer||D/a.timer no such timer
*a.timer lib>usr/lib U/a.timer||missing B/a.timer a.service
E/y.target.wants/a.timer>y U/a.timer||wanted E/y.target.wants/a.timer y.target
ROWS
program_sources --all <<'ROWS'
U/a.timer||missing U/a.timer a.service
U/a.timer E/a.service>/dev/null U/b.timer U/b.service|U/b.timer|mask U/a.timer a.service
ROWS
program_has_services=yes

# ---- drop-ins

# Each row: a timer, its directories in order, and directories that aren't its own. Each directory has a file
# that all later ones have too, so that only its own file applies. The names of the files go backwards. The
# timer's file has its own name, or its template's.
sources_drop_ins() {
  local timer own others file given root folder name number names
  local -a folders
  while IFS='|' read -r timer own others; do
    file=$timer
    [[ $timer != *@* ]] || file=${timer%%@*}@.timer
    given=U/$file
    [ "$file" = "$timer" ] || given+="=${timer//@/-}"
    root="*$timer U/$file" names=''
    IFS=' ' read -r -a folders <<<"$own timer"
    for number in "${!folders[@]}"; do
      name=$((9 - number)).conf
      names="+U/${folders[number]}.d/$name $names"
      for folder in "${folders[@]:number}"; do
        root+=" U/$folder.d/$name"
      done
    done
    echo "$root|$given ${names% }|"
    root="*$timer U/$file"
    for folder in $others; do
      root+=" U/$folder.d/x.conf E/$folder.d/y.conf"
    done
    echo "$root|$given|"
  done
}

program_sources < <(
  sources_drop_ins <<'ROWS'
a.timer|a.timer|a b.timer a-.timer .timer a.service service unit a@.timer
a-b.timer|a-b.timer a-.timer|a.timer -.timer a-b-.timer -b.timer b.timer
a-b-c.timer|a-b-c.timer a-b-.timer a-.timer|a.timer a-b.timer -.timer
a-.timer|a-.timer|a.timer a--.timer -.timer
-a.timer|-a.timer|-.timer a.timer
-a-.timer|-a-.timer|-.timer -a.timer a-.timer
--a.timer|--a.timer --.timer|-.timer a.timer
a--b.timer|a--b.timer a--.timer a-.timer|a.timer -.timer
-a-b.timer|-a-b.timer -a-.timer|-.timer a-.timer
a.b-c.timer|a.b-c.timer a.b-.timer|a.timer a-.timer
a@i.timer|a@i.timer a@.timer|a.timer i.timer @i.timer @.timer a@j.timer a-i.timer
a@i-j.timer|a@i-j.timer a@.timer|a@i-.timer a@i.timer
a@i@j.timer|a@i@j.timer a@.timer|a@i@.timer a@i.timer a@j.timer
a-b@i.timer|a-b@i.timer a-b@.timer a-.timer a-@i.timer a-@.timer|a.timer a@.timer a@i.timer a-b.timer a-b-i.timer a-b-.timer
a-b@i-j.timer|a-b@i-j.timer a-b@.timer a-.timer a-@i-j.timer a-@.timer|a-b@i-.timer a@i-j.timer
a-b-c@i.timer|a-b-c@i.timer a-b-c@.timer a-b-.timer a-.timer a-b-@i.timer a-b-@.timer a-@i.timer a-@.timer|a-b@i.timer a-b@.timer a-b.timer a.timer
-a@i.timer|-a@i.timer -a@.timer|-.timer -@i.timer -@.timer
a-@i.timer|a-@i.timer a-@.timer|a-.timer a@i.timer a@.timer
ROWS
)

# The directories of units decide before the names of directories; timer.d comes last.
program_sources <<'ROWS'
*a.timer E/a.timer U/a.timer.d/x.conf|E/a.timer +U/a.timer.d/x.conf|
*a-b.timer U/a-b.timer E/a-.timer.d/x.conf U/a-b.timer.d/x.conf|U/a-b.timer +E/a-.timer.d/x.conf|
*a-b.timer U/a-b.timer B/a-.timer.d/x.conf U/a-b.timer.d/x.conf|U/a-b.timer +B/a-.timer.d/x.conf|
*a@b.timer U/a@.timer E/a@.timer.d/x.conf U/a@b.timer.d/x.conf|U/a@.timer=a-b.timer +E/a@.timer.d/x.conf|
*a.timer U/a.timer E/timer.d/x.conf U/a.timer.d/x.conf|U/a.timer +U/a.timer.d/x.conf|
*a.timer U/a.timer A/timer.d/x.conf N/a.timer.d/x.conf|U/a.timer +N/a.timer.d/x.conf|
*a-b.timer U/a-b.timer E/timer.d/x.conf U/a-.timer.d/x.conf|U/a-b.timer +U/a-.timer.d/x.conf|
*a.timer U/a.timer E/timer.d/x.conf U/timer.d/x.conf|U/a.timer +E/timer.d/x.conf|
*a.timer U/a.timer L/timer.d/x.conf B/timer.d/x.conf|U/a.timer +L/timer.d/x.conf|
*a.timer U/a.timer E/a.timer.d/c.conf R/a.timer.d/a.conf L/a.timer.d/e.conf B/a.timer.d/b.conf U/a.timer.d/d.conf|U/a.timer +R/a.timer.d/a.conf +B/a.timer.d/b.conf +E/a.timer.d/c.conf +U/a.timer.d/d.conf +L/a.timer.d/e.conf|
*a.timer U/a.timer E/timer.d/a.conf E/a.timer.d/b.conf U/timer.d/c.conf|U/a.timer +E/timer.d/a.conf +E/a.timer.d/b.conf +U/timer.d/c.conf|
*a.timer U/a.timer U/a.timer.d/a.conf U/a.timer.d/_.conf U/a.timer.d/B.conf U/a.timer.d/-.conf U/a.timer.d/9.conf U/a.timer.d/10.conf U/a.timer.d/a-.conf|U/a.timer +U/a.timer.d/-.conf +U/a.timer.d/10.conf +U/a.timer.d/9.conf +U/a.timer.d/B.conf +U/a.timer.d/_.conf +U/a.timer.d/a-.conf +U/a.timer.d/a.conf|
*a.timer *b.timer U/a.timer U/b.timer U/timer.d/x.conf E/b.timer.d/y.conf|U/a.timer +U/timer.d/x.conf U/b.timer +U/timer.d/x.conf +E/b.timer.d/y.conf|
*a@b.timer *a@c.timer U/a@.timer U/a@.timer.d/x.conf U/a@c.timer.d/y.conf|U/a@.timer=a-b.timer +U/a@.timer.d/x.conf U/a@.timer=a-c.timer +U/a@.timer.d/x.conf +U/a@c.timer.d/y.conf|
*a@b.timer U/a@b.timer U/a@.timer.d/x.conf|U/a@b.timer=a-b.timer +U/a@.timer.d/x.conf|
*a.timer E/a.timer>/opt/b.timer opt/b.timer U/a.timer.d/x.conf U/b.timer.d/y.conf|E/a.timer +U/a.timer.d/x.conf|
*b.timer E/a.timer>b.timer E/b.timer E/a.timer.d/x.conf|E/b.timer|
*a.timer E/a.timer>b.timer E/b.timer E/b.timer.d/x.conf|E/b.timer +E/b.timer.d/x.conf|
ROWS

# Which entries are drop-ins, and masks of them. Nothing is reported twice.
program_sources <<'ROWS'
*a.timer U/a.timer U/a.timer.d/.x.conf U/a.timer.d/.conf U/a.timer.d/conf U/a.timer.d/x.conf~ U/a.timer.d/x U/a.timer.d/x.Conf U/a.timer.d/xconf U/a.timer.d/y/x.conf|U/a.timer|
*a.timer U/a.timer U/a.timer.d/x\x20y.conf U/a.timer.d/*.conf U/a.timer.d/[a].conf|U/a.timer +U/a.timer.d/*.conf +U/a.timer.d/[a].conf +U/a.timer.d/x\x20y.conf|
*a.timer U/a.timer E/a.timer.d/x.conf= U/a.timer.d/x.conf|U/a.timer|E/a.timer.d/x.conf masked
*a.timer U/a.timer E/a.timer.d/x.conf>/dev/null U/a.timer.d/x.conf|U/a.timer|E/a.timer.d/x.conf masked
*a.timer U/a.timer E/a.timer.d/x.conf>../../../../dev/null U/a.timer.d/x.conf|U/a.timer|E/a.timer.d/x.conf masked
*a.timer U/a.timer E/a.timer.d/x.conf>/opt/e opt/e= U/a.timer.d/x.conf U/a.timer.d/y.conf|U/a.timer +U/a.timer.d/y.conf|E/a.timer.d/x.conf masked
*a-b.timer U/a-b.timer U/a-b.timer.d/x.conf= U/a-.timer.d/x.conf U/timer.d/x.conf|U/a-b.timer|U/a-b.timer.d/x.conf masked
*a.timer *b.timer U/a.timer U/b.timer U/timer.d/x.conf= |U/a.timer U/b.timer|U/timer.d/x.conf masked
*a.timer U/a.timer E/a.timer.d/x.conf U/a.timer.d/x.conf= |U/a.timer +E/a.timer.d/x.conf|
*a.timer U/a.timer E/timer.d/x.conf= U/a.timer.d/x.conf|U/a.timer +U/a.timer.d/x.conf|
*a.timer E/a.timer= U/a.timer E/a.timer.d/x.conf||E/a.timer masked
*a.timer U/a.timer E/a.timer.d/x.conf>/opt/x opt/x U/a.timer.d/x.conf|U/a.timer +E/a.timer.d/x.conf|
*a.timer U/a.timer E/a.timer.d/x.conf>/usr/lib/systemd/system/b.timer.d/y.conf U/b.timer.d/y.conf|U/a.timer +E/a.timer.d/x.conf|
*a.timer U/a.timer E/a.timer.d/x.conf>x.conf U/a.timer.d/x.conf|U/a.timer|E/a.timer.d/x.conf not readable
*a.timer U/a.timer E/a.timer.d/x.conf/ U/a.timer.d/x.conf U/a.timer.d/y.conf|U/a.timer +U/a.timer.d/y.conf|E/a.timer.d/x.conf not readable
*a.timer U/a.timer E/a.timer.d/x.conf! U/a.timer.d/x.conf|U/a.timer|E/a.timer.d/x.conf not readable
*a.timer U/a.timer E/a.timer.d/x.conf>/nowhere|U/a.timer|E/a.timer.d/x.conf not readable
*a.timer U/a.timer E/a.timer.d/x.conf U/a.timer.d/x.conf/|U/a.timer +E/a.timer.d/x.conf|
*a@b.timer *a@c.timer U/a@.timer E/a@.timer.d/x.conf/|U/a@.timer=a-b.timer U/a@.timer=a-c.timer|E/a@.timer.d/x.conf not readable
*a.timer *b.timer U/a.timer U/b.timer U/timer.d/x.conf!|U/a.timer U/b.timer|U/timer.d/x.conf not readable
*a.timer U/a.timer E/a.timer.d>/opt/d opt/d/x.conf|U/a.timer +E/a.timer.d/x.conf|
*a.timer U/a.timer E/a.timer.d>b.timer.d E/b.timer.d/x.conf U/a.timer.d/x.conf|U/a.timer +E/a.timer.d/x.conf|
*a.timer U/a.timer E/timer.d>/opt/d opt/d/x.conf U/timer.d/x.conf|U/a.timer +E/timer.d/x.conf|
*a.timer U/a.timer E/a.timer.d>../../../opt/d opt/d/x.conf>../y opt/y|U/a.timer +E/a.timer.d/x.conf|
*a.timer U/a.timer E/a.timer.d>/opt/d opt/d/x.conf= U/a.timer.d/x.conf|U/a.timer|E/a.timer.d/x.conf masked
*a.timer U/a.timer E/a.timer.d>/nowhere U/a.timer.d/x.conf|U/a.timer +U/a.timer.d/x.conf|
ROWS

# ---- what isn't planned, and the cron daemon

program_sources <<'ROWS'
etc/anacrontab|| anacron
etc/anacrontab=|| anacron
etc/anacrontab>/opt/x opt/x||anacron
etc/anacrontab/||
etc/anacrontab>nowhere||
etc/anacrontab>/dev/null||
F/atjobs/a0000301a2b3c4||at F/atjobs
F/atjobs/ var/spool/at/.SEQ||
F/atjobs/.SEQ F/atspool/x||
F/atjobs/a/b||
F/atjobs/a>nowhere||
F/atjobs>/opt/x opt/x/a||at F/atjobs
var/spool/at/a var/spool/at/spool/b||at var/spool/at
var/spool/atd/a||at var/spool/atd
var/spool/atjobs/a var/spool/atspool/b||at var/spool/atjobs
home/ann/.config/systemd/user/a.timer||user home/ann/.config/systemd/user
root/.config/systemd/user/a.timer||user root/.config/systemd/user
home/ann/.config/systemd/user/timers.target.wants/a.timer>/usr/lib/systemd/user/a.timer||user home/ann/.config/systemd/user
home/ann/.config/systemd/user/a.timer>/opt/a.timer||user home/ann/.config/systemd/user
home/ann/.config/systemd/user/a.service home/bo/.config/systemd/a.timer home/a.timer||
home/ann/.config/systemd/user/a.timer>/dev/null home/ann/.config/systemd/user/.b.timer||
home/ann/.config/systemd/user/a.timer/ home/ann/.config/systemd/user/.x/b.timer||
home/.ann/.config/systemd/user/a.timer srv/ann/.config/systemd/user/a.timer||
home/ann/.config>../.files home/.files/systemd/user/a.timer||user home/ann/.config/systemd/user
home>/srv/home srv/home/ann/.config/systemd/user/a.timer||user home/ann/.config/systemd/user
home/ann/.config>nowhere home/bo||
home/a\x20b/.config/systemd/user/a.timer||user home/a\x20b/.config/systemd/user
home/b/.config/systemd/user/a.timer home/B/.config/systemd/user/a.timer||user home/B/.config/systemd/user,user home/b/.config/systemd/user
usr/lib/systemd/user/a.timer etc/systemd/user/a.timer||
ROWS

# Monotonic timers are sources, and are reported by the other commands.
program_sources <<'ROWS'
*a.timer U/a.timer=[Timer]\nOnBootSec=5\n|U/a.timer|
ROWS

# All lines in their order: crontabs, timers, what isn't planned, the cron daemon. Without crontabs nothing needs one.
program_has_services=no
program_sources <<'ROWS'
etc/anacrontab C/a.b C/c/ F/atjobs/a var/spool/at/b home/ann/.config/systemd/user/a.timer root/.config/systemd/user/b.timer *a.timer U/a.timer *b.timer U/b.timer= E/y.target.wants/c.timer>y U/c.timer||C/a.b bad name,C/c not readable,U/b.timer masked,wanted E/y.target.wants/c.timer y.target,anacron,missing U/a.timer a.service,at F/atjobs,at var/spool/at,user home/ann/.config/systemd/user,user root/.config/systemd/user
ROWS
program_has_services=yes
machine_has_cron=no
program_sources <<'ROWS'
etc/anacrontab C/a.b C/a F/atjobs/a root/.config/systemd/user/b.timer %a|C/a U/a.timer|C/a.b bad name,anacron,at F/atjobs,user root/.config/systemd/user,cron
etc/crontab|etc/crontab|cron
C/a|C/a|cron
S/a|S/a|cron
T/a|T/a|cron
F/a|F/a|cron
%a|U/a.timer|
C/a.b||C/a.b bad name
C/a usr/sbin/cron|C/a|
C/a usr/sbin/crond|C/a|
C/a usr/bin/crond|C/a|
C/a usr/sbin/cronie|C/a|
C/a usr/sbin/fcron|C/a|
C/a usr/sbin/bcron-sched|C/a|
C/a usr/lib/systemd/system-generators/systemd-crontab-generator|C/a|
C/a lib/systemd/system-generators/systemd-crontab-generator|C/a|
C/a etc/systemd/system-generators/systemd-crontab-generator usr/local/lib/systemd/system-generators/systemd-crontab-generator|C/a|cron
C/a usr/bin/cron usr/sbin/anacron sbin/cron usr/sbin/atd|C/a|cron
C/a usr/sbin/cron/|C/a|cron
C/a usr/sbin/cron>nowhere|C/a|cron
C/a usr/sbin/cron>/dev/null|C/a|cron
C/a usr/sbin/cron>/opt/cron opt/cron|C/a|
C/a usr/sbin>bin usr/bin/crond|C/a|
C/a usr/sbin/crond>crond|C/a|
ROWS
machine_has_cron=yes

# ---- how the root is given

# Rows of a root as it is given, and of the prefix of the paths then. The directory below is `root`.
sources_roots() {
  local given front text
  program_make 'etc/crontab C/a.b *a.timer U/a.timer E/a.timer.d/x.conf'
  while IFS='|' read -r given front; do
    given=${given/PWD/$machine_folder} front=${front/PWD/$machine_folder}
    program_shown "$front"
    printf '%s\t%s\t%s\n' system-crontab crontab "$text/etc/crontab" timer a.timer "$text/usr/lib/systemd/system/a.timer" \
      drop-in a.timer "$text/etc/systemd/system/a.timer.d/x.conf" >"$work/out.wanted"
    echo "agenda: skipped $text/etc/cron.d/a.b: bad name" >"$work/err.wanted"
    program_run sources --root="$given"
    program_compare "--root '$given'" "$work/out.wanted" "$work/err.wanted" 0
    program_run sources "--root=$given" --json
    program_string "$front"
    {
      printf '{"kind":"system-crontab","name":"crontab","path":"%s/etc/crontab"}\n' "$text"
      printf '{"kind":"timer","name":"a.timer","path":"%s/usr/lib/systemd/system/a.timer"}\n' "$text"
      printf '{"kind":"drop-in","name":"a.timer","path":"%s/etc/systemd/system/a.timer.d/x.conf"}\n' "$text"
    } >"$work/out.wanted"
    program_compare "--root '$given' --json" "$work/out.wanted" "$work/err.wanted" 0
  done
}

ln -s root "$machine_folder/way"
sources_roots <<'ROWS'
root|root
root/|root
root///|root
./root|./root
../machine/root|../machine/root
PWD/root|PWD/root
PWD//root/|PWD//root
way|way
way/|way
ROWS

# In a line about the root itself it is without slashes at its end, too.
machine_has_cron=no
program_make C/a
machine_has_cron=yes
for sources_name in root/ root///; do
  program_listing C/a
  program_lines cron
  program_run sources --root "$sources_name"
  program_compare "sources --root $sources_name without a cron daemon" "$work/out.wanted" "$work/err.wanted" 0
done

# Odd names of a root, which are copies of it.
# shellcheck disable=SC1003,SC2016
sources_names=('a b' '[r]*' -r "'r\"" 'r\x' 'à' '$r' '~' 'r:1: x' 'r&' '%i' '#' $'r\nr' $'r\t\x7f' 'r\')
program_make 'etc/crontab C/a.b *a.timer U/a.timer E/a.timer.d/x.conf'
for sources_name in "${sources_names[@]}"; do
  cp -R -- "$machine_folder/root" "$machine_folder/$sources_name"
done
for sources_name in "${sources_names[@]}"; do
  machine_root=$sources_name
  program_listing 'etc/crontab U/a.timer +E/a.timer.d/x.conf'
  program_lines 'C/a.b bad name'
  program_run sources --root="$sources_name"
  program_compare "sources of a root with an odd name" "$work/out.wanted" "$work/err.wanted" 0
  program_run sources --json --root="$sources_name"
  program_compare "sources --json of a root with an odd name" "$work/objects.wanted" "$work/err.wanted" 0
  machine_root=root
  rm -rf -- "${machine_folder:?}/$sources_name"
done

# Copies the program and its libraries into the root, and sets `sources_own` to what runs it there. Fails if that can't be
# done here.
sources_make_own() {
  local library
  while IFS= read -r library; do
    mkdir -p "$machine_folder/root${library%/*}" && cp -L -- "$library" "$machine_folder/root$library"
  done < <(ldd "$program" 2>/dev/null | grep -o '/[^ ]*')
  cp -L -- "$program" "$machine_folder/root/agenda"
  chmod -R a+rX "$machine_folder/root"
  sources_own=(chroot "$machine_folder/root" /agenda)
  [ "$(id -u)" = 0 ] || sources_own=(unshare -r "${sources_own[@]}")
  "${sources_own[@]}" --version >/dev/null 2>&1 </dev/null
}

# The machine that runs the program: all paths begin with `/`.
machine_has_cron=no
program_make 'etc/crontab C/a.b %a E/a.timer.d/x.conf E/y.target.wants/b.timer>y U/b.timer'
machine_has_cron=yes
if sources_make_own; then
  machine_root=
  program_listing 'etc/crontab U/a.timer +E/a.timer.d/x.conf'
  program_lines 'C/a.b bad name,wanted E/y.target.wants/b.timer y.target'
  echo 'agenda: no cron daemon below /: crontabs start nothing' >>"$work/err.wanted"
  machine_root=root
  for sources_name in '' '--root /' '--root=//' '--root ///'; do
    read -r -a sources_names <<<"$sources_name"
    run_in "$machine_folder" "${sources_own[@]}" machine sources "${sources_names[@]}"
    program_compare "sources of this machine, $sources_name" "$work/out.wanted" "$work/err.wanted" 0
    run_in "$machine_folder" "${sources_own[@]}" machine sources --json "${sources_names[@]}"
    program_compare "sources --json of this machine, $sources_name" "$work/objects.wanted" "$work/err.wanted" 0
  done
else
  echo "agenda machine sources: skipped the rows without --root, since the program can't be run in another root here"
fi

# What is no directory.
sources_no_directories() {
  local given shown
  program_make file
  while IFS='|' read -r given shown; do
    program_run sources --root="$given"
    echo "agenda: $shown: not a directory" >"$work/err.wanted"
    program_compare "no directory '$given'" /dev/null "$work/err.wanted" 1
  done
}

sources_no_directories <<'ROWS'
missing|missing
missing//|missing
root/file|root/file
root/file/|root/file
root/file/x|root/file/x
/dev/null|/dev/null
ROWS

# ---- arguments

program_usage <<'ROWS'
frob
sources|x
sources|--frob
sources|--root
sources|--root|root|--root|root
sources|--root|root|tomorrow
sources|--root|root|--utc
sources|--root|root|--zone|UTC
sources|--root|root|--since|now
sources|--root|root|--until|now
sources|--root|root|--after|now
sources|--root|root|--table
sources|--root|root|--text
sources|--root|root|--strict
sources|--root|root|--crontab|root/etc/crontab
sources|--root|root|--keep-going
sources|--root|root|--all=yes
sources|--root|root|--all|--all
sources|--root|root|--json|--json
sources|--root|root|plan
ROWS

# ---- what can't be written

if [ -c /dev/full ]; then
  program_make 'etc/crontab %a'
  run_in "$machine_folder" bash -c 'exec agenda machine sources --root root >/dev/full'
  : >"$work/err"
  program_compare "sources >/dev/full" /dev/null /dev/null 3
fi
program_make 'etc/crontab %a'
run_in "$machine_folder" bash -c 'exec agenda machine sources --root root >&-'
: >"$work/err"
program_compare "sources, standard output closed" /dev/null /dev/null 3
