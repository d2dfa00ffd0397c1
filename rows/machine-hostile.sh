# shellcheck shell=bash disable=SC2154,SC2034
# Rows of `agenda machine sources` about trees that are not what they should be: links that lead out or in circles,
# directories in place of files, odd names, large and many files, and directories without permissions. Expected lines are
# worked out by hand from docs/FORMATS.md.

# shellcheck source=/dev/null
. "$top/rows/lib/program.sh"

# ---- links and other things that are not what they should be

# Links are followed as if the root were the machine's.
echo outside >"$machine_folder/outside"
mkdir "$machine_folder/outer.d"
echo outside >"$machine_folder/outer.d/a"
program_sources <<'ROWS'
etc/crontab>/opt/x opt/x|etc/crontab|
etc/crontab>../../../../../../../opt/x opt/x|etc/crontab|
etc/crontab>../outside outside|etc/crontab|
etc/crontab>../../outside outside|etc/crontab|
etc/crontab>/../outside outside|etc/crontab|
etc/crontab>/opt/x opt/x>y opt/y>/opt/z opt/z>../../w w|etc/crontab|
etc/crontab>/opt/../x opt>srv/y srv/x srv/y/|etc/crontab|
etc/crontab>/opt/../x opt>srv/y x srv/y/||etc/crontab not readable
etc>o/p o/p/crontab>../x o/x|etc/crontab|
etc>../../o o/crontab|etc/crontab|
etc>/ crontab cron.d/a|etc/crontab C/a|
etc/crontab>\x2f\x2fopt\x2f\x2f.\x2fx opt/x|etc/crontab|
etc/cron.d>/opt/c opt/c/a>../x opt/x|C/a|
etc/cron.d>../../../outer.d outer.d/a|C/a|
var/spool>/opt/s opt/s/cron/crontabs/a|S/a|
var>usr/var usr/var/spool/cron/a|F/a|not F/a cron ignores this file: mode 0644; not 0600
*a.timer E/a.timer>../../../../../outside outside|E/a.timer|
*a.timer E/a.timer>/opt/b opt>/srv srv/b|E/a.timer|
etc/systemd>/opt/s opt/s/system/x.target.wants/a.timer>b opt/s/system/a.timer|E/a.timer|
*a.timer U/a.timer U/a.timer.d/x.conf>/opt/x opt/x|U/a.timer +U/a.timer.d/x.conf|
*a.timer usr/lib/systemd>/opt/s opt/s/system/a.timer.d/x.conf opt/s/system/a.timer|U/a.timer +U/a.timer.d/x.conf|
ROWS

# What leads out of the root leads nowhere, absolute or by `..`.
program_sources <<ROWS
etc/crontab>$machine_folder/outside C/a>$machine_folder/outside S/a>$machine_folder/outside||etc/crontab not readable,C/a not readable,S/a not readable
etc/crontab>../../outside C/a>../../../outside S/a>../../../../../outside||etc/crontab not readable,C/a not readable,S/a not readable
*a.timer E/a.timer>$machine_folder/outside||E/a.timer not readable
*a.timer E/a.timer>../../../../outside||E/a.timer not readable
etc/cron.d>../../outer.d||etc/cron.d not readable
etc/cron.d>$machine_folder/outer.d||etc/cron.d not readable
etc>$machine_folder||
etc>../..  cron.d/a|C/a|
*a.timer U/a.timer E/a.timer.d/x.conf>$machine_folder/outside|U/a.timer|E/a.timer.d/x.conf not readable
ROWS

# Circles of links, also of directories.
program_sources <<'ROWS'
etc/crontab>crontab||etc/crontab not readable
etc/crontab>/etc/x etc/x>../etc/crontab||etc/crontab not readable
C/a>../cron.d/b C/b>./a C/c>/etc/cron.d/c||C/a not readable,C/b not readable,C/c not readable
etc/cron.d>/etc/x etc/x>cron.d||etc/cron.d not readable
etc/cron.d>. etc/a|C/a|C/cron.d bad name
etc/cron.d>/etc/cron.d/x||etc/cron.d not readable
etc>etc||etc/crontab not readable,etc/cron.d not readable
var/spool/cron>cron||var/spool/cron/crontabs not readable
S/a>../crontabs/a S/b|S/b|S/a not readable
usr/lib>/usr/lib/x C/a|C/a|
*a.timer E/a.timer>/opt/a opt/a>/opt/b opt/b>a||E/a.timer not readable
D/a.timer>a.timer D/b.timer>/etc/systemd/system/x.target.wants/b.timer U/a.timer U/b.timer|U/a.timer U/b.timer|
*a.timer E/a.timer>b.timer E/b.timer>c.timer E/c.timer>a.timer||D/a.timer no such timer
*a.timer U/a.timer U/a.timer.d/x.conf>y.conf U/a.timer.d/y.conf>x.conf|U/a.timer|U/a.timer.d/x.conf not readable,U/a.timer.d/y.conf not readable
D/s.service>y U/s.service=[Unit]\nWants=s.service\x20t.service\n U/t.service=[Unit]\nBindsTo=s.service\n D/t.service>y %a|U/a.timer|
ROWS

# Directories that are links: they lead below the root, and in circles nowhere.
program_sources <<'ROWS'
E/x.target.wants>../../../../../../../opt/w opt/w/a.timer>y U/a.timer|U/a.timer|
E/x.target.wants>/outer.d outer.d/a.timer>y U/a.timer|U/a.timer|
E/x.target.wants>../../../../outer.d U/a.timer||
E/x.target.wants>x.target.wants U/x.target.wants/a.timer>y U/a.timer|U/a.timer|
E/x.target.wants>.. E/x.target.requires>/ E/x.target.d>/etc U/x.target.wants/a.timer>y U/a.timer|U/a.timer|
*a.timer U/a.timer E/a.timer.d>a.timer.d/b U/timer.d>/|U/a.timer|
*a.timer U/a.timer E/a.timer.d>/opt/d opt/d|U/a.timer|
*a.timer U/a.timer E/a.timer.d>/opt/d opt/d!|U/a.timer|
ROWS

# Prints a root in which the path $1 leads to /x by $2 links. $3 are its other entries.
hostile_chain() {
  local number
  printf '%s %s>/l/2' "$3" "$1"
  for ((number = 2; number < $2; number++)); do
    printf ' l/%d>%d' "$number" $((number + 1))
  done
  printf ' l/%d>/x' "$2"
}

# Rows from standard input: a path that is found by 40 links and not by 41, the other entries of the root, the source,
# what isn't readable if that isn't the path, and what is reported of the source that is found.
hostile_chains() {
  local path others source unread reported
  while IFS='|' read -r path others source unread reported; do
    program_sources < <(
      printf '%s|%s|%s\n' "$(hostile_chain "$path" 40 "$others")" "$source" "$reported"
      printf '%s||%s not readable\n' "$(hostile_chain "$path" 41 "$others")" "${unread:-$path}"
    )
  done
}

hostile_chains <<'ROWS'
etc/crontab|x|etc/crontab
C/a|x|C/a
S/a|x|S/a||not S/a cron ignores this file: a link; not a regular file
E/a.timer|x *a.timer|E/a.timer
etc/cron.d|x/a|C/a
var/spool/cron|x/a|F/a|var/spool/cron/crontabs|not F/a cron ignores this file: mode 0644; not 0600
ROWS

# The links of directories and of the file count together: 2 of `etc`, 38 or 39 of the file.
program_sources < <(
  printf '%s etc>opt/e opt>srv|C/a|\n' "$(hostile_chain srv/e/cron.d/a 38 x)"
  printf '%s etc>opt/e opt>srv||C/a not readable\n' "$(hostile_chain srv/e/cron.d/a 39 x)"
)

# Directories where files are expected, and the other way round.
program_sources <<'ROWS'
etc/crontab/x C/a/b S/c/d||etc/crontab not readable,C/a not readable,S/c not readable
etc/cron.d var/spool/cron/crontabs|F/crontabs|etc/cron.d not readable
etc/cron.d var/spool||etc/cron.d not readable
etc var/spool/cron/a|F/a|
etc var||
usr/lib/systemd lib *a.timer L/a.timer|L/a.timer|
etc/systemd/system U/x.target.wants/a.timer>x U/a.timer|U/a.timer|
E/x.target.wants U/x.target.wants/a.timer>x U/a.timer|U/a.timer|
E/x.target/ *a.timer U/a.timer|U/a.timer|
*a.timer U/a.timer E/a.timer.d U/a.timer.d/x.conf|U/a.timer +U/a.timer.d/x.conf|
*a.timer U/a.timer/x||D/a.timer no such timer
*a.timer U/a.timer U/a.timer.d/x.conf/y.conf|U/a.timer|U/a.timer.d/x.conf not readable
etc/anacrontab/x home root||
C/a>/opt/p S/a>/opt/p etc/crontab>/opt/p opt/p!||etc/crontab not readable,C/a not readable,S/a not readable
*a.timer E/a.timer>/opt/p opt/p!||E/a.timer not readable
*a.timer U/a.timer U/a.timer.d/x.conf>/opt/p opt/p!|U/a.timer|U/a.timer.d/x.conf not readable
E/x.target.d/w.conf! E/x.target.d/y.conf=[Unit]\nWants=a.timer\n U/a.timer|U/a.timer|
E/x.target! *a.timer U/a.timer|U/a.timer|
*a.timer U/a.timer U/a.timer.d! E/timer.d! E/x.target.requires!|U/a.timer|
E/x.target.wants! U/x.target.wants/a.timer>y U/a.timer|U/a.timer|
etc! var! home!||
ROWS

# Control characters, quotes and backslashes in names.
program_sources <<'ROWS'
C/a\nb||C/a\nb bad name
C/a\x01\x09\x1b\x7f C/b\x0d\x0a||C/a\x01\x09\x1b\x7f bad name,C/b\x0d\x0a bad name
C/\n C/a|C/a|C/\n bad name
S/a\nagenda:\x20x||S/a\nagenda:\x20x bad name
C/a\\nb C/a\\\\||C/a\\\\ bad name,C/a\\nb bad name
C/a"b C/a'b C/$a C/`a` C/\xc2\x80||C/$a bad name,C/`a` bad name,C/a"b bad name,C/a'b bad name,C/\xc2\x80 bad name
C/a\xc2\x9fb C/a\xc2\xa0 C/a\xe2\x82\xac||C/a\xc2\x9fb bad name,C/a\xc2\xa0 bad name,C/a\xe2\x82\xac bad name
*a\nb.timer U/a\nb.timer||D/a\nb.timer bad name
*a\\x2db.timer U/a\\x2db.timer|U/a\\x2db.timer|
*a.timer U/a.timer U/timer.d/a\nb\x01\x7f.conf U/timer.d/a"b\\.conf U/a.timer.d/x\ty.conf|U/a.timer +U/timer.d/a\nb\x01\x7f.conf +U/timer.d/a"b\\.conf +U/a.timer.d/x\ty.conf|
*a.timer U/a.timer U/timer.d/\x08\x0c\x0d\x1f\xc3\xa0.conf|U/a.timer +U/timer.d/\x08\x0c\x0d\x1f\xc3\xa0.conf|
*a.timer U/a.timer U/timer.d/\n.conf= |U/a.timer|U/timer.d/\n.conf masked
*a.timer U/a.timer U/timer.d/\n.conf/|U/a.timer|U/timer.d/\n.conf not readable
E/a\nb.target.wants/c.timer>y U/c.timer||wanted E/a\nb.target.wants/c.timer a\x0ab.target
home/a\nb/.config/systemd/user/a.timer||user home/a\nb/.config/systemd/user
C/a>x\ny etc/cron.d/x\ny|C/a|C/x\ny bad name
ROWS

# Names that aren't UTF-8 are ignored. That is reported, of directories of crontabs before their names, and of directories of
# units, of links that are read, and of drop-ins of timers that are sources. A link whose text isn't UTF-8 leads nowhere.
program_sources <<'ROWS'
C/\xff||etc/cron.d a name that isn't UTF-8
C/\xff C/a C/a.b C/\xc3 C/\xed\xa0\x80|C/a|etc/cron.d a name that isn't UTF-8,C/a.b bad name
S/\xff S/a|S/a|var/spool/cron/crontabs a name that isn't UTF-8
T/a\xff S/ T/a||
T/a\xff T/a|T/a|var/spool/cron/tabs a name that isn't UTF-8
F/\xff/ F/a|F/a|var/spool/cron a name that isn't UTF-8
C/\xff/ S/\xff!||etc/cron.d a name that isn't UTF-8,var/spool/cron/crontabs a name that isn't UTF-8
C/a>\xff C/b|C/b|C/a not readable
C/a>b\xff C/b\xff||etc/cron.d a name that isn't UTF-8,C/a not readable
etc/\xff var/spool/\xff etc/crontab|etc/crontab|
*\xff.timer *a.timer U/\xff.timer U/a.timer U/timer.d/\xff.conf U/\xff.timer.d/x.conf|U/a.timer|usr/lib/systemd/system a name that isn't UTF-8,run/systemd/generator.late a name that isn't UTF-8,etc/systemd/system/x.target.wants a name that isn't UTF-8,usr/lib/systemd/system/timer.d a name that isn't UTF-8
%a U/x.target.wants/b\xff.timer>y E/\xff.wants/a.timer>y|U/a.timer|etc/systemd/system a name that isn't UTF-8,run/systemd/generator.late a name that isn't UTF-8,usr/lib/systemd/system/x.target.wants a name that isn't UTF-8
%a E/y.target.wants/\xff>y E/b.timer.d/\xff E/x.target.d/\xff.conf|U/a.timer|
E/x.target=[Unit]\nWants=\xff.timer\x20a.timer\n U/a.timer||
home/\xff/.config/systemd/user/a.timer home/a/.config/systemd/user/\xff.timer||run/systemd/generator.late a name that isn't UTF-8
ROWS
program_sources --all <<'ROWS'
U/\xff.timer U/a.timer|U/a.timer|usr/lib/systemd/system a name that isn't UTF-8,run/systemd/generator.late a name that isn't UTF-8
ROWS

# ---- sizes

# Files of any size are sources: they are read by the other commands.
program_make 'etc/crontab= C/a S/b=x *a.timer U/a.timer=[Timer]\n#'
for hostile_name in etc/crontab etc/cron.d/a usr/lib/systemd/system/a.timer; do
  head -c 1048600 /dev/zero | tr '\0' x >>"$machine_folder/root/$hostile_name"
done
program_is 'etc/crontab C/a S/b U/a.timer' '' 'large files'
truncate -s 3G "$machine_folder/root/etc/crontab"
program_is 'etc/crontab C/a S/b U/a.timer' '' 'a huge file'
rm -- "$machine_folder/root/etc/crontab"

# A template that wants ever longer names: by invalid characters it ends at once, and else at 255 bytes.
program_sources <<'ROWS'
E/x.target=[Unit]\nWants=y@b.service\x20a.timer\n U/y@.service=[Unit]\nWants=y@%i%%.service\n U/a.timer|U/a.timer|
E/x.target=[Unit]\nWants=y@b.service\x20a.timer\n U/y@.service=[Unit]\nWants=y@%i%i.service\n U/a.timer|U/a.timer|
E/x.target=[Unit]\nWants=y@b.service\x20a.timer\n U/y@.service=[Unit]\nWants=y@%ic.service\n U/a.timer|U/a.timer|
E/x.target.wants/y@b.service>y U/y@.service U/y@.service.wants/y@.service>y U/y@.service.requires/y@%i.service>y %a|U/a.timer|
ROWS

# A name of 255 bytes is that of a unit, and one of 256 isn't.
printf -v hostile_name 'n%.0s' {1..245}
program_sources <<ROWS
E/x.target=[Unit]\nWants=y@$hostile_name.service\n U/y@.service=[Unit]\nWants=a.timer\n U/a.timer|U/a.timer|
E/x.target=[Unit]\nWants=y@${hostile_name}n.service\n U/y@.service=[Unit]\nWants=a.timer\n U/a.timer||
ROWS

# A unit's file of the largest size, 1,048,576 bytes, and one with a byte more, whose settings aren't read.
for hostile_name in '1048576|U/a.timer' '1048577|'; do
  program_make 'E/x.target=[Unit]\nWants=a.timer\n# U/a.timer'
  head -c "$((${hostile_name%|*} - 22))" /dev/zero | tr '\0' x >>"$machine_folder/root/etc/systemd/system/x.target"
  program_is "${hostile_name#*|}" '' "a unit of ${hostile_name%|*} bytes"
done

# Many crontabs and timers, in their order.
program_make 'C/ U/ D/'
printf '%s\n' c{1000..1999} >"$work/names"
(cd "$machine_folder/root/etc/cron.d" && xargs touch) <"$work/names"
printf '%s\n' t{1000..1199} >"$work/timers"
while IFS= read -r hostile_name; do
  echo '#' >"$machine_folder/root/usr/lib/systemd/system/$hostile_name.timer"
  echo '#' >"$machine_folder/root/usr/lib/systemd/system/$hostile_name.service"
  ln -s y "$machine_folder/root/etc/systemd/system/x.target.wants/$hostile_name.timer"
done <"$work/timers"
{
  sed -E "s|(.*)|cron-d$tab\1${tab}root/etc/cron.d/\1|" "$work/names"
  sed -E "s|(.*)|timer$tab\1.timer${tab}root/usr/lib/systemd/system/\1.timer|" "$work/timers"
} >"$work/out.wanted"
program_run sources --root root
program_compare "1,000 crontabs and 200 timers" "$work/out.wanted" /dev/null 0

# 20,000 other files in a directory of units.
program_make '%a'
(cd "$machine_folder/root/usr/lib/systemd/system" && seq -f 'x%.0f.conf' 20000 | xargs touch)
program_is U/a.timer '' '20,000 files beside a timer'

# A name of many directories.
printf -v hostile_name 'd/%.0s' {1..1500}
program_make "etc/crontab>/${hostile_name}x"
(
  cd "$machine_folder/root" || exit
  for _ in {1..1500}; do
    mkdir d && cd d || exit
  done
  echo '#' >x
)
program_is etc/crontab '' '1,500 directories, one in the other'

# Prints a unit's text that wants a.timer, and $1 units of other names.
hostile_wants() {
  echo '[Unit]'
  seq -f 'Wants=u%.0f.service' "$1"
  echo 'Wants=a.timer'
}

# 10,000 units are reached, with default.target and a.timer; then one more, which is an error. Of clear the status 1 says that a job may
# start, so it has another one.
program_has_boot=no
program_make 'E/default.target U/a.timer'
program_has_boot=yes
hostile_wants 9998 >"$machine_folder/root/etc/systemd/system/default.target"
program_listing U/a.timer
program_run sources --root root
program_compare "10,000 units" "$work/out.wanted" /dev/null 0
hostile_wants 9999 >"$machine_folder/root/etc/systemd/system/default.target"
for hostile_question in 'sources 1' 'clear 4'; do
  program_run "${hostile_question% *}" --root root
  grep -vE '^agenda: .*10,?000 units' "$work/err" >"$work/err.other"
  grep -qE '^agenda: .*10,?000 units' "$work/err" || echo 'no line that says so' >>"$work/err.other"
  mv -- "$work/err.other" "$work/err"
  program_compare "${hostile_question% *} of 10,001 units" /dev/null /dev/null "${hostile_question#* }"
done

# ---- without rights

# The permissions of the paths in the rows.
hostile_mode=000

# Rows of a root, paths in it without permissions, its sources and the lines.
hostile_locked() {
  local root locked sources lines name
  while IFS='|' read -r root locked sources lines; do
    program_make "$root"
    for name in $locked; do
      machine_path "$name"
      chmod "$hostile_mode" "$machine_folder/root/$path"
    done
    program_is "$sources" "$lines" "$root with $hostile_mode on $locked"
    chmod -R u+rwX "$machine_folder/root"
  done
}

if machine_as_nobody && "${machine_by[@]}" "$machine_folder/whole/agenda" --version >/dev/null 2>&1; then
  hostile_locked <<'ROWS'
etc/crontab C/a S/b|etc/crontab C/a S/b||etc/crontab not readable,C/a not readable,S/b not readable
etc/crontab C/a|etc||etc/crontab not readable,etc/cron.d not readable,etc not readable
C/a C/b.c|etc/cron.d||etc/cron.d not readable
S/a|var/spool/cron/crontabs||var/spool/cron/crontabs not readable
T/a F/b|var/spool/cron/tabs||var/spool/cron/tabs not readable
F/a|var/spool/cron||var/spool/cron not readable
%a|U/a.timer||U/a.timer not readable
%a E/a.timer|E/a.timer||E/a.timer not readable
%a U/a.timer.d/x.conf|U/a.timer.d/x.conf|U/a.timer|U/a.timer.d/x.conf not readable
%a U/a.timer.d/x.conf|U/a.timer.d|U/a.timer|U/a.timer.d not readable
%a *b.timer U/timer.d/x.conf U/b.timer|U/timer.d|U/a.timer U/b.timer|U/timer.d not readable
%a E/b.timer.d/x.conf E/a.service.d/x.conf|E/b.timer.d E/a.service.d|U/a.timer|E/b.timer.d not readable,E/a.service.d not readable
E/x.target=[Unit]\nWants=a.timer\n U/a.timer|E/x.target||E/x.target not readable
%a|etc/systemd/system/x.target.wants||etc/systemd/system/x.target.wants not readable
%a E/y.target.wants/b.timer>y|E/y.target.wants|U/a.timer|E/y.target.wants not readable
%a E/target.requires/b.timer|E/target.requires|U/a.timer|E/target.requires not readable
%a|etc/systemd/system||etc/systemd/system not readable
%a *b.timer L/b.timer|usr/lib|L/b.timer|D/a.timer no such timer,usr/lib not readable
C/a>/opt/x opt/x|opt||C/a not readable,opt not readable
C/a>/opt/d/x opt/d/x|opt||C/a not readable,opt not readable
F/atjobs/a home/ann/.config/systemd/user/a.timer home/bo/.config/systemd/user/a.timer|F/atjobs home/ann||F/atjobs not readable,home/ann not readable,user home/bo/.config/systemd/user
C/a|usr/sbin|C/a|usr/sbin not readable
ROWS
  # directories that can be listed, and not searched
  hostile_mode=444
  hostile_locked <<'ROWS'
C/a C/b.c|etc/cron.d||etc/cron.d not readable
S/a|var/spool/cron/crontabs||var/spool/cron/crontabs not readable
F/a|var/spool/cron||var/spool/cron not readable
%a|etc/systemd/system||etc/systemd/system not readable
%a D/b.timer|etc/systemd/system/x.target.wants||etc/systemd/system/x.target.wants not readable
%a U/a.timer.d/x.conf|U/a.timer.d|U/a.timer|U/a.timer.d/x.conf not readable,U/a.timer.d not readable
F/atjobs/a home/ann/.config/systemd/user/a.timer|F/atjobs home/ann/.config/systemd/user||F/atjobs not readable,home/ann/.config/systemd/user not readable
ROWS
  hostile_mode=000
else
  echo "agenda machine sources: skipped the rows without rights, since setpriv can't drop those of root here"
fi
machine_by=()
