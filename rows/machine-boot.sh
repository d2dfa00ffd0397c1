# shellcheck shell=bash disable=SC2154,SC2034
# Rows of `agenda machine sources` about the units that the boot reaches, and so about the timers that are enabled: by
# links, settings, instances and aliases. The directories of units in their order are A G H I E J R K M L B U N; D has the
# enablement links of x.target, which the boot starts. Expected lines are worked out by hand from docs/FORMATS.md.

# shellcheck source=/dev/null
. "$top/rows/lib/program.sh"

# The directory of links of a reached unit in each directory of units, by both suffixes, and that of its type.
program_sources < <(
  for letter in "${program_units[@]}"; do
    echo "$letter/x.target.wants/a.timer>y U/a.timer|U/a.timer|"
    echo "$letter/x.target.requires/a.timer>y U/a.timer|U/a.timer|"
    echo "$letter/target.wants/a.timer>y U/a.timer|U/a.timer|"
    echo "$letter/default.target.wants/a.timer>y U/a.timer|U/a.timer|"
  done
)

# The file of default.target says which unit the boot starts.
program_has_boot=no
program_sources <<'ROWS'
*a.timer U/a.timer U/x.target||wanted D/a.timer x.target
U/default.target U/default.target.wants/a.timer>y U/a.timer|U/a.timer|
U/default.target=[Unit]\nWants=a.timer\n U/a.timer|U/a.timer|
U/default.target E/default.target.d/w.conf=#\x20caf\xe9\n[Unit]\nWants=a.timer\n U/a.timer|U/a.timer|
U/default.target>x.target U/x.target *a.timer U/a.timer|U/a.timer|
U/default.target>/etc/systemd/system/x.target U/x.target *a.timer U/a.timer|U/a.timer|
U/default.target>y.target U/y.target>x.target U/x.target *a.timer U/a.timer|U/a.timer|
U/default.target>x.target *a.timer U/a.timer||wanted D/a.timer x.target
U/default.target>/opt/t opt/t=[Unit]\nWants=a.timer\n U/a.timer|U/a.timer|
U/default.target>/opt/x.target opt/x.target U/x.target *a.timer U/a.timer||wanted D/a.timer x.target
U/default.target>x.service U/x.service *a.timer U/a.timer||wanted D/a.timer x.target
U/default.target/ N/default.target>x.target N/x.target *a.timer U/a.timer|U/a.timer|
E/default.target>/dev/null U/default.target>x.target U/x.target *a.timer U/a.timer||wanted D/a.timer x.target
E/default.target= U/default.target>x.target U/x.target *a.timer U/a.timer||wanted D/a.timer x.target
A/default.target>z.target E/default.target>x.target U/x.target U/z.target U/z.target.wants/b.timer>y U/b.timer *a.timer U/a.timer|U/b.timer|wanted D/a.timer x.target
E/default.target>default.target U/default.target>x.target U/x.target *a.timer U/a.timer|U/a.timer|
default.target>x.target etc/default.target U/x.target *a.timer U/a.timer||wanted D/a.timer x.target
U/default.target>graphical.target U/graphical.target=[Unit]\nRequires=multi-user.target\nWants=display-manager.service\n U/multi-user.target=[Unit]\nRequires=basic.target\n U/basic.target U/basic.target.wants/timers.target>../timers.target U/timers.target E/timers.target.wants/a.timer>y U/a.timer|U/a.timer|
U/default.target>x-y.target U/x-y.target U/x-y.target.wants/a.timer>y U/x-.target.wants/b.timer>y U/a.timer U/b.timer|U/a.timer U/b.timer|
U/default.target>x-y.target U/x-y.target E/x-.target.wants/a.timer>/dev/null U/x-y.target.wants/a.timer>y U/a.timer||E/x-.target.wants/a.timer masked
ROWS
program_has_boot=yes

# Links of services and of other units that are reached, one from the other.
program_sources <<'ROWS'
D/s.service>y U/s.service E/s.service.wants/a.timer>y U/a.timer|U/a.timer|
D/s.service>y U/s.service E/s.service.requires/a.timer>y U/a.timer|U/a.timer|
D/s.service>y U/s.service E/service.wants/a.timer>y U/a.timer|U/a.timer|
D/s.service>y U/s.service E/service.requires/a.timer>y U/a.timer|U/a.timer|
D/s.service>y U/s.service=[Unit]\nWants=t.service\n U/t.service=[Unit]\nRequires=u.socket\n U/u.socket E/u.socket.requires/a.timer>y U/a.timer|U/a.timer|
D/s.service>y U/s.service=[Unit]\nWants=t.service\n U/t.service=[Unit]\nWants=s.service\x20a.timer\n U/a.timer|U/a.timer|
D/s.mount>y U/s.mount E/s.mount.wants/p.path>y U/p.path E/p.path.wants/a.timer>y U/a.timer|U/a.timer|
%a E/a.timer.wants/b.timer>y U/b.timer|U/a.timer U/b.timer|
%a E/timer.wants/b.timer>y U/b.timer|U/a.timer U/b.timer|
%a U/a.service.wants/b.timer>y U/b.timer|U/a.timer|wanted U/a.service.wants/b.timer a.service
D/y.target>z U/y.target E/y.target.wants/a.timer>y U/a.timer|U/a.timer|
D/y.target U/y.target E/y.target.wants/a.timer>y U/a.timer||wanted E/y.target.wants/a.timer y.target
D/s.service>y E/s.service.wants/a.timer>y U/a.timer||
D/s.service>y U/s.service/ E/s.service.wants/a.timer>y U/a.timer||
D/s.service>y E/s.service>/dev/null U/s.service E/s.service.wants/a.timer>y U/a.timer||
D/s.service>y E/s.service= U/s.service E/s.service.wants/a.timer>y U/a.timer||
D/s.service>/dev/null U/s.service E/s.service.wants/a.timer>y U/a.timer||wanted E/s.service.wants/a.timer s.service
E/x.target= *a.timer U/a.timer||
E/x.target>/opt/x opt/x *a.timer U/a.timer|U/a.timer|
ROWS

# Settings of reached units: in their files and their drop-ins. What an empty value is after, stays.
program_sources <<'ROWS'
E/x.target=[Unit]\nWants=a.timer\n U/a.timer|U/a.timer|
E/x.target=[Unit]\nRequires=a.timer\n U/a.timer|U/a.timer|
E/x.target=[Unit]\nBindsTo=a.timer\n U/a.timer|U/a.timer|
E/x.target=[Unit]\nUpholds=a.timer\n U/a.timer|U/a.timer|
E/x.target=[Unit]\nAfter=a.timer\nBefore=a.timer\nPartOf=a.timer\nRequisite=a.timer\nConflicts=a.timer\nOnFailure=a.timer\n U/a.timer||
E/x.target=[Unit]\nwants=a.timer\nWant=a.timer\nWants\nRequire\x20s=a.timer\n U/a.timer||
E/x.target=[Install]\nWants=a.timer\nAlso=a.timer\n U/a.timer=[Install]\nWantedBy=x.target\n||
E/x.target=[unit]\nWants=a.timer\n[Unit]x\nWants=a.timer\n[Target]\nWants=a.timer\n U/a.timer||
E/x.target=Wants=a.timer\n[Unit]\n U/a.timer||
E/x.target=[Install]\nWants=b.timer\n[Unit]\nWants=a.timer\n U/a.timer U/b.timer|U/a.timer|
E/x.target=[Unit]\nWants=a.timer\nWants=\n U/a.timer|U/a.timer|
E/x.target=[Unit]\nWants=a.timer\nWants=b.timer\n U/a.timer U/b.timer|U/a.timer U/b.timer|
E/x.target=[Unit]\nWants=\x20c.timer\t\x20a.timer\x20b.service\x20\n U/a.timer U/c.timer|U/a.timer U/c.timer|
E/x.target=[Unit]\n\x20\tWants\x20=\x20a.timer\n U/a.timer|U/a.timer|
E/x.target=[Unit]\nWants=b.timer\x20\\\n#\x20c.timer\n\x20\x20a.timer\n U/a.timer U/b.timer U/c.timer|U/a.timer U/b.timer|
E/x.target=[Unit]\n#Wants=a.timer\n;Wants=a.timer\n U/a.timer||
E/x.target=[Unit]\nWants=a.timer\r\n U/a.timer|U/a.timer|
E/x.target=[Unit]\nWants=a.timer U/a.timer|U/a.timer|
E/x.target=[Unit]\nWants=a.timer\n#\xff\n U/a.timer|U/a.timer|
E/x.target.d/w.conf=[Unit]\nWants=a.timer\n U/a.timer|U/a.timer|
U/target.d/w.conf=[Unit]\nWants=a.timer\n U/a.timer|U/a.timer|
E/x.target.d/w.conf=Wants=a.timer\n U/a.timer||
E/x.target.d/w=[Unit]\nWants=a.timer\n E/x.target.d/.w.conf=[Unit]\nWants=a.timer\n U/a.timer||
E/x.target.d/w.conf= U/x.target.d/w.conf=[Unit]\nWants=a.timer\n U/a.timer||
E/x.target.d/w.conf>/dev/null U/target.d/w.conf=[Unit]\nWants=a.timer\n U/a.timer||
E/x.target.d/w.conf=[Unit]\n U/x.target.d/w.conf=[Unit]\nWants=a.timer\n U/a.timer||
E/x.target=[Unit]\nWants=a.timer\n E/x.target.d/w.conf=[Unit]\nWants=\n U/a.timer|U/a.timer|
E/x.target.d>/opt/d opt/d/w.conf=[Unit]\nWants=a.timer\n U/a.timer|U/a.timer|
D/s.service>y U/s.service E/s.service.d/w.conf=[Unit]\nRequires=a.timer\n U/a.timer|U/a.timer|
D/s.service>y E/s.service>/opt/s opt/s=[Unit]\nWants=a.timer\n U/a.timer|U/a.timer|
D/s.service>y U/s-.service.d/w.conf=[Unit]\nWants=a.timer\n U/s.service U/a.timer||
D/s-t.service>y U/s-.service.d/w.conf=[Unit]\nWants=a.timer\n U/s-t.service U/a.timer|U/a.timer|
E/y.target=[Unit]\nWants=a.timer\n U/a.timer||
E/x.target=[Unit]\nWants=a.timer\n||E/x.target no such timer
ROWS

# Comments may have any bytes. The first other line that isn't UTF-8, with those that continue it, ends what is read of a file. systemd doesn't
# load a target whose own file has one; agenda reads the lines before it.
program_sources <<'ROWS'
E/x.target.d/w.conf=\x20;\xe9\\\n[Unit]\n#\xe9\nWants=a.timer\n U/a.timer|U/a.timer|
E/x.target.d/w.conf=[Unit]\nWants=a.timer\nDescription=\xe9\nWants=b.timer\n U/a.timer U/b.timer|U/a.timer|
E/x.target.d/w.conf=[Unit]\nWants=a.timer\n[\xe9]\n[Unit]\nWants=b.timer\n U/a.timer U/b.timer|U/a.timer|
E/x.target.d/w.conf=[Unit]\nWants=a.timer\n\x20\t\xe9\x20\nWants=b.timer\n U/a.timer U/b.timer|U/a.timer|
E/x.target.d/w.conf=[Unit]\nWants=a.timer\x20\\\n#\xe9\nb.timer\nWants=c.timer\n U/a.timer U/b.timer U/c.timer|U/a.timer U/b.timer U/c.timer|
E/x.target.d/w.conf=[Unit]\nWants=a.timer\nWants=b.timer\x20\\\n\xe9\nWants=c.timer\n U/a.timer U/b.timer U/c.timer|U/a.timer|
E/x.target.d/w.conf=[Unit]\nWants=a.timer\nWants=b.timer\x20\xe9\\\nc.timer\n U/a.timer U/b.timer U/c.timer|U/a.timer|
E/x.target.d/w.conf=[Unit]\nWants=a.timer\nWants=b.timer\x20\xe9 U/a.timer U/b.timer|U/a.timer|
E/x.target.d/w.conf=[Unit]\nWants=a.timer\nDescription=\xc3\x20\xa9\nWants=b.timer\n U/a.timer U/b.timer|U/a.timer|
E/x.target.d/w.conf=[Unit]\nDescription=\xc3\xa9\nWants=a.timer\n U/a.timer|U/a.timer|
E/x.target.d/w.conf=[Unit]\nDescription=\xc3\\\n\xa9\nWants=a.timer\n U/a.timer||
E/x.target.d/v.conf=\xe9\n E/x.target.d/w.conf=[Unit]\nWants=a.timer\n U/a.timer|U/a.timer|
E/x.target=[Unit]\nWants=a.timer\nDescription=\xe9\nWants=b.timer\n U/a.timer U/b.timer|U/a.timer|
D/s.service>y U/s.service E/s.service.d/w.conf=#\xe9\n[Unit]\nRequires=a.timer\n U/a.timer|U/a.timer|
ROWS

# Instances, whose template counts too; templates that are wanted; and specifiers in the settings of instances.
program_sources <<'ROWS'
D/s@i.service>y U/s@.service E/s@i.service.wants/a.timer>y U/a.timer|U/a.timer|
D/s@i.service>y U/s@.service E/s@.service.wants/a.timer>y U/a.timer|U/a.timer|
D/s@i.service>y U/s@.service E/s@.service.requires/a.timer>y U/a.timer|U/a.timer|
D/s@i.service>y U/s@i.service E/s@.service.wants/a.timer>y U/a.timer|U/a.timer|
D/s@i.service>y U/s@.service E/s@j.service.wants/a.timer>y U/a.timer||wanted E/s@j.service.wants/a.timer s@j.service
D/s@i.service>y U/s@.service=[Unit]\nWants=a-%i.timer\n U/a-i.timer|U/a-i.timer|
D/s@i.service>y U/s@.service=[Unit]\nWants=%p-%i.timer\x20%j.timer\n U/s-i.timer U/s.timer|U/s-i.timer U/s.timer|
D/s@i.service>y U/s@.service E/s@.service.d/w.conf=[Unit]\nWants=%i.timer\n U/i.timer|U/i.timer|
D/s@i.service>y U/s@.service=[Unit]\nWants=a@%i.timer\n U/a@.timer|U/a@.timer=a-i.timer|
D/s@i.service>y U/s@.service=[Unit]\nWants=a@.timer\n U/a@.timer|U/a@.timer=a-i.timer|
D/s@i.service>y U/s@.service E/s@i.service.wants/a@.timer>y U/a@.timer|U/a@.timer=a-i.timer|
D/s@i.service>y U/s@.service E/s@.service.wants/a@.timer>y U/a@.timer|U/a@.timer=a-i.timer|
D/s@i.service>y D/s@j.service>y U/s@.service=[Unit]\nWants=a@.timer\n U/a@.timer|U/a@.timer=a-i.timer U/a@.timer=a-j.timer|
*a@.timer U/a@.timer|U/a@.timer=a-x.timer|
*a@.timer *a@b.timer U/a@.timer|U/a@.timer=a-b.timer U/a@.timer=a-x.timer|
*a@.timer *a@x.timer U/a@.timer|U/a@.timer=a-x.timer|
*a@.timer U/a@x.timer|U/a@x.timer=a-x.timer|
*a@.timer||D/a@.timer no such timer
*a@.timer E/a@.timer>/dev/null U/a@.timer||E/a@.timer masked
E/x.target=[Unit]\nWants=a@.timer\n U/a@.timer|U/a@.timer=a-x.timer|
D/s-t.service>y U/s-t.service E/s-t.service.wants/a@.timer>y U/a@.timer|U/a@.timer=a-s-t.timer|
D/m.target>y U/m.target U/m.target.wants/a@.timer>../a@.timer U/a@.timer|U/a@.timer=a-m.timer|
D/s@.service>y U/s@.service=[Unit]\nWants=%i.timer\n U/x.timer|U/x.timer|
ROWS
program_has_boot=no
program_sources <<'ROWS'
U/default.target>multi-user.target U/multi-user.target E/multi-user.target.wants/a@.timer>y U/a@.timer|U/a@.timer=a-multi-user.timer|
ROWS
program_has_boot=yes

# Aliases: an alias is the unit that it names, and must have its type. What is a link to another name is known from the
# names alone.
program_sources <<'ROWS'
D/s.service>y E/s.service>t.service U/t.service E/t.service.wants/a.timer>y U/a.timer|U/a.timer|
D/s.service>y E/s.service>t.service U/t.service=[Unit]\nWants=a.timer\n U/a.timer|U/a.timer|
D/s.service>y E/s.service>t.service U/t.service E/s.service.wants/a.timer>y U/a.timer|U/a.timer|
D/s.service>y E/s.service>t.service U/t.service E/t.service.d/w.conf=[Unit]\nWants=a.timer\n U/a.timer|U/a.timer|
D/s.service>y E/s.service>t.service E/t.service= E/t.service.wants/a.timer>y U/a.timer||
D/s.service>y E/s.service>t.target U/s.service=[Unit]\nWants=a.timer\n U/t.target=[Unit]\nWants=b.timer\n U/a.timer U/b.timer|U/a.timer|
D/s@i.service>y E/s@.service>t@.service U/t@.service=[Unit]\nWants=%i.timer\n U/i.timer|U/i.timer|
*a.timer E/a.timer>/usr/lib/systemd/system/b.timer U/b.timer|U/b.timer|
*a.timer E/a.timer>b.timer E/b.timer|E/b.timer|
*a.timer E/a.timer>./b.timer E/b.timer|E/b.timer|
*a.timer E/a.timer>../system/sub/b.timer U/b.timer|U/b.timer|
*a.timer E/a.timer>../../../../../usr/lib/systemd/system/b.timer U/b.timer U/a.timer|U/b.timer|
*a.timer U/a.timer>b.timer U/b.timer|U/b.timer|
*a.timer A/a.timer>b.timer U/b.timer U/a.timer|U/b.timer|
*a.timer M/a.timer>b.timer U/b.timer|U/b.timer|
*a.timer E/a.timer>/run/systemd/generator.late/b.timer U/b.timer|U/b.timer|
*a.timer E/a.timer>b.timer||D/a.timer no such timer
*a.timer E/a.timer>b.timer E/b.timer>a.timer||D/a.timer no such timer
*a.timer E/a.timer U/a.timer>b.timer|E/a.timer|
*a.timer E/a.timer>a.service E/a.service||D/a.timer no such timer
*a.timer E/a.timer>a.service E/a.service U/a.timer|U/a.timer|
*a.timer E/a.timer>b.timer E/b.timer>c.timer U/c.timer|U/c.timer|
*a.timer *b.timer E/a.timer>b.timer E/b.timer|E/b.timer|
*a.timer E/a.timer>b.timer E/b.timer>/dev/null||E/b.timer masked
*a.timer E/a.timer>b.timer E/b.timer= ||E/b.timer masked
*a.timer E/a.timer>/opt/a.timer opt/a.timer U/a.timer|E/a.timer|
*a.timer E/a.timer>/opt/b.timer opt/b.timer U/a.timer|E/a.timer|
*a.timer E/a.timer>../../../opt/b opt/b|E/a.timer|
*a.timer E/a.timer>../b.timer etc/systemd/b.timer|E/a.timer|
*a.timer E/a.timer>/etc/systemd/system2/b.timer etc/systemd/system2/b.timer|E/a.timer|
*a.timer E/a.timer>/o/b.timer o>usr/lib/systemd/system U/b.timer|E/a.timer|
*a.timer E/a.timer>/opt/b.timer opt/b.timer>/usr/lib/systemd/system/c.timer U/c.timer|E/a.timer|
*a.timer E/a.timer>/opt/a.timer U/a.timer||E/a.timer not readable
*a.timer E/a.timer>/opt U/a.timer opt/x||E/a.timer not readable
*a.timer E/a.timer>/opt/x opt/x>/opt/y opt/y>x||E/a.timer not readable
*a@b.timer E/a@.timer>b@.timer U/b@.timer|U/b@.timer=b-b.timer|
*a@b.timer E/a@b.timer>c@b.timer U/c@.timer|U/c@.timer=c-b.timer|
*a@b.timer E/a@b.timer>c.timer U/a@.timer|U/a@.timer=a-b.timer|
*a@b.timer E/a@b.timer>c@d.timer U/a@.timer|U/a@.timer=a-b.timer|
ROWS

# Timers that only units want that aren't reached: the first link is reported, in the order of the directories of units, and
# then of the directories in them.
program_sources <<'ROWS'
E/y.target.wants/a.timer>y U/a.timer||wanted E/y.target.wants/a.timer y.target
U/y.target.requires/a.timer>y U/y.target U/a.timer||wanted U/y.target.requires/a.timer y.target
E/s.service.wants/a.timer>y U/a.timer||wanted E/s.service.wants/a.timer s.service
E/a.timer.wants/a.timer>y U/a.timer||wanted E/a.timer.wants/a.timer a.timer
U/y.target.wants/a.timer>y E/z.target.wants/a.timer>y U/a.timer||wanted E/z.target.wants/a.timer z.target
E/z.target.wants/a.timer>y E/y.target.wants/a.timer>y U/a.timer||wanted E/y.target.wants/a.timer y.target
E/y.target.wants/a.timer>y E/y.target.requires/a.timer>y U/a.timer||wanted E/y.target.requires/a.timer y.target
N/y.target.wants/a.timer>y A/z.target.wants/a.timer>y U/a.timer||wanted A/z.target.wants/a.timer z.target
E/y.target.wants/b.timer>y E/y.target.wants/a.timer>y U/a.timer U/b.timer||wanted E/y.target.wants/a.timer y.target,wanted E/y.target.wants/b.timer y.target
E/y.target.wants/a.timer>y *a.timer U/a.timer|U/a.timer|
E/y.target.wants/a.timer>y %b U/a.timer|U/b.timer|wanted E/y.target.wants/a.timer y.target
E/y.target.wants/a@b.timer>y U/a@.timer||wanted E/y.target.wants/a@b.timer y.target
E/y.target.wants/a.timer>y||
E/y.target.wants/a.timer>/dev/null U/a.timer||
E/y.target.wants/a.timer U/a.timer||
E/y.target.wants/a.timer/ U/a.timer||
E/y.target.wants>/opt/w opt/w/a.timer>y U/a.timer||wanted E/y.target.wants/a.timer y.target
E/y.target.want/a.timer>y E/y.target.upholds/a.timer>y E/x.wants.d/a.timer>y U/a.timer||
E/.y.target.wants/a.timer>y etc/y.target.wants/a.timer>y E/sub/y.target.wants/a.timer>y U/a.timer||
E/y.target.wants/b.timer>y C/b.c %a E/a.timer.d/x.conf= U/b.timer|U/a.timer|C/b.c bad name,E/a.timer.d/x.conf masked,wanted E/y.target.wants/b.timer y.target
ROWS
