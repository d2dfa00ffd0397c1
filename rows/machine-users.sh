# shellcheck shell=bash disable=SC2154,SC2034
# Rows of the timers of users: those that the manager of a user who lingers starts are planned, and the other users who have
# some are reported (systemd.unit(5), loginctl(1), user@.service(5)).

# shellcheck source=/dev/null
. "$top/rows/lib/program.sh"

# Directories of units: P is ann's and X her second one, Q is bob's, and V, W and Y are those of all users.
machine_short+=(
  [P]=home/ann/.config/systemd/user [Q]=home/bob/.config/systemd/user [X]=home/ann/.local/share/systemd/user
  [V]=usr/lib/systemd/user [W]=etc/systemd/user [Y]=run/systemd/user
)
program_has_services=no

# Root, ann and bob, and the targets that the manager of a user starts, as systemd has them.
users_machine='etc/passwd=root:x:0:0::/root:/bin/sh\nann:x:1000:1000::/home/ann:/bin/sh\nbob:x:1001:1001::/home/bob:/bin/sh\n
  V/default.target=[Unit]\nRequires=basic.target\n V/basic.target=[Unit]\nWants=timers.target\n V/timers.target'
# ann and bob linger.
users_ann=var/lib/systemd/linger/ann
users_both="$users_ann var/lib/systemd/linger/bob"
# A service that can start, and the timer a.timer of ann, which is enabled.
users_does='[Service]\nExecStart=/bin/true\n'
users_a="P/a.timer=DAILY P/a.service=DOES P/timers.target.wants/a.timer>/home/ann/.config/systemd/user/a.timer"

# Rows from standard input: a root, its users' timers in order, each `JOB=PATH` or `+JOB=PATH` of a drop-in, and the lines on
# standard error, with `;` between them. ANN and BOTH are the users who linger, A the timer a.timer of ann.
users_rows() {
  local root sources lines source kind path
  while IFS='|' read -r root sources lines; do
    root=${root//ANN/$users_ann}
    root=${root//BOTH/$users_both}
    root=" $root "
    root=${root// A / $users_a }
    program_make "$users_machine ${root//DOES/$users_does}"
    : >"$work/out.wanted"
    for source in $sources; do
      kind=user-timer
      [[ $source != +* ]] || kind=user-drop-in
      source=${source#+}
      machine_path "${source#*=}"
      printf '%s\t%s\troot/%s\n' "$kind" "${source%%=*}" "$path" >>"$work/out.wanted"
    done
    [ -z "$lines" ] || printf '%s\n' "agenda: ${lines//;/$'\n'agenda: }" >"$work/err.wanted"
    [ -n "$lines" ] || : >"$work/err.wanted"
    program_run sources --root root
    program_compare "sources of users in '$root'" "$work/out.wanted" "$work/err.wanted" 0
  done
}

# ---- which users linger

users_rows <<'ROWS'
A||not planned: root/home/ann/.config/systemd/user/a.timer: user ann does not linger
A ANN|ann/a.timer=P/a.timer|
A BOTH|ann/a.timer=P/a.timer|
A ANN var/lib/systemd/linger/eve|ann/a.timer=P/a.timer|
A var/lib/systemd/linger/ann>nowhere||not planned: root/home/ann/.config/systemd/user/a.timer: user ann does not linger
A var/lib/systemd/linger/bob||not planned: root/home/ann/.config/systemd/user/a.timer: user ann does not linger
P/a.timer=DAILY P/a.service=DOES ANN||
P/a.timer=DAILY P/a.service=DOES||
V/b.timer=DAILY V/b.service=DOES W/timers.target.wants/b.timer>/usr/lib/systemd/user/b.timer||
V/b.timer=DAILY V/b.service=DOES W/timers.target.wants/b.timer>/usr/lib/systemd/user/b.timer BOTH|ann/b.timer=V/b.timer bob/b.timer=V/b.timer|
A Q/c.timer=DAILY Q/c.service=DOES Q/default.target.wants/c.timer>../c.timer BOTH|ann/a.timer=P/a.timer bob/c.timer=Q/c.timer|
A Q/c.timer=DAILY Q/c.service=DOES Q/default.target.wants/c.timer>../c.timer ANN|ann/a.timer=P/a.timer|not planned: root/home/bob/.config/systemd/user/c.timer: user bob does not linger
root/.config/systemd/user/r.timer=DAILY root/.config/systemd/user/default.target.wants/r.timer>../r.timer||not planned: root/root/.config/systemd/user/r.timer: user root does not linger
home/eve/.config/systemd/user/e.timer=DAILY home/eve/.config/systemd/user/default.target.wants/e.timer>../e.timer var/lib/systemd/linger/eve||unknown: root/home/eve/.config/systemd/user: user timers
ROWS

# ---- which files count

users_rows <<'ROWS'
X/a.timer=DAILY X/a.service=DOES X/default.target.wants/a.timer>../a.timer ANN|ann/a.timer=X/a.timer|
X/a.timer=DAILY X/a.service=DOES X/default.target.wants/a.timer>../a.timer||not planned: root/home/ann/.local/share/systemd/user/a.timer: user ann does not linger
A X/a.timer=DAILY W/a.timer=DAILY Y/a.timer=DAILY V/a.timer=DAILY ANN|ann/a.timer=P/a.timer|
X/a.timer=DAILY W/a.timer=DAILY Y/a.timer=DAILY V/a.timer=DAILY V/a.service=DOES P/default.target.wants/a.timer>../a.timer ANN|ann/a.timer=W/a.timer|
X/a.timer=DAILY Y/a.timer=DAILY V/a.timer=DAILY V/a.service=DOES P/default.target.wants/a.timer>../a.timer ANN|ann/a.timer=Y/a.timer|
X/a.timer=DAILY V/a.timer=DAILY V/a.service=DOES P/default.target.wants/a.timer>../a.timer ANN|ann/a.timer=X/a.timer|
A P/a.timer.d/x.conf=[Timer]\n W/timer.d/y.conf=[Timer]\n ANN|ann/a.timer=P/a.timer +ann/a.timer=P/a.timer.d/x.conf +ann/a.timer=W/timer.d/y.conf|
P/b@.timer=DAILY P/b@.service=DOES P/default.target.wants/b@i.timer>../b@.timer ANN|ann/b-i.timer=P/b@.timer|
P/a.timer=DAILY P/default.target.wants/a.timer>../a.timer ANN||not planned: root/home/ann/.config/systemd/user/a.timer: its unit a.service is missing
P/a.timer=DAILY N/a.service=DOES P/default.target.wants/a.timer>../a.timer ANN||not planned: root/home/ann/.config/systemd/user/a.timer: its unit a.service is missing
A P/b.service>/dev/null P/b.timer=DAILY P/default.target.wants/b.timer>../b.timer ANN|ann/a.timer=P/a.timer|not planned: root/home/ann/.config/systemd/user/b.timer: its unit b.service is masked
ROWS

# A link from one directory of a user's units to another is an alias, and one to a unit of the system is none.
users_rows <<'ROWS'
V/b.timer=DAILY V/b.service=DOES P/c.timer>/usr/lib/systemd/user/b.timer P/default.target.wants/c.timer>../c.timer ANN|ann/b.timer=V/b.timer|
U/b.timer=DAILY V/b.service=DOES P/b.timer>/usr/lib/systemd/system/b.timer P/default.target.wants/b.timer>../b.timer ANN|ann/b.timer=P/b.timer|
home/ann/opt/b.timer=DAILY V/b.service=DOES P/b.timer>/home/ann/opt/b.timer P/default.target.wants/b.timer>../b.timer ANN|ann/b.timer=P/b.timer|
ROWS

# ---- names, homes and specifiers

users_rows <<'ROWS'
P/a.timer=DAILY P/ann-1000.service=DOES P/a.timer.d/u.conf=[Timer]\nUnit=%u-%U.service\n P/default.target.wants/a.timer>../a.timer ANN|ann/a.timer=P/a.timer +ann/a.timer=P/a.timer.d/u.conf|
V/a.timer=[Timer]\nOnCalendar=daily\nUnit=%u.service\n P/ann.service=DOES W/default.target.wants/a.timer>/usr/lib/systemd/user/a.timer BOTH|ann/a.timer=V/a.timer|not planned: root/usr/lib/systemd/user/a.timer: its unit bob.service is missing
ROWS

# The name of a job may not have another character. Of several lines with a name the first counts, and homes are absolute.
users_rows <<'ROWS'
etc/passwd=eve:x:1:1::/srv/eve:/bin/sh\neve:x:2:2::/home/ann:/bin/sh\n srv/eve/.config/systemd/user/e.timer=DAILY srv/eve/.config/systemd/user/e.service=DOES srv/eve/.config/systemd/user/default.target.wants/e.timer>../e.timer var/lib/systemd/linger/eve|eve/e.timer=srv/eve/.config/systemd/user/e.timer|
etc/passwd=eve:x:1:1::srv/eve:/bin/sh\n srv/eve/.config/systemd/user/e.timer=DAILY srv/eve/.config/systemd/user/e.service=DOES srv/eve/.config/systemd/user/default.target.wants/e.timer>../e.timer var/lib/systemd/linger/eve||
etc/passwd=eve:x:x:1::/srv/eve:/bin/sh\n srv/eve/.config/systemd/user/e.timer=DAILY srv/eve/.config/systemd/user/e.service=DOES srv/eve/.config/systemd/user/default.target.wants/e.timer>../e.timer var/lib/systemd/linger/eve||
ROWS

# Each line is read by itself, as glibc reads it (nss_files): what isn't UTF-8 in one of them leaves the other users as they are,
# and white space, `+` and zeros may be before a number. `%U` is that number in decimal.
users_number='V/a.timer=[Timer]\nOnCalendar=daily\nUnit=%u-%U.service\n W/default.target.wants/a.timer>/usr/lib/systemd/user/a.timer'
users_rows <<ROWS
etc/passwd=b\xfcb:x:2:2:B\xfcb:/srv/b:/bin/sh\ncarl:x:3:3:C\xe4rl:/srv/\xfc:/bin/\xe4\nann:x:1000:1000:\xc4nn:/home/ann:/bin/\xe4\n A ANN var/lib/systemd/linger/carl|ann/a.timer=P/a.timer|
etc/passwd=#ann:x:1:1::/srv:\n\x20\x20#ann:x:1:1::/srv:\n\n\x20\tann:x:1000:1000::/home/ann:/bin/sh\n A ANN|ann/a.timer=P/a.timer|
etc/passwd=ann:x:1000:1000::/home/ann A ANN|ann/a.timer=P/a.timer|
$users_number etc/passwd=ann:x:+1000:1::/home/ann:\nbob:x:\x20\t007:\x20+01::/home/bob:\n V/ann-1000.service=DOES V/bob-7.service=DOES BOTH|ann/a.timer=V/a.timer bob/a.timer=V/a.timer|
$users_number etc/passwd=ann:x:4294967295:1::/home/ann:\nbob:x:000:1::/home/bob:\n V/ann-4294967295.service=DOES V/bob-0.service=DOES BOTH|ann/a.timer=V/a.timer bob/a.timer=V/a.timer|
$users_number etc/passwd=ann:x:4294967296:1::/home/ann:\nbob:x:-1:1::/home/bob:\n BOTH||
$users_number etc/passwd=ann:x:1\x20:1::/home/ann:\nbob:x:0x1:1::/home/bob:\nann:x:++1:1::/home/ann:\nbob:x:+\x201:1::/home/bob:\nann:x:+:1::/home/ann\nbob:x:1::/home/bob:\n BOTH||
ROWS

# ---- answers

# The root of the rows below: the timer a.timer of ann, who lingers, and z.timer of the system.
users_make() {
  local root="$users_ann $users_a *z.timer U/z.timer=DAILY U/z.service=DOES $1"
  program_make "$users_machine ${root//DOES/$users_does}"
}

# Rows from standard input: arguments, and the lines of the answer, with `;` between them and `>` for a tab. The status is $1, and
# $2 has the lines on standard error.
users_answers() {
  local words lines
  local -a list
  while IFS='|' read -r words lines; do
    IFS=' ' read -r -a list <<<"$words"
    lines=${lines//;/$'\n'}
    printf '%s\n' "${lines//>/$tab}" >"$work/out.wanted"
    printf '%s' "${2:+$2$'\n'}" >"$work/err.wanted"
    program_run "${list[@]}" --root root
    program_compare "$words of a user" "$work/out.wanted" "$work/err.wanted" "$1"
  done
}

# They come after the timers of the system. Texts have the user before the unit, and JSON has the user as a member.
users_make ''
users_answers 0 '' <<'ROWS'
upcoming --after 2024-01-01T00:00:00Z --utc --text|2024-01-02T00:00:00Z>z.timer>z.service;2024-01-02T00:00:00Z>ann/a.timer>ann a.service
upcoming --after 2024-01-01T00:00:00Z --utc --json|{"start":"2024-01-02T00:00:00Z","job":"z.timer","path":"root/usr/lib/systemd/system/z.timer","line":null,"run":"z.service"};{"start":"2024-01-02T00:00:00Z","job":"ann/a.timer","path":"root/home/ann/.config/systemd/user/a.timer","line":null,"user":"ann","run":"a.service"}
upcoming --after 2024-01-01T00:00:00Z --utc --text --except ann/a.timer|2024-01-02T00:00:00Z>z.timer>z.service
describe --utc --text --except z.timer|ann/a.timer>at 00:00>ann a.service
describe --utc --text --only ann/*|ann/a.timer>at 00:00>ann a.service
describe --utc --text --except *a.timer|z.timer>at 00:00>z.service
sources|timer>z.timer>root/usr/lib/systemd/system/z.timer;user-timer>ann/a.timer>root/home/ann/.config/systemd/user/a.timer
sources --json|{"kind":"timer","name":"z.timer","path":"root/usr/lib/systemd/system/z.timer"};{"kind":"user-timer","name":"ann/a.timer","path":"root/home/ann/.config/systemd/user/a.timer"}
ROWS

# An error has the file and the line, and the name of a job may have no other character.
users_make 'P/a.timer.d/b.conf=[Timer]\nOnCalendar=maybe\n'
users_answers 1 '' <<'ROWS'
check|root/home/ann/.config/systemd/user/a.timer.d/b.conf:2: error: 'maybe' is not a calendar event [UnknownWord]
ROWS
users_make 'etc/passwd=a+b:x:1:1::/home/ann:/bin/sh\n var/lib/systemd/linger/a+b'
users_answers 1 '' <<'ROWS'
check|root/home/ann/.config/systemd/user/a.timer: error: not a timer's name: it must end in .timer and name no template [BadTimerName]
ROWS
