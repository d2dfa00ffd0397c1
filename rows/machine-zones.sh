# shellcheck shell=bash disable=SC2154,SC2034
# Rows of the zone of a machine: its name and its clock in what `agenda machine` prints, and the starts of jobs in it. Rows of
# `check` show which zone is found, where several could be. Expected times are worked out by hand from the rules of the zones: CET
# is the zone of Berlin, and EAST is UTC+5.

# shellcheck source=/dev/null
. "$top/rows/lib/program.sh"

# Compares the header of a plan of the root $1, which has the name $5, with the zone's name $2, its clock $3: CET, EAST or UTC,
# and the lines $4, as in program_lines. The options are the others.
zone_is() {
  local wanted time=2024-01-01T0
  program_lines "$4"
  case $3 in
    CET) time+=1:00:00+01:00 ;;
    EAST) time+=5:00:00+05:00 ;;
    *) time+=0:00:00+00:00 ;;
  esac
  printf 'agenda 2 %s\t%s\t%s\t0\n' "$2" "$time" "$time" >"$work/out.wanted"
  program_run plan --root="$1" --since 2024-01-01T00:00:00Z --until 2024-01-01T00:00:00Z "${@:6}"
  program_compare "the zone of '$5' ${*:6}" "$work/out.wanted" "$work/err.wanted" "$wanted"
}

# Rows from standard input: a root, and the fields of zone_is. The options are $@.
zone_roots() {
  local root name clock lines
  while IFS='|' read -r root name clock lines; do
    program_make "$root"
    zone_is root "$name" "$clock" "$lines" "$root" "$@"
  done
}

# No etc/localtime; files; what isn't a file; links whose text names no zone.
zone_roots <<'ROWS'
x/|UTC|UTC|
etc/Localtime=CET etc/timezone=Europe/Oslo|UTC|UTC|
etc/localtime=CET|local|CET|
etc/localtime=EAST usr/share/zoneinfo/Europe/Oslo=CET|local|EAST|
etc/localtime/|UTC|UTC|zone
etc/localtime>/opt/x opt/x=CET|UTC|UTC|zone
etc/localtime>/usr/share/zoneinfo/|UTC|UTC|zone
ROWS

# Links that name a file below the root: the name is what follows the first `zoneinfo/` of the text.
zone_roots <<'ROWS'
etc/localtime>/usr/share/zoneinfo/Europe/Oslo usr/share/zoneinfo/Europe/Oslo=EAST|Europe/Oslo|EAST|
etc/localtime>../usr/share/zoneinfo/Europe/Oslo usr/share/zoneinfo/Europe/Oslo=EAST|Europe/Oslo|EAST|
etc/localtime>/usr/share/zoneinfo/Etc/UTC usr/share/zoneinfo/Etc/UTC=EAST|Etc/UTC|EAST|
etc/localtime>/usr/share/zoneinfo/posix/Europe/Oslo usr/share/zoneinfo/posix/Europe/Oslo=EAST|posix/Europe/Oslo|EAST|
etc/localtime>/usr/share/zoneinfo/Etc/GMT+5 usr/share/zoneinfo/Etc/GMT+5=EAST|Etc/GMT+5|EAST|
etc/localtime>/usr/share/zoneinfo/A_b/C-9 usr/share/zoneinfo/A_b/C-9=EAST|A_b/C-9|EAST|
etc/localtime>/opt/zoneinfo/No/Where usr/share/zoneinfo/No/Where=EAST|No/Where|EAST|
etc/localtime>/zoneinfo/No/zoneinfo/Where usr/share/zoneinfo/No/zoneinfo/Where=EAST|No/zoneinfo/Where|EAST|
etc/localtime>/usr/share/zoneinfo/No/Where usr/share/zoneinfo/No/Where>../Else usr/share/zoneinfo/Else=EAST|No/Where|EAST|
etc>/opt/e opt/e/localtime>/usr/share/zoneinfo/No/Where usr/share/zoneinfo/No/Where=EAST|No/Where|EAST|
ROWS

# A zone's file below the root that is no TZif file, or too large, tells no zone.
zone_roots <<'ROWS'
etc/localtime=x|UTC|UTC|zone
etc/localtime=|UTC|UTC|zone
etc/localtime=TZif2|UTC|UTC|zone
etc/localtime>/usr/share/zoneinfo/Europe/Oslo usr/share/zoneinfo/Europe/Oslo=x|UTC|UTC|zone
etc/localtime>/usr/share/zoneinfo/No/Where usr/share/zoneinfo/No/Where=|UTC|UTC|zone
ROWS
program_make 'etc/localtime=x'
head -c 1048577 /dev/zero >"$machine_folder/$machine_root/etc/localtime"
zone_is root UTC UTC zone 'a large etc/localtime'

# --zone and --utc come before etc/localtime. The name is that of the option.
printf '%b' "$machine_east" >"$machine_folder/east"
zone_roots --zone ./east <<'ROWS'
etc/localtime=CET|./east|EAST|
etc/localtime>nowhere|./east|EAST|
ROWS
zone_roots --zone UTC <<'ROWS'
etc/localtime=CET|UTC|UTC|
etc/localtime=no\x20zone|UTC|UTC|
ROWS

# Links that name a zone of this machine.
if [ -r /usr/share/zoneinfo/Europe/Oslo ] && [ -r /usr/share/zoneinfo/Etc/UTC ]; then
  zone_roots <<'ROWS'
etc/localtime>/usr/share/zoneinfo/Europe/Oslo|Europe/Oslo|CET|
etc/localtime>../usr/share/zoneinfo/Europe/Oslo|Europe/Oslo|CET|
etc/localtime>/usr/share/zoneinfo/Etc/UTC|Etc/UTC|UTC|
etc/localtime>/usr/share/zoneinfo/Europe/Oslo usr/share/zoneinfo/Europe/Oslo/|Europe/Oslo|CET|
etc>/opt/e opt/e/localtime>/usr/share/zoneinfo/Europe/Oslo|Europe/Oslo|CET|
ROWS
  zone_roots --zone Europe/Oslo <<'ROWS'
etc/localtime=EAST|Europe/Oslo|CET|
ROWS
  # the caller's own zone changes nothing
  machine_by=(env TZ=Asia/Tokyo TZDIR=/nowhere)
  zone_roots <<'ROWS'
x/|UTC|UTC|
etc/localtime>/usr/share/zoneinfo/Europe/Oslo|Europe/Oslo|CET|
ROWS
  machine_by=()
else
  echo "agenda machine: skipped the zones of this machine, since it has no tz database"
fi

# The zone below a root, however that is given.
program_make 'etc/localtime>/usr/share/zoneinfo/Europe/Oslo usr/share/zoneinfo/Europe/Oslo=EAST'
for zone_root in .root -root 'a b:c'; do
  cp -R -- "$machine_folder/root" "$machine_folder/$zone_root"
done
for zone_root in root ./root// ../machine/root "$machine_folder/root" .root -root 'a b:c'; do
  zone_is "$zone_root" Europe/Oslo EAST '' "--root $zone_root"
done
for zone_root in .root -root 'a b:c'; do
  rm -rf -- "${machine_folder:?}/$zone_root"
done

# ---- starts in a zone

program_answers <<'ROWS'
etc/localtime=CET etc/crontab=30\x202\x20*\x20*\x20*\x20root\x20a\n|upcoming --after 2024-03-30T12:00:00Z|2024-03-31T03:00:00+02:00>system:1>root a||
etc/localtime=CET etc/crontab=30\x202\x20*\x20*\x20*\x20root\x20a\n|upcoming --after 2024-10-27T00:30:00Z|2024-10-28T02:30:00+01:00>system:1>root a||
etc/localtime>/usr/share/zoneinfo/No/Where usr/share/zoneinfo/No/Where=CET *a.timer U/a.timer=[Timer]\nOnCalendar=02:30\n|upcoming --after 2024-03-30T12:00:00Z|2024-04-01T02:30:00+02:00>a.timer>a.service||
etc/localtime=CET S/u=0\x206\x20*\x20*\x20*\x20x\n|upcoming --zone UTC --after 2024-07-01T00:00:00Z|2024-07-01T06:00:00+00:00>u:1>x||
etc/localtime=CET S/u=0\x206\x20*\x20*\x20*\x20x\n|quiet --since 2024-07-01T00:00:00Z --until 2024-07-01T06:00:00Z|2024-07-01T02:00:00+02:00>2024-07-01T06:00:00+02:00>14400;2024-07-01T06:00:00+02:00>2024-07-01T08:00:00+02:00>7200||
ROWS

# The zones of events: the other events of a timer stay if the zone of one is unknown.
program_answers <<'ROWS'
*a.timer U/a.timer=[Timer]\nOnCalendar=02:30\x20No/Where\nOnCalendar=03:00\n|upcoming --after 2024-07-01T00:00:00Z|2024-07-01T03:00:00+00:00>a.timer>a.service|root/usr/lib/systemd/system/a.timer:2: error: time zone in '02:30 No/Where': unknown [Zone]|
*a.timer U/a.timer=[Timer]\nOnCalendar=02:30\x20No/Where\n|upcoming --strict --after 2024-07-01T00:00:00Z||root/usr/lib/systemd/system/a.timer:2: error: time zone in '02:30 No/Where': unknown [Zone]|
*a.timer U/a.timer=[Timer]\nOnCalendar=02:30\x20utc\n|upcoming --strict --after 2024-07-01T00:00:00Z|2024-07-01T02:30:00+00:00>a.timer>a.service||
ROWS
if [ -r /usr/share/zoneinfo/Asia/Tokyo ]; then
  program_answers <<'ROWS'
etc/localtime=CET *a.timer U/a.timer=[Timer]\nOnCalendar=02:30\x20Asia/Tokyo\nOnCalendar=02:30\n|upcoming --after 2024-03-30T18:00:00Z|2024-03-31T19:30:00+02:00>a.timer>a.service||
etc/localtime=CET *a.timer U/a.timer=[Timer]\nOnCalendar=02:30\x20Asia/Tokyo\nOnCalendar=02:30\n|upcoming --strict --after 2024-03-31T18:00:00Z|2024-04-01T02:30:00+02:00>a.timer>a.service||
*a.timer U/a.timer=[Timer]\nOnCalendar=daily\n E/a.timer.d/x.conf=[Timer]\nOnCalendar=\nOnCalendar=12:00\x20Asia/Tokyo|quiet --since 2024-01-01T00:00:00Z|2024-01-01T00:00:00+00:00>2024-01-01T03:00:00+00:00>10800;2024-01-01T03:01:00+00:00>2024-01-02T00:00:00+00:00>75540||
ROWS
else
  echo "agenda machine: skipped the zones of events, since this machine has no tz database"
fi
