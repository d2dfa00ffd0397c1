#!/usr/bin/env bash
# Makes the machine of this example in the directory $1: a copy of root/, with its timers enabled. The links are made here since
# rt accepts no project that has links. cron is an empty file: it has to be there, so that agenda doesn't report that nothing reads
# the crontabs. The boot starts default.target, which wants timers.target, and each timer has its service.
set -eu
export LC_ALL=C

machine=$1
wants=$machine/etc/systemd/system/timers.target.wants
units=$machine/usr/lib/systemd/system
mkdir -p -- "$machine"
cp -R -- "$(dirname "$(readlink -f "$0")")/root/." "$machine/"
mkdir -p -- "$wants" "$machine/usr/sbin" "$machine/var/lib" "$machine/var/spool/cron"
: >"$machine/usr/sbin/cron"
printf '[Unit]\nWants=timers.target\n' >"$units/default.target"
echo '[Unit]' >"$units/timers.target"
for timer in apt-daily apt-daily-upgrade dpkg-db-backup e2scrub_all fstrim man-db; do
  ln -sf -- "/usr/lib/systemd/system/$timer.timer" "$wants/$timer.timer"
  printf '[Service]\nExecStart=/bin/true\n' >"$units/$timer.service"
done
