#!/usr/bin/env bash
# Makes the machine of this example in the directory $1: a copy of root/, with its links and empty directories. These are made here since
# rt accepts no project that has links, and git keeps no empty directories.
set -eu
export LC_ALL=C
umask 022

machine=$1
wants=etc/systemd/system/timers.target.wants
units=usr/lib/systemd/system
mkdir -p -- "$machine"
cp -R -- "$(dirname "$(readlink -f "$0")")/root/." "$machine/"
cd -- "$machine"
mkdir -p -- "$wants" "$units/timers.target.wants" home/ann var/lib var/spool/cron/crontabs
ln -sfn -- usr/sbin sbin
ln -sfn -- usr/lib lib
ln -sfn -- ../lib/systemd/systemd usr/sbin/init
ln -sfn -- graphical.target "$units/default.target"
ln -sfn -- ../systemd-tmpfiles-clean.timer "$units/timers.target.wants/systemd-tmpfiles-clean.timer"
for timer in apt-daily apt-daily-upgrade dpkg-db-backup e2scrub_all fstrim logrotate man-db; do
  ln -sfn -- "/lib/systemd/system/$timer.timer" "$wants/$timer.timer"
done
ln -sfn -- /etc/systemd/system/report.timer "$wants/report.timer"
