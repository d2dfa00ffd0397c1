#!/usr/bin/env bash
# Makes the machines of this example in the directory $1: copies of roots/, with the links that such machines have. The links are in the
# table below, since rt accepts no project that has links. Each machine has cron, which is an empty file here: without one, agenda
# reports that nothing reads the crontabs. It also has the targets that the boot starts, and a service for each timer.
set -eu
export LC_ALL=C

machines=$1
mkdir -p -- "$machines"
cp -R -- "$(dirname "$(readlink -f "$0")")/roots/." "$machines/"
# cron ignores a user's crontab of another mode
chmod 600 -- "$machines"/*/var/spool/cron/crontabs/*
for machine in "$machines"/*/; do
  mkdir -p -- "$machine/usr/sbin" "$machine/var/lib" "$machine/var/spool/cron"
  : >"$machine/usr/sbin/cron"
  mkdir -p -- "$machine/lib/systemd/system"
  printf '[Unit]\nWants=timers.target\n' >"$machine/lib/systemd/system/default.target"
  echo '[Unit]' >"$machine/lib/systemd/system/timers.target"
done
while IFS='|' read -r link text; do
  mkdir -p -- "$machines/${link%/*}"
  ln -s -- "$text" "$machines/$link"
  [[ $link != *.timer ]] || printf '[Service]\nExecStart=/bin/true\n' >"$machines/${link%%/*}${text%.timer}.service"
done <<'LINKS'
db 1/etc/systemd/system/timers.target.wants/archive.timer|/lib/systemd/system/archive.timer
web-1/etc/localtime|/usr/share/zoneinfo/Europe/Berlin
web-2/etc/systemd/system/timers.target.wants/trim.timer|/lib/systemd/system/trim.timer
LINKS
