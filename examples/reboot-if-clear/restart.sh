#!/usr/bin/env bash
# Restarts the machine if no job can start on it in the next 90 minutes. Otherwise says why not, and ends with another status than 0: run it
# from a timer, and it tries again. The arguments are further options of `agenda machine clear`. RESTART is the command that restarts.
set -u

found=$(agenda machine clear --until +90min "$@")
status=$?
if [ "$status" = 0 ]; then
  ${RESTART:-systemctl reboot}
elif [ -n "$found" ]; then
  IFS=$'\t' read -r start latest job runs <<<"$found"
  echo "no restart: $job may start $runs from $start to $latest"
else
  echo "no restart: standard error says why"
fi
exit "$status"
