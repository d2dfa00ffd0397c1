#!/usr/bin/env bash
# A job of CI, for crontabs below cron.d and timers below timers: prints which starts from SINCE until UNTIL the working tree adds
# to those of the branch BASE, and which it removes. The status is 0 if there are none.
# Usage: changes.sh BASE SINCE UNTIL
set -u

# Runs agenda with the arguments $@ and the sources in the current directory.
agenda_of_sources() {
  local path sources=()
  for path in cron.d/*; do
    sources+=("--cron-d=$path")
  done
  agenda "$@" "${sources[@]}" timers/*.timer
}

base=$(mktemp -d) || exit
trap 'rm -r -- "$base"' EXIT
git archive "$1" >"$base/archive" && tar -x -C "$base" -f "$base/archive" || exit
(cd -- "$base" && agenda_of_sources plan --since "$2" --until "$3") >"$base/before" || exit
agenda_of_sources changes "$base/before"
