# Judges events in a zone by what agenda and systemd say about them there.
#
# The first file has the changes of the zone, in the form of zone-changes.awk, and the second one the numbers of the events. The third
# one has agenda's findings, after `found`, and the first starts after some times as JSON, each after its time. The fourth one
# has systemd's answers: a time, the number of an event, and the first start after that time, `none` or `loop`. Parts are
# separated by tabs. Prints a verdict for each event, a tab, and what differs. It needs zone-clock.awk.
#
#   the same starts
#   other starts in the nights of changes
#   MayStop: systemd stops for good, or MayStop: systemd may stop for good
#   unknown

# Returns whether a start is within a day and a half of a change.
function is_near_change(start, at, second) {
  if (start !~ /^[0-9]/) return 0
  second = read_time(start)
  for (at = 1; at <= count; at++) if (changes[at] - 129600 < second && second < changes[at] + 129600) return 1
  return 0
}

# Keeps the start after this time of the job of a line of JSON. Years after 2199 are after systemd's last.
function keep_start(time, line, start) {
  start = line ~ /^[{]"start":null,/ ? "none" : substr(line, 11, 20)
  if (start >= "2200" && start < "3") start = "none"
  starts[time, substr(line, index(line, "\"job\":\"") + 7) + 0] = start
}

function verdict_of(n, at, time, agenda, systemd, verdict) {
  verdict = n in may_stop ? "MayStop: systemd may stop for good" : "the same starts"
  for (at = 1; at <= asked; at++) {
    time = times[at]
    agenda = starts[time, n]
    systemd = answers[time, n]
    if (agenda == systemd) continue
    if (systemd == "loop" && n in may_stop) return "MayStop: systemd stops for good\t"
    if (systemd == "loop" || !(is_near_change(agenda) || is_near_change(systemd)))
      return "unknown\tafter " time ": " systemd " by systemd, and " agenda " by agenda"
    if (!(n in may_stop)) verdict = "other starts in the nights of changes"
  }
  return verdict "\t"
}

BEGIN { FS = "\t" }
file == 1 { changes[++count] = $2 }
file == 2 { numbers[++events] = $1 }
file == 3 && $1 == "found" && /\[(MayStop|SkippedStarts)\]/ { may_stop[$2 + 0] }
file == 3 && $1 != "found" { keep_start($1, $2) }
file == 4 {
  if (!($1 in seen)) {
    seen[$1]
    times[++asked] = $1
  }
  answers[$1, $2] = $3
}
END { for (at = 1; at <= events; at++) print verdict_of(numbers[at]) }
