# Judges what agenda reports of the triggers that made timers have beside their events, by what systemd's test mode prints about them.
#
# The first file is what systemd prints about units, and the second one what agenda reports of a machine with them. Prints a verdict
# for each timer that systemd loads, a tab, and what differs:
#
#   no trigger           agenda reports none
#   unknown, as it says  agenda reports triggers that systemd has
#   an error             agenda rejects the timer, or a line of it
#   read otherwise       agenda says that systemd may read it otherwise
#   off                  agenda says that its unit can't start
#   wrong

# Keeps a line about the timer `n` of systemd.
function keep_state(line) {
  if (line == "\t\tUnit Load State: loaded") loaded[n]
  else if (match(line, /^\t\tOn(Boot|Startup|Active|UnitActive|UnitInactive)Sec: /)) triggers[n] = triggers[n] " " substr(line, 3, RLENGTH - 4)
  else if (line == "\t\tOnClockChange: yes") triggers[n] = triggers[n] " OnClockChange"
  else if (line == "\t\tOnTimeZoneChange: yes") triggers[n] = triggers[n] " OnTimezoneChange"
}

# Keeps what agenda reports of a timer.
function keep_report(line, n) {
  match(line, /[0-9]+\.timer:/)
  n = substr(line, RSTART) + 0
  if (line ~ /^agenda: unknown: .*: (also )?starts by On[A-Za-z]*=$/) {
    sub(/.* starts by /, "", line)
    sub(/=$/, "", line)
    keys[n] = keys[n] " " line
  } else if (line ~ /^agenda: unknown: /) otherwise[n]
  else if (line ~ /: error: /) rejected[n]
  else if (line ~ /^agenda: not planned: .*\.timer: /) off[n]
}

# Returns a trigger that agenda reports of a timer, and systemd doesn't have, or nothing.
function invented(n, list, count, at) {
  count = split(keys[n], list, " ")
  for (at = 1; at <= count; at++) if (index(triggers[n] " ", " " list[at] " ") == 0) return list[at]
  return ""
}

function verdict_of(n) {
  if (n in off) return "off\t"
  if (invented(n) != "") return "wrong\t" n ".timer isn't started by " invented(n) "="
  if (triggers[n] == "") return "no trigger\t"
  if (keys[n] != "") return "unknown, as it says\t"
  if (n in rejected) return "an error\t"
  if (n in otherwise) return "read otherwise\t"
  return "wrong\t" n ".timer is also started by" triggers[n]
}

file == 1 && /^\t-> Unit / { n = $0 ~ /^\t-> Unit [0-9]+\.timer:$/ ? substr($0, 10) + 0 : "" }
file == 1 && n != "" { keep_state($0) }
file == 2 && /[0-9]+\.timer:/ { keep_report($0) }
END { for (n in loaded) print verdict_of(n) }
