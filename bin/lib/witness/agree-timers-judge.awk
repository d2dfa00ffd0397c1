# Judges made timers by what agenda and systemd say about them.
#
# The first file has the names of the timers. The second one has agenda's findings, after `found`, and the first starts after some
# times as JSON, each after its time. The third one is what systemd's test mode prints about units, and the fourth its log. The
# fifth one has systemd's answers about events: a time, an event, and its first start. Parts are separated by tabs. Prints a
# verdict for each timer, a tab, and what differs:
#
#   no finding: the same unit and starts
#   an error: agenda rejects it
#   warned: CODES       a warning explains the difference, or systemd says the same in its log
#   false: CODES        systemd doesn't do what a warning says
#   unknown

# Keeps a finding about a timer.
function keep_finding(text, n, code) {
  n = text + 0
  code = text
  sub(/.*\[/, "", code)
  sub(/\].*/, "", code)
  if (text ~ /^[0-9]+\.timer(:[0-9]+)?: error: /) rejected[n]
  else if (text !~ /^[0-9]+\.timer(:[0-9]+)?: warning: /) odd[n] = text
  else if (code ~ /^(TimerRejected|UnitIgnored|LineEnd|SystemdRejects|RangeFromEnd|SkippedStarts)$/ && index(codes[n] " ", " " code " ") == 0) codes[n] = codes[n] " " code
}

# Keeps the start of the job of a line of JSON, and what it runs. Years after 2199 are after systemd's last.
function keep_start(time, text, start, n, at) {
  start = text ~ /^[{]"start":null,/ ? "none" : substr(text, 11, 20)
  if (start >= "2200" && start < "3") start = "none"
  n = substr(text, index(text, "\"job\":\"") + 7) + 0
  at = index(text, "\"run\":\"")
  runs[n] = substr(text, at + 7, length(text) - at - 8)
  gsub(/\\\\/, "\\", runs[n])
  starts[n, time] = start
}

# Keeps a line about the unit `n`.
function keep_state(line) {
  if (sub(/^\t\tUnit Load State: /, "", line)) states[n] = line
  else if (sub(/^\t\tUnit: /, "", line)) units[n] = line
  else if (sub(/^\t\tOnCalendar: /, "", line)) events[n] = events[n] == "" ? line : events[n] "|" line
}

# Keeps what a line of the log says about a timer.
function keep_log(line, n) {
  if (line ~ /Failed to parse calendar specification/) ignores_event[n]
  if (line ~ /Unit type not valid|Units cannot trigger themselves|Multiple units to trigger|Failed to add trigger|Failed to resolve unit specifiers/) ignores_unit[n]
}

# Returns the first start of a timer after a time, by systemd's answers to its events.
function first_start(n, time, list, count, at, first, start) {
  first = "none"
  count = split(events[n], list, "|")
  for (at = 1; at <= count; at++) {
    start = answers[time, list[at]]
    if (start !~ /^[0-9]/ && start != "none") return "'" list[at] "': " start
    if (start != "none" && (first == "none" || start < first)) first = start
  }
  return first
}

# Returns whether agenda prints a unit as it is written, while systemd replaces a specifier, or starts an instance of a template.
function is_notation(unit) { return unit ~ /%|@[.]/ }

# Returns how systemd's timer differs from agenda's, or nothing.
function difference_of(n, at) {
  if (states[n] != "loaded") return "not loaded: " states[n]
  if (units[n] != runs[n] && !is_notation(runs[n])) return "the unit: " units[n] " by systemd, and " runs[n] " by agenda"
  for (at = 1; at <= asked; at++)
    if (first_start(n, times[at]) != starts[n, times[at]])
      return "starts after " times[at] ": " first_start(n, times[at]) " by systemd, and " starts[n, times[at]] " by agenda"
  return ""
}

# Returns whether a warning says what differs.
function is_explained(n, difference) {
  if (codes[n] ~ /LineEnd/) return 1
  if (difference ~ /^not loaded/) return codes[n] ~ /TimerRejected/
  if (difference ~ /^the unit/) return codes[n] ~ /UnitIgnored/
  return codes[n] ~ /SystemdRejects|RangeFromEnd|SkippedStarts/
}

# Returns whether systemd doesn't do what a warning says.
function is_false(n) {
  if (codes[n] ~ /LineEnd/) return 0
  if (codes[n] ~ /TimerRejected/ && states[n] == "loaded") return 1
  # systemd reads no settings after a bad header
  if (states[n] == "error") return 0
  return (codes[n] ~ /UnitIgnored/ && !(n in ignores_unit)) || (codes[n] ~ /SystemdRejects/ && !(n in ignores_event))
}

function verdict_of(n, difference) {
  if (n in odd) return "unknown\t" odd[n]
  if (n in rejected) return "an error: agenda rejects it\t"
  if (!(n in states)) return "unknown\tsystemd says nothing about it"
  difference = difference_of(n)
  if (difference != "" && !is_explained(n, difference)) return "unknown\t" difference
  if (codes[n] == "") return "no finding: the same unit and starts\t"
  return (is_false(n) ? "false:" : "warned:") codes[n] "\t" difference
}

BEGIN { FS = "\t" }
file == 1 { count = FNR }
file == 2 && $1 == "found" { keep_finding(substr($0, 7)) }
file == 2 && $1 != "found" {
  if (!($1 in seen)) {
    seen[$1]
    times[++asked] = $1
  }
  keep_start($1, $2)
}
file == 3 && /^\t-> Unit / {
  n = ""
  if ($0 ~ /^\t-> Unit [0-9]+\.timer:$/) n = substr($0, 10) + 0
}
file == 3 && n != "" { keep_state($0) }
file == 4 && match($0, /[0-9]+\.timer:[0-9]*:? /) { keep_log($0, substr($0, RSTART) + 0) }
file == 5 { answers[$1, $2] = $3 }
END { for (n = 1; n <= count; n++) print verdict_of(n) }
