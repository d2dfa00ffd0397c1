# Judges made events by what agenda and systemd say about them.
#
# The first file has the events, one per line. The second one has agenda's findings, after `found`, and the first starts after some
# times as JSON, each after its time. The third one has systemd's answers: a time, the number of an event, and the first start
# after that time, `none`, `refused` or `given up`. Parts are separated by tabs. Prints a verdict for each event, a tab, and
# what differs:
#
#   no finding: the same starts
#   an error: agenda rejects it
#   warned: CODES       a warning explains the difference
#   false: CODES        a warning would explain a difference, but there is none
#   unknown

# Returns whether a warning is about what systemd accepts or when it starts.
function is_about_starts(code) { return code == "SystemdRejects" || code == "RangeFromEnd" || code == "SkippedStarts" }

# Keeps a finding about the timer of an event.
function keep_finding(text, n, code) {
  n = text + 0
  code = text
  sub(/.*\[/, "", code)
  sub(/\].*/, "", code)
  if (text ~ /^[0-9]+\.timer:[0-9]+: error: /) rejected[n]
  else if (text ~ /^[0-9]+\.timer:[0-9]+: warning: /) {
    if (is_about_starts(code)) codes[n] = codes[n] " " code
  } else if (text !~ /^[0-9]+\.timer: warning: /) odd[n] = text
}

# Keeps the start of the job of a line of JSON. Years after 2199 are after systemd's last.
function keep_start(time, text, start, n) {
  start = text ~ /^[{]"start":null,/ ? "none" : substr(text, 11, 20)
  if (start >= "2200" && start < "3") start = "none"
  n = substr(text, index(text, "\"job\":\"") + 7) + 0
  starts[time, n] = start
}

# Returns the difference between agenda and systemd, or nothing.
function difference_of(n, at, key) {
  if (answers[times[1], n] == "refused") return "systemd rejects it"
  for (at = 1; at <= asked; at++) {
    key = times[at] SUBSEP n
    if (!(key in answers)) continue
    if (!(key in starts)) return "agenda has no answer after " times[at]
    if (answers[key] != starts[key]) return "after " times[at] ": " answers[key] " by systemd, and " starts[key] " by agenda"
  }
  return ""
}

# Returns whether a warning says what differs.
function is_explained(n, difference) {
  if (difference == "systemd rejects it") return codes[n] ~ /SystemdRejects/
  return codes[n] ~ /RangeFromEnd|SkippedStarts/
}

function verdict_of(n, difference) {
  if (n in odd) return "unknown\t" odd[n]
  if (n in rejected) return "an error: agenda rejects it\t"
  difference = difference_of(n)
  if (difference == "") return codes[n] == "" ? "no finding: the same starts\t" : "false:" codes[n] "\t"
  return (is_explained(n, difference) ? "warned:" codes[n] : "unknown") "\t" difference
}

BEGIN { FS = "\t" }
file == 1 { count = FNR }
file == 2 && $1 == "found" {
  keep_finding(substr($0, 7))
  next
}
file == 2 { keep_start($1, $2) }
file == 3 {
  if (!($1 in seen)) {
    seen[$1]
    times[++asked] = $1
  }
  answers[$1, $2] = $3
}
END { for (n = 1; n <= count; n++) print verdict_of(n) }
