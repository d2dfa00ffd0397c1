# Compares agenda's delays with those that follow from systemd's answers.
#
# The first file has the spans, and the second one what span-timers.awk printed. The third and the fourth have agenda's
# plans of the two timers of each span, and the fifth what agenda's check found in the first of them. Delays are at most
# `most`. Prints one verdict per line:
#
#   same          both accept it, with the same delay
#   refused       both reject it, so there is no delay
#   unknown, a tab and what is wrong

# Returns what is wrong about the span number `n`, or nothing.
function complaint(n, delay, name, text) {
  delay = wanted[n] == "refused" ? 0 : wanted[n] + 0
  name = n ".timer"
  if (wanted[n] == "refused" && !(name in bad)) return "systemd rejects it, and agenda doesn't warn"
  if (wanted[n] != "refused" && (name in bad)) return "only agenda rejects it"
  if ((delay > 0) != (name in delayed)) return "a delay of " delay " s by systemd, and agenda " (delay > 0 ? "doesn't warn" : "warns")
  if (name in others) return others[name]
  text = complaint_of_plan(3, name, delay)
  return text == "" ? complaint_of_plan(4, name, delay < most ? delay + 1 : most) : text
}

# Returns what is wrong about a timer in the plan of that file. Its delay has to be that.
function complaint_of_plan(plan, name, delay) {
  if (!((plan, name) in latest)) return "no line in a plan"
  if (latest[plan, name] != delay) return sprintf("a delay of %.0f s by systemd, and of %.0f s by agenda", delay, latest[plan, name])
}

BEGIN { FS = "\t" }
file == 1 { spans[FNR] = $0 }
file == 2 {
  wanted[FNR] = $0
  count = FNR
}
file == 3 || file == 4 { latest[file, $3] = read_time($2) }
file == 5 {
  name = $0
  sub(/:.*/, "", name)
  if ($0 ~ /^[0-9]+\.timer:3: warning: .* is not a time span \[BadDelay\]$/) bad[name]
  else if ($0 ~ /^[0-9]+\.timer: warning: starts up to .* later than planned \(RandomizedDelaySec=\) \[Delayed\]$/) delayed[name]
  else others[name] = $0
}
END {
  for (n = 1; n <= count; n++) {
    wrong = complaint(n)
    if (wrong != "") print "unknown\t\047" spans[n] "\047: " wrong
    else print wanted[n] == "refused" ? "refused" : "same"
  }
}
