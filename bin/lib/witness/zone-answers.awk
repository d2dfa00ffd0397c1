# Prints one answer per line from the output of `systemd-analyze calendar` in a zone for `count` events,
# including its errors: the starts in UTC; `none`; `loop` if systemd gives up an infinite loop; or `nothing`.
# In the zone UTC a start has no extra line for UTC.
function finish() {
  for (at = 1; at <= starts; at++) line = line (at > 1 ? " " : "") start[at]
  answers[++number] = starts ? line : never ? "none" : "nothing"
  line = ""
  starts = never = 0
}
/^Failed to determine next elapse for .*: Resource deadlock avoided$/ { loops++; next }
/^$/ { finish(); next }
/^ *Next elapse: never$/ { never = 1; next }
/^ *(Next elapse|Iter[.] #[0-9]+): / { start[++starts] = $(NF - 2) "T" $(NF - 1) "Z" }
/^ *[(]in UTC[)]: / { start[starts] = $(NF - 2) "T" $(NF - 1) "Z" }
END {
  finish()
  # each event without lines must be one with an infinite loop
  for (at = 1; at <= count; at++) missing += answers[at] == "nothing" || !(at in answers)
  for (at = 1; at <= count; at++) print at in answers ? answers[at] == "nothing" && missing == loops ? "loop" : answers[at] : "nothing"
}
