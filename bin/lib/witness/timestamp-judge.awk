# Compares the seconds that agenda and systemd read. After zone-clock.awk; a line has, between tabs, a text, systemd's second, its local
# time, the time that agenda's header shows, or its error, and systemd's second and local time again. Prints the verdict: `same`,
# `refused`, or one of these:
#
#   skipped   clocks skip the local time: agenda goes by the second at which they are put forward
#   twice     clocks show the local time twice: agenda goes by the first one
#   unknown   another difference, and the line

# Returns the second of a local time with its offset, or with Z.
function read_local(text, offset) {
  offset = 0
  if (match(text, /[+-][0-9][0-9]:[0-9][0-9](:[0-9][0-9])?$/)) offset = (substr(text, RSTART, 1) == "-" ? -1 : 1) * second_of(1970, 1, 1, substr(text, RSTART + 1))
  return read_time(text) - offset
}

# Returns the local time of a text with a date, in the form that agenda shows, or nothing if it isn't one.
function wanted(text) {
  if (text !~ /^[0-9][0-9][0-9][0-9]-[0-9-]*( [0-9:]*)?$/) return ""
  if (length(text) == 10) return text "T00:00:00"
  return substr(text, 1, 10) "T" substr(text, 12) (length(text) == 16 ? ":00" : "")
}

BEGIN { FS = "\t" }
{
  if ($4 ~ /^agenda: / || $2 == "") verdict = $4 ~ /^agenda: / && $2 == "" ? "refused" : "unknown"
  else {
    second = read_local($4)
    local = wanted($1)
    if (second >= $2 && second <= $5) verdict = "same"
    else if (local != "" && local != substr($4, 1, 19) && local != $3) verdict = "skipped"
    else if (local != "" && local == substr($4, 1, 19) && local == $3) verdict = "twice"
    else verdict = "unknown"
  }
  print verdict (verdict == "unknown" ? "\t" zone ": " $0 : "")
}
