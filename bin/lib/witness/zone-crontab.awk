# Compares the starts of a crontab by cron's daemon and by agenda. With file=1 it reads the crontab, in which
# the command of each rule is its number; with file=2 the output of cron-clock; with file=3 that of `agenda
# plan`. The clock is put forward at the time `gap`. The line for each rule has the number of its starts and a
# verdict:
#
#   same                     both start it at the same times
#   several skipped minutes  the same, but cron starts it several times when the clock is put forward
#   unknown                  the starts differ; the first difference follows
BEGIN { FS = "\t" }

file == 1 {
  match($0, / [0-9]+$/)
  rules[++number] = substr($0, 1, RSTART - 1)
  next
}

file == 2 {
  if (!by_cron[$1, $2]++) times[$2] = times[$2] " " $1
  else if ($1 == gap) several[$2] = 1
  else twice[$2] = "cron starts it twice at " $1
  next
}

FNR == 1 { header = $1; next }

{
  if (by_agenda[$1, $3]++) twice[$3] = "agenda starts it twice at " $1
  starts[$3]++
  if (!(($1, $3) in by_cron)) times[$3] = times[$3] " " $1
}

END {
  if (statuses != "0 0" || header != "agenda 2") wrong = "cron and agenda end with status " statuses ": " header
  for (at = 1; at <= number; at++) {
    kind = "several skipped minutes"
    verdict = several[at] ? kind : "same"
    first = ""
    count = split(times[at], its, " ")
    for (one = 1; one <= count; one++)
      if (((its[one], at) in by_cron) != ((its[one], at) in by_agenda) && (first == "" || its[one] < first)) first = its[one]
    if (first != "") verdict = "unknown\tonly " (((first, at) in by_cron) ? "cron" : "agenda") " starts it at " first
    if (at in twice) verdict = "unknown\t" twice[at]
    if (wrong != "") verdict = "unknown\t" wrong
    print starts[at] + 0 "\t" verdict "\t'" rules[at] "' in " zone " from " since
  }
}
