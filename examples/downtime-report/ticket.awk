# Writes the text of a ticket from what `agenda downtime` prints: which jobs to start by hand, and which start by themselves.

# Prints what has the outcome `then`, below a heading.
function print_section(then, heading) {
  if (then in lines) printf "%s\n%s", heading, lines[then]
}

BEGIN { FS = "\t" }

{
  runs = $0
  # what a job runs may have tabs
  sub(/^[^\t]*\t[^\t]*\t[^\t]*\t[^\t]*\t[^\t]*\t/, "", runs)
  line = "- " runs " (" $5 ")"
  if ($4 == "lost") line = line ": " $3 ($3 == 1 ? " start, at " $1 : " starts, the first at " $1)
  lines[$4] = lines[$4] line "\n"
}

END {
  print_section("lost", "Missed. Start by hand what matters:")
  print_section("made up", "Missed, and started once by systemd after the downtime:")
  print_section("at boot", "Started by cron at boot:")
}
