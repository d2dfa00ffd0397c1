# Judges made crontabs by what agenda and cron say about them.
#
# The first file has the crontabs, as agree-crontabs.awk prints them. The second one has agenda's findings, after `found`, and its
# jobs with their first starts after some times as JSON, each after its time. The third one is what agree-cron.c prints. Parts
# are separated by tabs. Prints a verdict for each crontab, a tab, and what differs:
#
#   no finding: the same jobs
#   an error: cron ignores the file, or an error: cron loads the file
#   warned: CODES       a warning explains the difference
#   false: CODES        a warning would explain a difference, but there is none
#   unknown

# Keeps a finding.
function keep_finding(text, n, code) {
  n = text + 0
  code = text
  sub(/.*\[/, "", code)
  sub(/\].*/, "", code)
  if (text ~ /^[0-9]+(:[0-9]+)?: error: /) rejected[n] = rejected[n] " " code
  else if (text !~ /^[0-9]+(:[0-9]+)?: warning: /) odd[n] = text
  else if (code ~ /^(CronIgnores|CronDiffers|Percent|NoUser)$/ && index(codes[n] " ", " " code " ") == 0) codes[n] = codes[n] " " code
  if (code == "CronDiffers" && text ~ /NUL/) has_nul[n]
}

# Keeps the job of a line of JSON, and its start. A user comes before what is run.
function keep_start(text, start, n, line, at) {
  start = text ~ /^[{]"start":null,/ ? "none" : substr(text, 11, 20)
  text = substr(text, index(text, "\"job\":\"") + 7)
  n = text + 0
  line = substr(text, index(text, ":") + 1) + 0
  if (!((n, line) in starts)) {
    lines[n] = lines[n] " " line
    at = index(text, "\"run\":\"")
    runs[n, line] = substr(text, at + 7, length(text) - at - 8)
    text = substr(text, 1, at - 3)
    at = index(text, "\"user\":\"")
    users[n, line] = at ? substr(text, at + 8) : ""
    starts[n, line] = start
  } else starts[n, line] = starts[n, line] "," start
}

# Keeps a line of cron: that of a job, or that of a file.
function keep_cron(key) {
  if (index(key, ":") == 0) {
    loaded[key] = $2
    return
  }
  sub(":", SUBSEP, key)
  jobs[key] = substr($0, index($0, "\t") + 1)
}

# Sorts the numbers of the lines of a crontab, and returns how many there are.
function sort_lines(n, sorted, count, at, other, one) {
  count = split(lines[n], sorted, " ")
  for (at = 2; at <= count; at++) {
    one = sorted[at]
    for (other = at; other > 1 && sorted[other - 1] + 0 > one + 0; other--) sorted[other] = sorted[other - 1]
    sorted[other] = one
  }
  return count
}

# Returns a command without the blanks before it, which the shell ignores.
function without_blanks(text) {
  sub(/^( |\\t)+/, "", text)
  return text
}

# Returns a string of JSON without its quotes.
function unquoted(text) { return substr(text, 2, length(text) - 2) }

# Returns how a job of cron differs from that of a line.
function difference_of_job(n, line, number, parts, run) {
  if (split(jobs[n, number], parts, "\t") != 5) return "a line of the witness: " jobs[n, number]
  run = runs[n, line]
  if (parts[1] != starts[n, line]) return "job " number ": " parts[1] " by cron, and " starts[n, line] " by agenda"
  if (unquoted(parts[2]) != users[n, line]) return "job " number ": the user"
  if (without_blanks(unquoted(parts[3])) != run) return "job " number ": cron reads " parts[3] ", and agenda \"" run "\""
  # what agenda prints is the line's text, in which \% is a percent sign
  gsub(/\\\\%/, "%", run)
  if (without_blanks(unquoted(parts[4])) != run || parts[5] != "-") return "job " number ": the shell gets " parts[4] (parts[5] == "-" ? "" : " and input")
  return ""
}

# Returns how cron's jobs differ from agenda's, or nothing.
function difference_of(n, count, sorted, at, difference) {
  if (loaded[n] == "ignored") return "cron ignores the file"
  count = sort_lines(n, sorted)
  if (loaded[n] != count) return loaded[n] " jobs by cron, and " count " by agenda"
  for (at = 1; at <= count && difference == ""; at++) difference = difference_of_job(n, sorted[at], at)
  return difference
}

# Returns whether a warning says what differs.
function is_explained(n, difference) {
  if (difference == "cron ignores the file") return codes[n] ~ /CronIgnores|NoUser/ || n in has_nul
  return codes[n] ~ /CronDiffers/ || (codes[n] ~ /Percent/ && difference ~ /shell/)
}

function verdict_of(n, difference) {
  if (n in odd) return "unknown\t" odd[n]
  if (!(n in loaded)) return "unknown\tthe witness has no answer"
  if (n in rejected) return "an error: cron " (loaded[n] == "ignored" ? "ignores" : "loads") " the file\t" rejected[n]
  difference = difference_of(n)
  if (difference == "") return codes[n] == "" ? "no finding: the same jobs\t" : "false:" codes[n] "\t"
  return (is_explained(n, difference) ? "warned:" codes[n] : "unknown") "\t" difference
}

BEGIN { FS = "\t" }
file == 1 { count = FNR }
file == 2 && $1 == "found" { keep_finding(substr($0, 7)) }
file == 2 && $1 != "found" { keep_start(substr($0, index($0, "\t") + 1)) }
file == 3 { keep_cron($1) }
END { for (n = 1; n <= count; n++) print verdict_of(n) }
