# Compares agenda's answers about events in zones with those of systemd, in three stages. The directory
# `zones` has the files `changes`, in the form of zone-changes.awk, `events`, whose lines have the zone of an event, a
# time, the event and the zone of the machine, and the answers, one per line, in `agenda` and in `systemd`.
#
#   stage=1  The first difference of each chain goes to `differences`. If systemd gives up an infinite loop, it doesn't say at which
#            start: then each start is to be asked for alone, after the start before it; that is written to `steps`.
#   stage=2  With the answers in `steps.systemd`, the questions about each difference go to `questions`. Systemd is asked in UTC about
#            the times that the clock shows, for each part of time in which the clock runs evenly and repeats nothing. From the answers it
#            follows when the event starts, whatever systemd does with zones.
#   stage=3  With the answers in `questions.systemd`, a verdict is printed for each chain: `same`, the kind of the difference, or
#            `unknown`. A difference has a kind if agenda's start is the one that follows, and systemd's has a cause with a name.

function read_changes(line, parts, zone) {
  while ((getline line <(zones "/changes")) > 0) {
    split(line, parts, "\t")
    zone = parts[1]
    change_at[zone, ++changes_of[zone]] = parts[2]
    before[zone, changes_of[zone]] = parts[3]
    after[zone, changes_of[zone]] = parts[4]
    keeps_flag[zone, changes_of[zone]] = parts[5] == parts[6]
    drops_flag[zone, changes_of[zone]] = parts[5] > parts[6]
    abbreviations[zone] = abbreviations[zone] " " parts[7] " "
  }
}

# Returns the number of the last change at or before a second, or 0.
function last_change(zone, second, low, high, middle) {
  high = changes_of[zone]
  while (low < high) {
    middle = int((low + high + 1) / 2)
    if (change_at[zone, middle] <= second) low = middle
    else high = middle - 1
  }
  return low
}

# Returns how many seconds local time is ahead of UTC.
function offset_at(zone, second, at) {
  at = last_change(zone, second)
  return at ? after[zone, at] : before[zone, 1]
}

# Returns the first second after a change whose local time isn't a repetition.
function first_new(zone, at) {
  if (!at) return 0
  return change_at[zone, at] + (after[zone, at] < before[zone, at] ? before[zone, at] - after[zone, at] : 0)
}

function is_repeated(zone, second) { return second < first_new(zone, last_change(zone, second)) }

function is_chain(answer) { return answer ~ /^([0-9TZ:-]+|none)( [0-9TZ:-]+| none)*$/ }

# Returns the starts of an answer, without the `none` after them.
function starts_of(answer) {
  sub(/ ?none$/, "", answer)
  return answer
}

# Returns the next line of a file of the directory.
function next_line(file, line) {
  line = ""
  getline line <(zones "/" file)
  return line
}

# Writes a difference to be judged: the chain, the event with its zones, the time after which was asked, and the
# answers of agenda and systemd.
function write_difference(chain, event, from, agenda, systemd) {
  print chain "\t" event[1] "\t" from "\t" event[3] "\t" agenda "\t" systemd "\t" event[4] >(zones "/differences")
}

# Writes how a chain differs: its first difference or, if systemd has no answer to the whole, each of its
# steps, which are asked about separately.
function write_differences(chain, line, agenda, systemd, parts, ours, theirs, n, at, from) {
  split(line, parts, "\t")
  n = split(agenda, ours, " ")
  split(systemd, theirs, " ")
  from = parts[2]
  for (at = 1; at <= n; at++) {
    if (systemd == "loop") {
      write_difference(chain, parts, from, ours[at], "?")
      print parts[1] "\t" from "\t" parts[3] "\t" parts[4] >(zones "/steps")
    } else if (ours[at] != theirs[at] && !(ours[at] == "none" && theirs[at] == "")) {
      write_difference(chain, parts, from, ours[at], theirs[at] == "" ? "none" : theirs[at])
      return
    }
    from = ours[at]
  }
}

function compare_chains(line, agenda, systemd, chain) {
  printf "" >(zones "/steps")
  printf "" >(zones "/differences")
  while ((getline line <(zones "/events")) > 0) {
    agenda = next_line("agenda")
    systemd = next_line("systemd")
    chain++
    if (is_chain(agenda) && is_chain(systemd) && starts_of(agenda) == starts_of(systemd)) print "same" >(zones "/first")
    else if (is_chain(agenda) && (is_chain(systemd) || systemd == "loop")) {
      print "differs" >(zones "/first")
      write_differences(chain, line, agenda, systemd)
    } else print "unknown\tagenda says " agenda ", systemd " systemd >(zones "/first")
  }
}

# Reads the next difference, and sets chain, zone, from, text, agenda, systemd and home.
function next_difference(line, parts) {
  if ((getline line <(zones "/differences")) <= 0) return 0
  split(line, parts, "\t")
  chain = parts[1]
  zone = parts[2]
  from = parts[3]
  text = parts[4]
  agenda = parts[5]
  systemd = parts[6] == "?" ? next_line("steps.systemd") : parts[6]
  home = parts[7]
  number++
  return 1
}

# Writes the questions about the difference: up to agenda's start or, if agenda has none, up to systemd's
# start and what it repeats.
function write_questions(end, at, second, upto) {
  second = read_time(from) + 1
  end = agenda != "none" ? read_time(agenda) : systemd ~ /^[0-9]/ ? read_time(systemd) : second
  if (end < second) end = second
  at = last_change(zone, end)
  if (agenda == "none" && end < first_new(zone, at)) end = first_new(zone, at)
  for (at = last_change(zone, second); second <= end; second = change_at[zone, ++at]) {
    if (second < first_new(zone, at)) second = first_new(zone, at)
    upto = at < changes_of[zone] && change_at[zone, at + 1] <= end ? change_at[zone, at + 1] - 1 : end
    if (second <= upto) {
      print "UTC\t" write_time(second + offset_at(zone, second) - 1) "\t" text "\tUTC" >(zones "/questions")
      print number "\t" write_time(upto + offset_at(zone, second)) "\t" (upto == end ? agenda : "") >(zones "/questions.of")
    }
    if (upto == end) break
  }
}

function write_all_questions() {
  printf "" >(zones "/questions")
  printf "" >(zones "/questions.of")
  while (next_difference()) if (agenda != systemd) write_questions()
}

# Reads systemd's answers in UTC. `follows` of a difference is 1 if agenda's start follows from them.
function read_questions(line, parts, answer) {
  while ((getline line <(zones "/questions.of")) > 0) {
    answer = next_line("questions.systemd")
    split(line, parts, "\t")
    if (parts[3] == "none") follows[parts[1]] += answer == "none"
    else if (parts[3] != "") follows[parts[1]] += answer == parts[2]
    else if (answer != "none" && !(answer ~ /^[0-9]/ && answer > parts[2])) follows[parts[1]] -= 2
  }
}

# Tests whether the number is one of the hours of an event's time.
function has_hour(hours, number, elements, n, at, ends, slash, step) {
  n = split(hours, elements, ",")
  for (at = 1; at <= n; at++) {
    step = 1
    if (slash = index(elements[at], "/")) step = substr(elements[at], slash + 1)
    split(slash ? substr(elements[at], 1, slash - 1) : elements[at], ends, /[.][.]/)
    if (ends[1] == "*") return 1
    if (ends[2] == "") ends[2] = slash ? 23 : ends[1]
    if (number >= ends[1] && number <= ends[2] && (number - ends[1]) % step == 0) return 1
  }
  return 0
}

# Returns the hours of an event.
function hours_of(text, words, n, at) {
  n = split(text, words, " ")
  for (at = 1; at <= n; at++) if (words[at] ~ /:/) return substr(words[at], 1, index(words[at], ":") - 1)
  return text ~ /^(minutely|hourly)$/ ? "*" : 0
}

# Tests whether an hour of the clock that a gap skips, fully or in part, is one of the hours.
function gap_has_hour(at, hours, second) {
  for (second = change_at[zone, at] + before[zone, at]; second < change_at[zone, at] + after[zone, at]; second += 3600 - second % 3600)
    if (has_hour(hours, int(second % 86400 / 3600))) return 1
  return 0
}

# Tests whether the hours are a step without an end that systemd continues past midnight, to an hour in or
# after the gap: `2/4` has 26, which is 02:00 of the next day. The difference must be asked about on a day
# before the gap's.
function runs_past(at, hours, parts, begin) {
  if (hours !~ /^[0-9]+[/][0-9]+$/) return 0
  split(hours, parts, "/")
  while (parts[1] < 24) parts[1] += parts[2]
  begin = change_at[zone, at] + before[zone, at]
  if (parts[1] - 24 < int(begin % 86400 / 3600)) return 0
  return int((read_time(from) + offset_at(zone, read_time(from))) / 86400) < int(begin / 86400)
}

# Tests whether the clock shows at the second a time that it shows twice because of the change.
function is_in_fold(at, second, shown) {
  shown = second + offset_at(zone, second)
  return shown >= change_at[zone, at] + after[zone, at] && shown < change_at[zone, at] + before[zone, at]
}

# Returns the kind of the difference if it is caused by a gap, or nothing.
function kind_of_gap(at, hours, moves_far, kind) {
  if (change_at[zone, at] <= read_time(from)) return ""
  hours = hours_of(text)
  # then the C library moves a time in the gap further than to the next hour
  moves_far = drops_flag[zone, at] || after[zone, at] - before[zone, at] > 3600
  if (systemd == "loop" && runs_past(at, hours)) kind = "steps of hours and a gap"
  else if (hours ~ /[,.\/]/ && gap_has_hour(at, hours) && moves_far) kind = "lists of hours and a gap"
  else if ((change_at[zone, at] + before[zone, at]) % 3600) kind = "gaps that begin within an hour"
  else if (keeps_flag[zone, at]) kind = "changes that keep the flag"
  return kind
}

# Returns the kind of the difference if it is caused by a fold, or nothing.
function kind_of_fold(at, start, asked, kind) {
  if (systemd !~ /^[0-9]/) return ""
  start = read_time(systemd)
  asked = read_time(from)
  if (!is_in_fold(at, start)) return ""
  if (asked >= change_at[zone, at] && asked < first_new(zone, at)) kind = "asked in a second pass"
  else if (keeps_flag[zone, at]) kind = "changes that keep the flag"
  else if (text ~ /~/ && is_repeated(zone, start)) kind = "days after ~ and a fold"
  return kind
}

# Returns the kind of the difference, or `unknown`. Its cause is that systemd reads the zone as an abbreviation, or the
# last change before the time asked about, or one up to the later start.
function kind_of(end, at, kind) {
  if (index(abbreviations[home], " " zone " ")) return kind = "abbreviations of the machine's zone"
  end = systemd !~ /^[0-9]/ || agenda != "none" && agenda > systemd ? agenda : systemd
  end = read_time(end == "none" ? from : end)
  for (at = last_change(zone, read_time(from)); at <= changes_of[zone] && (!at || change_at[zone, at] <= end); at++) {
    if (!at || after[zone, at] == before[zone, at]) continue
    kind = after[zone, at] < before[zone, at] ? kind_of_fold(at) : kind_of_gap(at)
    if (kind != "") return kind
  }
  return "unknown"
}

# Prints a verdict for each chain, with the difference. The first difference of a chain decides.
function print_verdicts(line, at, kinds, says) {
  read_questions()
  while (next_difference()) {
    if (agenda == systemd || chain in kinds) continue
    kinds[chain] = follows[number] == 1 ? kind_of() : "unknown"
    says[chain] = "after " from " agenda says " agenda ", systemd " systemd (follows[number] == 1 ? "" : ", and in UTC not what agenda says")
  }
  while ((getline line <(zones "/first")) > 0) {
    at++
    if (line != "differs") print line
    else print at in kinds ? kinds[at] "\t" says[at] : "unknown\tsystemd says loop, but not to a single step"
  }
}

BEGIN {
  read_changes()
  if (stage == 1) compare_chains()
  if (stage == 2) write_all_questions()
  if (stage == 3) print_verdicts()
}
