# Compares agenda's answers with those of a witness.
#
# The directory `folder` has them in `agenda` and in `witness`, one answer per line, and the texts in `texts`.
# Starts count up to `end`. Where agenda accepts a text, `agenda check` must warn about each difference. Where it
# rejects one, the difference is known if as_read, of as-cron.awk or as-systemd.awk, changes the text by changes
# that each have a name, and if the answer to the changed text is the other program's answer to the text.
#
# On the first call, without a directory `again`, it writes the changed texts to `folder`/again/texts, the texts about
# which agenda must warn to `folder`/warned, and a line for each text to `folder`/first: the verdict, the names, and
# what as_read sets. On the second call, with the answers in `again` and the codes of the warnings in `folder`/codes,
# it prints the verdicts, one per line:
#
#   same                both accept it, with the same starts
#   refused             both reject it
#   agenda, NAMES       agenda rejects it for the reasons of these names
#   warned, CODES       the witness rejects it, or has other starts, and agenda warns by these codes
#   unknown             they differ, and the reason isn't known

# Records a change by its name, with the codes of agenda's errors for it. If `how` is `likewise`, the changed
# text has other starts, and both programs must only read it in the same way.
function note(name, its_causes, how) {
  if (index("; " names "; ", "; " name "; ") == 0) names = names (names == "" ? "" : "; ") name
  causes = causes " " its_causes " "
  if (how != "") likewise = 1
}

function is_refused(answer) { return answer ~ /^(refused|agenda: rule: part [0-8]: [A-Za-z]+)$/ }

function is_taken(answer) { return answer ~ /^([0-9TZ:-]+|none)( [0-9TZ:-]+| none)*$/ }

# Returns the starts of an answer before the end.
function starts_of(answer, words, n, at, kept) {
  n = split(answer, words, " ")
  for (at = 1; at <= n; at++) if (words[at] != "none" && words[at] < end) kept = kept " " words[at]
  return kept
}

function is_same(one, other) { return is_taken(one) && is_taken(other) && starts_of(one) == starts_of(other) }

# Returns the verdict on a text, before the changed text is asked about. Sets `anew` to that text.
function verdict(text, agenda, witness, cause) {
  names = causes = anew = closed = ""
  likewise = 0
  if (!(is_taken(agenda) || is_refused(agenda)) || !(is_taken(witness) || is_refused(witness))) return "unknown"
  if (is_same(agenda, witness)) return "same"
  if (is_refused(agenda) && is_refused(witness)) return "refused"
  if (is_taken(agenda)) return is_refused(witness) ? "rejected" : "starts"
  anew = as_read(text)
  cause = agenda
  sub(/.* /, "", cause)
  return anew == text || names == "" || index(causes, " " cause " ") == 0 ? "unknown" : "agenda"
}

# Returns the verdict on a text that agenda rejects, if the answers to the changed text confirm its names.
function borne_out(names, likewise, closed, witness, agenda_anew, witness_anew) {
  if (!likewise && is_same(agenda_anew, witness)) return "agenda, " names
  # what else differs is what systemd skips after a step without an end
  return (likewise || closed) && is_same(agenda_anew, witness_anew) ? "agenda, " names : "unknown"
}

# Returns the verdict on a text that agenda accepts, by the codes of its warnings.
function warned(line, codes, wanted) {
  wanted = line == "rejected" ? "SystemdRejects" : "RangeFromEnd|SkippedStarts"
  return codes ~ wanted ? "warned, " codes : "unknown"
}

BEGIN {
  FS = "\t"
  while ((getline text <(folder "/texts")) > 0) {
    agenda = witness = ""
    getline agenda <(folder "/agenda")
    getline witness <(folder "/witness")
    if (again == "") {
      line = verdict(text, agenda, witness)
      print line "\t" names "\t" likewise "\t" closed >(folder "/first")
      if (line == "agenda") print anew >(folder "/again/texts")
      if (line ~ /^(rejected|starts)$/) print text >(folder "/warned")
      continue
    }
    getline <(folder "/first")
    line = $1
    if (line == "agenda") {
      agenda_anew = witness_anew = ""
      getline agenda_anew <(again "/agenda")
      getline witness_anew <(again "/witness")
      line = borne_out($2, $3, $4, witness, agenda_anew, witness_anew)
    } else if (line ~ /^(rejected|starts)$/) {
      codes = ""
      getline codes <(folder "/codes")
      line = warned(line, codes)
    }
    print line
  }
}
