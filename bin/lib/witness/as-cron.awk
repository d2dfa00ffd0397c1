# as_read(text) returns what Debian's cron makes of a rule that agenda rejects, as a rule that agenda accepts. No rule is known
# that agenda accepts and cron rejects. Each change is recorded by its name in docs/TESTING.md, with the codes of
# agenda's errors for it.

function value(word, at) {
  at = index("janfebmaraprmayjunjulaugsepoctnovdec", tolower(word))
  if (word ~ /^[A-Za-z]/ && length(word) == 3 && at % 3 == 1) return (at + 2) / 3
  at = index("sunmontuewedthufrisat", tolower(word))
  if (word ~ /^[A-Za-z]/ && length(word) == 3 && at % 3 == 1) return (at - 1) / 3
  return word + 0
}

# Returns what is left in 32 bits of a number of more than 4 digits.
function short_number(word, n) {
  if (word !~ /^[0-9][0-9][0-9][0-9][0-9]+$/) return word
  note("numbers over 4 digits", "BadNumber")
  n = word % 4294967296
  return n > 9999 ? 9999 : n
}

# Returns an element, or nothing if it is a range backwards.
function element_as_read(element, at, step, ends) {
  if (at = index(element, "/")) {
    step = "/" short_number(substr(element, at + 1))
    element = substr(element, 1, at - 1)
  }
  if (split(element, ends, "-") < 2) return short_number(element) step
  ends[1] = short_number(ends[1])
  ends[2] = short_number(ends[2])
  if (value(ends[1]) <= value(ends[2])) return ends[1] "-" ends[2] step
  note("ranges backwards", "Backwards")
  return ""
}

# Returns a field: its elements up to what cron ignores, which is everything after a whole element if that
# isn't a comma. A day field that was restricted stays restricted: `all` replaces a `*` that comes first
# because the elements before it were removed.
function field_as_read(field, all, first, kept, element) {
  first = substr(field, 1, 1)
  while (match(field, /^([*]|[0-9A-Za-z]+-[0-9A-Za-z]+)(\/[0-9]+)?|^[0-9A-Za-z]+/)) {
    element = substr(field, 1, RLENGTH)
    field = substr(field, RLENGTH + 1)
    element = element_as_read(element)
    if (element != "") kept = kept (kept == "" ? "" : ",") element
    if (substr(field, 1, 1) != ",") break
    field = substr(field, 2)
  }
  if (field != "") note("text after an element", "BadNumber BadName")
  if (first != "*") sub(/^[*]/, all, kept)
  return kept
}

function as_read(text, words, n, at) {
  gsub(/^[ \t]+|[ \t]+$/, "", text)
  n = split(text, words, /[ \t]+/)
  if (n > (text ~ /^@/ ? 1 : 5)) note("further words", text ~ /^@/ ? "UnknownWord" : "WrongParts")
  if (text ~ /^@/) return words[1]
  if (n < 5) return text
  for (at = 1; at <= 5; at++) words[at] = field_as_read(words[at], at == 3 ? "1-31" : at == 5 ? "0-7" : "*")
  # if no day matches one day field, only the other one counts, if that is restricted
  if (words[3] == "" && words[5] !~ /^[*]/ && words[5] != "") words[3] = "*"
  else if (words[5] == "" && words[3] !~ /^[*]/ && words[3] != "") words[5] = "*"
  for (at = 1; at <= 5; at++) if (words[at] == "") return "0 0 31 2 *"
  return words[1] " " words[2] " " words[3] " " words[4] " " words[5]
}
