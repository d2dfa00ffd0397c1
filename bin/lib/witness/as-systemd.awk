# as_read(text) returns systemd's meaning of an event that agenda rejects, in a form that agenda accepts. Each change is
# recorded by its name in docs/TESTING.md, with the codes of agenda's errors for it.
#
# A step without an end gets its last value as the end. That changes only that systemd skips no start, and `closed` says that
# it was done.

# Returns a number of more than 4 digits without leading zeros, or another number that is too large as well.
function short_number(word) {
  if (word !~ /^[0-9][0-9][0-9][0-9][0-9]+$/) return word
  note("numbers over 4 digits", "BadNumber")
  if (word + 0 > 9999) return 9999
  return sprintf(part == "year" ? "%02d" : "%d", word)
}

function short_year(word) {
  if (word !~ /^[0-9][0-9][0-9][0-9]?$/ || word + 0 > 99) return word
  note("years below 100 with 3 or 4 digits", "OutOfRange")
  return sprintf("%02d", word)
}

function whole_second(word) {
  if (word !~ /^[0-9]+[.][0-9]+$/) return word
  note("fractions", "Fraction", "likewise")
  sub(/[.].*/, "", word)
  return word
}

function short_value(word) {
  if (part == "second") word = whole_second(word)
  word = short_number(word)
  return part == "year" ? short_year(word) : word
}

# Returns a value. A year of one or two digits is in 1970 to 2069.
function value(word) {
  if (part != "year" || word !~ /^[0-9][0-9]?$/) return word + 0
  return word + (word + 0 < 70 ? 2000 : 1900)
}

# Returns systemd's meaning of a range from a to b in steps of r. After ~ it counts from a on.
function range_of_systemd(a, b, r, last) {
  if (r == "" || value(a) > value(b) || r !~ /^[0-9]*[1-9][0-9]*$/) return a ".." b (r == "" ? "" : "/" r)
  last = value(b) - (value(b) - value(a)) % r
  if (value(b) > high && last <= high) note("ranges whose end is not reached", "OutOfRange")
  else if (!tilde) return a ".." b "/" r
  return a ".." last "/" r
}

# Returns a value with a step as a range that ends at its last value.
function close_step(a, r, last) {
  if (r == "" || a !~ /^[0-9]+$/ || r !~ /^[0-9]+$/ || r + 0 == 0 || part == "year" || part == "month") return a (r == "" ? "" : "/" r)
  if (tilde ? a - r < 1 : a + r > high) return a "/" r
  closed = 1
  if (tilde) return a - int((a - 1) / r) * r ".." a "/" r
  return a ".." high - (high - a) % r "/" r
}

function element_as_read(element, r, at) {
  r = ""
  if (at = index(element, "/")) {
    r = substr(element, at + 1)
    element = substr(element, 1, at - 1)
  }
  at = index(element, "..")
  if (r != "") r = short_number(part == "second" ? whole_second(r) : r)
  if (part == "second" && r ~ /^0+$/) r = 1
  if (at) return range_of_systemd(short_value(substr(element, 1, at - 1)), short_value(substr(element, at + 2)), r)
  return close_step(short_value(element), r)
}

# Returns the elements of a component.
function component_as_read(text, its_part, its_high, elements, n, at, kept) {
  part = its_part
  high = its_high
  n = split(text, elements, ",")
  for (at = 1; at <= n; at++) kept = kept (at > 1 ? "," : "") element_as_read(elements[at])
  return kept
}

function date_as_read(text, at, year, month, mark, rest) {
  if (!(at = match(text, /[-~]/))) return text
  month = substr(text, 1, at - 1)
  mark = substr(text, at, 1)
  rest = substr(text, at + 1)
  if (mark == "-" && (at = match(rest, /[-~]/))) {
    year = component_as_read(month, "year", 2199) "-"
    month = substr(rest, 1, at - 1)
    mark = substr(rest, at, 1)
    rest = substr(rest, at + 1)
  }
  month = component_as_read(month, "month", 12)
  tilde = mark == "~"
  rest = component_as_read(rest, "day", tilde ? 28 : 31)
  tilde = 0
  return year month mark rest
}

function time_as_read(text, parts, n) {
  n = split(text, parts, ":")
  text = component_as_read(parts[1], "hour", 23) ":" component_as_read(parts[2], "minute", 59)
  return n < 3 ? text : text ":" component_as_read(parts[3], "second", 59)
}

function weekdays_as_read(text) {
  if (text !~ /[A-Za-z]-[A-Za-z]/) return text
  note("weekdays with -", "BadName")
  gsub(/-/, "..", text)
  return text
}

# Returns the date and time of a number of seconds since 1970.
function moment_of(seconds, days, era, year, month) {
  days = int(seconds / 86400) + 719468
  seconds %= 86400
  era = int(days / 146097)
  days %= 146097
  year = int((days - int(days / 1460) + int(days / 36524) - int(days / 146096)) / 365)
  days -= 365 * year + int(year / 4) - int(year / 100)
  month = int((5 * days + 2) / 153)
  days -= int((153 * month + 2) / 5) - 1
  month += month < 10 ? 3 : -9
  return sprintf("%d-%d-%d %d:%d:%d", year + era * 400 + (month < 3), month, days, seconds / 3600, seconds % 3600 / 60, seconds % 60)
}

# Returns a word. systemd knows more of them than its manual page has.
function word_as_read(word) {
  if (tolower(word) !~ /^(biannually|bi-annually|semi-annually|anually)$/) return ""
  note("words of no manual page", "UnknownWord BadName")
  return tolower(word) == "anually" ? "annually" : "semiannually"
}

function seconds_as_read(word) {
  note("seconds after @", "WrongParts")
  return moment_of(substr(word, 2))
}

function part_as_read(word, at) {
  if (word ~ /^@[0-9]+$/) return seconds_as_read(word)
  if (word ~ /^[A-Za-z]/) return at == 1 ? weekdays_as_read(word) : word
  return word ~ /:/ ? time_as_read(word) : date_as_read(word)
}

function as_read(text, words, n, at, zone) {
  gsub(/[ \t]+/, " ", text)
  gsub(/^ | $/, "", text)
  n = split(text, words, " ")
  if (n > 1 && words[n] ~ /^[A-Za-z]/) zone = words[n--]
  if (zone != "" && toupper(zone) != "UTC") {
    note("zones", "Zone", "likewise")
    zone = ""
  }
  zone = zone == "" ? "" : " " zone
  if (n == 1 && (text = word_as_read(words[1])) != "") return text zone
  text = ""
  for (at = 1; at <= n; at++) text = text (at > 1 ? " " : "") part_as_read(words[at], at)
  return text zone
}
