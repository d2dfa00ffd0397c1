# Makes `count` texts of the form `form`, cron or calendar, one per line. They have the form of
# docs/FORMATS.md, and every second one is bent. Years are near `year`. The same `seed` makes the same texts.

# Returns a number from 0 up to n, excluded.
function roll(n) {
  state = (state * 16807) % 2147483647
  return int(state / 2147483647 * n)
}

function one_in(n) { return roll(n) == 0 }

# Returns one of the words of a list.
function pick(list, words, n) {
  n = split(list, words, " ")
  return words[1 + roll(n)]
}

# Returns a number from lo to hi. The ends are more frequent, and some numbers have a leading zero.
function number(lo, hi, value) {
  value = lo + roll(hi - lo + 1)
  if (one_in(6)) value = lo
  if (one_in(6)) value = hi
  return one_in(4) ? sprintf("%02d", value) : value
}

function cased(name) {
  if (one_in(3)) return tolower(name)
  return one_in(5) ? toupper(name) : name
}

function step(lo, hi) { return one_in(5) ? 1 + roll(99) : 1 + roll(int((hi - lo) / 2) + 1) }

# Sets the two ends of a range. The first is at most the second, except in one of `backwards` cases.
function range(lo, hi, mark, backwards, a, b, swap) {
  a = number(lo, hi)
  b = number(lo, hi)
  if ((a + 0 > b + 0) != one_in(backwards)) {
    swap = a
    a = b
    b = swap
  }
  return a mark b
}

function cron_names(field, a, b) {
  a = 1 + roll(field == 4 ? 12 : 7)
  b = a + roll((field == 4 ? 12 : 7) - a + 1)
  a = cased(substr(field == 4 ? months : days, 3 * a - 2, 3))
  b = cased(substr(field == 4 ? months : days, 3 * b - 2, 3))
  return one_in(3) ? a "-" b : a
}

function cron_element(field, kind) {
  kind = roll(12)
  if (kind < 3) return "*"
  if (kind < 5) return "*/" step(low[field], high[field])
  if (field > 3 && kind < 7) return cron_names(field)
  if (kind < 9) return number(low[field], high[field])
  return range(low[field], high[field], "-", 40) (kind < 11 ? "" : "/" step(low[field], high[field]))
}

function cron_text(text, field, elements, separator) {
  if (one_in(25)) return pick("@yearly @annually @monthly @weekly @daily @midnight @hourly @reboot")
  for (field = 1; field <= 5; field++) {
    separator = field == 1 ? "" : one_in(30) ? pick(blanks) : " "
    if (separator == "TAB") separator = "\t"
    if (separator == "TWO") separator = "  "
    text = text separator cron_element(field)
    for (elements = one_in(3) ? roll(4) : 0; elements > 0; elements--) text = text "," cron_element(field)
  }
  return text
}

function weekday(n) {
  return cased(one_in(4) ? pick("Monday Tuesday Wednesday Thursday Friday Saturday Sunday") : substr(week, 3 * n - 2, 3))
}

function weekdays(text, parts, a) {
  for (parts = 1 + roll(3); parts > 0; parts--) {
    a = 1 + roll(7)
    text = text (text == "" ? "" : ",") weekday(a)
    if (one_in(3)) text = text ".." cased(substr(week, 3 * (a + roll(8 - a)) - 2, 3))
  }
  return text (one_in(10) ? "," : "")
}

function event_element(lo, hi, tilde, kind) {
  kind = roll(20)
  if (kind == 0) return "*"
  if (kind == 1 && !tilde) return "*/" step(lo, hi)
  if (kind < 10) return number(lo, hi)
  if (kind < 14) return number(lo, hi) "/" step(lo, hi)
  return range(lo, hi, "..", tilde ? 5 : 40) (kind < 17 ? "" : "/" step(lo, hi))
}

function component(lo, hi, tilde, text, elements) {
  if (one_in(3)) return "*"
  text = event_element(lo, hi, tilde)
  for (elements = one_in(3) ? roll(4) : 0; elements > 0; elements--) text = text "," event_element(lo, hi, tilde)
  return text
}

function date(text, mark) {
  mark = one_in(4) ? "~" : "-"
  if (one_in(2)) text = (one_in(2) ? "*" : one_in(8) ? number(0, 99) : component(year, year + 5)) "-"
  return text component(1, 12) mark component(1, mark == "~" && !one_in(8) ? 28 : 31, mark == "~")
}

function time() { return component(0, 23) ":" component(0, 59) (one_in(2) ? "" : ":" component(0, 59)) }

function event_text(text, kind) {
  if (one_in(15)) text = cased(pick("minutely hourly daily weekly monthly quarterly semiannually yearly annually"))
  else {
    kind = roll(8)
    if (kind < 4) text = " " weekdays()
    if (kind != 0 && kind != 4) text = text " " date()
    if (kind % 4 > 1 || kind == 4) text = text " " time()
    text = substr(text, 2)
  }
  return text (one_in(8) ? " " pick("UTC utc Utc") : "")
}

# Replaces one of the runs of characters that match `class` in the text.
function replace_run(text, class, put, runs, at, begins, ends) {
  for (at = 1; at <= length(text); at++) {
    if (substr(text, at, 1) !~ class) continue
    if (at == 1 || substr(text, at - 1, 1) !~ class) begins[++runs] = at
    ends[runs] = at
  }
  if (!runs) return text put
  at = 1 + roll(runs)
  return substr(text, 1, begins[at] - 1) put substr(text, ends[at] + 1)
}

# Bends a text by one character.
function bend_character(text, at, kind, letter) {
  at = 1 + roll(length(text))
  kind = roll(4)
  letter = substr(alphabet, 1 + roll(length(alphabet)), 1)
  if (kind == 0) return substr(text, 1, at - 1) substr(text, at + 1)
  if (kind == 1) return substr(text, 1, at) substr(text, at)
  return substr(text, 1, at - (kind == 2)) letter substr(text, at + 1)
}

function bend(text, kind) {
  kind = roll(10)
  if (kind < 4) return bend_character(text)
  if (kind == 4) return replace_run(text, "[0-9]", pick(numbers))
  if (kind == 5) return replace_run(text, "[^ ]", one_in(2) ? "" : pick(words))
  if (kind == 6) return text pick(form == "cron" ? "+ -" : "+") pick(words)
  return replace_run(text, form == "cron" ? "[^ ]" : "[^ :~-]", pick(odd))
}

BEGIN {
  state = seed % 2147483646 + 1
  for (at = 0; at < 10; at++) roll(2)
  split("0 0 1 1 0", low, " ")
  split("59 23 31 12 7", high, " ")
  months = "JanFebMarAprMayJunJulAugSepOctNovDec"
  days = "SunMonTueWedThuFriSat"
  week = "MonTueWedThuFriSatSun"
  blanks = "TAB TWO"
  if (form == "cron") {
    alphabet = "0123456789*/-,~#?LH@ \tan."
    numbers = "0 00 1 7 8 12 13 23 24 31 32 59 60 61 99 007 00005 000000012 4294967301"
    words = "* 5 x 1,2 @daily sun"
    odd = "*2 9* ** *-5 5#3 0~30 */2/3 1-5-3 sat-sun 5-0 22-4 */0 5/15 L H ? 1, ,1 mon jan 6-7 */90 1-5/40"
  } else {
    alphabet = "0123456789*/-,~:.@% \taMT"
    numbers = "0 00 1 07 12 13 24 28 29 31 32 59 60 61 99 024 0024 00012 000002024 1969 2199 2200 2999 5.5 0.25"
    words = "Mon Fri..Sun Sat-Sun Europe/Oslo Asia/Tokyo EST UTC utc 12:00 *-*-1 daily biannually bi-annually semi-annually anually"
    odd = "0/93 */5 *,3 0..60/7 1..30/40 7..3 1,,2 5/0 0..10/0 29..31 1..4/2 @1700000000 2195..2250 2250 5. 1...5 30.5 0/2.5"
  }
  for (at = 0; at < count; at++) {
    text = form == "cron" ? cron_text() : event_text()
    if (at % 2) {
      text = bend(text)
      if (one_in(8)) text = bend(text)
      gsub(/[+]/, " ", text)
    }
    # a timer has no blanks at the ends of an event
    if (form == "calendar") gsub(/^[ \t]+|[ \t]+$/, "", text)
    print text
  }
}
