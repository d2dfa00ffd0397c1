# Makes `count` calendar events, one per line; every second one is bent. Most are valid, and have what systemd may reject or
# read otherwise: blanks, stars, long lists, steps and years at the limit, and days from the end of a month. Some years are near
# `year`. Each is the event of a timer in the directory `folder`: 1.timer, 2.timer and so on. The same `seed` makes the same
# events. It needs random.awk.

# Returns a number from lo to hi. The ends are more frequent, and some numbers have a leading zero.
function number(lo, hi, value) {
  value = lo + roll(hi - lo + 1)
  if (one_in(6)) value = lo
  if (one_in(6)) value = hi
  return one_in(5) ? sprintf("%02d", value) : value
}

# Returns a value of the part.
function value(part) {
  if (part == "year") return one_in(6) ? 2196 + roll(6) : one_in(10) ? number(0, 99) : one_in(20) ? number(1970, 2999) : year + roll(6)
  if (part == "day" && tilde && one_in(2)) return number(1, one_in(2) ? 4 : 28)
  return number(low[part], high[part])
}

# Returns a step of the part from the value `from`: a small one, one near the limit, or any.
function step(part, from, kind) {
  kind = roll(12)
  if (part == "second" && one_in(15)) return 2145 + roll(5)
  if (kind == 0) {
    from = (part == "day" && tilde ? from - low[part] : high[part] - from) - 1 + roll(3)
    return from > 0 && from < 10000 ? from : 1
  }
  if (kind == 1 && one_in(3)) return 1 + roll(99)
  if (kind < 7) return pick("1 2 3 4 5 6 7 8 9 10 11 12 14 15 16 20 25 29 30 45")
  return 1 + roll((high[part] - low[part]) / 2)
}

# Returns a range with the ends in order, except in one of `backwards` cases.
function range(part, backwards, a, b, swap) {
  a = value(part)
  b = one_in(8) ? a : value(part)
  if ((a + 0 > b + 0) != one_in(backwards)) {
    swap = a
    a = b
    b = swap
  }
  return a ".." b
}

function element(part, kind, from) {
  kind = roll(24)
  if (kind == 0) return "*"
  if (kind == 1 && !tilde) return "*/" step(part, low[part])
  if (kind < 9) return value(part)
  if (kind < 16) {
    from = one_in(5) || part == "year" ? value(part) : low[part] + roll(8) + (part == "day" && tilde ? 20 : 0)
    return from "/" step(part, from)
  }
  return range(part, tilde ? 4 : 60) (kind < 19 ? "" : "/" step(part, low[part]))
}

# Returns a list of about 241 elements. Most of them are the same.
function long_list(part, one, n, at, text) {
  one = value(part)
  n = 238 + roll(6)
  text = element(part)
  for (at = 1; at < n; at++) text = text "," (one_in(30) ? value(part) : one)
  return text
}

# Returns a component, which is `*` in one of `free` cases.
function component(part, free, text, elements) {
  if (one_in(free)) return "*"
  if (one_in(150)) return long_list(part)
  text = element(part)
  for (elements = one_in(4) ? roll(4) : 0; elements > 0; elements--) text = text "," element(part)
  return text
}

function weekdays(text, parts, a) {
  for (parts = one_in(3) ? 2 + roll(2) : 1; parts > 0; parts--) {
    a = 1 + roll(7)
    text = text (text == "" ? "" : ",") name_of(a) (one_in(2) ? ".." name_of(a + roll(8 - a)) : "")
  }
  return text (one_in(15) ? "," : "")
}

function name_of(weekday, name) {
  name = substr(week, 3 * weekday - 2, 3)
  return one_in(5) ? tolower(name) : one_in(8) ? pick("Monday TUESDAY wednesday") : name
}

function date(text, mark, day) {
  mark = one_in(3) ? "~" : "-"
  if (one_in(2)) text = component("year", 2) "-"
  text = text component("month", 2) mark
  tilde = mark == "~"
  day = component("day", 3)
  tilde = 0
  return text day
}

function time(text) {
  text = component("hour", 2) ":" component("minute", 3)
  return one_in(2) ? text : text ":" component("second", 3)
}

# Returns what separates two words.
function blank() { return one_in(25) ? pick("  |\t| \t|   ", "|") : " " }

function event(text, kind) {
  if (one_in(25)) text = pick("minutely hourly daily Weekly monthly QUARTERLY semiannually yearly annually")
  else {
    kind = roll(8)
    if (kind == 0 || kind == 1) text = weekdays()
    if (kind > 0 && kind < 6) text = text (text == "" ? "" : blank()) date()
    if (kind > 3 || (kind == 1 && one_in(2)) || kind == 0) text = text (text == "" ? "" : blank()) time()
  }
  return text (one_in(8) ? blank() pick("UTC utc Utc") : "")
}

# Bends an event: by a character, by an element, or by a step.
function bend(text, kind) {
  kind = roll(10)
  if (kind < 3) return bend_character(text, "0123456789*/-,~:. \t")
  if (kind < 5) return replace_run(text, "[0-9]", pick("0 00 1 07 12 23 24 28 29 31 32 59 60 61 99 2147 2148 2199 2200 2999"))
  if (kind == 5) return replace_run(text, "[0-9]", pick("0 3 5 12 40") pick("/1 /2 /7 /25 /59 ..9 ..20/3 ..31 ..59/16"))
  if (kind == 6) return replace_run(text, "[*]", pick("*/1 */5 *,3 5,* */100 0/59 0/60 1/30 1/31 1/12 1/11 0/23 0/24"))
  if (kind == 7) return replace_run(text, "[ ]", pick("  |\t|   | \t", "|"))
  return replace_run(text, "[^ :~-]", pick("*/15 0/90 1..4/2 3..1 5..5 0..60/7 2195..2250/5 2250 2198/1 2199/1 1/2 1/31 28,25,22 26,25 29 0..0/3 */0"))
}

BEGIN {
  start_rolling(seed)
  week = "MonTueWedThuFriSatSun"
  split("year month day hour minute second", parts, " ")
  split("1970 1 1 0 0 0", lows, " ")
  split("2199 12 31 23 59 59", highs, " ")
  for (at = 1; at <= 6; at++) {
    low[parts[at]] = lows[at]
    high[parts[at]] = highs[at]
  }
  for (at = 0; at < count;) {
    text = event()
    if (at % 2) {
      text = bend(text)
      if (one_in(8)) text = bend(text)
    }
    gsub(/^[ \t]+|[ \t]+$/, "", text)
    if (text == "") continue
    print text
    path = folder "/" ++at ".timer"
    printf "[Timer]\nOnCalendar=%s\n", text >path
    close(path)
  }
}
