# Makes `count` time spans, one per line, in the form of docs/FORMATS.md; every second one is bent. No text has a blank
# at an end, as the value of a setting has none. The same `seed` makes the same texts.

# Returns a number from 0 up to n, excluded.
function roll(n) {
  state = (state * 16807) % 2147483647
  return int(state / 2147483647 * n)
}

function one_in(n) { return roll(n) == 0 }

# Returns one of the words of a list.
function pick(list, words, n) {
  n = split(list, words, " ")
  return words[1 + roll(n)]
}

function digits(n, text) {
  for (; n > 0; n--) text = text roll(10)
  return text
}

function blank(kind) {
  kind = roll(20)
  return kind < 14 ? " " : kind < 17 ? "  " : kind < 19 ? "\t" : "\r"
}

# Returns the whole part of a number before the unit `name`. Some are the largest one, or the first that is too large.
function whole(name, kind) {
  kind = roll(12)
  if (kind == 0) return "0"
  if (kind == 1) return "0" digits(1 + roll(5))
  if (kind == 2) return digits(1 + roll(20))
  if (kind == 3 && name in limits) return pick(limits[name])
  return roll(kind < 8 ? 61 : 1000)
}

# Returns a number, a unit or none, and what separates them from the next pair.
function pair(name, number) {
  name = one_in(6) ? "" : pick(units)
  number = (one_in(10) ? "+" : "") whole(name)
  if (one_in(4)) number = number "." digits(1 + roll(one_in(5) ? 22 : 6))
  else if (one_in(12)) number = "." digits(1 + roll(6))
  if (name == "") return number blank()
  return number (one_in(3) ? blank() : "") name (one_in(2) ? blank() : "")
}

function span_text(text, pairs) {
  if (one_in(60)) return "infinity"
  for (pairs = 1 + (one_in(2) ? roll(4) : 0); pairs > 0; pairs--) text = text pair()
  return text
}

# Replaces one of the runs of characters that match `class` in the text.
function replace_run(text, class, put, runs, at, begins, ends) {
  for (at = 1; at <= length(text); at++) {
    if (substr(text, at, 1) !~ class) continue
    if (at == 1 || substr(text, at - 1, 1) !~ class) begins[++runs] = at
    ends[runs] = at
  }
  if (!runs) return text put
  at = 1 + roll(runs)
  return substr(text, 1, begins[at] - 1) put substr(text, ends[at] + 1)
}

# Bends a text by one character.
function bend_character(text, at, kind, letter) {
  at = 1 + roll(length(text))
  kind = roll(4)
  letter = substr(alphabet, 1 + roll(length(alphabet)), 1)
  if (kind == 0) return substr(text, 1, at - 1) substr(text, at + 1)
  if (kind == 1) return substr(text, 1, at) substr(text, at)
  return substr(text, 1, at - (kind == 2)) letter substr(text, at + 1)
}

function bend(text, kind) {
  kind = roll(10)
  if (kind < 5) return bend_character(text)
  if (kind == 5) return replace_run(text, "[0-9]", pick(numbers))
  if (kind == 6) return replace_run(text, "[A-Za-z@%]", pick(words))
  if (kind == 7) return text pick(numbers) (one_in(2) ? pick(words) : "")
  if (kind == 8) return text " " pick(words)
  return replace_run(text, "[^ \t\r]", pick(odd))
}

BEGIN {
  state = seed % 2147483646 + 1
  for (at = 0; at < 10; at++) roll(2)
  # @ and % are the two characters for micro, which have two bytes
  units = "usec us @s %s msec ms seconds second sec s s s minutes minute min m hours hour hr h days day d weeks week w months month M years year y"
  limits["us"] = "9223372036854775807 9223372036854775808"
  limits["ms"] = "18446744073709550 18446744073709551"
  limits["s"] = "18446744073708 18446744073709"
  limits["m"] = "307445734560 307445734561"
  limits["h"] = "5124095575 5124095576"
  limits["d"] = "213503981 213503982"
  limits["w"] = "30500567 30500568"
  limits["M"] = "7014503 7014504"
  limits["y"] = "584541 584542"
  alphabet = "0123456789..+- \t\rsmhdwMyu@%xSe"
  numbers = "0 00 1 007 59 60 1. .5 1.5 1.5.5 +1 -1 +-1 ++1 - + . 1e3 0x10 9223372036854775807 9223372036854775808 18446744073709551615 584542 2629800"
  words = "s x secs u µ mon mins hs infinity INFINITY S Sec usecs ns H D W Y m M mo mont weeksd ss 1x"
  odd = "1..5s 5. 1.s .s s 5s5 1h5 5sec5 infinitys infinity1 -0 1_000 1,5s 32503680000s 32503679999.999999s 18446744073708s1551614us 18446744073708s1551615us"
  gsub(/µ/, "@", words)
  for (at = 0; at < count;) {
    text = span_text()
    if (at % 2) {
      text = bend(text)
      if (one_in(8)) text = bend(text)
    }
    gsub(/^[ \t\r]+|[ \t\r]+$/, "", text)
    if (text == "") continue
    gsub(/@/, "\302\265", text)
    gsub(/%/, "\316\274", text)
    print text
    at++
  }
}
