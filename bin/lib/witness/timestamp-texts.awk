# Makes `count` texts of times that agenda and systemd both read, one per line. Local times near `changes`, dates with blanks
# between them, are more likely. The same `seed` makes the same texts.

# Returns a number from 0 up to n, excluded.
function roll(n) {
  state = (state * 16807) % 2147483647
  return int(state / 2147483647 * n)
}

function one_in(n) { return roll(n) == 0 }

# Returns one of the words of a list.
function pick(list, words, n) {
  n = split(list, words, " ")
  return words[1 + roll(n)]
}

# Returns a date from 1971 to 2199.
function date() {
  if (one_in(2)) return pick(changes)
  return sprintf("%04d-%02d-%02d", one_in(2) ? 2026 + roll(12) : 1971 + roll(229), 1 + roll(12), 1 + roll(28))
}

# Returns a time of day, with or without seconds. In the night clocks are changed.
function clock(hour) {
  hour = one_in(2) ? roll(4) : roll(24)
  if (one_in(2)) return sprintf("%02d:%02d", hour, one_in(2) ? 30 * roll(2) : roll(60))
  return sprintf("%02d:%02d:%02d", hour, roll(60), roll(60))
}

# Returns a time span of whole seconds, of a year at most.
function span() {
  if (one_in(5)) return roll(1000)
  if (one_in(4)) return roll(24) "h " roll(60) "min"
  if (one_in(3)) return roll(30) "d " roll(24) "h " roll(60) "s"
  return roll(50) pick("s sec second seconds m min minutes h hr hours d day days w week weeks")
}

function text(kind) {
  kind = roll(20)
  if (kind == 0) return pick("now today tomorrow yesterday")
  if (kind == 1) return "@" roll(2000000000)
  if (kind < 4) return pick("+ -") span()
  if (kind == 4) return span() " ago"
  if (kind == 5) return clock()
  if (kind < 9) return date()
  return date() " " clock()
}

BEGIN {
  state = seed * 2 + 1
  for (at = 0; at < 7; at++) roll(2)
  for (; count > 0; count--) {
    made = text()
    # a date or a time of day in UTC
    print made (made ~ /^[0-9]/ && made !~ /ago$/ && one_in(5) ? " UTC" : "")
  }
}
