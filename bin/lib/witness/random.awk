# What the makers of files for agree.sh share: numbers and choices that follow from `state`, and bent texts.

# Returns a number from 0 up to n, excluded.
function roll(n) {
  state = (state * 16807) % 2147483647
  return int(state / 2147483647 * n)
}

function one_in(n) { return roll(n) == 0 }

# Sets `state` by the seed.
function start_rolling(seed, at) {
  state = seed % 2147483646 + 1
  for (at = 0; at < 10; at++) roll(2)
}

# Returns one part of a list, whose parts are separated by blanks or by `mark`.
function pick(list, mark, words, n) {
  n = split(list, words, mark == "" ? " " : mark)
  return words[1 + roll(n)]
}

# Returns a text of n times the text.
function repeated(text, n, all) {
  for (; n > 0; n--) all = all text
  return all
}

# Bends a text by one character: drops it, doubles it, replaces it, or adds one of `alphabet` after it.
function bend_character(text, alphabet, at, kind, letter) {
  at = 1 + roll(length(text))
  kind = roll(4)
  letter = substr(alphabet, 1 + roll(length(alphabet)), 1)
  if (kind == 0) return substr(text, 1, at - 1) substr(text, at + 1)
  if (kind == 1) return substr(text, 1, at) substr(text, at)
  return substr(text, 1, at - (kind == 2)) letter substr(text, at + 1)
}

# Replaces one of the runs of characters that match `class` in the text.
function replace_run(text, class, put, runs, at, begins, ends) {
  for (at = 1; at <= length(text); at++) {
    if (substr(text, at, 1) !~ class) continue
    if (at == 1 || substr(text, at - 1, 1) !~ class) begins[++runs] = at
    ends[runs] = at
  }
  if (!runs) return text put
  at = 1 + roll(runs)
  return substr(text, 1, begins[at] - 1) put substr(text, ends[at] + 1)
}
