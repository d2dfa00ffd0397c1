# Prints a message for each word of the list that a text has. Reads the list (reads=words), the exceptions (reads=exceptions), and then the
# texts (reads=texts): paragraphs, an empty line after each, whose lines have a path, a number and a text, with tabs between.

# Returns the text with the sign of literal text, @, for each character of its code spans.
function without_spans(text,   done, span) {
  while (match(text, /`[^`]+`/)) {
    span = substr(text, RSTART, RLENGTH)
    gsub(/./, "@", span)
    done = done substr(text, 1, RSTART - 1) span
    text = substr(text, RSTART + RLENGTH)
  }
  return done text
}

# Returns whether an exception covers the characters from `start` up to `end` of the text.
function is_excepted(text, start, end,   i, at, before) {
  for (i = 1; i <= exceptions; i++) {
    if (excepted_path[i] != path && excepted_path[i] != "*") continue
    before = 0
    while ((at = index(substr(text, before + 1), excepted_text[i])) > 0) {
      before += at
      if (before <= start && before + length(excepted_text[i]) >= end) return used[i] = 1
    }
  }
  return 0
}

# Prints a message for the word from `start` up to `end` of the paragraph, with the line at which it starts.
function report(start, end, instead,   i) {
  i = lines
  while (i > 1 && start_of[i] > start) i--
  print path ":" number_of[i] ": word '" substr(paragraph, start, end - start) "': write " instead ", or add an exception"
}

# Checks the paragraph, which ends like a sentence. What an entry of the list matches, the ones after it don't match again.
function check_paragraph(   whole, text, i, from, start, end) {
  whole = tolower(without_spans(paragraph))
  text = whole ". "
  for (i = 1; i <= words; i++) {
    from = 1
    while (match(substr(text, from), pattern[i])) {
      start = from + RSTART - 1 + has_left[i]
      end = from + RSTART + RLENGTH - 2
      if (!is_excepted(whole, start, end)) report(start, end, better[i])
      text = substr(text, 1, start - 1) filler(end - start) substr(text, end)
      from = end > from ? end : from + 1
    }
  }
}

# Returns a text of `count` characters that no entry matches.
function filler(count,   text) {
  text = sprintf("%" count "s", "")
  gsub(/ /, "#", text)
  return text
}

{ sub(/\r$/, "") }
reads != "texts" && /^(#|$)/ { next }

reads == "words" {
  if (split($0, parts, " -> ") != 2) {
    print FILENAME ":" FNR ": entry '" $0 "': write it as PATTERN -> BETTER WORD"
    next
  }
  # a pattern matches whole words, with another character on both sides; one that begins with a comma needs none before it
  has_left[++words] = parts[1] !~ /^,/
  pattern[words] = (has_left[words] ? "[^a-z0-9_-]" : "") "(" parts[1] ")[^a-z0-9_-]"
  better[words] = parts[2]
  next
}

reads == "exceptions" {
  if (split($0, parts, " [|] ") != 3) {
    print FILENAME ":" FNR ": exception '" $0 "': write it as PATH | TEXT | REASON"
    next
  }
  excepted_path[++exceptions] = parts[1]
  excepted_text[exceptions] = tolower(without_spans(parts[2]))
  excepted_line[exceptions] = FILENAME ":" FNR
  next
}

{ split($0, parts, "\t") }

$0 == "" || parts[1] != path {
  if (paragraph != "") check_paragraph()
  paragraph = ""
  lines = 0
  path = parts[1]
}

$0 != "" {
  number_of[++lines] = parts[2]
  sub(/^[^\t]*\t[^\t]*\t/, "")
  gsub(/[ \t]+/, " ")
  start_of[lines] = length(paragraph) + 1
  paragraph = paragraph " " $0
}

END {
  if (paragraph != "") check_paragraph()
  for (i = 1; i <= exceptions; i++) if (!used[i]) print excepted_line[i] ": exception that no word needs: remove it"
}
