# Prints a message for each line of prose that is too long. `longest` is the most columns that it may have.

# Returns the text with no space in its code spans, so that each is one word.
function with_whole_spans(text,   done, span) {
  while (match(text, /`[^`]+`/)) {
    span = substr(text, RSTART, RLENGTH)
    gsub(/ /, "_", span)
    done = done substr(text, 1, RSTART - 1) span
    text = substr(text, RSTART + RLENGTH)
  }
  return done text
}

# Returns the line without what can't be broken: the targets of links, and the words that are too long for a line of their own.
function breakable(line,   words, count, i, margin, rest) {
  gsub(/\]\([^)]*\)/, "]", line)
  line = with_whole_spans(line)
  match(line, /^ *([-*+] +|[0-9]+[.)] +|> +)?/)
  margin = RLENGTH
  count = split(substr(line, margin + 1), words, " ")
  for (i = 1; i <= count; i++) if (margin + width(words[i]) <= longest) rest = rest " " words[i]
  return substr(line, 1, margin) substr(rest, 2)
}

(kind == "prose" || kind == "heading") && width($0) > longest && width(breakable($0)) > longest {
  print FILENAME ":" FNR ": " kind " of " width($0) " columns: " (kind == "prose" ? "wrap it at " : "shorten it to ") longest
}
