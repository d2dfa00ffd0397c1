# Prints the prose of Markdown for words.awk: the path, the number and the text of a line, with tabs between. An empty line ends a
# paragraph.

kind == "blank" || kind == "code" || kind == "heading" || kind == "table" || /^ *([-*+]|[0-9]+[.)]) / { print "" }

kind == "prose" || kind == "heading" || kind == "table" {
  text = $0
  sub(/^ ?> ?/, "", text)
  gsub(/\]\([^)]*\)/, "]", text)
  gsub(/https?:[^ )>]*/, "@", text)
  gsub(/\*\*/, "", text)
  print FILENAME "\t" FNR "\t" text
}

kind == "heading" { print "" }
