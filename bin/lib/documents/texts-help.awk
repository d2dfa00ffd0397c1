# Prints the prose of help texts for words.awk: the path, the number and the text of a line, with tabs between. An empty line ends a
# paragraph. The texts are the constants of a file of the program (*.rt), and what functions of a script print whose names begin with
# say_usage or say_help. Options, text between single quotes and the lines of examples are literal: @.

# Prints the text of a line of help.
function put(text) {
  if (text == "" || text ~ /^  agenda(-machine)? /) {
    print ""
    return
  }
  text = " " text
  while (match(text, /[ ([]--?[a-z][a-z-]*/)) text = substr(text, 1, RSTART) "@" substr(text, RSTART + RLENGTH)
  while (match(text, /[ (]'[^']*'/)) text = substr(text, 1, RSTART) "@" substr(text, RSTART + RLENGTH)
  print FILENAME "\t" FNR "\t" substr(text, 2)
}

FNR == 1 { inside = literal = 0 }

# the constants: a synopsis is literal
FILENAME ~ /\.rt$/ {
  text = $0
  if (/^ *\/\//) next
  if (/const [A-Z_]*USAGE:/) literal = 1
  if (!inside) inside = sub(/^[^"]*"/, "", text)
  if (!inside) next
  ends = sub(/";$/, "", text)
  sub(/\\$/, "", text)
  if (!literal) put(text)
  if (ends) {
    inside = literal = 0
    print ""
  }
  next
}

/^say_(usage|help)[a-z_]*\(\)/ { inside = 1 }
/^}/ { inside = shows = 0 }
shows && $0 == "TEXT" { shows = 0 }
shows { put($0) }
inside && /<<'?TEXT'?( &&)?$/ { shows = 1 }
