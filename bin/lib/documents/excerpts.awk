# Prints a message for each excerpt that isn't in its file. An excerpt is the code block after a line that ends with the path of a file in
# crates/: `crates/NAME/src/file.rt`:

# Returns the text of the file at the path, or nothing if there is no such file.
function text_of(path,   text, line) {
  if (!(path in texts)) {
    text = "\n"
    while ((getline line <path) > 0) text = text line "\n"
    close(path)
    texts[path] = text == "\n" ? "" : text
  }
  return texts[path]
}

# Ends the excerpt, if there is one.
function end_excerpt() {
  if (path == "") return
  if (excerpt == "") print page ":" line_of ": no code block follows: show the lines of " path
  else if (text_of(path) == "") print page ":" line_of ": there is no " path ", correct the path"
  else if (index(text_of(path), "\n" excerpt) == 0) print page ":" line_of ": the lines that follow aren't in " path ", copy them from it"
  path = ""
}

FNR == 1 {
  end_excerpt()
  page = FILENAME
}

path != "" && kind == "code" {
  excerpt = excerpt blanks substr($0, 5) "\n"
  blanks = ""
  next
}
path != "" && kind == "blank" {
  if (excerpt != "") blanks = blanks "\n"
  next
}
{ end_excerpt() }

kind == "prose" && match($0, /`crates\/[^`]*`:$/) {
  path = substr($0, RSTART + 1, RLENGTH - 3)
  line_of = FNR
  excerpt = blanks = ""
}

END { end_excerpt() }
