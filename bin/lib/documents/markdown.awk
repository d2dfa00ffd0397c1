# Reads Markdown line by line, and sets `kind` to what a line is: blank, code, table, heading or prose. The rules are in files that awk
# reads after this one.

# Returns how many characters the text has. awk counts bytes here, so the later bytes of each character of UTF-8 are removed first.
function width(text) {
  gsub(/[\200-\277]/, "", text)
  return length(text)
}

# Returns the text without what its code spans hold.
function without_code(text) {
  gsub(/`[^`]+`/, "``", text)
  return text
}

# Returns whether the line belongs to a fenced code block. `fence` is the mark that ends the block, or empty outside of blocks.
function is_fenced(line,   mark) {
  sub(/^ +/, "", line)
  mark = match(line, /^(```+|~~~+)/) ? substr(line, 1, RLENGTH) : ""
  if (fence == "") {
    fence = mark
    return mark != ""
  }
  if (index(mark, fence) == 1 && line ~ /^(`+|~+) *$/) fence = ""
  return 1
}

# Returns the kind of the line; `kind` is still that of the line before. `item` is the column of the current list item's text, or 0.
function kind_of(line,   indent) {
  sub(/^ ?> ?/, "", line)
  match(line, /^ */)
  indent = RLENGTH
  if (fence == "") {
    if (line ~ /^[ \t]*$/) return "blank"
    if (indent < item && kind == "blank") item = 0
    if (kind != "prose" && (line ~ /^ *\t/ || indent >= item + 4)) return "code"
  }
  if (is_fenced(line)) return "code"
  if (match(line, /^ *([-*+]|[0-9]+[.)]) +/)) item = RLENGTH
  if (line ~ /^ ? ? ?#+ /) return "heading"
  return line ~ /^ *[|]/ ? "table" : "prose"
}

FNR == 1 {
  fence = ""
  item = 0
  kind = "blank"
}

{ kind = kind_of($0) }
