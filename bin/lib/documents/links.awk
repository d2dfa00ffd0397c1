# Prints a message for each link of a page to a file or heading that doesn't exist, and for each .Xr to a manual page of the project that
# doesn't exist. Reads the paths of the project's files first (reads=paths), and then the pages (reads=pages). Links with a scheme, such as
# https:, are not followed.

# Returns the name that GitHub gives to a heading of this text: letters, digits and hyphens.
function anchor_of(text) {
  sub(/^ *#+ +/, "", text)
  sub(/ +#* *$/, "", text)
  gsub(/\]\([^)]*\)/, "", text)
  text = tolower(text)
  # in UTF-8: punctuation and symbols
  gsub(/\302[\200-\277]|\342[\200-\277][\200-\277]/, "", text)
  gsub(/[^a-z0-9_ \200-\377-]/, "", text)
  gsub(/ /, "-", text)
  return text
}

# Keeps the heading of the page. Of several headings with one name, the later ones get a number: name-1, name-2.
function add_heading(page, name,   unique) {
  unique = name
  while ((page, unique) in repeats) unique = name "-" ++repeats[page, name]
  repeats[page, unique] = 0
}

# Keeps a link of the page, to be checked when all headings are known.
function add_link(page, line, target) {
  sub(/ +["'(].*/, "", target)
  gsub(/^<|>$/, "", target)
  links++
  page_of[links] = page
  line_of[links] = line
  target_of[links] = target
}

# Keeps the links of a line: [text](target) and [label]: target.
function add_links(page, line, text) {
  text = without_code(text)
  if (match(text, /^ ? ? ?\[[^]]+\]: +/)) add_link(page, line, substr(text, RLENGTH + 1))
  while (match(text, /\]\([^)]*\)/)) {
    add_link(page, line, substr(text, RSTART + 2, RLENGTH - 3))
    text = substr(text, RSTART + RLENGTH)
  }
}

# Returns the path of the project to which the path `path` of a page leads.
function resolved(page, path,   parts, count, i, result) {
  if (path == "") return page
  sub(/[^\/]*$/, "", page)
  count = split((path ~ /^\// ? "" : page) path, parts, "/")
  for (i = 1; i <= count; i++) {
    if (parts[i] == "" || parts[i] == ".") continue
    if (parts[i] == ".." && result ~ /[^.\/]/) sub(/\/?[^\/]*$/, "", result)
    else result = result (result == "" ? "" : "/") parts[i]
  }
  return result
}

# Returns what is wrong with a link of the page, or nothing.
function problem_of(page, target,   at, path) {
  if (target ~ /^[A-Za-z][A-Za-z0-9+.-]*:/) return ""
  at = index(target, "#")
  path = resolved(page, at ? substr(target, 1, at - 1) : target)
  if (!(path in present)) return "there is no " path ", correct the path"
  if (at && path ~ /\.md$/ && !((path, substr(target, at + 1)) in repeats)) return path " has no such heading, correct the name after #"
  return ""
}

reads == "paths" {
  present[$0] = 1
  next
}

FILENAME ~ /\.[1-9]$/ {
  for (i = 1; i < NF; i++)
    if ($i ~ /^\.?Xr$/ && $(i + 1) ~ /^agenda/ && !("man/" $(i + 1) "." $(i + 2) in present))
      print FILENAME ":" FNR ": .Xr " $(i + 1) " " $(i + 2) ": there is no man/" $(i + 1) "." $(i + 2) ", correct the name"
  next
}

kind == "heading" { add_heading(FILENAME, anchor_of($0)) }
kind == "heading" || kind == "prose" || kind == "table" { add_links(FILENAME, FNR, $0) }

END {
  for (i = 1; i <= links; i++) {
    problem = problem_of(page_of[i], target_of[i])
    if (problem != "") print page_of[i] ":" line_of[i] ": link '" target_of[i] "': " problem
  }
}
