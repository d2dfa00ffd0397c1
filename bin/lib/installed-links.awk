# Prints a page of Markdown with the links that it has where it is installed. There the pages of docs/ are in the directory above
# examples/. A link to a file that isn't installed becomes its text, and says where the file is.
#
# `page` is the path of the page in the project, and `installed` has the names of the pages of docs/ that are installed.

BEGIN {
  split(installed, names, " ")
  for (i in names) is_installed["docs/" names[i]] = 1
  directory = page
  sub("[^/]*$", "", directory)
}

{ text = text $0 "\n" }

# Returns the path in the project to which the target of a link leads.
function path_of(target,   path) {
  path = directory target
  while (sub("(^|/)[^/]+/[.][.]/", "/", path)) sub("^/", "", path)
  return path
}

# Returns the link from the installed page to the path `path` of the project, or nothing if that isn't installed.
function link_to(path,   from, name) {
  if (!is_installed[path] && path !~ "^examples/") return ""
  from = directory
  sub("^docs/", "", from)
  sub("^docs/", "", path)
  while (match(from, "^[^/]+/")) {
    name = substr(from, 1, RLENGTH)
    if (index(path, name) != 1) break
    from = substr(from, RLENGTH + 1)
    path = substr(path, RLENGTH + 1)
  }
  while (sub("^[^/]+/", "", from)) path = "../" path
  return path
}

# Returns what the installed page has in place of the link `[label](target)`.
function installed_link(label, target,   anchor, to) {
  anchor = target
  if (!sub("^[^#]*#", "#", anchor)) anchor = ""
  sub("#.*", "", target)
  if (target !~ "[./]" || target ~ ":") return "[" label "](" target anchor ")"
  to = link_to(path_of(target))
  return to == "" ? label " (in the sources of agenda)" : "[" label "](" to anchor ")"
}

END {
  while (match(text, "\\[[^][]*\\]\\([^() \t\n]+\\)")) {
    before = substr(text, 1, RSTART - 1)
    link = substr(text, RSTART + 1, RLENGTH - 2)
    text = substr(text, RSTART + RLENGTH)
    middle = index(link, "](")
    printf "%s%s", before, installed_link(substr(link, 1, middle - 1), substr(link, middle + 2))
  }
  printf "%s", text
}
