# Prints a message for each name in docs/PROMISES.md that the tree doesn't have, and for each crate and public law that the page doesn't
# name. Reads the names of the tree first (reads=names), as names.awk prints them, and then the page (reads=page). A table of promises has
# `function` as its first heading: a cell of crates with their functions, a cell of clauses and definitions, and what is promised.

# Prints the message about the line.
function report(message) {
  print FILENAME ":" FNR ": " message
}

# Checks the cell of functions. Keeps its functions, each with its crate, for the cell of clauses.
function check_functions(cell,   parts, count, i, words, number, j, owner, function_name) {
  owner = ""
  functions = 0
  count = split(cell, parts, "`")
  for (i = 1; i <= count; i++) {
    if (i % 2) {
      number = split(parts[i], words, /[ ,;]+/)
      for (j = 1; j <= number; j++) {
        if (words[j] !~ /^[a-z0-9_]+$/ || words[j] == "and") continue
        owner = words[j]
        if (!(owner in crates)) report("no crate '" owner "': correct the name")
      }
      continue
    }
    function_name = parts[i]
    sub(/^.*::/, "", function_name)
    if (!((owner, function_name) in known)) report("function '" parts[i] "': not in crates/" owner "/src, correct the name")
    found[++functions] = owner SUBSEP function_name
  }
  if (functions == 0) report("no function: name one, after its crate")
}

# Checks the cell of clauses: each is a clause of one of the functions, or a definition.
function check_clauses(cell,   parts, count, i, j, ok) {
  count = split(cell, parts, "`")
  if (count < 2) report("no clause: name one, or a definition")
  for (i = 2; i <= count; i += 2) {
    ok = parts[i] in definitions
    for (j = 1; j <= functions; j++) if ((found[j], parts[i]) in clauses) ok = 1
    if (!ok) report("clause '" parts[i] "': neither a clause of these functions nor a definition in specs/, correct the name")
  }
}

reads == "names" {
  split($0, field, "\t")
  if (field[1] == "crate") crates[field[2]] = 1
  if (field[1] == "function") known[field[2], field[3]] = 1
  if (field[1] == "law") laws[field[3]] = field[2]
  if (field[1] == "clause") clauses[field[2], field[3], field[4]] = 1
  if (field[1] == "definition") definitions[field[2]] = 1
  next
}

{
  text = $0
  while (match(text, /[a-z0-9_]+/)) {
    named[substr(text, RSTART, RLENGTH)] = 1
    text = substr(text, RSTART + RLENGTH)
  }
}

kind != "table" { rows = 0 }
kind == "table" {
  split($0, cells, "|")
  if (++rows == 1) is_promises = cells[2] ~ /^ *function *$/
  if (rows < 3 || !is_promises) next
  check_functions(cells[2])
  check_clauses(cells[3])
}

END {
  for (name in crates) if (!(name in named)) print FILENAME ": crate '" name "' is not named: say what it promises"
  for (name in laws) if (!(name in named)) print FILENAME ": law '" name "' of " laws[name] " is not named: say what it promises"
}
