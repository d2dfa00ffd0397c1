# Prints a message for each row of the table of figures that isn't as the tree has it. Reads the rows of the tree first (reads=rows), and
# then the page (reads=page): the table with `figure` as its first heading.

# Returns the first cell of a row.
function name_of(row,   cells) {
  split(row, cells, "|")
  return cells[2]
}

reads == "rows" {
  wanted[name_of($0)] = $0
  order[++count] = name_of($0)
  next
}

kind != "table" { rows = 0 }
kind == "table" && ++rows == 1 { is_figures = /^[|] figure [|]/ }
kind == "table" && rows > 2 && is_figures {
  name = name_of($0)
  if (!(name in wanted)) print FILENAME ":" FNR ": the tree has no figure '" $0 "': remove it"
  else if (wanted[name] != $0) print FILENAME ":" FNR ": '" $0 "': write '" wanted[name] "'"
  delete wanted[name]
}

END { for (i = 1; i <= count; i++) if (order[i] in wanted) print FILENAME ": add the figure '" wanted[order[i]] "'" }
