# Prints a message for each table cell that is too long. `longest` is the most characters that it may have.

kind == "table" {
  row = $0
  gsub(/\\[|]/, "_", row)
  count = split(row, cells, "|")
  for (i = 2; i <= count; i++) {
    gsub(/^ +| +$/, "", cells[i])
    if (width(cells[i]) > longest)
      print FILENAME ":" FNR ": table cell " i - 1 " of " width(cells[i]) " characters: shorten it to " longest ", or write a paragraph"
  }
}
