# shellcheck shell=bash disable=SC2154
# The pictures of `agenda week`, from short rows. The tables of rows/ that need it source it.

# Writes a picture to the file picture.wanted. Each row of standard input has the name of a day, the 24 marks of its hours, with `_` for a
# blank, and its sum; $1 is the last line.
picture_of() {
  local name marks sum
  {
    printf '%-14s  0     3     6     9     12    15    18    21       sum\n' ''
    while IFS='|' read -r name marks sum; do
      [ "${#marks}" = 24 ] || refuse "not 24 marks: $marks"
      printf '%-14s %s %6d\n' "$name" "$(sed 's/./ &/g; y/_/ /' <<<"$marks")" "$sum"
    done
    printf '%s\n' "$1"
  } >"$work/picture.wanted"
}
