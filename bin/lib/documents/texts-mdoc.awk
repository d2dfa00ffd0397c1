# Prints the prose of manual pages for words.awk: the path, the number and the text of a line, with tabs between. An empty line ends a
# paragraph. What the pages show as literal text becomes @: the words of .Ql, .Fl, .Cm and the like, and the heads of .Bl -diag.

# Returns what is printed for the words of the macro line, whose words from `first` on are in `words`.
function text_of(words, first, count,   i, literal, result) {
  for (i = first; i <= count; i++) {
    if (words[i] in literals) {
      literal = 1
      result = result " @"
    } else if (words[i] in others) literal = 0
    else if (words[i] ~ /^[.,:;?!)]$/) result = result words[i]
    else if (!literal) result = result " " words[i]
  }
  gsub(/@( @)+/, "@", result)
  return substr(result, 2)
}

# Puts the words of a macro line into `words`: one between quotes may have spaces. Returns how many there are.
function split_words(line, words,   count) {
  while (match(line, /^ *("[^"]*"|[^ ]+)/)) {
    words[++count] = substr(line, 1, RLENGTH)
    line = substr(line, RLENGTH + 1)
    gsub(/^ *"?|"$/, "", words[count])
  }
  return count
}

# Prints the text of a line of the page.
function put(text) {
  gsub(/\\\(aq/, "'", text)
  gsub(/\\&/, "", text)
  gsub(/\\-/, "-", text)
  gsub(/\\\(..|\\./, " ", text)
  print FILENAME "\t" FNR "\t" text
}

BEGIN {
  split("Ad An Cd Cm Dl Dv Er Ev Fl Fn Ic In Li Lk Mt Nm Pa Ql St Va Xr", names, " ")
  for (i in names) literals[names[i]] = 1
  split("Ap Aq Ar Bq Brq Dq Em No Ns Oc Oo Op Pc Pf Po Pq Qq Sq Sx Sy Ta", names, " ")
  for (i in names) others[names[i]] = 1
}

/^[.']\\"/ { next }
/^\.Bd .*-(literal|unfilled)/ { inside = 1 }
/^\.Ed/ { inside = 0 }
inside { next }
/^\.Bl/ { is_diag[++depth] = / -diag/ }
/^\.El/ { depth-- }
/^\.(Pp|Sh|Ss|It|Bl|El|Bd|Ed|D[1l]|Nd)/ { print "" }
/^\.(Pp|Bl|El|Bd|Ed|Dd|Dt|Os)/ || (/^\.It/ && is_diag[depth]) { next }

/^\./ {
  count = split_words(substr($0, 2), words)
  put(text_of(words, words[1] in literals ? 1 : 2, count))
  if (/^\.(Sh|Ss|It|D[1l]|Nd)/) print ""
  next
}

{ put($0) }
