# Prints what the sections "Codes of errors" and "Codes of warnings" of a manual page say about each code: the code, a tab, its sentence in
# one line, without macros, a tab, and `error` or `warning`. Text that .Ql marks gets single quotes.

# Puts the words of a macro line into `words`: one between quotes may have spaces. Returns how many there are.
function split_words(line, words,   count) {
  while (match(line, /^ *("[^"]*"|[^ ]+)/)) {
    words[++count] = substr(line, 1, RLENGTH)
    line = substr(line, RLENGTH + 1)
    gsub(/^ *"?|"$/, "", words[count])
  }
  return count
}

# Returns what is printed for a macro line, which has `count` words.
function text_of(words, count,   i, last, text, after) {
  for (last = count; last > 1 && words[last] ~ /^[.,:;)]$/; last--) after = words[last] after
  if (words[1] == "Nm") return "agenda" after
  if (words[1] == "Xr") return words[2] "(" words[3] ")" after
  if (words[1] == "Fl" && words[2] == "Fl") return "--" words[3] after
  for (i = 2; i <= last; i++) text = text (i == 2 ? "" : " ") words[i]
  return (words[1] == "Ql" ? "'" text "'" : text) after
}

# Prints the sentence so far.
function put() {
  if (code != "") print code "\t" sentence "\t" kind
  code = sentence = ""
}

/^\.Ss Codes of (errors|warnings)$/ { kind = /errors/ ? "error" : "warning"; next }
kind == "" { next }
/^\.(It|El|Ss|Sh)/ { put() }
/^\.(El|Ss|Sh)/ { kind = ""; next }
/^\.It / { code = $2; next }
code != "" {
  text = /^\./ ? text_of(words, split_words(substr($0, 2), words)) : $0
  gsub(/\\&/, "", text)
  gsub(/\\e/, "\\", text)
  sentence = sentence (sentence == "" ? "" : " ") text
}
