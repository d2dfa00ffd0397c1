# Prints shorter forms of each line: without a run of characters between two marks, or with a `*` instead of
# it, and without one character. The forms without the longest runs come first.
function is_edge(at) { return at == 0 || at == length($0) || substr($0, at, 1) ~ mark || substr($0, at + 1, 1) ~ mark }

BEGIN { mark = "[^0-9A-Za-z]" }

{
  for (less = length($0); less > 0; less--) {
    for (at = 0; at + less <= length($0); at++) {
      if (less > 1 && !(is_edge(at) && is_edge(at + less))) continue
      print substr($0, 1, at) substr($0, at + less + 1)
      if (less > 1 && substr($0, at + 1, less) !~ /[ \t:~]/) print substr($0, 1, at) "*" substr($0, at + less + 1)
    }
  }
}
