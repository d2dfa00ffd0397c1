# Prints the names that docs/PROMISES.md may use, one a line, with tabs between: `crate CRATE`, `function CRATE NAME`,
# `law CRATE NAME`, `clause CRATE FUNCTION NAME` and `definition NAME`. Reads crates.txt, and the files of src/ and specs/.

BEGIN { OFS = "\t" }

FNR == 1 {
  split(FILENAME, path, "/")
  crate = path[2]
  name = ""
}

FILENAME == "crates.txt" {
  sub(/#.*/, "")
  if (match($0, /^[a-z0-9_]+/) && index($0, ":")) print "crate", substr($0, 1, RLENGTH)
  next
}

FILENAME ~ /\.antt$/ {
  if (/^(--|use |pub use |mod |pub mod | )/ || !/ : / && !/ :$/) next
  sub(/^((pub|abbrev|unfoldable|unfolding|record|data) )+/, "")
  print "definition", $1
  next
}

/^ *(pub )?(pub\([a-z]+\) )?(const )?fn [a-z0-9_]+/ {
  name = $0
  sub(/^.*fn /, "", name)
  sub(/[^a-z0-9_].*/, "", name)
  print "function", crate, name
}

# a public function without a result that uses no parameter can only state a law
/^pub fn [a-z0-9_]+(<[A-Z]>)?\((_[a-z]+: [^)]*)?\)$/ { print "law", crate, name }

/^ *ensures [a-z0-9_]+ [{]/ { print "clause", crate, name, $2 }
