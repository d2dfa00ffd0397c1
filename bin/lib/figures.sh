# shellcheck shell=bash
# The figures of docs/TESTING.md that the tree gives. bin/lib/documents/rules.sh sources this file. The functions count in the project in the
# working directory, and work on bytes, so that each machine counts alike.

# Prints the row of a table: the figure $1, and its number $2 with commas.
print_figure() {
  printf '| %s | %s |\n' "$1" "$(sed -E ':a; s/([0-9])([0-9]{3})($|,)/\1,\2\3/; ta' <<<"$2")"
}

# Prints how many lines the files on standard input have, one path a line, to the nearest thousand. So not every change of the code is one of
# the page.
count_thousands() {
  echo $((($(tr '\n' '\0' | xargs -0 -r cat | wc -l) + 500) / 1000 * 1000))
}

# Lists the files of the program's own code: without tests, and without plan_bench, which bin/bench runs.
list_code() {
  find crates \( -name out -o -name '*_tests' -o -name plan_bench -o -name tests \) -prune -o -path '*/src/*.rt' -print
}

# Lists the files *.antt in the directories $1 of the crates.
list_theory() {
  find crates -name out -prune -o -path "*/$1/*.antt" -print
}

# Prints how many lines of the files on standard input match the expression $1.
count_matches() {
  tr '\n' '\0' | LC_ALL=C xargs -0 -r cat | LC_ALL=C grep -cE "$1"
}

# Prints the number $1 to the hundred below.
hundreds_of() {
  echo $(($1 / 100 * 100))
}

# Prints how many edits are in the directories $1 of the crates.
count_edits() {
  find crates -path "*/$1/*.edit" | wc -l
}

# Prints how many lines the tables of rows/ have: the here-documents.
count_rows() {
  find rows -maxdepth 1 -name '*.sh' -print0 | LC_ALL=C xargs -0 -r cat | LC_ALL=C awk '
    mark != "" && $0 == mark { mark = ""; next }
    mark != "" { if (NF) rows++; next }
    match($0, /<<.?[A-Z]+/) { mark = substr($0, RSTART, RLENGTH); gsub(/[^A-Z]/, "", mark) }
    END { print rows + 0 }'
}

# Prints how many commands bin/refuse-memory runs, without those that its own functions hand on.
count_refused() {
  LC_ALL=C grep -E '^ *([a-z]+_)*row ' bin/refuse-memory | LC_ALL=C grep -cvE '"[$]@"'
}

# Prints all figures, each as a row of the table.
print_figures() {
  print_figure "crates" "$(LC_ALL=C grep -cE '^[a-z0-9_]+[^#]*:' crates.txt)"
  print_figure "lines of code, with contracts and comments" "$(list_code | count_thousands)"
  print_figure "lines of specification (specs/)" "$(list_theory specs | count_thousands)"
  print_figure "lines of proof (proofs/)" "$(list_theory proofs | count_thousands)"
  print_figure "functions of the code, at least" "$(hundreds_of "$(list_code | count_matches '^ *(pub )?(pub\([a-z]+\) )?(const )?fn ')")"
  print_figure "clauses of their contracts, at least" "$(hundreds_of "$(list_code | count_matches '^ *ensures ')")"
  print_figure "public laws" "$(list_code | count_matches '^pub fn [a-z0-9_]+(<[A-Z]>)?\((_[a-z]+: [^)]*)?\)$')"
  print_figure "must-fail edits that the gate tries" "$(count_edits must-fail)"
  print_figure "further edits that \`bin/audit\` tries" "$(count_edits audit)"
  print_figure "tests in Rattle" "$(find crates -path '*/src/*.rt' -print | count_matches '^ *#\[test')"
  print_figure "tables of rows" "$(find rows -maxdepth 1 -name '*.sh' | wc -l)"
  print_figure "lines in these tables, at least" "$(hundreds_of "$(count_rows)")"
  print_figure "examples" "$(find examples -mindepth 2 -maxdepth 2 -name command | wc -l)"
  print_figure "commands whose allocations are refused" "$(count_refused)"
}
