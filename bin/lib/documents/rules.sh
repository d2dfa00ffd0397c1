# shellcheck shell=bash disable=SC2154
# The rules of the documents. .ci/run, bin/check and rows/documents.sh source this file after bin/lib/counts.sh. The functions check the
# documents of the project in the working directory.

document_parts=$top/bin/lib/documents
# shellcheck source=bin/lib/figures.sh
. "$top/bin/lib/figures.sh" || exit 3

# Runs awk on bytes, so that each awk gives the same answers.
document_awk() {
  LC_ALL=C awk "$@"
}

# Lists the files and directories of the project.
document_files() {
  find . \( -name .git -o -name out \) -prune -o -printf '%P\n'
}

# Lists the pages of Markdown whose paths begin with $1, or all of them.
markdown_pages() {
  find . \( -name .git -o -name out \) -prune -o -path "./${1:-}*.md" -printf '%P\n' | LC_ALL=C sort
}

# Reports lines of prose of more than 100 columns in Markdown.
report_long_prose() {
  local pages
  mapfile -t pages < <(markdown_pages)
  document_awk -v longest=100 -f "$document_parts/markdown.awk" -f "$document_parts/prose.awk" "${pages[@]}"
}

# Reports table cells of more than 250 characters in Markdown.
report_long_cells() {
  local pages
  mapfile -t pages < <(markdown_pages)
  document_awk -v longest=250 -f "$document_parts/markdown.awk" -f "$document_parts/cells.awk" "${pages[@]}"
}

# Reports links to files and headings that don't exist, in Markdown and manual pages.
report_dead_links() {
  local pages
  mapfile -t pages < <(markdown_pages)
  document_files |
    document_awk -f "$document_parts/markdown.awk" -f "$document_parts/links.awk" reads=paths - reads=pages "${pages[@]}" man/*.1
}

# Reports pages that are longer than the file $1 says, and pages that it names but the project doesn't have.
report_sizes() {
  local page most unit size
  while read -r page most unit; do
    if [ ! -e "$page" ]; then
      echo "$page: there is no such page, correct $1"
      continue
    fi
    [ "$unit" = lines ] && size=$(wc -l <"$page") || size=$(wc -c <"$page")
    [ "$size" -le "$most" ] || echo "$page: $size $unit: shorten it to $most"
  done < <(grep -vE '^(#|$)' "$1")
}

# Reports excerpts of files of crates/ in Markdown that aren't in these files.
report_excerpts() {
  local pages
  mapfile -t pages < <(markdown_pages)
  document_awk -f "$document_parts/markdown.awk" -f "$document_parts/excerpts.awk" "${pages[@]}"
}

# Reports names in the tables of docs/PROMISES.md that the tree doesn't have, and crates and public laws that the page doesn't name.
report_promises() {
  find crates -name out -prune -o \( -path '*/src/*.rt' -o -path '*/specs/*.antt' \) -print0 |
    LC_ALL=C xargs -0 awk -f "$document_parts/names.awk" crates.txt |
    document_awk -f "$document_parts/markdown.awk" -f "$document_parts/promises.awk" reads=names - reads=page docs/PROMISES.md |
    LC_ALL=C sort -t : -k 2,2n
}

# Reports figures in docs/TESTING.md that aren't those of the tree.
report_figures() {
  print_figures | document_awk -f "$document_parts/markdown.awk" -f "$document_parts/figures.awk" reads=rows - reads=page docs/TESTING.md
}

# Reports numbers of lines and edits in README.md that aren't those of docs/TESTING.md.
report_numbers() {
  local name number text lines
  lines=$(tr '\n' ' ' <README.md | sed 's/  */ /g')
  while IFS='|' read -r _ name number _; do
    number=${number// /}
    case $name in
      *"lines of code"*) text="$number lines of code" ;;
      *"lines of specification"*) text="$number lines of specification" ;;
      *"lines of proof"*) text="$number lines of proof" ;;
      *"allocations are refused"*) text="each allocation of $number commands" ;;
      *) continue ;;
    esac
    [[ $lines == *"$text"* ]] || echo "README.md: write '$text', as in docs/TESTING.md"
  done <docs/TESTING.md
}

# Prints the prose that users read: README.md, the pages of examples/, the manual pages and the help texts.
print_prose() {
  local pages scripts
  mapfile -t pages < <(markdown_pages examples/)
  mapfile -t scripts < <(grep -d skip -slE '^say_(usage|help)[a-z_]*\(\)' bin/*)
  document_awk -f "$document_parts/markdown.awk" -f "$document_parts/texts-markdown.awk" README.md "${pages[@]}"
  document_awk -f "$document_parts/texts-mdoc.awk" man/*.1
  document_awk -f "$document_parts/texts-help.awk" crates/agenda_options/src/command/{help,machine/texts}.rt "${scripts[@]}"
}

# Reports words of the list in that prose, apart from the exceptions of the file $1.
report_words() {
  print_prose |
    document_awk -f "$document_parts/words.awk" reads=words "$document_parts/words" reads=exceptions "$1" reads=texts - |
    LC_ALL=C sort -t : -k 1,1 -k 2,2n
}

# Checks the documents, a count for each rule.
check_documents() {
  report_long_prose >"$work/told" 2>&1
  count "the lines of the documents"
  report_long_cells >"$work/told" 2>&1
  count "the tables of the documents"
  report_words bin/lib/documents/exceptions >"$work/told" 2>&1
  count "the words of the documents"
  report_dead_links >"$work/told" 2>&1
  count "the links of the documents"
  report_sizes bin/lib/documents/sizes >"$work/told" 2>&1
  count "the sizes of the documents"
  report_excerpts >"$work/told" 2>&1
  count "the excerpts in the documents"
  report_promises >"$work/told" 2>&1
  count "the names in docs/PROMISES.md"
  report_figures >"$work/told" 2>&1
  count "the figures in docs/TESTING.md"
  report_numbers >"$work/told" 2>&1
  count "the figures in README.md"
}
