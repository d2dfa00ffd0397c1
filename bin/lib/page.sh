# shellcheck shell=bash disable=SC2154
# Lints the manual pages. .ci/run and bin/check source this file, and run it at the top of the project.

# Lints each page. mandoc must have no messages, except those about the other pages of this machine, which are ignored.
lint_page() {
  local page
  for page in man/*.1; do
    if ! command -v mandoc >/dev/null; then
      echo "$page: skipped, because mandoc is missing"
      continue
    fi
    # `.Os` names the program and its version, and no system
    mandoc -T lint "$page" 2>&1 | grep -v -e 'outdated mandoc.db lacks' -e 'referenced manual not found' \
      -e 'operating system explicitly specified: Os agenda ' >"$work/lint"
    if [ -s "$work/lint" ]; then
      cat "$work/lint"
      echo "$page: mandoc has something to say"
      failed=$((failed + 1))
    else
      echo "$page: mandoc has nothing to say"
      passed=$((passed + 1))
    fi
  done
}
