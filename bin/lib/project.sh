# shellcheck shell=bash
# The project's directory, its program, its crates, and a temporary directory, for the scripts of bin/ and
# .ci/run. They source this file.

top=$(cd "${BASH_SOURCE[0]%/*}/../.." && pwd) || exit 3
# shellcheck disable=SC2034
program=$top/crates/agenda/out/agenda

# Prints the error $1 to standard error, with the name of the running script of bin/.
complain() {
  echo "bin/${0##*/}: $1" >&2
}

# Prints the error $1, and ends the script with status $2, or with 3 if that isn't given.
stop() {
  complain "$1"
  exit "${2:-3}"
}

# Tests whether the program $1 exists and is as new as the sources of the project.
is_current() {
  [ -x "$1" ] && [ -z "$(find "$top/crates.txt" "$top/crates" -name out -prune -o \
    -type f \( -name '*.rt' -o -name '*.antt' -o -name crates.txt \) -newer "$1" -print -quit)" ]
}

# Proves and builds the program if it is missing or older than its sources.
build_program() {
  "$top/bin/build" >/dev/null
}

# Prints a line for crate $1 and for each crate below it: its name and the names that it depends on, after the
# lines of those.
crate_lines() {
  awk -v wanted="$1" '
    { sub(/#.*/, "") }
    at = index($0, ":") { split(substr($0, 1, at - 1), head, " "); named[head[1]] = substr($0, at + 1) }
    function visit(name, count, deps, i) {
      if (name in seen) return
      seen[name] = 1
      count = split(named[name], deps, " ")
      for (i = 1; i <= count; i++) if (deps[i] in named) visit(deps[i])
      print name " " named[name]
    }
    END { visit(wanted) }' "$top/crates.txt"
}

# Makes the temporary directory $work, which is removed when the script ends.
make_work() {
  work=$(mktemp -d) || return
  trap 'rm -rf -- "$work"' EXIT
}
