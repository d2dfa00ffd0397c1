# shellcheck shell=bash disable=SC2154
# Counts what passed and what failed, for the scripts of bin/ and .ci/run. They source this file, and make
# $work before they count.

passed=0
failed=0

# Records the complaint $1 about what is counted next.
tell() {
  printf '%s\n' "$1" >>"$work/told"
}

# Counts $1 as passed if the file `told` has no complaints, and otherwise shows them.
count() {
  if [ -s "$work/told" ]; then
    failed=$((failed + 1))
    echo "FAILED: $1"
    sed 's/^/  /' "$work/told"
    : >"$work/told"
  else
    passed=$((passed + 1))
  fi
}

# Adds the counts of the line $1 to the sums. The part $2 ended with status $3. If that isn't 0, at least one
# failure is counted, even if the line has none.
add_counts() {
  local its_failed=0
  if [[ $1 =~ ^([0-9]+)\ passed,\ ([0-9]+)\ failed$ ]]; then
    passed=$((passed + BASH_REMATCH[1]))
    its_failed=$((BASH_REMATCH[2]))
  fi
  if [ "$3" != 0 ] && [ "$its_failed" = 0 ]; then
    echo "$2 ended with status $3"
    its_failed=1
  fi
  failed=$((failed + its_failed))
}

# Runs the command from $2 on, as the part $1, shows its output and adds the counts of its last line.
run_part() {
  local part=$1 status
  shift
  "$@" | tee "$work/log"
  status=${PIPESTATUS[0]}
  add_counts "$(tail -n 1 "$work/log")" "$part" "$status"
}

# Prints the last line, which counts everything. The status is 0 if nothing failed.
tell_counts() {
  echo "$passed passed, $failed failed"
  [ "$failed" = 0 ]
}
