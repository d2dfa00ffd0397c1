# shellcheck shell=bash disable=SC2154
# Rows of bin/audit in a small tree, with a stub in place of `rt`: which edits it tries, and how it counts.

audit_tree=$work/audit

# Makes the tree. The stub rejects each edit that it finds, except those with the text `proved`.
audit_make() {
  mkdir -p "$audit_tree/bin/lib" "$audit_tree/programs" "$audit_tree"/crates/{one,two,none}/src \
    "$audit_tree"/crates/one/{must-fail,audit} "$audit_tree/crates/two/audit"
  cp -- "$top/bin/audit" "$audit_tree/bin/"
  cp -- "$top"/bin/lib/{project,counts,memory}.sh "$audit_tree/bin/lib/"
  printf '%s\n' 'one:' 'two: one' 'none:' >"$audit_tree/crates.txt"
  touch "$audit_tree/HANDLES"
  echo rejected >"$audit_tree/crates/one/must-fail/first.edit"
  echo rejected >"$audit_tree/crates/one/audit/second.edit"
  echo rejected >"$audit_tree/crates/two/audit/third.edit"
  cat >"$audit_tree/programs/rt" <<'END'
#!/usr/bin/env bash
echo "${*:1:1} of $(cut -d : -f 1 crates.txt | paste -sd ' ') in $(ls crates | paste -sd ' ')"
for edit in crates/*/must-fail/*.edit; do
  crate=${edit#crates/}
  if grep -q proved "$edit"; then
    echo "rt: must-fail ${crate%%/*}/${edit##*/}: NOT REFUSED: the crate is still proved with this edit"
    failed=1
  else
    echo "rt: must-fail ${crate%%/*}/${edit##*/}: refused, as it must be: ./src/lib.rt"
  fi
done
echo "9 passed, 9 failed (not the gate)"
exit "${STATUS:-${failed:-0}}"
END
  chmod 755 "$audit_tree/programs/rt"
}

# Rows of the arguments, the crates that `rt ci` gets, the edits that are tried, the counts and the status.
audit_tries() {
  local words crates edits counts wanted
  while IFS='|' read -r words crates edits counts wanted; do
    # shellcheck disable=SC2086
    run_in "$audit_tree" env "PATH=$audit_tree/programs:$PATH" bin/audit $words
    {
      echo "ci of $crates in $crates"
      for edit in $edits; do
        if grep -q proved "$audit_tree"/crates/"${edit%/*}"/*/"${edit#*/}"; then
          echo "rt: must-fail $edit: NOT REFUSED: the crate is still proved with this edit"
        else
          echo "rt: must-fail $edit: refused, as it must be: ./src/lib.rt"
        fi
      done
      echo "$counts"
    } >"$work/out.wanted"
    compare "bin/audit $words" "$work/out.wanted" /dev/null "$wanted"
  done
}

audit_make
audit_tries <<'ROWS'
|one two|one/first.edit one/second.edit two/third.edit|3 passed, 0 failed|0
one|one|one/first.edit one/second.edit|2 passed, 0 failed|0
two one|one two|one/first.edit one/second.edit two/third.edit|3 passed, 0 failed|0
ROWS
echo proved >"$audit_tree/crates/one/audit/second.edit"
audit_tries <<'ROWS'
one|one|one/first.edit one/second.edit|1 passed, 1 failed|1
two|one two|two/third.edit|1 passed, 0 failed|0
ROWS
run_in "$audit_tree" env "PATH=$audit_tree/programs:$PATH" STATUS=1 bin/audit two
grep -qxF '1 passed, 1 failed' "$work/out" || tell "$(tail -n 1 "$work/out")"
[ "$status" = 1 ] || tell "status $status, not 1"
count "bin/audit if rt ci fails although the edit is rejected"
run_in "$audit_tree" env "PATH=$audit_tree/programs:$PATH" bin/audit none
compare_texts "bin/audit of a crate without edits" '' "bin/audit: 'none': has no edits"$'\n' 2
