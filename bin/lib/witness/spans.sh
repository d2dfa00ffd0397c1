# shellcheck shell=bash disable=SC2154
# Compares time spans with those of systemd-analyze. bin/witness sources this file after zones.sh.
#
# agenda prints delays in whole seconds, rounded up. So each span is the RandomizedDelaySec= of two timers. By systemd's
# answer, the delay of one of them is a whole second, and that of the other one a microsecond more.

# the largest delay, which ends the planner's years, in seconds
most_delay=32503680000

# Asks systemd about the spans of standard input. Prints one answer per line: the microseconds, or `refused`.
systemd_spans() {
  local at=0
  local -a texts batch answers
  mapfile -t texts
  while ((at < ${#texts[@]})); do
    batch=("${texts[@]:at:40}")
    # systemd-analyze stops at the first span that it rejects
    mapfile -t answers < <(systemd-analyze timespan -- "${batch[@]}" 2>/dev/null </dev/null | sed -n 's/^ *[^ ]*s: \([0-9]*\)$/\1/p')
    [ ${#answers[@]} = ${#batch[@]} ] || answers+=(refused)
    printf '%s\n' "${answers[@]}"
    at=$((at + ${#answers[@]}))
  done
}

# Runs agenda from $2 on, with the files of the directory $1, of which there are $spans. Prints all output. A run takes
# at most 1,000 timers.
agenda_spans() {
  local at=1 last
  local -a files
  cd "$1" || return
  shift
  for (( ; at <= spans; at += 1000)); do
    last=$((at + 999 < spans ? at + 999 : spans))
    mapfile -t files < <(seq -f '%.0f.timer' "$at" "$last")
    "$program" "$@" "${files[@]}" 2>&1 </dev/null
  done
}

# Compares time spans. All timers start at the first second of the planner's years, so the latest start is the delay.
compare_spans() {
  local directory=$work/spans spans which
  local day=(--since 1970-01-01T00:00:00Z --upto 1970-01-01T00:00:01Z)
  mkdir -p "$directory"/{0,1}
  awk -f "$parts/span-texts.awk" -v count="$cases" -v seed="$seed" </dev/null >"$directory/texts"
  spans=$(wc -l <"$directory/texts")
  in_shares systemd_spans "$directory/texts" >"$directory/systemd"
  awk -f "$parts/span-timers.awk" -v folder="$directory" -v most=$most_delay file=1 "$directory/texts" file=2 "$directory/systemd" \
    >"$directory/seconds"
  for which in 0 1; do
    (agenda_spans "$directory/$which" plan --delays "${day[@]}") | grep -v '^agenda 3' >"$directory/plan.$which"
  done
  # each timer has a start each second, and some texts have a carriage return
  (agenda_spans "$directory/0" check --allow Merged --allow LineEnd) >"$directory/found"
  awk -f "$parts/zone-clock.awk" -f "$parts/span-judge.awk" -v most=$most_delay file=1 "$directory/texts" file=2 "$directory/seconds" \
    file=3 "$directory/plan.0" file=4 "$directory/plan.1" file=5 "$directory/found" >"$directory/verdicts"
  tell_spans "$directory"
}

# Counts the verdicts of the directory $1, and prints a table of them.
tell_spans() {
  local line known unknown
  [ "$(wc -l <"$1/verdicts")" = "$spans" ] || tell "$(wc -l <"$1/verdicts") verdicts"
  count "the number of the time spans"
  known=$(grep -cv '^unknown' "$1/verdicts")
  unknown=$((spans - known))
  echo "time spans: $spans texts, agenda beside $(systemd-analyze --version | head -n 1); \
$(grep -cx $most_delay "$1/seconds") last to the end of the planner's years"
  cut -f 1 "$1/verdicts" | sort | uniq -c | sort -k 2,2r | awk '
    { printf "%8d  %s\n", $1, $2 == "same" ? "both take it, with the same delay" : $2 == "refused" ? "both refuse it" : "UNKNOWN DIFFERENCE" }'
  passed=$((passed + known))
  while IFS= read -r line; do
    tell "$line"
    count "a time span"
  done < <(grep -m "$most_shown" '^unknown' "$1/verdicts" | cut -f 2-)
  [ "$unknown" -le "$most_shown" ] || echo "FAILED: $((unknown - most_shown)) more time spans"
  [ "$unknown" -le "$most_shown" ] || failed=$((failed + unknown - most_shown))
}
