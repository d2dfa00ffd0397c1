# shellcheck shell=bash disable=SC2154
# Compares the times that `agenda machine` reads with those of systemd-analyze. bin/witness sources this file after spans.sh.

# Zones that change their clocks at 02:00, at midnight, by half an hour and by a day, and dates of changes.
timestamp_zones=(Europe/Berlin America/Sao_Paulo Australia/Lord_Howe Pacific/Apia UTC)
timestamp_changes="2026-03-29 2026-10-25 1999-10-31 2018-11-04 2018-02-17 2026-04-05 2026-10-04 2011-12-30 2011-12-31"

# Prints what systemd reads in the text $1: the second, a tab, and the local time.
systemd_timestamp() {
  systemd-analyze timestamp -- "$1" 2>/dev/null </dev/null |
    awk '/Normalized form:/ { local = $4 "T" $5 } /UNIX seconds:/ { split(substr($NF, 2), parts, "."); print parts[1] "\t" local }'
}

# Asks both about the texts of standard input, in the zone TZ. The second of `now` may change meanwhile, so systemd is asked twice.
ask_timestamps() {
  local text before
  while IFS= read -r text; do
    before=$(systemd_timestamp "$text")
    printf '%s\t%s\t%s\t%s\n' "$text" "${before:-$'\t'}" \
      "$("$program" machine plan --root "$work/timestamps/root" --zone "$TZ" "--since=$text" --until 3000-01-01T00:00:00Z 2>&1 </dev/null | cut -f 2)" \
      "$(systemd_timestamp "$text")"
  done
}

# Compares a third as many times as other texts, in some zones.
compare_timestamps() {
  local directory=$work/timestamps zone at=0
  mkdir -p "$directory/root/etc" "$directory/root/var/lib"
  for zone in "${timestamp_zones[@]}"; do
    at=$((at + 1))
    awk -f "$parts/timestamp-texts.awk" -v count=$((cases / 15)) -v seed=$((seed * 10 + at)) -v changes="$timestamp_changes" \
      </dev/null >"$directory/texts.$at"
    TZ=$zone in_shares ask_timestamps "$directory/texts.$at" >"$directory/answers.$at"
    awk -f "$parts/zone-clock.awk" -f "$parts/timestamp-judge.awk" -v zone="$zone" "$directory/answers.$at"
  done >"$directory/verdicts"
  cat "$directory"/texts.? >"$directory/texts"
  tell_timestamps "$directory"
}

# Counts the verdicts of the directory $1, and prints a table of them.
tell_timestamps() {
  local line known unknown texts
  texts=$(wc -l <"$1/texts")
  [ "$(wc -l <"$1/verdicts")" = "$texts" ] || tell "$(wc -l <"$1/verdicts") verdicts"
  count "the number of the times"
  known=$(grep -cv '^unknown' "$1/verdicts")
  unknown=$((texts - known))
  echo "times: $texts texts in ${#timestamp_zones[@]} zones, agenda beside $(systemd-analyze --version | head -n 1)"
  cut -f 1 "$1/verdicts" | sort | uniq -c | sort -k 2,2 | awk '
    BEGIN {
      said["same"] = "both take it, as the same second"
      said["refused"] = "both refuse it"
      said["skipped"] = "clocks skip it: agenda goes by the second at which they are put forward"
      said["twice"] = "clocks show it twice: agenda goes by the first one"
    }
    { printf "%8d  %s\n", $1, $2 in said ? said[$2] : "UNKNOWN DIFFERENCE" }'
  passed=$((passed + known))
  while IFS= read -r line; do
    tell "$line"
    count "a time"
  done < <(grep -m "$most_shown" '^unknown' "$1/verdicts" | cut -f 2-)
  [ "$unknown" -le "$most_shown" ] || echo "FAILED: $((unknown - most_shown)) more times"
  [ "$unknown" -le "$most_shown" ] || failed=$((failed + unknown - most_shown))
}
