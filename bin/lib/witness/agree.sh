# shellcheck shell=bash disable=SC2154
# Shows that systemd and cron do what agenda plans wherever `agenda check` is silent. bin/witness sources this file after
# boot.sh and zones.sh.
#
# systemd reads made events, and cron's own `load_user` made crontabs. If `check` reports nothing about one of them that could
# explain it, systemd accepts the event and has the same starts, or cron loads the file and has the same jobs. If a warning
# explains a difference that isn't there, it is counted as false.

# of 100 files that are warned about, how many may be warned about for nothing; and how many of a small number
most_false=2
few_false=2
# how many files agenda reads at once: a run has at most 1,000 jobs, and a made crontab has at most 4
timer_batch=900
crontab_batch=240
# zones with summer time, whose clocks are put forward neither at midnight nor within an hour
summer_zones=(Europe/Oslo America/New_York Australia/Sydney)
zone=UTC

# Prints the codes of agenda's warnings about what systemd makes of each event of standard input, one line for each. All of them
# are in one timer, each in a list of its own.
warned_codes() {
  local file=$work/warned.timer
  { echo '[Timer]' && sed 's/.*/OnCalendar=&\nOnCalendar=/'; } >"$file"
  "$program" check "$file" 2>&1 </dev/null | awk -v lines="$(wc -l <"$file")" '
    match($0, /[.]timer:[0-9]+: warning: .*[[](SystemdRejects|RangeFromEnd|SkippedStarts)[]]$/) {
      line = substr($0, RSTART + 7) + 0
      sub(/.*[[]/, "")
      sub(/[]]$/, "")
      codes[line] = codes[line] (codes[line] == "" ? "" : " ") $0
    }
    END { for (line = 2; line < lines; line += 2) print codes[line] }'
}

# Sets `times` to times, as agree-times.awk makes them with the options $@.
choose_times() {
  mapfile -t times < <(awk -f "$parts/random.awk" -f "$parts/agree-times.awk" -v seed="$seed" "$@" </dev/null)
}

# Asks agenda about the files of standard input, one per line, with the options that name them. $read_at_once are read at
# once, in the directory $agreed. Prints what `check` finds, after `found` and a tab, unless $checked is no; and the jobs with
# their first starts after each of $times, after the time and a tab. Rules are read in the zone $zone.
agenda_agrees() {
  local time
  local -a lines arguments
  ulimit -t 60
  cd "$agreed" || return
  while mapfile -t -n "$read_at_once" lines && [ ${#lines[@]} != 0 ]; do
    read -r -a arguments <<<"${lines[*]}"
    [ "$checked" = no ] || "$program" check --zone "$zone" "${arguments[@]}" </dev/null | sed 's/^/found\t/'
    for time in "${times[@]}"; do
      "$program" upcoming --keep-going --json --zone "$zone" --after "$time" "${arguments[@]}" 2>/dev/null </dev/null | sed "s/^/$time\t/"
    done
  done
}

# Asks systemd about the events of the file $agreed/asked, after the times of standard input. A line of the file has a number,
# a tab and an event. Prints a line for each time and event: the time, the number and the answer, separated by tabs.
systemd_agrees() {
  local time at
  local -a texts
  mapfile -t texts < <(cut -f 2- "$agreed/asked")
  while IFS= read -r time; do
    for ((at = 0; at < ${#texts[@]}; at += 500)); do
      ask_systemd "$time" 1 "${texts[@]:at:500}"
    done | paste <(cut -f 1 "$agreed/asked") - | sed "s/^/$time\t/"
  done
}

# Asks both about the events of the file `asked` of the directory $agreed, and adds the answers to its files. They are asked
# after each of $times.
ask_both() {
  sed 's/\t.*/.timer/' "$agreed/asked" >"$agreed/names"
  in_shares agenda_agrees "$agreed/names" >>"$agreed/agenda"
  printf '%s\n' "${times[@]}" >"$agreed/times"
  in_shares systemd_agrees "$agreed/times" >>"$agreed/systemd"
}

# Judges the events of the directory $agreed. Prints one verdict per line.
judge_events() {
  awk -f "$parts/agree-events-judge.awk" file=1 "$agreed/events" file=2 "$agreed/agenda" file=3 "$agreed/systemd"
}

# Compares events about which `check` is silent with systemd.
agree_on_events() {
  local agreed=$work/agree/events checked=yes read_at_once=$timer_batch year=$((1970 + seed * 7919 % 220))
  local -a times
  mkdir -p "$agreed"
  awk -f "$parts/random.awk" -f "$parts/agree-events.awk" -v count="$cases" -v seed="$seed" -v year="$year" -v folder="$agreed" \
    </dev/null >"$agreed/events"
  nl -ba -w1 "$agreed/events" >"$agreed/asked"
  choose_times -v form=event -v year="$year"
  ask_both
  judge_events >"$agreed/verdicts"
  # starts that systemd may skip are searched for after more times
  paste "$agreed/verdicts" "$agreed/events" | awk -F '\t' -v OFS='\t' '$1 ~ /^false/ && $1 !~ /SystemdRejects/ {
    text = $0
    sub(/^[^\t]*\t[^\t]*\t/, "", text)
    print NR, text
  }' >"$agreed/asked"
  checked=no
  choose_times -v form=more -v year="$year"
  ask_both
  judge_events >"$agreed/verdicts"
  tell_agreement event "$cases" "events, agenda beside $(systemd-analyze --version | head -n 1)"
}

# Compares events about which `check` is silent in UTC with systemd in zones with summer time, around changes of the clock. Starts
# in the nights of changes may differ, but systemd must not stop for good if `check` doesn't say so in the zone.
agree_on_zones() {
  local agreed=$work/agree/events checked=yes read_at_once=$timer_batch zone folder
  local -a times
  if ! list_changes "$work/agree/zone" "${summer_zones[@]}"; then
    echo "where check is silent in zones: skipped, since zdump or the time zone database is not here"
    return
  fi
  for zone in "${summer_zones[@]}"; do
    folder=$work/agree/${zone##*/}
    list_changes "$folder" "$zone"
    grep -n '^no finding' "$agreed/verdicts" | head -n $(((cases + 14) / 15)) | sed 's/:.*//' >"$folder/numbers"
    awk -F '\t' 'FILENAME == ARGV[1] { wanted[$1]; next } FNR in wanted' "$folder/numbers" "$agreed/events" >"$folder/texts"
    mapfile -t times < <(awk -f "$parts/random.awk" -f "$parts/zone-clock.awk" -f "$parts/agree-changes.awk" -v seed="$seed" "$folder/changes")
    sed 's/$/.timer/' "$folder/numbers" >"$folder/names"
    in_shares agenda_agrees "$folder/names" >"$folder/agenda"
    printf '%s\n' "${times[@]}" >"$folder/times"
    in_shares systemd_agrees_in_zone "$folder/times" >"$folder/systemd"
    awk -f "$parts/zone-clock.awk" -f "$parts/agree-zones-judge.awk" file=1 "$folder/changes" file=2 "$folder/numbers" file=3 "$folder/agenda" \
      file=4 "$folder/systemd" | paste - "$folder/texts"
  done >"$work/agree/zones"
  tell_zones
}

# Asks systemd in the zone $zone about the events of $folder/texts, after each time of standard input. Prints a line for each time
# and event: the time, the number and the answer, separated by tabs.
systemd_agrees_in_zone() {
  local time asked=1
  local -a texts
  mapfile -t texts <"$folder/texts"
  while IFS= read -r time; do
    ask_systemd_in "$zone" "$time" "${texts[@]}" | paste "$folder/numbers" - | sed "s/^/$time\t/"
  done
}

# Counts the verdicts about events in zones.
tell_zones() {
  local verdicts=$work/agree/zones line unknown shown=0
  echo "where check is silent in ${#summer_zones[@]} zones: $(wc -l <"$verdicts") events, around changes of the clock"
  table_of <"$verdicts"
  unknown=$(grep -c '^unknown' "$verdicts")
  passed=$((passed + $(wc -l <"$verdicts") - unknown))
  while [ $shown -lt "$most_shown" ] && IFS= read -r line; do
    tell "$line"
    count "an event in a zone"
    shown=$((shown + 1))
  done < <(sed -n 's/^unknown\t//p' "$verdicts")
  [ "$unknown" = $shown ] || echo "FAILED: $((unknown - shown)) more events in zones"
  failed=$((failed + unknown - shown))
}

# Prints how many lines of standard input have each verdict.
table_of() {
  cut -f 1 | sort | uniq -c | sort -k 2,2 | awk '{
    number = $1
    sub(/^ *[0-9]+ /, "")
    printf "%8d  %s\n", number, $0 == "unknown" ? "UNKNOWN DIFFERENCE" : $0
  }'
}

# Compares whole timers about which `check` is silent with systemd, which loads them in its test mode.
agree_on_timers() {
  local agreed=$work/agree/root/usr/lib/systemd/system checked=yes read_at_once=$timer_batch root=$work/agree/root timers=$((cases / 3))
  local -a times
  if [ "$has_boot" = no ]; then
    echo "where check is silent about whole timers: $no_boot"
    return
  fi
  mkdir -p "$agreed"
  awk -f "$parts/random.awk" -f "$parts/agree-timers.awk" -v count="$timers" -v seed="$seed" -v folder="$agreed" </dev/null
  seq -f '%.0f.timer' "$timers" >"$agreed/names"
  { echo '[Unit]' && sed 's/^/Wants=/' "$agreed/names"; } >"$agreed/default.target"
  choose_times -v form=event -v year=$((1970 + seed * 7919 % 220))
  in_shares agenda_agrees "$agreed/names" >"$agreed/agenda"
  test_boot "$root" warning >"$agreed/systemd"
  sed -n 's/^\t\tOnCalendar: //p' "$agreed/systemd" | sort -u | sed 's/.*/&\t&/' >"$agreed/asked"
  printf '%s\n' "${times[@]}" >"$agreed/times"
  in_shares systemd_agrees "$agreed/times" >"$agreed/answers"
  awk -f "$parts/agree-timers-judge.awk" file=1 "$agreed/names" file=2 "$agreed/agenda" file=3 "$agreed/systemd" \
    file=4 "$root.log" file=5 "$agreed/answers" >"$agreed/verdicts"
  tell_agreement timer "$timers" "timers, agenda beside $(systemd-analyze --version | head -n 1)"
  agree_on_triggers
}

# Compares what else starts the timers of the directory $agreed with what agenda reports of a machine that has their units.
agree_on_triggers() {
  local name machine=$work/agree/machine units=$work/agree/machine/usr/lib/systemd/system wrong
  mkdir -p -- "$units" "$machine/var/lib" && cp -- "$agreed"/*.timer "$agreed/default.target" "$units/"
  while IFS= read -r name; do
    [ -e "$units/$name" ] || printf '[Service]\nExecStart=/bin/true\n' >"$units/$name"
  done < <(sed -n 's/^\t\tUnit: //p' "$agreed/systemd" | grep -v / | sort -u)
  "$program" machine plan --root "$machine" --since 2024-01-01 --until 2024-01-01 2>"$agreed/reports" >/dev/null </dev/null
  awk -f "$parts/triggers-judge.awk" file=1 "$agreed/systemd" file=2 "$agreed/reports" >"$agreed/triggers"
  echo "what else starts a timer: $(wc -l <"$agreed/triggers") timers"
  table_of <"$agreed/triggers"
  grep -q '^unknown' "$agreed/triggers" || tell "no timer has a trigger"
  count "the triggers of made timers"
  wrong=$(grep -c '^wrong' "$agreed/triggers")
  passed=$((passed + $(wc -l <"$agreed/triggers") - wrong))
  [ "$wrong" = 0 ] || tell "$(grep '^wrong' "$agreed/triggers" | cut -f 2 | head -n "$most_shown")"
  count "what agenda reports of each trigger"
}

# Compares crontabs about which `check` is silent with cron, whose version is $1.
agree_on_crontabs() {
  local agreed=$work/agree/crontabs checked=yes read_at_once=$crontab_batch
  local -a times
  mkdir -p "$agreed"
  awk -f "$parts/random.awk" -f "$parts/agree-crontabs.awk" -v count="$cases" -v seed="$seed" -v folder="$agreed" </dev/null \
    >"$agreed/list"
  # cron's clock ends in 2038
  choose_times -v form=cron -v year=$((1970 + seed * 7919 % 62))
  sed 's|^user .*/|--spool |; s|^system .*/|--cron-d |' "$agreed/list" >"$agreed/names"
  in_shares agenda_agrees "$agreed/names" >"$agreed/agenda"
  "$work/agree-cron" "${times[@]}" <"$agreed/list" >"$agreed/cron"
  awk -f "$parts/agree-crontabs-judge.awk" file=1 "$agreed/list" file=2 "$agreed/agenda" file=3 "$agreed/cron" >"$agreed/verdicts"
  tell_agreement crontab "$cases" "crontabs, agenda beside $1"
}

# Prints the text of the $1 number $2, escaped.
made_text() {
  case $1 in
    event) sed -n "$2p" "$agreed/events" ;;
    timer) cat -- "$agreed/$2.timer" ;;
    *) cat -- "$agreed/$2" ;;
  esac | head -c 2000 | sed -n l
}

# Counts the verdicts of the directory $agreed about the made things called $1, of which there are $2, and prints a table of them
# below a line that says what they are, $3.
tell_agreement() {
  local verdicts=$agreed/verdicts number reason shown=0 unknown warned false
  [ "$(wc -l <"$verdicts")" = "$2" ] || tell "$(wc -l <"$verdicts") verdicts"
  count "the number of each made $1"
  echo "where check is silent: $2 $3"
  table_of <"$verdicts"
  unknown=$(grep -c '^unknown' "$verdicts")
  while IFS=: read -r number reason; do
    [ $shown -lt "$most_shown" ] || break
    tell "${reason#unknown}, and check doesn't say so:"
    made_text "$1" "$number" >>"$work/told"
    count "a made $1"
    shown=$((shown + 1))
  done < <(grep -n '^unknown' "$verdicts")
  [ "$unknown" = $shown ] || echo "FAILED: $((unknown - shown)) more of the kind $1"
  failed=$((failed + unknown - shown))
  passed=$((passed + $2 - unknown))
  false=$(grep -c '^false' "$verdicts")
  warned=$((false + $(grep -c '^warned' "$verdicts")))
  [ "$false" -le $few_false ] || [ $((100 * false)) -le $((most_false * warned)) ] || tell "$false of $warned warnings are false"
  count "the false warnings about each made $1"
}
