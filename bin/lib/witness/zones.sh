# shellcheck shell=bash disable=SC2154
# Compares starts around clock changes: of events with those of systemd-analyze, and of crontabs with those of
# cron's own daemon, which runs on a simulated clock. bin/witness sources this file.

zones=(
  # zones with plain summer time, then those whose changes have odd sizes, odd hours or odd flags
  Europe/Oslo Europe/London America/New_York Australia/Sydney
  Africa/Cairo Africa/Casablanca Africa/Juba Africa/Windhoek America/Argentina/San_Luis America/Asuncion America/Caracas
  America/Goose_Bay America/Havana America/Metlakatla America/Nuuk America/Santiago America/Sao_Paulo America/Scoresbysund
  America/St_Johns America/Whitehorse Antarctica/Casey Antarctica/Macquarie Antarctica/Troll Antarctica/Vostok Asia/Almaty Asia/Beirut
  Asia/Colombo Asia/Dhaka Asia/Gaza Asia/Kathmandu Asia/Pyongyang Asia/Singapore Asia/Srednekolymsk Asia/Tehran Atlantic/Azores
  Australia/Lord_Howe Europe/Dublin Europe/Istanbul Europe/Lisbon Europe/Moscow Pacific/Apia Pacific/Chatham Pacific/Fiji
  Pacific/Kiritimati Pacific/Kwajalein Pacific/Norfolk
)
# systemd-analyze prints no times in UTC for this zone, because it has no summer time and was last on UTC
zones_of_cron=(Africa/Sao_Tome)
# zones whose names are abbreviations of other zones, and zones of machines, for events that end with a zone of their own
zones_of_events=(CET EET)
homes=(Africa/Cairo America/New_York America/Sao_Paulo Asia/Kathmandu Australia/Lord_Howe Europe/Oslo Pacific/Apia)
# the numbers of events for each of four times around a change, without and with a zone of their own, and the number of rules
zone_events=6
named_events=1
zone_rules=24

# Runs the function $1 on shares of the lines of the file $2 in parallel, and prints all output in order.
# systemd's answer to a text can depend on the texts before it, so the number of shares doesn't depend on the
# machine.
in_shares() {
  local shares=4 share
  local -a children=()
  for ((share = 1; share <= shares; share++)); do
    split -n "l/$share/$shares" "$2" | "$1" >"$2.share.$share" &
    children+=($!)
  done
  wait "${children[@]}"
  for ((share = 1; share <= shares; share++)); do cat "$2.share.$share"; done
}

# Asks agenda for $asked starts of each event of standard input. The lines have the zone of the event, a time, the
# event and the zone of the machine. If that is another zone, the event ends with its own. Prints one answer per line.
agenda_in_zones() {
  local zone after text home named
  ulimit -t 60
  while IFS=$'\t' read -r zone after text home; do
    [ "$zone" = "$home" ] && named= || named=" $zone"
    "$program" next --zone "$home" ${named:+--event-zones} --after "$after" --count "$asked" "--calendar=$text$named" </dev/null 2>&1
    echo "= $?"
  done | awk '
    !/^= [0-9]+$/ { answer = answer (answer == "" ? "" : " ") $0; next }
    { print ($2 == 0 ? answer : "status " $2 ": " answer); answer = "" }'
}

# Asks systemd in the same way.
systemd_in_zones() {
  local zone after text home last_home='' last_after=''
  local -a texts=()
  while IFS=$'\t' read -r zone after text home; do
    if [ "$home $after" != "$last_home $last_after" ]; then
      ask_systemd_in "$last_home" "$last_after" "${texts[@]}"
      last_home=$home last_after=$after texts=()
    fi
    [ "$zone" = "$home" ] || text+=" $zone"
    texts+=("$text")
  done
  ask_systemd_in "$last_home" "$last_after" "${texts[@]}"
}

# Asks systemd in the zone $1 for $asked starts after $2 of each event from $3 on. Prints one answer per line.
ask_systemd_in() {
  local zone=$1 after="${2:0:10} ${2:11:8} UTC"
  shift 2
  [ $# = 0 ] || TZ=$zone systemd-analyze calendar --iterations="$asked" --base-time="$after" -- "$@" 2>&1 </dev/null |
    awk -f "$parts/zone-answers.awk" -v count=$#
}

# Compares agenda with cron's daemon on the rules of standard input, one per line in the form of
# zone-texts.awk. The rules of one zone and span are one crontab. The line for each rule has the verdict of
# zone-crontab.awk.
crontabs_in_zones() {
  local zone since upto gap rule table at=0
  local -a last=()
  table=$(mktemp -d "$work/zones/crontab.XXXXXX") || return
  while IFS=$'\t' read -r zone since upto gap rule; do
    if [ "$zone $since $upto $gap" != "${last[*]-}" ]; then
      [ $at = 0 ] || compare_crontab_in "$table" "${last[@]}"
      last=("$zone" "$since" "$upto" "$gap") at=0
      : >"$table/crontab"
    fi
    at=$((at + 1))
    printf '%s %s\n' "$rule" "$at" >>"$table/crontab"
  done
  [ $at = 0 ] || compare_crontab_in "$table" "${last[@]}"
}

# Compares agenda with cron's daemon on the file `crontab` of the directory $1, in the zone $2, from $3 to $4.
# The clock is put forward at $5.
compare_crontab_in() {
  local status
  TZ=$2 "$work/cron-clock" "$3" "$4" "$1/crontab" >"$1/daemon" 2>/dev/null </dev/null
  status=$?
  "$program" plan --zone "$2" --since "$3" --upto "$4" --limit 1000000 --crontab "$1/crontab" >"$1/plan" 2>&1 </dev/null
  awk -f "$parts/zone-crontab.awk" -v zone="$2" -v since="$3" -v gap="$5" -v statuses="$status $?" \
    file=1 "$1/crontab" file=2 "$1/daemon" file=3 "$1/plan"
}

# Writes the changes of the zones from $2 on to the file `changes` of the directory $1, which it makes.
list_changes() {
  local directory=$1
  shift
  mkdir -p "$directory"
  zdump -V -c 1970,2080 "$@" 2>/dev/null | awk -f "$parts/zone-clock.awk" -f "$parts/zone-changes.awk" >"$directory/changes"
  [ -s "$directory/changes" ]
}

# Writes texts of the form $2, $3 for each time or change, around the changes of the directory $1.
make_zone_texts() {
  awk -f "$parts/zone-clock.awk" -f "$parts/zone-texts.awk" -v form="$2" -v texts="$3" -v seed="$seed" -v homes="${homes[*]}" "$1/changes"
}

# Runs the stage $2 of zone-judge.awk on the directory $1.
judge_zones() {
  awk -f "$parts/zone-clock.awk" -f "$parts/zone-judge.awk" -v zones="$1" -v stage="$2" </dev/null
}

# Counts the verdicts of standard input, which are about the $3 $1, and prints a table below the line $2. An
# unknown verdict is followed by a tab and what is wrong.
count_verdicts() {
  local verdicts=$work/zones/all line known unknown
  cat >"$verdicts"
  [ "$(wc -l <"$verdicts")" = "$3" ] || tell "$(wc -l <"$verdicts") verdicts"
  count "the number of the $1"
  known=$(grep -cv '^unknown' "$verdicts")
  unknown=$(grep -c '^unknown' "$verdicts")
  echo "$2"
  cut -f 1 "$verdicts" | sort | uniq -c | sort -k 1,1nr | awk '
    { count = $1; sub(/^ *[0-9]+ /, "") }
    { printf "%8d  %s\n", count, $0 == "same" ? "the same starts" : $0 == "unknown" ? "UNKNOWN DIFFERENCE" : "other starts: " $0 }'
  passed=$((passed + known))
  while IFS= read -r line; do
    tell "$line"
    count "one of the $1"
  done < <(grep -m "$most_shown" '^unknown' "$verdicts" | cut -f 2-)
  [ "$unknown" -le "$most_shown" ] || echo "FAILED: $((unknown - most_shown)) more of the $1"
  [ "$unknown" -le "$most_shown" ] || failed=$((failed + unknown - most_shown))
}

# Prints the events that docs/DIFFERENCES.md has as examples below the heading $1, one per line in the form of
# zone-texts.awk. The zone of an event is the machine's, or its last word if $2 is named.
list_examples() {
  awk -v headline="## $1" -v form="$2" '
    /^## / { inside = $0 == headline }
    inside && match($0, /[|] [A-Za-z_\/]+, `[^`]+`, after [0-9TZ:-]+ [|]/) {
      split(substr($0, RSTART + 2, RLENGTH - 4), words, /, `|`, after /)
      zone = words[1]
      if (form == "named") {
        zone = words[2]
        sub(/.* /, "", zone)
        words[2] = substr(words[2], 1, length(words[2]) - length(zone) - 1)
      }
      print zone "\t" words[3] "\t" words[2] "\t" words[1]
    }' "$top/docs/DIFFERENCES.md"
}

# Prints how many texts of the kind $2 are in the file $1, around how many changes and of how many zones.
# There are $3 texts for each change.
say_texts() {
  awk -F '\t' -v kind="$2" -v each="$3" '
    { zones[$1] }
    END {
      for (zone in zones) count++
      printf "%s: %d, around %d changes in %d zones", kind, NR, NR / each, count
    }' "$1"
}

# Compares events in zones, and events that end with a zone of their own.
compare_zone_events() {
  local directory=$work/zones
  if ! list_changes "$directory" "${zones[@]}"; then
    echo "events in zones: skipped, since zdump or the time zone database is not here"
    return
  fi
  make_zone_texts "$directory" calendar $zone_events >"$directory/events"
  list_examples "Changes of the clock" calendar >>"$directory/events"
  compare_events_in "$directory" "events in zones" $((4 * zone_events))
  directory=$work/named-zones
  list_changes "$directory" "${zones[@]}" "${zones_of_events[@]}"
  make_zone_texts "$directory" named $named_events >"$directory/events"
  list_examples "Zones of events" named >>"$directory/events"
  compare_events_in "$directory" "events that name their zone" $((4 * named_events))
}

# Compares the events of the directory $1, which are called $2. There are $3 for each change.
compare_events_in() {
  asked=$starts
  in_shares agenda_in_zones "$1/events" >"$1/agenda"
  in_shares systemd_in_zones "$1/events" >"$1/systemd"
  judge_zones "$1" 1
  asked=1
  in_shares systemd_in_zones "$1/steps" >"$1/steps.systemd"
  judge_zones "$1" 2
  in_shares systemd_in_zones "$1/questions" >"$1/questions.systemd"
  judge_zones "$1" 3 | paste "$1/events" - |
    awk -F '\t' -v OFS='\t' '$5 == "" || $5 == "unknown" { print "unknown", "\047" $3 "\047 of " $1 " in " $4 ": " $6; next } { print $5 }' >"$1/verdicts"
  count_verdicts "$2" "$(say_texts "$1/events" "$2" "$3"), agenda beside \
$(systemd-analyze --version | head -n 1)" "$(wc -l <"$1/events")" <"$1/verdicts"
}

# Compares crontabs in zones, with the cron version $1.
compare_zone_crontabs() {
  local directory=$work/zones
  if ! list_changes "$directory" "${zones[@]}" "${zones_of_cron[@]}"; then
    echo "rules of cron in zones: skipped, since zdump or the time zone database is not here"
    return
  fi
  make_zone_texts "$directory" cron $zone_rules >"$directory/rules"
  in_shares crontabs_in_zones "$directory/rules" >"$directory/starts"
  cut -f 2- "$directory/starts" | awk -F '\t' -v OFS='\t' '$1 == "unknown" { print $1, $3 ": " $2; next } { print $1 }' >"$directory/verdicts"
  count_verdicts rules "$(say_texts "$directory/rules" "rules of cron in zones" $zone_rules), agenda beside $1; \
$(awk '{ starts += $1 } END { printf "%d", starts }' "$directory/starts") starts" "$(wc -l <"$directory/rules")" <"$directory/verdicts"
}
