# shellcheck shell=bash disable=SC2154
# Rows of rules with their starts, and of rules that are rejected. The tables of rows/ that need it source it.
#
# There are spaces between starts. A shorter start has the beginning of the one before it:
# `2024-01-01T04:30:00Z 05T04:30:00Z` is at 04:30 on the 1st and on the 5th. Texts have the escapes of printf.

# Writes the starts of $1, one per line.
lists_starts() {
  local start before=''
  for start in $1; do
    if [ "$start" != none ]; then
      before=${before:0:20-${#start}}$start
      start=$before
    fi
    printf '%s\n' "$start"
  done
}

# The starts of the rule $2, by the option $1, that are later than $3 are those of $4. The last of these may be `none`.
lists_one() {
  local name="agenda next $1='$2' --after $3"
  lists_starts "$4" >"$work/starts.wanted"
  run_in "$work" agenda next "$1=$2" --after "$3" --count "$(wc -l <"$work/starts.wanted")"
  compare "$name" "$work/starts.wanted" /dev/null 0
}

# The first 1,000 starts of the rule $3, by the option $1, are those of the rule $2.
lists_same() {
  local rule
  for rule in "$2" "$3"; do
    mv -f "$work/out" "$work/starts.wanted"
    run_in "$work" agenda next "$1=$rule" --after 1970-01-01T00:00:00Z --count 1000
  done
  compare "'$3' has the starts of '$2'" "$work/starts.wanted" /dev/null 0
}

# Rows of rules with the same meaning, with `;` between them, a time, and the starts later than it. The option
# $1 gives the rules.
lists_next() {
  local row after starts text
  local -a texts
  while IFS='|' read -r row after starts; do
    IFS=';' read -ra texts < <(printf '%b\n' "$row")
    for text in "${texts[@]}"; do
      lists_one "$1" "$text" "$after" "$starts"
      [ "$text" = "${texts[0]}" ] || lists_same "$1" "${texts[0]}" "$text"
    done
  done
}

# Rows of a part and a code, and of a text that is rejected with them. The option $1 gives the text.
lists_refused() {
  local fault text
  while IFS='|' read -r fault text; do
    printf -v text '%b' "$text"
    run_in "$work" agenda next "$1=$text" --after 2024-01-01T00:00:00Z
    is_refused "agenda next $1='$text'" "rule: part ${fault/ /: }" 1
  done
}

# Writes the timer `rows.timer` with the events of $1, with `;` between them.
lists_timer() {
  printf '[Timer]\n'
  [ -z "$1" ] || printf 'OnCalendar=%s\n' "${1//;/$'\nOnCalendar='}"
}

# Rows of a timer's events, a span, and all starts of the timer in it.
lists_plan() {
  local events since upto starts
  while IFS='|' read -r events since upto starts; do
    lists_timer "$events" >"$work/rows.timer"
    lists_starts "$starts" | sed "s/\$/${tab}rows.timer${tab}rows.service/" >"$work/starts.wanted"
    run_in "$work" agenda plan --since "$since" --upto "$upto" rows.timer
    compare_agenda "a timer of '$events' from $since to $upto" "$work/starts.wanted"
  done
}
