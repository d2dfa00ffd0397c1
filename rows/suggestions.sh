# shellcheck shell=bash disable=SC2154
# Rows of `agenda machine`: the zone that it suggests for a name that no zone has. Expected names are those of the time zone database
# of IANA. The rows are skipped where its source is missing.

suggestions_folder=$work/suggestions
suggestions_database=/usr/share/zoneinfo

# Gives the zone $1 to the question `next`, and compares the error with $2.
suggestions_compare() {
  run_in "$suggestions_folder" agenda machine next @daily --after @0 --zone "$1"
  compare_texts "suggestions: --zone '$1'" '' "agenda: zone '$1': $2"$'\n' 1
}

# Each row is a zone and the name that is suggested for it, or `none`, with `|` between them.
suggestions_rows() {
  local zone name
  while IFS='|' read -r zone name; do
    if [ "$name" = none ]; then
      suggestions_compare "$zone" 'no such zone [NoSuchZone]'
    else
      suggestions_compare "$zone" "no such zone; did you mean $name? [NoSuchZone]"
    fi
  done
}

# Compares the error of each question with the same line. Status 1 of clear says that a job starts, so its status is 2.
suggestions_questions() {
  local question wanted
  for question in upcoming plan quiet downtime clear 'changes before' week scripts check; do
    # shellcheck disable=SC2086
    run_in "$suggestions_folder" agenda machine $question --root root --zone "$1"
    wanted=1
    [ "$question" != clear ] || wanted=2
    compare_texts "suggestions: $question --zone '$1'" '' "agenda: zone '$1': $2"$'\n' "$wanted"
  done
}

# Prints the last part of each name of the database in small letters, with a part before it that no name has, and the only name that
# ends in it, if its zone is installed.
suggestions_of_all() {
  awk '$1 == "Z" { print $2 } $1 == "L" { print $3 }' "$suggestions_database/tzdata.zi" |
    awk -F/ '{ key = tolower($NF); names[key] = $0; count[key]++ }
      END { for (key in names) print "nowhere/" key "|" (count[key] == 1 ? names[key] : "none") }' |
    while IFS='|' read -r zone name; do
      [ "$name" = none ] || [ -e "$suggestions_database/$name" ] || name=none
      echo "$zone|$name"
    done
}

mkdir -p "$suggestions_folder/root/usr/share/zoneinfo"
printf 'Z Moon/Berlin 0 - A\nZ Moon/Tycho 0 - A\n' >"$suggestions_folder/root/usr/share/zoneinfo/tzdata.zi"

# What isn't a name has no suggestion.
suggestions_compare '' 'not the name of a zone [BadZoneName]'
suggestions_compare 'Berlin/' 'not the name of a zone [BadZoneName]'
suggestions_compare 'Europe//Berlin' 'not the name of a zone [BadZoneName]'
suggestions_compare 'Europe/Berlin ' 'not the name of a zone [BadZoneName]'

if ! passed_over "suggestions of zones" "$suggestions_database/tzdata.zi" "$suggestions_database/Europe/Berlin"; then
  # One name ends in the same part, in any case of letters. What is before that part doesn't count.
  suggestions_rows <<'ROWS'
berlin|Europe/Berlin
Berlin|Europe/Berlin
BERLIN|Europe/Berlin
europe/berlin|Europe/Berlin
europe/Berlin|Europe/Berlin
asia/berlin|Europe/Berlin
x/y/z/berlin|Europe/Berlin
new_york|America/New_York
los_angeles|America/Los_Angeles
america/st_johns|America/St_Johns
gmt+5|Etc/GMT+5
ROWS

  # No name ends so, or several do: America/Indianapolis and America/Indiana/Indianapolis, or UTC and Etc/UTC.
  suggestions_rows <<'ROWS'
nowhere|none
erlin|none
berlin/x|none
Europe/Berlin/x|none
Europe/Berlin_|none
new-york|none
newyork|none
Europe|none
indianapolis|none
utc|none
ROWS

  # The names are those of the machine that the program runs on, and not those below the root, as its zones are.
  suggestions_questions berlin 'no such zone; did you mean Europe/Berlin? [NoSuchZone]'
  suggestions_questions tycho 'no such zone [NoSuchZone]'

  suggestions_rows < <(suggestions_of_all)
fi
