# shellcheck shell=bash disable=SC2154
# Rows of bin/check-examples: what `agenda plan` makes from its sources and numbers: the number of planners,
# their capacity and the limit, the order of jobs, which error comes first, and the maximum number of jobs.

plans_folder="$work/plans"
plans_since="2024-01-01T00:00:00Z"
plans_sources=()
mkdir -p "$plans_folder"

# Makes the sources of the next runs: a user's crontab and the system's from the escaped texts $1 and $2, none
# if the text is a -, and the timer files $3. These are names with blanks between them. A file that isn't
# empty has `=` and a setting of its section after the name.
plans_make() {
  local timer name
  plans_sources=()
  if [ "$1" != - ]; then
    printf '%b' "$1" >"$plans_folder/crontab"
    plans_sources+=(--crontab crontab)
  fi
  if [ "$2" != - ]; then
    printf '%b' "$2" >"$plans_folder/system"
    plans_sources+=(--system-crontab system)
  fi
  for timer in $3; do
    name=${timer%%=*}
    mkdir -p "$plans_folder/$(dirname "$name")"
    case $timer in
      *=*) printf '[Timer]\n%b\n' "${timer#*=}" ;;
    esac >"$plans_folder/$name"
    plans_sources+=("$name")
  done
}

# Plans the sources up to the time $1, with these further options.
plans_run() {
  local upto=$1
  shift
  run_in "$plans_folder" agenda plan --since "$plans_since" --upto "$upto" "$@" "${plans_sources[@]}"
}

# Rows from standard input: a user's crontab, the system's, timer files, and the jobs that start at once:
# names and commands, with a bar between them and a semicolon between jobs.
plans_jobs() {
  local crontab system timers jobs
  while IFS='|' read -r crontab system timers jobs; do
    plans_make "$crontab" "$system" "$timers"
    plans_run "2024-01-01T00:00:01Z"
    printf '%s' "${jobs:+$jobs;}" | tr ';|' "\n$tab" | sed "s/^/$plans_since$tab/" >"$work/agenda.wanted"
    compare_agenda "the jobs of '$crontab', '$system' and '$timers'" "$work/agenda.wanted"
  done
}

# Rows from standard input: a user's crontab, the system's, timer files, and their error.
plans_refused() {
  local crontab system timers fault
  while IFS='|' read -r crontab system timers fault; do
    plans_make "$crontab" "$system" "$timers"
    plans_run "2024-01-01T00:00:01Z"
    is_refused "the sources '$crontab', '$system' and '$timers'" "$fault" 1
  done
}

# Rows from standard input: a limit, a number of planners, their capacity, and the error of the plan.
plans_bad_numbers() {
  local limit planners places cause
  while IFS='|' read -r limit planners places cause; do
    plans_run "2024-01-02T00:00:00Z" --limit "$limit" --planners "$planners" --room "$places"
    is_refused "a plan of limit $limit, $planners planners, room $places" "plan: $cause" 1
  done
}

# Jobs, two of which start on the day.
plans_of_a_night() {
  local planners
  plans_make '# nightly\nMAILTO=x\n@reboot a\n@daily b\n' - rot.timer=OnCalendar=daily
  for planners in 1 2 8; do
    plans_run "2024-01-02T00:00:00Z" --limit 10 --planners "$planners" --room 1
    compare_lines "a plan by $planners planners" \
      "$plans_since${tab}cron:4${tab}b"$'\n'"$plans_since${tab}rot.timer${tab}rot.service"$'\n'
  done
  plans_bad_numbers <<'END'
10|0|1|BadSize
10|9|1|BadSize
10|1|0|BadSize
0|1|1025|BadSize
0|1|1|BadLimit
1000001|8|1024|BadLimit
1|8|1024|TooMany
END
}

plans_without_jobs() {
  plans_make '# no job\n' - ''
  plans_run "2024-01-02T00:00:00Z" --limit 1 --planners 8 --room 1
  compare_lines "a plan without jobs" ''
}

# More than 1,000 jobs are rejected before the next source is read. Up to that number, an error of a later
# source is found.
plans_of_a_thousand_jobs() {
  local lines
  lines=$(yes '* * * * * x' | head -n 1000)
  plans_make "$lines\n" - ''
  plans_run "2024-01-01T00:00:01Z"
  seq -f "$plans_since${tab}cron:%g${tab}x" 1000 >"$work/agenda.wanted"
  compare_agenda "a thousand jobs" "$work/agenda.wanted"
  plans_make "$lines\n" x ''
  plans_run "2024-01-01T00:00:01Z"
  is_refused "a thousand jobs, and a faulty source" "system crontab: line 1: BadSetting" 1
  plans_make "$lines\n" - a.timer=OnCalendar=hourly
  plans_run "2024-01-01T00:00:01Z"
  is_refused "a thousand jobs, and a timer" "jobs: Full" 1
  plans_make "$lines\n" - a.timer=Unit=c.target
  plans_run "2024-01-01T00:00:01Z"
  is_refused "a thousand jobs, and a timer without starts" "jobs: Full" 1
  plans_make "$lines\n* * * * * x\n" - ''
  plans_run "2024-01-01T00:00:01Z"
  is_refused "a thousand and one jobs" "jobs: Full" 1
  plans_make "$lines\n* * * * * x\n" x ''
  plans_run "2024-01-01T00:00:01Z"
  is_refused "a thousand and one jobs, and a faulty source" "jobs: Full" 1
}

# The rows: no sources; a crontab and a timer; the system's jobs after the user's; timers in the order of
# their paths, one of which may have no starts.
plans_jobs <<'END'
-|-||
# a\n@daily x y\n|-|b.timer=OnCalendar=hourly|cron:2|x y;b.timer|b.service
* * * * * root x\n\n@hourly root y\n|* * * * * root x\n\n@hourly root y\n||cron:1|root x;cron:3|root y;system:1|root x;system:3|root y
-|-|z.timer=OnCalendar=hourly a.timer=Unit=c.target\nOnCalendar=hourly|z.timer|z.service;a.timer|c.target
-|-|z.timer=OnCalendar=hourly a.timer=Unit=c.target|z.timer|z.service
END

# The user's crontab comes first, then the system's, which names users, then the timers. A timer's name is
# checked before the text of a later one.
plans_refused <<'END'
@daily x\n@daily|@daily root x\n\nx|b=OnCalendar=hourly|crontab: line 2: NoCommand
@daily x|@daily root x\n\nx|b=OnCalendar=hourly|system crontab: line 3: BadSetting
@daily x|@daily x||system crontab: line 1: NoCommand
-|-|a.timer=OnCalendar=hourly b.timer|b.timer: line 0: NoTimerSection
@daily x|-|a=OnCalendar=hourly b.timer|a: line 0: BadTimerName
-|-|a.timer=OnCalendar=hourly a.timer=OnCalendar=hourly|job a.timer: SameName
-|-|b.timer=OnCalendar=hourly one/a.timer=OnCalendar=hourly two/a.timer=OnCalendar=daily|job a.timer: SameName
-|-|a.timer=Unit=c.target a.timer=Unit=c.target|job a.timer: SameName
END

plans_of_a_night
plans_without_jobs
plans_of_a_thousand_jobs
