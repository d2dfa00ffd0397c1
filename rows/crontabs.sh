# shellcheck shell=bash disable=SC2154
# Rows about what `agenda plan` reads in crontabs: names of jobs, their commands, their rules, lines that are
# rejected, sizes, and the maximum number of jobs. bin/check-examples runs this file. Texts have the escapes
# of printf's %b.

crontabs_folder="$work/crontabs"

# Runs `agenda plan` from the time $2 to the time $3 on the file `crontab`, which is a crontab of kind $1,
# user or system. The crontab of the other kind has $4 jobs with @reboot, which print nothing.
crontabs_run() {
  local files=(--crontab crontab --system-crontab others)
  [ "$1" = user ] || files=(--system-crontab crontab --crontab others)
  yes '@reboot root other' | head -n "$4" >"$crontabs_folder/others"
  run_in "$crontabs_folder" agenda plan --since "$2" --upto "$3" "${files[@]}"
}

# Prints a line for each start: every $2 seconds from second $1 of 1970 to second $3, the job $4 that runs $5.
crontabs_starts() {
  seq -f '@%.0f' "$1" "$2" "$3" | date -u -f - "+%Y-%m-%dT%H:%M:%SZ$tab$4$tab$5"
}

# Each row: the crontab's kind, a minute in which all its jobs start, its text, and the jobs in order: the
# name, a blank and the command. The other crontab has so many jobs that one more in this text would be
# rejected as Full.
crontabs_jobs() {
  local kind minute text jobs list job
  while IFS='|' read -r kind minute text jobs; do
    printf '%b' "$text" >"$crontabs_folder/crontab"
    IFS='|' read -r -a list <<<"$jobs"
    for job in "${list[@]}"; do
      printf '%s:00Z\t%s\t%b\n' "$minute" "${job%% *}" "${job#* }"
    done >"$work/jobs.wanted"
    crontabs_run "$kind" "$minute:00Z" "$minute:59Z" $((1000 - ${#list[@]}))
    compare_agenda "jobs of the $kind crontab '$text'" "$work/jobs.wanted"
  done
}

# Each row: the crontab's kind, its error, and its text.
crontabs_refused() {
  local kind source fault text
  while IFS='|' read -r kind fault text; do
    source="crontab"
    [ "$kind" = user ] || source="system crontab"
    printf '%b' "$text" >"$crontabs_folder/crontab"
    crontabs_run "$kind" 2024-01-01T00:00:00Z 2024-01-02T00:00:00Z 0
    is_refused "the $kind crontab '$text'" "$source: line $fault" 1
  done
}

# The text $2 of a crontab of kind $1 has the starts of the file `jobs.wanted` in the span from $3 to $4, and $5 jobs.
crontabs_rule() {
  printf '%b' "$2" >"$crontabs_folder/crontab"
  crontabs_run "$1" "$3" "$4" $((1000 - $5))
  compare_agenda "starts of the $1 crontab '$2' from $3 to $4" "$work/jobs.wanted"
  crontabs_run "$1" "$3" "$4" $((1001 - $5))
  is_refused "jobs of the $1 crontab '$2' are $5" "jobs: Full" 1
}

crontabs_rules() {
  local since=2024-01-01T00:00:00Z
  : >"$work/jobs.wanted"
  crontabs_rule user '@reboot a' 1970-01-01T00:00:00Z 3000-01-01T00:00:00Z 1
  crontabs_rule system '@reboot root a' 1970-01-01T00:00:00Z 3000-01-01T00:00:00Z 1
  # each midnight of 2024
  crontabs_starts 1704067200 86400 1735603200 cron:1 b >"$work/jobs.wanted"
  crontabs_rule user '@daily b' "$since" 2025-01-01T00:00:00Z 1
  # the second job's rule
  crontabs_starts 1704067200 86400 1735603200 cron:4 b >"$work/jobs.wanted"
  crontabs_rule user '# nightly\nMAILTO=x\n@reboot a\n@daily b' "$since" 2025-01-01T00:00:00Z 2
  printf '2024-01-01T%s\n' "00:00:00Z${tab}cron:2${tab}y" "04:30:00Z${tab}cron:1${tab}x" >"$work/jobs.wanted"
  crontabs_rule user '30 4 * * * x\n@daily y' "$since" 2024-01-02T00:00:00Z 2
  # 17 minutes past each hour of a day
  crontabs_starts 1704068220 3600 1704151020 system:1 "root cd / && run-parts x" >"$work/jobs.wanted"
  crontabs_rule system '17 * * * * root cd / && run-parts x' "$since" 2024-01-02T00:00:00Z 1
}

# The file `crontab` is a user's crontab that is rejected with the error $2. The row has the name $1.
crontabs_user_refused() {
  crontabs_run user 2024-01-01T00:00:00Z 2024-01-02T00:00:00Z 0
  is_refused "$1" "$2" 1
}

# The file `crontab` is a user's crontab without a job. The row has the name $1.
crontabs_user_empty() {
  crontabs_run user 2024-01-01T00:00:00Z 2024-01-02T00:00:00Z 1000
  compare_lines "$1" ''
}

# 1,048,576 bytes are the maximum, whatever they are.
crontabs_sizes() {
  local file="$crontabs_folder/crontab" large="crontab: line 0: TooLarge"
  yes '' | head -n 1048576 >"$file"
  crontabs_user_empty "a crontab of 1,048,576 newlines"
  printf '%1048576s' '' >"$file"
  crontabs_user_empty "a crontab of 1,048,576 blanks"
  printf '\xff' >>"$file"
  crontabs_user_refused "a crontab of 1,048,576 blanks and \\xff" "$large"
  printf '%1048577s' '' >"$file"
  crontabs_user_refused "a crontab of 1,048,577 blanks" "$large"
  printf '\xff' >>"$file"
  crontabs_user_refused "a crontab of 1,048,577 blanks and \\xff" "$large"
  printf '\xff%1048576s' '' >"$file"
  crontabs_user_refused "a crontab of \\xff and 1,048,576 blanks" "$large"
  { printf '30 4 * * * x\n@daily y\n#' && yes c | tr -d '\n'; } | head -c 1048576 >"$file"
  printf '2024-01-01T%s\n' "00:00:00Z${tab}cron:2${tab}y" "04:30:00Z${tab}cron:1${tab}x" >"$work/jobs.wanted"
  crontabs_run user 2024-01-01T00:00:00Z 2024-01-02T00:00:00Z 998
  compare_agenda "two jobs of a crontab of 1,048,576 bytes" "$work/jobs.wanted"
  printf c >>"$file"
  crontabs_user_refused "two jobs of a crontab of 1,048,577 bytes" "$large"
}

# 400,001 elements of one field, all of which are the minute 1: each hour of 2024 has a start.
crontabs_largest_field() {
  { yes 1, | head -n 400000 | tr -d '\n' && printf '1 * * * * x'; } >"$crontabs_folder/crontab"
  crontabs_starts 1704067260 3600 1735686060 cron:1 x >"$work/jobs.wanted"
  crontabs_run user 2024-01-01T00:00:00Z 2025-01-01T00:00:00Z 999
  compare_agenda "a field of 400,001 elements" "$work/jobs.wanted"
}

# 1,000 jobs, more jobs, and jobs after the maximum number of lines.
crontabs_numbers() {
  local file="$crontabs_folder/crontab" since=2024-01-01T00:00:00Z
  yes '30 4 1,15 * 5 x' | head -n 1000 >"$file"
  crontabs_run user "$since" 2024-01-02T00:00:00Z 0
  seq -f "2024-01-01T04:30:00Z${tab}cron:%.0f${tab}x" 1000 >"$work/jobs.wanted"
  compare_agenda "1,000 jobs of one crontab" "$work/jobs.wanted"
  yes '30 4 1,15 * 5 x' | head -n 1001 >"$file"
  crontabs_user_refused "1,001 jobs of one crontab" "jobs: Full"
  yes '* * * * * x' | head -n 87381 >"$file"
  crontabs_user_refused "87,381 jobs of one crontab" "jobs: Full"
  { yes '* * * * * x' | head -n 87380 && printf '* * * * * '; } >"$file"
  crontabs_user_refused "a line without a command after 87,380 jobs" "crontab: line 87381: NoCommand"
  { yes '# # # # # #' | head -n 87380 && echo '@daily x'; } >"$file"
  crontabs_run user "$since" 2024-01-02T00:00:00Z 999
  compare_lines "a job after 87,380 comments" "$since${tab}cron:87381${tab}x"$'\n'
  { yes '' | head -n 1048568 && printf '@daily x'; } >"$file"
  crontabs_run user "$since" 2024-01-02T00:00:00Z 999
  compare_lines "a job after 1,048,568 newlines" "$since${tab}cron:1048569${tab}x"$'\n'
}

mkdir "$crontabs_folder"
crontabs_jobs <<'ROWS'
user|2024-01-01T00:00|* * * * * x|cron:1 x
user|2024-01-01T00:00|\n  \t\n \t# c\n* * * * * x\n|cron:4 x
user|2024-04-03T02:01| \t1 2\t\t3  4 \t 5 \t x y  \n\n|cron:1 x y\x20\x20
user|2024-04-05T02:01| \t1 2\t\t3  4 \t 5 \t x y  \n\n|cron:1 x y\x20\x20
user|2024-01-01T00:00|* * * * * x # y|cron:1 x # y
user|2024-01-01T00:00|* * * * * # y|cron:1 # y
user|2024-01-01T00:00|* * * * * date +%d %\\% \t|cron:1 date +%d %\\% \t
user|2024-01-01T00:00|* * * * * x\r\n|cron:1 x\r
user|2024-01-01T00:00|* * * * * \r\n|cron:1 \r
user|2024-01-01T00:00|* * * * * a\0b|cron:1 a\0b
user|2024-01-01T00:00|* * * * * à l'heure|cron:1 à l'heure
user|2024-01-01T00:00|"A B"='='\n@hourly\t x|cron:2 x
user|2024-01-01T00:00|'A'=\n_a = b\n* * * Jan MON x|cron:3 x
user|2024-01-01T00:00|@daily root x|cron:1 root x
user|2024-01-01T00:00|* * * * * x\n#\n@daily y\n\n0 0 1 * 3 z|cron:1 x|cron:3 y|cron:5 z
system|2024-01-01T00:00|SHELL=/bin/sh\n* * * * * root x|system:2 root x
system|2024-01-01T00:00|*\t* * * *\troot\t x  y |system:1 root x  y\x20
system|2024-01-01T00:00|@daily root x|system:1 root x
system|2024-01-01T00:01|1,2 * * * * à b|system:1 à b
system|2024-01-01T00:17|17 * * * * root cd / && run-parts x|system:1 root cd / && run-parts x
user|2024-01-01T00:00||
user|2024-01-01T00:00|\n|
user|2024-01-01T00:00|\n\n|
user|2024-01-01T00:00| |
user|2024-01-01T00:00|\t \n|
user|2024-01-01T00:00|#|
user|2024-01-01T00:00|# * * * * x\n  #|
user|2024-01-01T00:00|a=|
user|2024-01-01T00:00|A = b\n|
system|2024-01-01T00:00||
system|2024-01-01T00:00|\n|
system|2024-01-01T00:00|\n\n|
system|2024-01-01T00:00| |
system|2024-01-01T00:00|\t \n|
system|2024-01-01T00:00|#|
system|2024-01-01T00:00|# * * * * x\n  #|
system|2024-01-01T00:00|a=|
system|2024-01-01T00:00|A = b\n|
ROWS
crontabs_rules
crontabs_refused <<'ROWS'
user|1: BadSetting|MAILTO x
user|1: BadSetting|"MAILTO x
user|1: BadSetting|jan * * * * x
user|1: BadSetting|a\r
user|1: NoCommand|* * * * *
user|1: NoCommand|* * * * * \t\x20
user|1: NoCommand|* * * * * \t \n
user|1: NoCommand|@daily
user|1: NoCommand|@daily\t
user|1: part 0: UnknownWord|@every x
user|1: part 0: UnknownWord|@daily\r x
user|1: part 0: UnknownWord|@ x
user|1: part 0: WrongParts|0 0 * x
user|1: part 0: WrongParts|99 0 * x
user|1: part 0: WrongParts|\r
user|1: part 5: BadName|0 0 * * x
user|1: part 4: BadName|0 0 * foo * x
user|1: part 1: WrongParts|1,,2 * * * * x
user|1: part 1: WrongParts|1, * * * * x
user|1: part 1: BadNumber|12345 * * * * x
user|1: part 1: BadNumber|\0 * * * * x
user|1: part 1: BadNumber|é * * * * x
user|1: part 1: OutOfRange|99 * * * *
user|1: part 5: Backwards|0 0 * * sat-sun x
user|4: part 0: WrongParts|# c\n\n* * * * * x\n * * * *\nMAILTO\n
user|3: NoCommand|* * * * * x\n\n* * * * *
user|0: NotUtf8|\xff
user|0: NotUtf8|MAILTO\n* * * * * x\xc3
system|1: NoCommand|* * * * * root
system|1: NoCommand|* * * * * root \x20
system|1: NoCommand|* * * * * root  \n
system|1: NoCommand|* * * * *\x20
system|1: NoCommand|* * * * * \n
system|1: NoCommand|@reboot root\t
system|1: part 1: OutOfRange|99 * * * * root
system|0: NotUtf8|\xff
ROWS
crontabs_sizes
crontabs_largest_field
crontabs_numbers
