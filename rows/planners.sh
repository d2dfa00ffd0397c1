# shellcheck shell=bash
# shellcheck disable=SC2154  # work is set by bin/check-examples
# Agendas in which all jobs start at once, 1,000 of a crontab each minute and 8 timers each second. They are
# complete and the same for 1, 2, 4 and 8 planners. With more starts than the limit there is an error, whatever
# the planners still send. bin/check-examples sources this file.

# The sources, and their agendas, in two minutes and in three seconds of 2024.
planners_files() {
  local place name
  yes '* * * * * x' | head -n 1000 >"$work/planners.crontab"
  for place in 0 1; do
    printf "2024-01-01T00:0$place:00Z\tcron:%d\tx\n" {1..1000}
  done >"$work/planners.minutes"
  for name in {a..h}; do
    printf '[Timer]\nOnCalendar=*:*:*\n' >"$work/$name.timer"
  done
  for place in 0 1 2; do
    for name in {a..h}; do
      printf '%s\t%s\t%s\n' "2024-01-01T00:00:0${place}Z" "$name.timer" "$name.service"
    done
  done >"$work/planners.seconds"
}

planners_rows() {
  local planners plan
  for planners in 1 2 4 8; do
    plan=(agenda plan --planners "$planners" --since 2024-01-01T00:00:00Z --upto)
    run_in "$work" "${plan[@]}" 2024-01-01T00:02:00Z --crontab planners.crontab
    compare_agenda "1,000 jobs each minute by $planners planners" "$work/planners.minutes"
    run_in "$work" "${plan[@]}" 2024-01-01T00:00:03Z {a..h}.timer
    compare_agenda "8 jobs each second by $planners planners" "$work/planners.seconds"
  done
}

# Rows from standard input: a limit, a number of planners, how many of their messages may wait, how many jobs
# start in a minute, and how many other jobs come after them. There are more starts than the limit. More
# messages follow the one that is rejected than may wait, so a plan that takes none of them never ends.
planners_past_the_limit() {
  local limit planners places jobs others plan
  while IFS='|' read -r limit planners places jobs others; do
    {
      yes '* * * * * x' | head -n "$jobs"
      yes '@yearly x' | head -n "$others"
    } >"$work/planners.crontab"
    plan=(agenda plan --limit "$limit" --planners "$planners" --room "$places" --crontab planners.crontab)
    run_in "$work" "${plan[@]}" --since 2024-01-02T00:00:00Z --upto 2024-01-02T00:01:00Z
    is_refused "$jobs starts of $((jobs + others)) jobs, by $planners planners with limit $limit and room $places" \
      "plan: TooMany" 1
  done
}

planners_files
planners_rows

# The planners stop after as many starts as the limit and one more. In the last two rows the first message of
# a planner is rejected, and those of its other jobs follow.
planners_past_the_limit <<'END'
2|2|1|1000|0
1|8|1|1000|0
40|2|16|100|0
1|2|16|2|998
7|8|1|8|992
END
