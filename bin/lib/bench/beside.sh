# shellcheck shell=bash disable=SC2154
# Compares plans and searches of agenda with robfig/cron, the scheduler library of Go, and with cat of the same answer. bin/bench
# sources this file. Processor time is measured, so that threads count in full.

# Builds robfig/cron's part, if Go and the library are installed (Debian: golang-go, golang-github-robfig-cron-dev).
build_robfig() {
  local gopath=/usr/share/gocode
  robfig=
  if command -v go >/dev/null && [ -d "$gopath/src/github.com/robfig/cron" ]; then
    GO111MODULE=off GOPATH=$gopath GOCACHE=$work/gocache CGO_ENABLED=0 go build -o "$work/robfig" "$top/bin/lib/bench/robfig.go" ||
      stop "robfig/cron isn't built"
    robfig=$work/robfig
  else
    echo "robfig/cron: skipped, since Go or the library is missing"
  fi
}

# Sets `took` to the minimum processor time, in microseconds, of $1 runs of the command from $2 on, which writes to the file `answer`.
take_processor() {
  local runs=$1 run used TIMEFORMAT='%3U %3S'
  shift
  took=
  for ((run = 0; run < runs; run++)); do
    used=$({ time "$@" >answer 2>/dev/null; } 2>&1) || stop "this fails: $*"
    used=$(awk '{ printf "%.0f", ($1 + $2) * 1e6 }' <<<"$used")
    if [ -z "$took" ] || [ "$used" -lt "$took" ]; then
      took=$used
    fi
  done
}

# Measures the plan of the crontab or timer $2 over $3 seconds, in the zone $4; $1 names it. robfig/cron has to give the same lines.
compare_plan() {
  local name=$1 source=$2 seconds=$3 zone=${4:-UTC} planners
  local sources=(--crontab "$source")
  [[ $source != *.timer ]] || sources=("$source")
  for planners in 1 2; do
    take_processor "$tries" "$agenda" plan --planners "$planners" --limit "$starts" --zone "$zone" \
      --since 2024-01-01T00:00:00Z --upto "$(later_moment "$seconds")" "${sources[@]}"
    print_time "$name, $(($(wc -l <answer) - 1)) lines, by $planners planners" "$took" 1
  done
  tail -n +2 answer >lines
  take_processor "$tries" cat lines
  print_time "$name, by cat of the lines" "$took" 1
  if [[ -n $robfig && $zone = UTC && $source != *.timer ]]; then
    take_processor 3 "$robfig" plan "$source" "$seconds"
    cmp -s answer lines || stop "robfig/cron plans other lines: $name"
    print_time "$name, by robfig/cron" "$took" 1
  fi
}

# Measures one of $2 starts of the rule $1, by robfig/cron.
compare_search() {
  local before
  echo "$1 x" >rule.crontab
  take_processor 5 "$robfig" next rule.crontab 1
  before=$took
  take_processor 5 "$robfig" next rule.crontab "$2"
  print_time "a start of $1, by robfig/cron" $((took - before)) "$2"
}

# Prints 1,000 rules of a server: eight kinds, from each five minutes to each month.
server_rules() {
  local job kinds=('*/5 * * * *' '*/15 * * * *' '17 * * * *' '0 */4 * * *' '30 4 * * *' '0 6 * * 1-5' '47 6 * * 0' '52 6 1 * *')
  for ((job = 0; job < 1000; job++)); do
    echo "${kinds[job % 8]} x"
  done
}

measure_beside() {
  build_robfig
  yes '* * * * * x' | head -n 1000 >minutes.crontab
  yes '*/5 * * * * x' | head -n 1000 >fives.crontab
  awk 'BEGIN { for (job = 0; job < 1000; job++) printf "%d %d * * * x\n", job % 60, job % 24 }' >days.crontab
  server_rules >server.crontab
  compare_plan "1,000 jobs each minute" minutes.crontab 60000
  compare_plan "1,000 jobs each minute, in Europe/Oslo" minutes.crontab 60000 Europe/Oslo
  compare_plan "1,000 jobs every five minutes" fives.crontab 300000
  compare_plan "1,000 daily jobs" days.crontab 86400000
  compare_plan "1,000 jobs of a server, two weeks" server.crontab 1209600
  compare_plan "1,000 jobs of a server, one day" server.crontab 86400
  compare_plan "one timer each second" each-second.timer 1000000
  compare_plan "one timer each second, in Europe/Oslo" each-second.timer 1000000 Europe/Oslo
  [ -z "$robfig" ] || compare_search '* * * * *' 1000000
  [ -z "$robfig" ] || compare_search '30 4 1,15 * 5' 100000
}
