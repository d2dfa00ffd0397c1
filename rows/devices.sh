# shellcheck shell=bash disable=SC2154
# Rows of bin/check-examples: paths that aren't regular files, and streams that fail. A file without an end is
# read up to one byte more than the maximum, a pipe may end anywhere, and the status doesn't depend on
# standard error. The walks of bin/check-examples have more such rows.

devices_folder="$work/devices"
mkdir "$devices_folder"
ln -s /dev/zero "$devices_folder/zero.timer"
ln -s loop.timer "$devices_folder/loop.timer"
printf '@daily a\n' >"$devices_folder/jobs"
printf '* * * * * x\n' >"$devices_folder/minutes"
printf '[Timer]\nOnCalendar=daily\n' >"$devices_folder/d.timer"
printf 'mailbox 1 1\ntake\n' >"$devices_folder/script"
printf '@dayly a\n' >"$devices_folder/faulty"
printf 'agenda 2\t2024-01-01T00:00:00Z\t2024-01-02T00:00:00Z\t0\n' >"$devices_folder/before"
mkfifo "$devices_folder/pipe" "$devices_folder/pipe.timer"
devices_day="--since 2024-01-01T00:00:00Z --upto 2024-01-02T00:00:00Z"
devices_limits='ulimit -c 0; ulimit -t 2; ulimit -s 512; ulimit -d 16384'

# Runs the shell command $1 with at most 2 s of processor time and 16 MB of memory.
devices_run() {
  run_in "$devices_folder" bash -c "$devices_limits; $1"
}

# Rows from standard input: the shell command, the status, and the line of the error.
devices_refused() {
  local command fault wanted
  while IFS='|' read -r command wanted fault; do
    devices_run "exec agenda ${command/plan/plan $devices_day}"
    is_refused "agenda $command" "$fault" "$wanted"
  done
}

# Rows from standard input: the shell command that writes to a pipe, the arguments of the program that reads
# it, and the escaped answer. The answer begins with the status, and an agenda has only the lines after the
# header.
devices_pipes() {
  local writer words answer
  while IFS='|' read -r writer words answer; do
    export WRITER="{ $writer; } >${words##* }"
    # the writer waits until the program opens the pipe, for at most 10 s
    devices_run "timeout 10 bash -c \"\$WRITER\" & agenda ${words/plan/plan $devices_day}; ended=\$?; wait; exit \$ended"
    printf '%b' "${answer:2}" >"$work/answer.wanted"
    case ${answer:0:1}${words%% *} in
      0plan) compare_agenda "'$writer' to agenda $words" "$work/answer.wanted" ;;
      0*) compare "'$writer' to agenda $words" "$work/answer.wanted" /dev/null 0 ;;
      *) compare "'$writer' to agenda $words" /dev/null "$work/answer.wanted" 1 ;;
    esac
  done
  unset WRITER
}

# Rows from standard input: arguments and the status. Nothing is printed to these kinds of standard error, and
# the status is the same.
devices_untold() {
  local words redirection wanted
  while IFS='|' read -r words wanted; do
    for redirection in '2>&-' '2>/dev/full' '<&- 2>&-' '2>/dev/null'; do
      devices_run "exec agenda $words $redirection"
      compare_texts "agenda $words $redirection" '' '' "$wanted"
    done
  done
}

# Standard output fails, whatever else is closed: `Device`, if standard error can be written. Other errors are
# reported as always.
devices_streams() {
  local start="2024-01-01T00:00:00Z"
  devices_run 'exec agenda check --crontab /dev/zero zero.timer <&- 2>&-'
  compare_texts "a check of what has no end" \
    $'/dev/zero: error: larger than 1048576 bytes [TooLarge]\nzero.timer: error: larger than 1048576 bytes [TooLarge]\n' '' 1
  devices_run 'exec agenda steps script >&- 2>&- <&-'
  compare_texts "steps, all streams closed" '' '' 3
  devices_run 'exec agenda steps script >&- <&-'
  is_refused "steps, standard output and input closed" Device 3
  devices_run 'exec agenda steps script >&- 2>/dev/full'
  compare_texts "steps, standard output closed, standard error full" '' '' 3
  devices_run "exec agenda plan $devices_day --crontab jobs d.timer <&- 2>&-"
  compare_lines "a plan, standard input and standard error closed" \
    "$start${tab}cron:1${tab}a"$'\n'"$start${tab}d.timer${tab}d.service"$'\n'
  devices_run 'exec agenda steps nothing >&-'
  is_refused "no script, standard output closed" "nothing: Device" 3
  devices_run "exec agenda plan $devices_day --limit 1 --crontab minutes >/dev/full"
  is_refused "too many starts, standard output full" "plan: TooMany" 1
  # 1,000,000 lines of 30 bytes after the header are more than a pipe holds and more than the output buffer.
  # If the header's number is greater than the number of lines, the text was cut short.
  # shellcheck disable=SC2016
  run_in "$devices_folder" bash -c 'ulimit -t 2
    agenda plan --since 1970-01-01T00:00:00Z --upto 1971-11-26T10:40:00Z --limit 1000000 --crontab minutes | head -n 2
    exit "${PIPESTATUS[0]}"'
  compare_texts "a pipe whose reader leaves after a header and a line" \
    "agenda 2${tab}1970-01-01T00:00:00Z${tab}1971-11-26T10:40:00Z${tab}1000000"$'\n'"1970-01-01T00:00:00Z${tab}cron:1${tab}x"$'\n' \
    '' 3
}

# Rows from standard input: arguments. Standard output is a pipe whose reader has gone, as `| head` leaves it:
# the status is 3, and nothing is on standard error. To a device that is full the same answer is an error.
devices_left() {
  local words
  mkfifo "$devices_folder/left"
  while IFS= read -r words; do
    words=${words/ day/ $devices_day}
    # the shell is the only reader for a moment, so that the pipe can be opened for writing
    devices_run "exec 3<>left 4>left 3>&-; exec agenda $words >&4 4>&-"
    compare_texts "agenda $words to a pipe without a reader" '' '' 3
    [ -c /dev/full ] || continue
    devices_run "exec agenda $words >/dev/full"
    is_refused "agenda $words >/dev/full" Device 3
  done
  # an answer without a byte writes nothing, so it can't fail
  devices_run 'exec 3<>left 4>left 3>&-; exec agenda check --crontab jobs >&4 4>&-'
  compare_texts "an empty answer to a pipe without a reader" '' '' 0
  devices_run 'exec agenda clear --since 2024-01-01T00:01:00Z --until 2024-01-01T01:00:00Z --crontab jobs >&-'
  compare_texts "a clear span, standard output closed" '' '' 0
  devices_run 'exec agenda changes before >&-'
  compare_texts "no change, standard output closed" '' '' 0
  # what is skipped is reported before the answer, and other errors are reported as always
  devices_run "exec 3<>left 4>left 3>&-; exec agenda plan $devices_day --keep-going --crontab jobs nothing >&4 4>&-"
  compare_texts "a plan that keeps going to a pipe without a reader" '' $'agenda: nothing: Device\n' 3
  devices_run 'exec 3<>left 4>left 3>&-; exec agenda steps nothing >&4 4>&-'
  is_refused "no script, to a pipe without a reader" "nothing: Device" 3
  devices_run 'exec 3<>left 4>left 3>&-; exec agenda next --after 2024 --cron @daily >&4 4>&-'
  is_refused "no time, to a pipe without a reader" "after: BadForm" 1
  # a line of standard error has no reader either
  devices_run 'exec 3<>left 4>left 3>&-; exec agenda steps nothing 2>&4 4>&-'
  compare_texts "an error to a pipe without a reader" '' '' 3
  devices_run 'exec 3<>left 4>left 3>&-; exec agenda next --bad 2>&4 4>&-'
  compare_texts "usage to a pipe without a reader" '' '' 2
}

# The help of each command, most of which is longer than 1,024 bytes: to a pipe it is whole, and to a device
# that is full it is an error.
devices_help() {
  local command to
  for command in '' next plan upcoming quiet downtime clear changes week check describe steps explain; do
    devices_run "exec agenda $command --help"
    cp "$work/out" "$work/help.wanted"
    [ -s "$work/out" ] || tell "nothing on standard output"
    compare "agenda $command --help" "$work/help.wanted" /dev/null 0
    devices_run "agenda $command --help | cat; exit \"\${PIPESTATUS[0]}\""
    compare "agenda $command --help to a pipe" "$work/help.wanted" /dev/null 0
    for to in '>/dev/full' '>&-'; do
      [[ $to != *full ]] || [ -c /dev/full ] || continue
      devices_run "exec agenda $command --help $to"
      is_refused "agenda $command --help $to" Device 3
    done
  done
}

# Rows from standard input: arguments before a path of 2,000 bytes, whose error is longer than 1,024 bytes. To a
# pipe it is whole, and the status doesn't depend on standard error.
devices_long_paths() {
  local path words to
  path=$(printf 'p%.0s' {1..2000})
  while IFS= read -r words; do
    devices_run "agenda $words $path 2>&1 >/dev/null | cat; exit \"\${PIPESTATUS[0]}\""
    compare_texts "agenda $words PATH to a pipe" "agenda: $path: Device"$'\n' '' 3
    for to in '2>/dev/full' '2>&-'; do
      [[ $to != *full ]] || [ -c /dev/full ] || continue
      devices_run "exec agenda $words $path $to"
      compare_texts "agenda $words PATH $to" '' '' 3
    done
  done
}

devices_refused <<'ROWS'
plan --crontab /dev/zero|1|crontab: line 0: TooLarge
plan --system-crontab /dev/zero|1|system crontab: line 0: TooLarge
plan zero.timer|1|zero.timer: line 0: TooLarge
plan /dev/zero|1|zero: line 0: BadTimerName
steps /dev/zero|1|script: line 0: TooLarge
plan --crontab /dev/null --system-crontab .|3|.: Device
plan --crontab jobs/|3|jobs/: Device
plan --system-crontab jobs/jobs|3|jobs/jobs: Device
plan loop.timer|3|loop.timer: Device
steps /|3|/: Device
check --crontab jobs/|3|jobs/: Device
check --crontab jobs d.timer loop.timer .|3|loop.timer: Device
downtime --since 2024-01-01T00:00:00Z --until 2024-01-02T00:00:00Z --crontab jobs loop.timer|3|loop.timer: Device
clear --since 2024-01-01T00:01:00Z --until 2024-01-01T01:00:00Z --crontab jobs zero.timer|1|zero.timer: line 0: TooLarge
clear --since 2024-01-01T00:01:00Z --until 2024-01-01T01:00:00Z --crontab jobs/|3|jobs/: Device
changes . --crontab .|3|.: Device
changes before/ zero.timer|3|before/: Device
changes loop.timer|3|loop.timer: Device
changes before zero.timer|1|zero.timer: line 0: TooLarge
changes /dev/zero|3|NoMemory
changes jobs|1|jobs:1: not a line of agenda plan [BadBaseline]
week --since 2024-01-01T00:00:00Z --until 2024-01-02T00:00:00Z --crontab .|3|.: Device
ROWS

if [ -c /dev/full ]; then
  devices_refused <<'ROWS'
plan --crontab /dev/full|1|crontab: line 0: TooLarge
plan --crontab jobs --limit 1 d.timer >/dev/null|1|plan: TooMany
check zero.timer >/dev/full|3|Device
steps script >/dev/full|3|Device
ROWS
fi

# A pipe that ends at once, within a line, after a pause, or never.
devices_pipes <<'ROWS'
:|plan --crontab pipe|0
:|plan --system-crontab pipe|0
:|plan pipe.timer|1 agenda: pipe.timer: line 0: NoTimerSection\n
:|steps pipe|1 agenda: script: line 1: BadLine\n
:|changes pipe|1 agenda: pipe:1: not a line of agenda plan [BadBaseline]\n
cat before; sleep 0.1; echo x|changes pipe|1 agenda: pipe:2: not a line of agenda plan [BadBaseline]\n
head -c 30 before; sleep 0.1; tail -c +31 before|changes pipe|0
printf @dai|plan --crontab pipe|1 agenda: crontab: line 1: part 0: UnknownWord\n
printf @dai; sleep 0.1; printf 'ly a'|plan --crontab pipe|0 2024-01-01T00:00:00Z\tcron:1\ta\n
printf '@daily u'; sleep 0.1; printf ' a'|plan --system-crontab pipe|0 2024-01-01T00:00:00Z\tsystem:1\tu a\n
printf '[Timer]\nOnCal'; sleep 0.1; printf 'endar=daily'|plan pipe.timer|0 2024-01-01T00:00:00Z\tpipe.timer\tpipe.service\n
printf 'mailbox 1 1\ntak'|steps pipe|1 agenda: script: line 2: BadLine\n
printf 'mailbox 1 1\ntak'; sleep 0.1; printf e|steps pipe|0 nothing\n
exec cat /dev/zero|plan --crontab pipe|1 agenda: crontab: line 0: TooLarge\n
exec cat /dev/zero|plan pipe.timer|1 agenda: pipe.timer: line 0: TooLarge\n
exec cat /dev/zero|steps pipe|1 agenda: script: line 0: TooLarge\n
ROWS

# Usage, an input that is rejected, and a file that can't be read.
if [ -c /dev/full ]; then
  devices_untold <<'ROWS'
next --bad|2
steps|2
next --after 2024 --cron x|1
plan --since 2024-01-01T00:00:00Z --upto 2024-01-01T00:01:00Z zero.timer|1
steps nothing|3
changes nothing|3
changes script|1
plan --since 2024-01-01T00:00:00Z --upto 2024-01-01T00:01:00Z loop.timer|3
check loop.timer|3
downtime --since 2024 --until 2024|1
clear --since 2024-01-01T00:01:00Z --until 2024-01-01T01:00:00Z --crontab jobs loop.timer|3
week --since 2024-01-01T00:00:00Z --upto 2024-01-01T00:01:00Z zero.timer|1
ROWS
fi
devices_streams
devices_left <<'ROWS'
--help
--version
plan --help
next --after 2024-01-01T00:00:00Z --cron @daily
next --after 2024-01-01T00:00:00Z --cron @daily --json
next --after 2024-01-01T00:00:00Z --cron @daily --count 1000 --local
plan day --crontab jobs
plan day --crontab jobs --json
plan day --crontab minutes --local
plan day --crontab minutes --keep-going
upcoming --after 2024-01-01T00:00:00Z --crontab jobs d.timer
upcoming --after 2024-01-01T00:00:00Z --crontab jobs d.timer --json --keep-going
quiet day --crontab jobs
quiet day --crontab jobs --json
downtime day --crontab jobs d.timer
downtime day --crontab jobs d.timer --json --keep-going
changes before --crontab jobs
changes before --crontab jobs d.timer --json --local --keep-going
clear day --crontab jobs
clear day --crontab jobs d.timer --nominal --local --keep-going
week day --crontab jobs
week day --crontab minutes --json
check --crontab faulty
check --crontab faulty --json
describe --cron @daily
describe --crontab jobs d.timer
describe --crontab jobs d.timer --json --keep-going
steps script
explain
explain Device
ROWS
devices_help
devices_long_paths <<'ROWS'
steps
plan --since 2024-01-01T00:00:00Z --upto 2024-01-02T00:00:00Z --crontab
upcoming --after 2024-01-01T00:00:00Z --cron-d
downtime --since 2024-01-01T00:00:00Z --until 2024-01-02T00:00:00Z --spool
clear --since 2024-01-01T00:01:00Z --until 2024-01-01T01:00:00Z --crontab jobs
week --since 2024-01-01T00:00:00Z --until 2024-01-02T00:00:00Z --crontab jobs
check --crontab jobs --spool
changes
changes before --crontab
ROWS
