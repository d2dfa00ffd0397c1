# shellcheck shell=bash disable=SC2154
# Rows of bin/check-examples: the starts that `agenda changes` prints as removed or added since an earlier agenda, and the lines of such an
# agenda that it rejects. It is also compared with what awk makes of two agendas of `plan`.

# shellcheck source=/dev/null
. "$top/rows/lib/questions.sh"

changes_folder=$work/changes
mkdir -p "$changes_folder"/{cron.d,spool}

# Writes the escaped text $2 to the file $1.
changes_file() {
  printf '%b' "$2" >"$changes_folder/$1"
}

# Sets `text` to what $1 stands for: an @ is the first day of 2024, a ^ the start of the day after it, a `;` a newline and a `>` a tab.
changes_text() {
  text=${1//@/2024-01-01T}
  text=${text//^/2024-01-02T00:00:00Z}
  text=${text//;/$'\n'}
  text=${text//>/$tab}
}

# Writes the escaped text that $1 stands for to the file `before`.
changes_before() {
  local text
  changes_text "$1"
  changes_file before "$text"
}

# Runs the command $1 with its arguments, whose times are those of changes_text. The argument `span` is the first day of 2024.
changes_run() {
  local text words
  changes_text "${1/ span/ --since @00:00:00Z --until ^}"
  read -r -a words <<<"$text"
  run_in "$changes_folder" agenda "${words[@]}"
}

# Makes the file `before` of the plan with the arguments $1.
changes_plan() {
  changes_run "plan $1"
  cp -- "$work/out" "$changes_folder/before"
  { [ "$status" = 0 ] || cat "$work/err"; } >"$work/told"
  count "changes: plan $1"
}

# Compares the last run, of $1, with the lines that $2 stands for. The status is 1 if there is one, and $3 if it is given.
changes_are() {
  local text
  changes_text "$2"
  compare_texts "changes: $1" "$text${text:+$'\n'}" '' "${3:-$((${#2} > 0))}"
}

# Rows from standard input: an escaped crontab, the same after an edit, and the lines of what that changes. The crontab is the file `c`, and $1
# has the arguments of both commands, and $2 those of `plan` alone.
changes_edits() {
  local old new lines
  while IFS='|' read -r old new lines; do
    changes_file c "$old"
    changes_plan "${2:-span} $1"
    changes_file c "$new"
    changes_run "changes before $1"
    changes_are "'$old' to '$new' $*" "$lines"
  done
}

# Rows from standard input: the text of an earlier agenda, arguments after its name, and the lines of the answer.
changes_since() {
  local agenda written lines
  while IFS='|' read -r agenda written lines; do
    changes_before "$agenda"
    changes_run "changes before $written"
    changes_are "'$agenda' $written" "$lines"
  done
}

# Rows from standard input: the text of an earlier agenda, and the number of its first wrong line. That is found before a zone or a file is.
changes_wrong() {
  local agenda line
  while IFS='|' read -r agenda line; do
    changes_before "$agenda"
    changes_run 'changes before --zone Nowhere/City --crontab nothing --planners 0'
    is_refused "changes: line $line of '$agenda'" "before:$line: not a line of agenda plan [BadBaseline]" 1
  done
}

# ---- the starts that differ

# An edit moves one job, and adds another. A line above a job renames it, and a job of @reboot has no start.
changes_edits '--crontab c' '--since @00:00:00Z --until 2024-01-03T00:00:00Z' <<'ROWS'
0 2 * * * nightly\n@reboot warm\n|# moved\n0 3 * * * nightly\n@daily x\n|+>@00:00:00Z>cron:3>x;->@02:00:00Z>cron:1>nightly;+>@03:00:00Z>cron:2>nightly;+>^>cron:3>x;->2024-01-02T02:00:00Z>cron:1>nightly;+>2024-01-02T03:00:00Z>cron:2>nightly
0 2 * * * nightly\n@reboot warm\n|# moved\n0 2 * * * nightly\n@reboot warm\n|
0 2 * * * nightly\n@reboot warm\n|0 2 * * * nightly\n|
ROWS

# What counts is when a job starts and what it runs, and not how its rule is written, nor in which line.
changes_edits '--crontab c' <<'ROWS'
*/30 * * * * a\n|0,30 * * * * a\n|
@daily a\n|0 0 * * * a\n|
0 2 * * * a\n0 3 * * * b\n|0 3 * * * b\n0 2 * * * a\n|
0 2,3 * * * a\n|0 2 * * * a\n0 3 * * * a\n|
0 2 1 * * a\n|0 2 * * 1 a\n|
0 2 * * * a\n|30 2 * * * a\n|->@02:00:00Z>cron:1>a;+>@02:30:00Z>cron:1>a
0 3 * * * a\n|0 2 * * * a\n|+>@02:00:00Z>cron:1>a;->@03:00:00Z>cron:1>a
0 2 * * * a\n|0 2 * * * b\n|->@02:00:00Z>cron:1>a;+>@02:00:00Z>cron:1>b
0 2 * * * a\n|0 2 * * * A\n|->@02:00:00Z>cron:1>a;+>@02:00:00Z>cron:1>A
0 2 * * * a  b\n|0 2 * * * a b\n|->@02:00:00Z>cron:1>a  b;+>@02:00:00Z>cron:1>a b
0 2 * * * a\n|0 2 * * * a \n|->@02:00:00Z>cron:1>a;+>@02:00:00Z>cron:1>a 
0 2 * * * a\tb\n|0 2 * * * a\tc\n|->@02:00:00Z>cron:1>a>b;+>@02:00:00Z>cron:1>a>c
0 2 * * * \xc3\xa4\n|0 2 * * * \xc3\xb6\n|->@02:00:00Z>cron:1>ä;+>@02:00:00Z>cron:1>ö
0 2 2 * * a\n|0 2 3 * * b\n|
ROWS

# An empty agenda, before and now.
changes_edits '--crontab c' <<'ROWS'
||
# no job\n|@reboot a\n|
|0 2 * * * a\n|+>@02:00:00Z>cron:1>a
0 2 * * * a\n||->@02:00:00Z>cron:1>a
ROWS

# Starts of one second. If one of both agendas has a start more often, its last copies are printed.
changes_edits '--crontab c' <<'ROWS'
0 2 * * * a\n0 2 * * * b\n|0 2 * * * b\n0 2 * * * a\n|
0 2 * * * a\n|0 2 * * * b\n0 2 * * * a\n|+>@02:00:00Z>cron:1>b
0 2 * * * a\n0 2 * * * b\n|0 2 * * * b\n|->@02:00:00Z>cron:1>a
0 2 * * * a\n0 2 * * * a\n|0 2 * * * a\n0 2 * * * a\n|
0 2 * * * a\n0 2 * * * a\n0 2 * * * a\n|0 2 * * * a\n|->@02:00:00Z>cron:2>a;->@02:00:00Z>cron:3>a
0 2 * * * a\n|0 2 * * * a\n0 2 * * * a\n0 2 * * * a\n|+>@02:00:00Z>cron:2>a;+>@02:00:00Z>cron:3>a
0 2 * * * a\n0 2 * * * b\n0 2 * * * a\n|0 2 * * * b\n0 2 * * * a\n|->@02:00:00Z>cron:3>a
0 2 * * * a\n0 2 * * * a\n0 2 * * * b\n|0 2 * * * b\n0 2 * * * b\n0 2 * * * a\n|->@02:00:00Z>cron:2>a;+>@02:00:00Z>cron:2>b
0 2 * * * a\n0 2 * * * a\n|0 2 * * * b\n0 2 * * * b\n|->@02:00:00Z>cron:1>a;->@02:00:00Z>cron:2>a;+>@02:00:00Z>cron:1>b;+>@02:00:00Z>cron:2>b
0 2 * * * c\n0 2 * * * a\n|0 2 * * * d\n0 2 * * * b\n|->@02:00:00Z>cron:1>c;->@02:00:00Z>cron:2>a;+>@02:00:00Z>cron:1>d;+>@02:00:00Z>cron:2>b
0 2,4 * * * a\n0 2 * * * a\n|0 2,4 * * * a\n0 4 * * * a\n|->@02:00:00Z>cron:2>a;+>@04:00:00Z>cron:2>a
ROWS

# The user is a part of what is run, and the kind of the file is none.
changes_edits '--system-crontab c' <<'ROWS'
0 2 * * * root a\n|0 2 * * * root  a\n|
0 2 * * * root a\n|0 2 * * * www a\n|->@02:00:00Z>system:1>root a;+>@02:00:00Z>system:1>www a
ROWS
changes_file c '0 2 * * * root a\n'
changes_plan 'span --system-crontab c'
for changes_sources in '--crontab c' '--cron-d c' '--spool c'; do
  changes_run "changes before $changes_sources"
  changes_are "a system crontab, and then $changes_sources" ''
done

# All kinds of sources, in the order of a plan.
changes_file noon.timer '[Timer]\nOnCalendar=12:00\nRandomizedDelaySec=1d\n'
changes_file cron.d/php '0 12 * * * www-data e\n'
changes_file spool/anna '0 12 * * * f\n'
changes_file c '0 12 * * * a\n'
changes_since <<'ROWS'
agenda 2>@00:00:00Z>^>0;|noon.timer --spool spool/anna --cron-d cron.d/php --system-crontab cron.d/php --crontab c|+>@12:00:00Z>cron:1>a;+>@12:00:00Z>system:1>www-data e;+>@12:00:00Z>php:1>www-data e;+>@12:00:00Z>anna:1>f;+>@12:00:00Z>noon.timer>noon.service
agenda 2>@00:00:00Z>^>2;@12:00:00Z>x>noon.service;@12:00:00Z>y>f;|noon.timer --spool spool/anna|
ROWS

# ---- the earlier agenda

# Its span is planned, whose end isn't in it, and delays don't count. Names of jobs are any text, and so is what is run.
changes_file six '0 */6 * * * a\n'
changes_file two '0 2 * * * a\n'
changes_file past.timer '[Timer]\nOnCalendar=2020-01-01\n'
changes_since <<'ROWS'
agenda 2>@06:00:00Z>@12:00:00Z>1;@06:00:00Z>x>a;|--crontab six|
agenda 2>@06:00:00Z>@12:00:01Z>1;@06:00:00Z>x>a;|--crontab six|+>@12:00:00Z>cron:1>a
agenda 2>@06:00:01Z>@12:00:00Z>0;|--crontab six|
agenda 2>@06:00:00Z>@06:00:00Z>0;|--crontab six|
agenda 2>@12:00:01Z>^>0;|noon.timer|
agenda 2>1970-01-01T00:00:00Z>3000-01-01T00:00:00Z>1;2020-01-01T00:00:00Z>past.timer>past.service;|past.timer|
agenda 2>3000-01-01T00:00:00Z>3000-01-01T00:00:00Z>0;|--crontab six|
agenda 2>@00:00:00Z>^>1;@02:00:00Z>>a;|--crontab two|
agenda 2>@00:00:00Z>^>1;@02:00:00Z>a name>>b>;||->@02:00:00Z>a name>>b>
agenda 2>@00:00:00Z>^>1;@02:00:00Z>\xc3\xa4>;||->@02:00:00Z>ä>
agenda 2>@00:00:00Z>^>1;@23:59:59Z>-x>-y;||->@23:59:59Z>-x>-y
agenda 2>@00:00:00Z>^>3;@02:00:00Z>x>a;@02:00:00Z>y>a;@02:00:00Z>z>a;|--crontab two|->@02:00:00Z>y>a;->@02:00:00Z>z>a
ROWS

# Local times are read by their offsets, whatever zone is named.
changes_since <<'ROWS'
agenda 2 UTC>@00:00:00+00:00>2024-01-02T00:00:00+00:00>1;@02:00:00+00:00>x>a;|--crontab two|
agenda 2 Any Zone>@01:00:00+01:00>^>1;@01:15:30-00:44:30>x>a;|--crontab two|
agenda 2 x>2023-12-31T00:00:01-23:59:59>^>1;2024-01-05T05:59:59+99:59:59>x>a;|--crontab two|
agenda 2  >@00:00:00Z>^>2;@04:00:00+02:00>x>a;@02:00:00Z>y>a;|--crontab two|->@02:00:00Z>y>a
agenda 2 x>1970-01-01T05:30:00+05:30>@00:00:00Z>0;||
agenda 2 x>1970-01-01T05:30:00+05:30>@00:00:00Z>1;1970-01-01T05:30:00+05:30>x>a;||->1970-01-01T00:00:00Z>x>a
ROWS

# The header is wrong: what it is called, its times and their order, its number, its columns and its end.
changes_wrong <<'ROWS'
|1
;|1
x;|1
agenda 2>@00:00:00Z>^>0|1
agenda 3>@00:00:00Z>^>0;|1
agenda 1>@00:00:00Z>^>0;|1
agenda 20>@00:00:00Z>^>0;|1
agenda 2 >@00:00:00Z>^>0;|1
Agenda 2>@00:00:00Z>^>0;|1
 agenda 2>@00:00:00Z>^>0;|1
agenda 2 \xff>@00:00:00Z>^>0;|1
agenda 2 @00:00:00Z>^>0;|1
agenda 2>@00:00:00Z>^;|1
agenda 2>@00:00:00Z>^>;|1
agenda 2>@00:00:00Z>^>0>;|1
agenda 2>@00:00:00Z>^>0\r;|1
agenda 2>@00:00:00Z>^> 0;|1
agenda 2>@00:00:00Z>^>00;|1
agenda 2>@00:00:00Z>^>+0;|1
agenda 2>@00:00:00Z>^>-0;|1
agenda 2>@00:00:00Z>^>x;|1
agenda 2>@00:00:00Z>^>1000001;|1
agenda 2>@00:00:00Z>^>4294967296;|1
agenda 2>@00:00:00Z>^>18446744073709551616;|1
agenda 2>^>@00:00:00Z>0;|1
agenda 2>@00:00:01Z>@00:00:00Z>0;|1
agenda 2>@00:00:00>^>0;|1
agenda 2>2024-01-01>^>0;|1
agenda 2>>^>0;|1
agenda 2>2024-02-30T00:00:00Z>^>0;|1
agenda 2>1969-12-31T23:59:59Z>^>0;|1
agenda 2>@00:00:00Z>3000-01-01T00:00:01Z>0;|1
agenda 2>@00:00:00Z>2024-01-01T24:00:00Z>0;|1
agenda 2>2024-01-01t00:00:00z>^>0;|1
@02:00:00Z>x>a;|1
none>x>a;|1
START  JOB  RUNS;|1
{"start":"@02:00:00Z","job":"cron:1","run":"a"};|1
ROWS

# There are fewer lines than the header says, or more, or the last one has no end.
changes_wrong <<'ROWS'
agenda 2>@00:00:00Z>^>1;|2
agenda 2>@00:00:00Z>^>1;@02:00:00Z>x>a|2
agenda 2>@00:00:00Z>^>2;@02:00:00Z>x>a;|3
agenda 2>@00:00:00Z>^>1000000;@02:00:00Z>x>a;|3
agenda 2>@00:00:00Z>^>0;@02:00:00Z>x>a;|2
agenda 2>@00:00:00Z>^>0;;|2
agenda 2>@00:00:00Z>^>0;x|2
agenda 2>@00:00:00Z>^>1;@02:00:00Z>x>a;@02:00:00Z>x>a;|3
agenda 2>@00:00:00Z>^>1;@02:00:00Z>x>a;;|3
agenda 2>@00:00:00Z>^>1;@02:00:00Z>x>a;x|3
ROWS

# A line is wrong: its columns, its time, its place, and its bytes. The first wrong one is reported.
changes_wrong <<'ROWS'
agenda 2>@00:00:00Z>^>1;;|2
agenda 2>@00:00:00Z>^>1;@02:00:00Z;|2
agenda 2>@00:00:00Z>^>1;@02:00:00Z>x;|2
agenda 2>@00:00:00Z>^>1;@02:00:00Z x a;|2
agenda 2>@00:00:00Z>^>1;>@02:00:00Z>x>a;|2
agenda 2>@00:00:00Z>^>1; @02:00:00Z>x>a;|2
agenda 2>@00:00:00Z>^>1;none>x>a;|2
agenda 2>@00:00:00Z>^>1;@2:00:00Z>x>a;|2
agenda 2>@00:00:00Z>^>1;@02:60:00Z>x>a;|2
agenda 2>@00:00:00Z>^>1;@02:00:00>x>a;|2
agenda 2>@00:00:00Z>^>1;2023-12-31T23:59:59Z>x>a;|2
agenda 2>@00:00:00Z>^>1;^>x>a;|2
agenda 2>@06:00:00Z>@06:00:00Z>1;@06:00:00Z>x>a;|2
agenda 2>@00:00:00Z>^>2;@03:00:00Z>x>a;@02:59:59Z>x>a;|3
agenda 2>@00:00:00Z>^>2;@03:00:00Z>x>a;@03:00:00+00:01>x>a;|3
agenda 2>@00:00:00Z>^>3;@02:00:00Z>x>a;x;y;|3
agenda 2>@00:00:00Z>^>3;@02:00:00Z>x>a;@03:00:00Z>x>a;y;|4
agenda 2>@00:00:00Z>^>1;@02:00:00Z>x>\xff;|2
agenda 2>@00:00:00Z>^>1;@02:00:00Z>\xc3>a;|2
ROWS

# An offset has hours and minutes, and seconds if they aren't 0. The time in UTC and the local one are in the years of the planner.
changes_wrong <<'ROWS'
agenda 2>@00:00:00Z>^>1;@02:00:00+01>x>a;|2
agenda 2>@00:00:00Z>^>1;@02:00:00+0100>x>a;|2
agenda 2>@00:00:00Z>^>1;@02:00:00+1:00>x>a;|2
agenda 2>@00:00:00Z>^>1;@02:00:00-00:00>x>a;|2
agenda 2>@00:00:00Z>^>1;@02:00:00+00:60>x>a;|2
agenda 2>@00:00:00Z>^>1;@02:00:00+01:00:00>x>a;|2
agenda 2>@00:00:00Z>^>1;@02:00:00+00:00:60>x>a;|2
agenda 2>@00:00:00Z>^>1;2024-01-05T06:00:00+100:00>x>a;|2
agenda 2>@00:00:00Z>^>1;@02:00:00 +00:00>x>a;|2
agenda 2>@00:00:00Z>^>1;@02:00:00+00:00Z>x>a;|2
agenda 2>@00:00:00Z>^>1;@02:00:00Z+00:00>x>a;|2
agenda 2>1970-01-01T00:00:00Z>^>1;1970-01-01T00:00:00+01:00>x>a;|2
agenda 2>1970-01-01T00:00:00Z>^>1;1969-12-31T23:00:00-01:00>x>a;|2
agenda 2>@00:00:00Z>3000-01-01T00:00:01+01:00>0;|1
agenda 2>@00:00:00Z>2999-12-31T23:30:00-01:00>0;|1
ROWS

# What the other forms of a plan print.
changes_forms() {
  local written
  for written in 'plan span --delays --crontab two' 'plan span --delays --local --crontab two' 'plan span --json --crontab two' \
    'upcoming --after @00:00:00Z --crontab two' 'quiet span --crontab two'; do
    changes_run "$written"
    cp -- "$work/out" "$changes_folder/before"
    changes_run 'changes before --crontab two'
    is_refused "changes: what '$written' prints" "before:1: not a line of agenda plan [BadBaseline]" 1
  done
}
changes_forms

# The path `-` is standard input, and ./- is a file.
changes_input() {
  changes_before 'agenda 2>@00:00:00Z>^>1;@03:00:00Z>x>a;'
  run_in "$changes_folder" bash -c 'agenda changes - --crontab two <before'
  changes_are "-" '+>@02:00:00Z>cron:1>a;->@03:00:00Z>x>a'
  # shellcheck disable=SC2016
  run_in "$changes_folder" bash -c 'agenda plan --since "$1" --until "$2" --crontab two | agenda changes --crontab two -' pipe \
    2024-01-01T00:00:00Z 2024-02-01T00:00:00Z
  changes_are "- from a pipe" ''
  run_in "$changes_folder" bash -c 'agenda changes - --crontab two </dev/null'
  is_refused "changes: - of nothing" "-:1: not a line of agenda plan [BadBaseline]" 1
  changes_file - 'agenda 2\n'
  run_in "$changes_folder" bash -c 'agenda changes ./- --crontab two <before'
  is_refused "changes: ./-" "./-:1: not a line of agenda plan [BadBaseline]" 1
  run_in "$changes_folder" bash -c 'exec agenda changes - --crontab two <&-'
  is_refused "changes: - that is closed" "-: Device" 3
}
changes_input

# ---- JSON

changes_file quotes '0 6 * * * a "b" \\ %\n'
changes_since <<'ROWS'
agenda 2>@00:00:00Z>^>1;@02:00:00Z>cron:1>nightly;|--json --crontab two|{"change":"-","start":"@02:00:00Z","job":"cron:1","run":"nightly"};{"change":"+","start":"@02:00:00Z","job":"cron:1","run":"a"}
agenda 2>@00:00:00Z>^>0;|--json --cron-d cron.d/php|{"change":"+","start":"@12:00:00Z","job":"php:1","run":"www-data e"}
agenda 2>@00:00:00Z>^>0;|--json --local --crontab two|{"change":"+","start":"@02:00:00Z","local":"@02:00:00+00:00","job":"cron:1","run":"a"}
agenda 2>@00:00:00Z>^>0;|--crontab quotes --json|{"change":"+","start":"@06:00:00Z","job":"cron:1","run":"a \"b\" \\ %"}
agenda 2>@00:00:00Z>^>1;@02:00:00Z>\x01"\x7f>a>\xc3\xa4;|--json|{"change":"-","start":"@02:00:00Z","job":"\u0001\"\u007f","run":"a\tä"}
agenda 2>@00:00:00Z>^>1;@02:00:00Z>x>a;|--json --crontab two|
ROWS

# ---- zones

# Times are in UTC, or local. The clock shows 02:30 twice on the night of 27 October, and skips it on 31 March.
changes_in_zones() {
  changes_edits '--zone Europe/Oslo --local --crontab c' '--since 2024-10-27T00:00:00Z --until 2024-10-27T02:00:00Z' <<'ROWS'
# none\n|30 * * * * n\n|+>2024-10-27T02:30:00+02:00>cron:1>n;+>2024-10-27T02:30:00+01:00>cron:1>n
30 * * * * n\n|30 2 * * * n\n|->2024-10-27T02:30:00+01:00>cron:1>n
30 * * * * n\n|# same\n0 * * * * m\n30 */1 * * * n\n|+>2024-10-27T02:00:00+02:00>cron:2>m;+>2024-10-27T02:00:00+01:00>cron:2>m
ROWS
  changes_edits '--zone Europe/Oslo --crontab c' '--local --since 2024-10-27T00:00:00Z --until 2024-10-27T02:00:00Z' <<'ROWS'
30 * * * * n\n|30 * * * * n\n|
30 * * * * n\n|30 2 * * * n\n|->2024-10-27T01:30:00Z>cron:1>n
ROWS
  changes_edits '--zone Europe/Oslo --local --crontab c' '--since 2024-03-30T23:00:00Z --until 2024-03-31T22:00:00Z' <<'ROWS'
30 2 * * * n\n|0 3 * * * n\n|
0 3 * * * n\n|30 1 * * * n\n|+>2024-03-31T01:30:00+01:00>cron:1>n;->2024-03-31T03:00:00+02:00>cron:1>n
ROWS
  # The zone of the earlier agenda is another one.
  changes_file c '0 2 * * * a\n'
  changes_plan 'span --local --zone Europe/Oslo --crontab c'
  changes_run 'changes before --zone Europe/Oslo --crontab c'
  changes_are "a zone that stays" ''
  changes_run 'changes before --local --zone Asia/Tokyo --crontab c'
  changes_are "from Europe/Oslo to Asia/Tokyo" '->@10:00:00+09:00>cron:1>a;+>2024-01-02T02:00:00+09:00>cron:1>a'
  changes_run 'changes before --json --local --zone Asia/Tokyo'
  changes_are "from Europe/Oslo to Asia/Tokyo, as JSON" '{"change":"-","start":"@01:00:00Z","local":"@10:00:00+09:00","job":"cron:1","run":"a"}'
  # An event with a zone of its own starts by that.
  changes_file tokyo.timer '[Timer]\nOnCalendar=08:00 Asia/Tokyo\n'
  changes_since <<'ROWS'
agenda 2>@00:00:00Z>^>0;|--event-zones tokyo.timer|+>@23:00:00Z>tokyo.timer>tokyo.service
ROWS
  # A local time before 1970 is printed in UTC.
  changes_since <<'ROWS'
agenda 2>1970-01-01T00:00:00Z>@00:00:00Z>2;1970-01-01T04:59:59Z>x>a;1970-01-01T05:00:00Z>x>a;|--local --zone America/New_York|->1970-01-01T04:59:59Z>x>a;->1970-01-01T00:00:00-05:00>x>a
ROWS
  changes_before 'agenda 2>@00:00:00Z>^>0;'
  changes_run 'changes before tokyo.timer'
  is_refused "changes: a zone of an event without the option" "tokyo.timer: line 2: part 8: Zone" 1
  changes_run 'changes before --zone Nowhere/City --crontab nothing'
  is_refused "changes: no such zone" "zone: NoSuchZone" 1
}
passed_over "changes in zones" /usr/share/zoneinfo/Europe/Oslo /usr/share/zoneinfo/Asia/Tokyo || changes_in_zones

# ---- sizes

# Any number of planners with any capacity finds the same.
changes_by_planners() {
  local planners places
  changes_file c '*/2 * * * * m\n'
  changes_plan 'span --crontab c'
  awk 'NR > 1 { print "-\t" $0 }' "$changes_folder/before" >"$work/changes.wanted"
  for planners in 1 2 3 8; do
    for places in 1 16 1024; do
      changes_run "changes before --planners $planners --room $places --crontab c"
      changes_are "nothing by $planners planners and $places messages" ''
      changes_run "changes before --planners=$planners --room=$places"
      compare "changes: all by $planners planners and $places messages" "$work/changes.wanted" /dev/null 1
    done
  done
}
changes_by_planners

# The limit counts the starts of the new agenda alone: it is 10,000 if it isn't given.
changes_file seconds.timer '[Timer]\nOnCalendar=*:*:*\n'
changes_since <<'ROWS'
agenda 2>@00:00:00Z>^>3;@02:00:00Z>x>a;@02:00:00Z>y>a;@02:00:00Z>z>a;|--limit 1 --crontab two|->@02:00:00Z>y>a;->@02:00:00Z>z>a
agenda 2>@00:00:00Z>^>2;@02:00:00Z>x>a;@02:00:00Z>y>a;|--limit 1|->@02:00:00Z>x>a;->@02:00:00Z>y>a
ROWS
changes_limits() {
  changes_before 'agenda 2>@00:00:00Z>@02:46:40Z>0;'
  changes_run 'changes before seconds.timer'
  awk 'NR == 1 { first = $0 } END { print NR, first; print NR, $0 }' "$work/out" >"$work/ends"
  cp -- "$work/ends" "$work/out"
  changes_are "10,000 starts" "10000 +>@00:00:00Z>seconds.timer>seconds.service;10000 +>@02:46:39Z>seconds.timer>seconds.service"
  changes_before 'agenda 2>@00:00:00Z>@02:46:41Z>0;'
  changes_run 'changes before seconds.timer'
  is_refused "changes: 10,001 starts" "plan: TooMany" 1
  changes_plan '--since @00:00:00Z --until 2024-01-12T13:46:40Z --limit 1000000 seconds.timer'
  changes_run 'changes before --limit 1000000 seconds.timer'
  changes_are "1,000,000 starts that stay" ''
  changes_run 'changes before --limit 999999 seconds.timer'
  is_refused "changes: 1,000,000 starts, and a limit of 999,999" "plan: TooMany" 1
}
changes_limits

# ---- errors

# The earlier agenda is read first. After it come the zone, the files, what these hold, the sizes, and the limit.
changes_errors() {
  local path
  changes_before 'agenda 2>@00:00:00Z>^>0;'
  for path in nothing cron.d '' before/; do
    run_in "$changes_folder" agenda changes "$path" --zone Nowhere/City --crontab none4 --planners 0
    is_refused "changes: '$path'" "$path: Device" 3
  done
  questions_refuse_sources changes "$changes_folder/before"
  questions_refused changes "$changes_folder/before" <<'ROWS'
--zone Nowhere/City --planners 0 --crontab nothing|zone: NoSuchZone
--planners 0|plan: BadSize
--planners 9|plan: BadSize
--planners 4294967295|plan: BadSize
--room 0|plan: BadSize
--room 1025|plan: BadSize
--limit 0|plan: BadLimit
--limit 1000001|plan: BadLimit
--planners 9 --limit 0|plan: BadSize
--planners 0 --crontab part|crontab: line 2: part 1: OutOfRange
--room 0 --crontab many|jobs: Full
--room 0 --crontab nothing|nothing: Device
--limit 0 --crontab thousand|plan: BadLimit
--limit 1 --crontab thousand|plan: TooMany
ROWS
}
changes_errors

# With --keep-going the status is that of what is skipped: 1 for errors, and 3 for files that can't be read.
changes_file wrong '60 * * * * x\n0 9 * * * y\n'
changes_keep() {
  local agenda written lines error code text
  while IFS='|' read -r agenda written lines error code; do
    changes_before "agenda 2>@00:00:00Z>^>$agenda"
    changes_run "changes before --keep-going $written"
    changes_text "$lines"
    compare_texts "changes: $written --keep-going since '$agenda'" "$text${text:+$'\n'}" "${error:+${error//;/$'\n'}$'\n'}" "$code"
  done
}
changes_keep <<'ROWS'
1;@09:00:00Z>x>y;|--crontab wrong||wrong:1: error: minute '60': out of range 0-59 [OutOfRange]|1
0;|--crontab wrong|+>@09:00:00Z>cron:2>y|wrong:1: error: minute '60': out of range 0-59 [OutOfRange]|1
0;|--crontab nothing||agenda: nothing: Device|3
0;|--crontab two nothing.timer|+>@02:00:00Z>cron:1>a|agenda: nothing.timer: Device|3
1;@09:00:00Z>x>y;|--crontab wrong nothing.timer||agenda: nothing.timer: Device;wrong:1: error: minute '60': out of range 0-59 [OutOfRange]|3
0;|--crontab two|+>@02:00:00Z>cron:1>a||1
1;@02:00:00Z>x>a;|--crontab two|||0
0;|--crontab wrong --planners 0||wrong:1: error: minute '60': out of range 0-59 [OutOfRange];agenda: plan: BadSize|1
1;x;|--crontab wrong||agenda: before:2: not a line of agenda plan [BadBaseline]|1
ROWS

# ---- as awk has it

# Prints the changes from the agenda $1 to the agenda $2: a start is left if the other agenda has as many copies of it.
changes_by_awk() {
  awk -F '\t' -v OFS='\t' '
    FNR == 1 { file++; next }
    {
      key = $0
      sub(/\t[^\t]*/, "", key)
      lines[file, ++size[file]] = $0
      keys[file, size[file]] = key
      copies[file, key]++
    }
    END {
      for (file = 1; file <= 2; file++)
        for (i = 1; i <= size[file]; i++) {
          key = keys[file, i]
          if (++seen[file, key] > copies[3 - file, key]) print substr(key, 1, 20), file, i, file == 1 ? "-" : "+", lines[file, i]
        }
    }' "$1" "$2" | sort -t "$tab" -k 1,1 -k 2,2n -k 3,3n | cut -f 4-
}

# Rows from standard input: a span, the sources before, and those after it.
changes_as_awk() {
  local span old new
  while IFS='|' read -r span old new; do
    changes_plan "$span --limit 1000000 $new"
    cp -- "$changes_folder/before" "$changes_folder/now"
    changes_plan "$span --limit 1000000 $old"
    changes_by_awk "$changes_folder/before" "$changes_folder/now" >"$work/changes.wanted"
    [ "$(wc -l <"$work/changes.wanted")" -gt 20 ] || tell "$(wc -l <"$work/changes.wanted") lines"
    count "changes: the lines of awk for $span $old to $new"
    changes_run "changes before --limit 1000000 $new"
    compare "changes: as awk has them: $span $old to $new" "$work/changes.wanted" /dev/null 1
  done
}
changes_file first '*/5 * * * * a\n*/5 * * * * b\n0 * * * * a\n*/15 8-17 * * 1-5 c\td\n30 4 1,15 * * e\n'
changes_file second '# later\n*/15 8-18 * * 1-5 c\td\n*/10 * * * * b\n*/5 * * * * a\n*/5 * * * * a\n30 4 1,15 * * e\n*/30 * * * * b\n'
changes_file quarters.timer '[Timer]\nOnCalendar=9..17:0/15\n'
changes_as_awk <<'ROWS'
--since @00:00:00Z --until 2024-01-03T00:00:00Z|--crontab first|--crontab second
--since @00:00:00Z --until 2024-01-03T00:00:00Z|--crontab second|--crontab first
--since 2023-12-29T23:59:59Z --until @09:07:15Z|--crontab first --spool second|--crontab second quarters.timer
--since @00:00:01Z --until 2024-01-08T12:00:00Z|--crontab second --planners 8|--spool second --spool first --room 1
--since @00:00:00Z --until @12:00:00Z|seconds.timer|--crontab first
ROWS
