# shellcheck shell=bash disable=SC2154
# Rows of bin/check-examples: what `agenda downtime` prints of the jobs that are missed in a span, whether `agenda clear` finds a start in
# it, and the picture of `agenda week`. All three are also compared with what awk makes of the agenda of the same sources and span.

# shellcheck source=/dev/null
. "$top/rows/lib/questions.sh"
# shellcheck source=/dev/null
. "$top/rows/lib/pictures.sh"

windows_folder=$work/windows
mkdir -p "$windows_folder"/{cron.d,spool,set}

# Writes the escaped text $2 to the file $1.
windows_file() {
  printf '%b' "$2" >"$windows_folder/$1"
}

# Makes the timer $1.timer with the event $2 and the escaped settings $3. Without these its accuracy is exact.
windows_timer() {
  windows_file "$1.timer" "[Timer]\nOnCalendar=$2\n${3:-AccuracySec=0}\n"
}

# Sets `text` to what $1 stands for: an @ is the first day of 2024, a < the day before it, and a ^ the start of the day after it.
windows_times() {
  text=${1//@/2024-01-01T}
  text=${text//</2023-12-31T}
  text=${text//^/2024-01-02T00:00:00Z}
}

# Runs the command $1 with its arguments, whose times are those of windows_times. The argument `span` is the first day of 2024.
windows_run() {
  local text words
  windows_times "${1/ span/ --since @00:00:00Z --until ^}"
  read -r -a words <<<"$text"
  run_in "$windows_folder" agenda "${words[@]}"
}

# Compares the last run, of $1, with the lines $2, whose times are those of windows_times. There is a `;` between lines, and `>` is a tab.
# $3 is the status.
windows_are() {
  local text
  windows_times "$2"
  text=${text//;/$'\n'}
  compare_texts "windows: $1" "${text//>/$tab}${text:+$'\n'}" '' "$3"
}

# Rows from standard input: a command with its arguments, and all lines of its answer.
windows_rows() {
  local written lines
  while IFS='|' read -r written lines; do
    windows_run "$written"
    windows_are "$written" "$lines" 0
  done
}

# Rows from standard input: arguments of `clear`, and the line of the start that it finds.
windows_found() {
  local written line
  while IFS='|' read -r written line; do
    windows_run "clear $written"
    windows_are "clear $written" "$line" 1
  done
}

# Rows from standard input: arguments of `clear` for a span in which nothing starts.
windows_clear() {
  local written
  while IFS= read -r written; do
    windows_run "clear $written"
    windows_are "clear $written" '' 0
  done
}

# Rows from standard input: a command with its arguments, and its error.
windows_refused() {
  local written error
  while IFS='|' read -r written error; do
    windows_run "$written"
    is_refused "windows: $written" "$error" 1
  done
}

# The arguments $1 of `week` answer the picture of the rows on standard input, as in picture_of; $2 is its last line.
windows_picture() {
  local text
  windows_times "$2"
  picture_of "$text"
  windows_run "week $1"
  compare "windows: week $1" "$work/picture.wanted" /dev/null 0
}

# Rows from standard input: the escaped settings of a timer, and what happens to its start. All of them are in one downtime, of the first
# second of 2024.
windows_outcomes() {
  local settings outcome number=0 files=()
  : >"$work/downtime.wanted"
  while IFS='|' read -r settings outcome; do
    number=$((number + 1))
    windows_file "set/v$number.timer" "[Timer]\nOnCalendar=2024-01-01 00:00:00\n$settings\n"
    files+=("set/v$number.timer")
    printf '2024-01-01T00:00:00Z\t2024-01-01T00:00:00Z\t1\t%s\tv%d.timer\tv%d.service\n' "$outcome" $number $number >>"$work/downtime.wanted"
  done
  run_in "$windows_folder" agenda downtime --since 2024-01-01T00:00:00Z --until 2024-01-01T00:00:01Z "${files[@]}"
  compare "windows: $number values of Persistent=" "$work/downtime.wanted" /dev/null 0
}

# ---- downtime

# One job at 02:00, a job of @reboot, a timer that is made up for, and one that starts up to 30 minutes and a second late. Its start of 01:00
# may fall at 01:30; that of 04:00 isn't before the end.
windows_file c '0 2 * * * nightly\n@reboot warm\n'
windows_timer p 03:00 'Persistent=yes\nAccuracySec=1us'
windows_timer q hourly 'RandomizedDelaySec=30min\nAccuracySec=1us'
windows_rows <<'ROWS'
downtime --since @01:30:00Z --until @04:00:00Z --crontab c p.timer q.timer|@01:00:00Z>@03:00:00Z>3>lost>q.timer>q.service;@02:00:00Z>@02:00:00Z>1>lost>cron:1>nightly;@03:00:00Z>@03:00:00Z>1>made up>p.timer>p.service;@04:00:00Z>@04:00:00Z>1>at boot>cron:2>warm
ROWS

# The times of the first and the last start, and their number. A start at the end isn't in the span. A job without a start has no line.
windows_file six '0 */6 * * * a\n'
windows_file minutes.one '* * * * * m\n'
windows_file users '# users\n\n@daily root  b  c\n'
windows_timer seconds '*:*:*'
windows_timer noon 12:00
windows_file twice.timer '[Timer]\nOnCalendar=06:00\nOnCalendar=18:00\nOnCalendar=6:00\nAccuracySec=0\nUnit=u.target\n'
windows_timer past 2020-01-01
windows_rows <<'ROWS'
downtime span --crontab six|@00:00:00Z>@18:00:00Z>4>lost>cron:1>a
downtime --since @00:00:00Z --until 2024-01-02T00:00:01Z --crontab six|@00:00:00Z>^>5>lost>cron:1>a
downtime --since @00:00:01Z --until ^ --crontab six|@06:00:00Z>@18:00:00Z>3>lost>cron:1>a
downtime --since @06:00:00Z --until @06:00:01Z --crontab six|@06:00:00Z>@06:00:00Z>1>lost>cron:1>a
downtime --since @06:00:00Z --until @12:00:00Z --crontab six|@06:00:00Z>@06:00:00Z>1>lost>cron:1>a
downtime --since @06:00:01Z --until @12:00:00Z --crontab six|
downtime span --crontab minutes.one|@00:00:00Z>@23:59:00Z>1440>lost>cron:1>m
downtime --since @00:00:00Z --until 2024-01-12T13:46:40Z seconds.timer|@00:00:00Z>2024-01-12T13:46:39Z>1000000>lost>seconds.timer>seconds.service
downtime span twice.timer|@06:00:00Z>@18:00:00Z>2>lost>twice.timer>u.target
downtime span --system-crontab users|@00:00:00Z>@00:00:00Z>1>lost>system:3>root b  c
downtime span --cron-d users past.timer|@00:00:00Z>@00:00:00Z>1>lost>users:3>root b  c
downtime span --spool users|@00:00:00Z>@00:00:00Z>1>lost>users:3>root  b  c
downtime --since 1970-01-01T00:00:00Z --until 3000-01-01T00:00:00Z past.timer|2020-01-01T00:00:00Z>2020-01-01T00:00:00Z>1>lost>past.timer>past.service
ROWS

# Lines are in the order of the first starts, and then of the jobs. A job whose first start is later comes later, however often it starts.
windows_file order '0 12 * * * a\n0 6 * * * b\n0 6,18 * * * c\n*/30 7 * * * d\n'
windows_file cron.d/php '0 6 * * * www-data e\n'
windows_file spool/anna '0 6 * * * f\n'
windows_rows <<'ROWS'
downtime span --crontab order|@06:00:00Z>@06:00:00Z>1>lost>cron:2>b;@06:00:00Z>@18:00:00Z>2>lost>cron:3>c;@07:00:00Z>@07:30:00Z>2>lost>cron:4>d;@12:00:00Z>@12:00:00Z>1>lost>cron:1>a
downtime --since @06:00:01Z --until ^ --crontab order|@07:00:00Z>@07:30:00Z>2>lost>cron:4>d;@12:00:00Z>@12:00:00Z>1>lost>cron:1>a;@18:00:00Z>@18:00:00Z>1>lost>cron:3>c
downtime span twice.timer --spool spool/anna noon.timer --cron-d cron.d/php --crontab order|@06:00:00Z>@06:00:00Z>1>lost>cron:2>b;@06:00:00Z>@18:00:00Z>2>lost>cron:3>c;@06:00:00Z>@06:00:00Z>1>lost>php:1>www-data e;@06:00:00Z>@06:00:00Z>1>lost>anna:1>f;@06:00:00Z>@18:00:00Z>2>lost>twice.timer>u.target;@07:00:00Z>@07:30:00Z>2>lost>cron:4>d;@12:00:00Z>@12:00:00Z>1>lost>cron:1>a;@12:00:00Z>@12:00:00Z>1>lost>noon.timer>noon.service
ROWS

# Jobs of @reboot come last, in the order of the jobs, with the end of the span twice. They start once when cron does, also after an empty
# span, in which nothing else starts. They don't count for the limit.
windows_file boot '@reboot a\n@daily b\n@reboot c\n'
windows_file boots '@reboot root d\n'
windows_rows <<'ROWS'
downtime span --crontab boot --cron-d boots noon.timer|@00:00:00Z>@00:00:00Z>1>lost>cron:2>b;@12:00:00Z>@12:00:00Z>1>lost>noon.timer>noon.service;^>^>1>at boot>cron:1>a;^>^>1>at boot>cron:3>c;^>^>1>at boot>boots:1>root d
downtime span --system-crontab boots|^>^>1>at boot>system:1>root d
downtime --since @12:00:00Z --until @12:00:00Z --crontab boot noon.timer|@12:00:00Z>@12:00:00Z>1>at boot>cron:1>a;@12:00:00Z>@12:00:00Z>1>at boot>cron:3>c
downtime --since 3000-01-01T00:00:00Z --until 3000-01-01T00:00:00Z --crontab boot|3000-01-01T00:00:00Z>3000-01-01T00:00:00Z>1>at boot>cron:1>a;3000-01-01T00:00:00Z>3000-01-01T00:00:00Z>1>at boot>cron:3>c
downtime span --limit 1 --crontab boot|@00:00:00Z>@00:00:00Z>1>lost>cron:2>b;^>^>1>at boot>cron:1>a;^>^>1>at boot>cron:3>c
ROWS

# Nothing is missed: no jobs, no start, and a span that is empty.
windows_file empty.timer '[Timer]\nPersistent=yes\n'
windows_file none '# no job\n'
windows_rows <<'ROWS'
downtime span|
downtime span empty.timer past.timer|
downtime --since @03:00:00Z --until @03:00:00Z p.timer q.timer|
downtime --since @12:00:01Z --until ^ noon.timer|
downtime --since 3000-01-01T00:00:00Z --until 3000-01-01T00:00:00Z seconds.timer|
ROWS

# Delays count: the start at 06:00 may fall up to 07:00, which is included. FIRST may be before the span, and LAST too.
windows_timer hour 06:00 'RandomizedDelaySec=1h\nAccuracySec=0'
windows_timer minute 06:00 'Persistent=yes'
windows_timer day 00:00 'RandomizedDelaySec=1d\nAccuracySec=0'
windows_timer years yearly RandomizedDelaySec=infinity
windows_rows <<'ROWS'
downtime --since @05:00:00Z --until @06:00:00Z hour.timer|
downtime --since @05:00:00Z --until @06:00:01Z hour.timer|@06:00:00Z>@06:00:00Z>1>lost>hour.timer>hour.service
downtime --since @07:00:00Z --until @07:00:01Z hour.timer|@06:00:00Z>@06:00:00Z>1>lost>hour.timer>hour.service
downtime --since @07:00:01Z --until @08:00:00Z hour.timer|
downtime --since @06:30:00Z --until @06:30:00Z hour.timer|
downtime --since @06:01:00Z --until @06:02:00Z minute.timer|@06:00:00Z>@06:00:00Z>1>made up>minute.timer>minute.service
downtime --since @06:01:01Z --until @06:02:00Z minute.timer|
downtime --since @06:00:01Z --until @12:00:00Z --crontab six|
downtime --since @06:00:00Z --until @12:00:01Z day.timer --crontab six|@00:00:00Z>@00:00:00Z>1>lost>day.timer>day.service;@06:00:00Z>@12:00:00Z>2>lost>cron:1>a
downtime span day.timer|<00:00:00Z>@00:00:00Z>2>lost>day.timer>day.service
downtime --since 2024-06-01T00:00:00Z --until 2024-06-02T00:00:00Z --limit 55 years.timer|1970-01-01T00:00:00Z>2024-01-01T00:00:00Z>55>lost>years.timer>years.service
ROWS

# The last value of Persistent= that is a boolean counts, in all [Timer] sections. Keys are compared exactly, and values in any case.
windows_outcomes <<'ROWS'
|lost
Persistent=1|made up
Persistent=yes|made up
Persistent=y|made up
Persistent=true|made up
Persistent=t|made up
Persistent=on|made up
Persistent = YES |made up
Persistent=True|made up
Persistent=oN|made up
Persistent=T|made up
Persistent=0|lost
Persistent=no|lost
Persistent=n|lost
Persistent=false|lost
Persistent=f|lost
Persistent=off|lost
Persistent=|lost
Persistent=2|lost
Persistent=01|lost
Persistent=tru|lost
Persistent=yes no|lost
Persistent=enabled|lost
Persistent=no\nPersistent=yes|made up
Persistent=yes\nPersistent=no|lost
Persistent=yes\nPersistent=|made up
Persistent=yes\nPersistent=maybe|made up
Persistent=no\nPersistent=maybe|lost
Persistent=yes\nPersistent=OFF\nPersistent=x|lost
Persistent=yes\n[Timer]\nPersistent=no|lost
Persistent=no\n[Install]\nPersistent=no\n[Timer]\nPersistent=on|made up
[Unit]\nPersistent=yes|lost
persistent=yes\nPersistents=yes|lost
#Persistent=yes|lost
Persistent=\\\nyes|made up
Persistent=yes\nOnCalendar=\nOnCalendar=2024-01-01|made up
Persistent=yes\nAccuracySec=0\nRandomizedDelaySec=0\nUnit=|made up
ROWS

# ---- clear

# The line is that of the first start which may fall into the span, as plan --delays has it; with --nominal as plan has it. A start of a
# cron job counts as its whole minute.
windows_clear <<'ROWS'
--since @02:01:00Z --until @02:59:59Z --crontab c p.timer
--since @02:10:00Z --until @02:20:00Z --nominal q.timer
--since @02:01:00Z --until @03:00:00Z --crontab c p.timer
--since @02:01:00Z --until @03:00:00Z --nominal --crontab c
--since @01:00:00Z --until @02:00:00Z --crontab c
--since @03:00:01Z --until @03:30:00Z --nominal p.timer
--since @03:00:02Z --until @03:30:00Z p.timer
--since @05:00:00Z --until @06:00:00Z hour.timer
--since @07:00:01Z --until @08:00:00Z hour.timer
--since @06:01:01Z --until ^ minute.timer
ROWS
windows_found <<'ROWS'
--since @02:00:01Z --until @02:59:59Z --crontab c p.timer|@02:00:00Z>@02:00:00Z>cron:1>nightly
--since @02:00:59Z --until @02:01:00Z --crontab c|@02:00:00Z>@02:00:00Z>cron:1>nightly
--since @02:00:01Z --until @02:01:00Z --nominal --crontab c|@02:00:00Z>cron:1>nightly
--since @02:01:00Z --until @03:00:01Z --crontab c p.timer|@03:00:00Z>@03:00:01Z>p.timer>p.service
--since @02:10:00Z --until @02:20:00Z q.timer|@02:00:00Z>@02:30:01Z>q.timer>q.service
--since @01:30:01Z --until @02:00:01Z --crontab c q.timer|@01:00:00Z>@01:30:01Z>q.timer>q.service
--since @02:00:00Z --until @02:00:01Z --crontab c q.timer|@02:00:00Z>@02:00:00Z>cron:1>nightly
--since @02:00:00Z --until @02:00:01Z --nominal --crontab c q.timer|@02:00:00Z>cron:1>nightly
--since @02:10:00Z --until @03:20:00Z --nominal q.timer|@03:00:00Z>q.timer>q.service
--since @03:00:01Z --until @03:00:02Z p.timer|@03:00:00Z>@03:00:01Z>p.timer>p.service
--since @05:00:00Z --until @06:00:01Z hour.timer|@06:00:00Z>@07:00:00Z>hour.timer>hour.service
--since @07:00:00Z --until @07:00:01Z hour.timer|@06:00:00Z>@07:00:00Z>hour.timer>hour.service
--since @06:01:00Z --until @06:01:01Z minute.timer|@06:00:00Z>@06:01:00Z>minute.timer>minute.service
ROWS

# Of several starts the earliest is printed, and of several at one second that of the first job: also one before the span.
windows_found <<'ROWS'
span --crontab order|@06:00:00Z>@06:00:00Z>cron:2>b
--since @06:00:01Z --until ^ --crontab order|@06:00:00Z>@06:00:00Z>cron:2>b
--since @06:01:00Z --until ^ --crontab order|@07:00:00Z>@07:00:00Z>cron:4>d
span noon.timer twice.timer --spool spool/anna --cron-d cron.d/php|@06:00:00Z>@06:00:00Z>php:1>www-data e
span noon.timer twice.timer --spool spool/anna|@06:00:00Z>@06:00:00Z>anna:1>f
span noon.timer twice.timer|@06:00:00Z>@06:00:00Z>twice.timer>u.target
span seconds.timer --crontab six|@00:00:00Z>@00:00:00Z>cron:1>a
span day.timer --crontab six|<00:00:00Z>@00:00:00Z>day.timer>day.service
span --nominal day.timer --crontab six|@00:00:00Z>cron:1>a
--since @00:00:01Z --until @06:00:00Z day.timer --crontab six|@00:00:00Z>@00:00:00Z>cron:1>a
--since @00:01:00Z --until @06:00:00Z day.timer --crontab six|@00:00:00Z>^>day.timer>day.service
ROWS

# A span is clear if it is empty, if there is no job, or if no job has a start: @reboot isn't one.
windows_clear <<'ROWS'
span
span --crontab none
span empty.timer past.timer --system-crontab boots
--since @12:00:00Z --until @12:00:00Z noon.timer seconds.timer
--since @12:00:01Z --until ^ --nominal noon.timer
--since 3000-01-01T00:00:00Z --until 3000-01-01T00:00:00Z seconds.timer
ROWS

# There is no limit of starts: the answer is the first of 32,503,680,000, or the first of those since 1970 that have no latest time.
windows_timer endless '*:*:*' RandomizedDelaySec=infinity
windows_found <<'ROWS'
--since 1970-01-01T00:00:00Z --until 3000-01-01T00:00:00Z seconds.timer|1970-01-01T00:00:00Z>1970-01-01T00:00:00Z>seconds.timer>seconds.service
--since 2024-06-01T00:00:00Z --until 2024-06-01T00:00:01Z endless.timer|1970-01-01T00:00:00Z>3000-01-01T00:00:00Z>endless.timer>endless.service
--since 2024-06-01T00:00:00Z --until 2024-06-01T00:00:01Z --nominal endless.timer|2024-06-01T00:00:00Z>endless.timer>endless.service
--since 2999-12-31T23:59:59Z --until 3000-01-01T00:00:00Z seconds.timer|2999-12-31T23:59:59Z>2999-12-31T23:59:59Z>seconds.timer>seconds.service
ROWS

# With --local the times are local: without a zone those of UTC.
windows_found <<'ROWS'
span --local noon.timer|@12:00:00+00:00>@12:00:00+00:00>noon.timer>noon.service
span --local --nominal --zone UTC noon.timer|@12:00:00+00:00>noon.timer>noon.service
ROWS

# With --keep-going a span in which nothing starts isn't clear if something is skipped: the status is 1 for errors, and 3 for files that
# can't be read. The start of another job is printed, and the status is the same.
windows_file wrong '60 * * * * x\n0 9 * * * y\n'
windows_keep() {
  local written line error code text
  while IFS='|' read -r written line error code; do
    windows_run "clear $written --keep-going"
    windows_times "$line"
    compare_texts "windows: clear $written --keep-going" "${text//>/$tab}${text:+$'\n'}" "${error:+${error//;/$'\n'}$'\n'}" "$code"
  done
}
windows_keep <<'ROWS'
--since @10:00:00Z --until @11:00:00Z noon.timer|||0
--since @10:00:00Z --until @11:00:00Z --crontab wrong||wrong:1: error: minute '60': out of range 0-59 [OutOfRange]|1
--since @09:00:00Z --until @11:00:00Z --crontab wrong|@09:00:00Z>@09:00:00Z>cron:2>y|wrong:1: error: minute '60': out of range 0-59 [OutOfRange]|1
--since @10:00:00Z --until @11:00:00Z --crontab nothing noon.timer||agenda: nothing: Device|3
--since @12:00:00Z --until @13:00:00Z --crontab nothing noon.timer|@12:00:00Z>@12:00:00Z>noon.timer>noon.service|agenda: nothing: Device|3
--since @10:00:00Z --until @11:00:00Z --crontab wrong nothing.timer||agenda: nothing.timer: Device;wrong:1: error: minute '60': out of range 0-59 [OutOfRange]|3
--since @10:00:00Z --until @10:00:00Z --crontab wrong||wrong:1: error: minute '60': out of range 0-59 [OutOfRange]|1
--since @12:00:00Z --until @13:00:00Z noon.timer|@12:00:00Z>@12:00:00Z>noon.timer>noon.service||1
ROWS
windows_refused <<'ROWS'
clear --since @10:00:00Z --until @11:00:00Z --crontab wrong|crontab: line 1: part 1: OutOfRange
clear --since @09:00:00Z --until @11:00:00Z --crontab wrong|crontab: line 1: part 1: OutOfRange
clear --since @10:00:00Z --until @11:00:00Z --planners 0 --keep-going noon.timer|plan: BadSize
ROWS

# ---- week

# A dot is no start, then there are digits, and # from 10 on. Below the days are the sums of each hour, and of all.
windows_file marks '0-8 0 * * * a\n0-9 1 * * * a\n0 23 * * * a\n'
windows_picture 'span --crontab marks' '20 starts from @00:00:00Z to ^, UTC' <<'DAYS'
Mon 2024-01-01|9#.....................1|20
all days|9#.....................1|20
DAYS
windows_file fives '0-4 7 * * * a\n0 8 * * 2 b\n'
windows_picture '--since @00:00:00Z --until 2024-01-04T00:00:00Z --crontab fives' '16 starts from @00:00:00Z to 2024-01-04T00:00:00Z, UTC' <<'DAYS'
Mon 2024-01-01|.......5................|5
Tue 2024-01-02|.......51...............|6
Wed 2024-01-03|.......5................|5
all days|.......#1...............|16
DAYS
windows_picture 'span noon.timer' '1 start from @00:00:00Z to ^, UTC' <<'DAYS'
Mon 2024-01-01|............1...........|1
all days|............1...........|1
DAYS
windows_picture 'span --crontab none' '0 starts from @00:00:00Z to ^, UTC' <<'DAYS'
Mon 2024-01-01|........................|0
all days|........................|0
DAYS

# Starts at one second each count, also those of one job that has several events. Delays don't count, and @reboot doesn't start.
windows_picture '--since @06:00:00Z --until @08:00:00Z --crontab boot --spool spool/anna twice.timer hour.timer' \
  '3 starts from @06:00:00Z to @08:00:00Z, UTC' <<'DAYS'
Mon 2024-01-01|______3.________________|3
all days|______3.________________|3
DAYS
windows_picture '--since @06:30:00Z --until @08:00:00Z hour.timer' '0 starts from @06:30:00Z to @08:00:00Z, UTC' <<'DAYS'
Mon 2024-01-01|______..________________|0
all days|______..________________|0
DAYS

# An hour of which no second is in the span is a blank, and so it is below if that is so on all days. The start of an hour isn't in a span that
# ends there, and one second of an hour is enough. An empty span has no day.
windows_file halves '*/30 * * * * h\n'
windows_picture '--since @06:30:00Z --until @09:00:00Z --crontab halves' '5 starts from @06:30:00Z to @09:00:00Z, UTC' <<'DAYS'
Mon 2024-01-01|______122_______________|5
all days|______122_______________|5
DAYS
windows_picture '--since @06:30:01Z --until @09:00:01Z --crontab halves' '5 starts from @06:30:01Z to @09:00:01Z, UTC' <<'DAYS'
Mon 2024-01-01|______.221______________|5
all days|______.221______________|5
DAYS
windows_picture '--since @22:59:59Z --until 2024-01-02T01:00:01Z --crontab halves' '5 starts from @22:59:59Z to 2024-01-02T01:00:01Z, UTC' <<'DAYS'
Mon 2024-01-01|______________________.2|2
Tue 2024-01-02|21______________________|3
all days|21____________________.2|5
DAYS
windows_picture '--since @23:59:59Z --until ^ --crontab halves' '0 starts from @23:59:59Z to ^, UTC' <<'DAYS'
Mon 2024-01-01|_______________________.|0
all days|_______________________.|0
DAYS
windows_picture '--since @12:00:00Z --until @12:00:00Z noon.timer' '0 starts from @12:00:00Z to @12:00:00Z, UTC' <<'DAYS'
all days|________________________|0
DAYS

# 2024 and 2000 have a leap day, 2100 has none. The weekdays are those of a calendar.
windows_days() {
  local since until days text
  while IFS='|' read -r since until days; do
    windows_run "week --since $since --until $until --crontab noons"
    awk 'NR > 1 { if (before != "") print before; before = $1 " " $2 " " $NF }' "$work/out" >"$work/days"
    cp -- "$work/days" "$work/out"
    compare_texts "windows: the days of a week from $since to $until" "${days//;/$'\n'}"$'\n' '' 0
  done
}
windows_file noons '0 0,12 * * * a\n'
windows_days <<'ROWS'
2024-02-28T00:00:00Z|2024-03-02T00:00:00Z|Wed 2024-02-28 2;Thu 2024-02-29 2;Fri 2024-03-01 2;all days 6
2023-02-28T00:00:00Z|2023-03-02T00:00:00Z|Tue 2023-02-28 2;Wed 2023-03-01 2;all days 4
2000-02-28T00:00:00Z|2000-03-02T00:00:00Z|Mon 2000-02-28 2;Tue 2000-02-29 2;Wed 2000-03-01 2;all days 6
2100-02-28T00:00:00Z|2100-03-02T00:00:00Z|Sun 2100-02-28 2;Mon 2100-03-01 2;all days 4
1999-12-31T00:00:00Z|2000-01-02T00:00:00Z|Fri 1999-12-31 2;Sat 2000-01-01 2;all days 4
2024-04-30T00:00:00Z|2024-05-02T00:00:00Z|Tue 2024-04-30 2;Wed 2024-05-01 2;all days 4
1970-01-01T00:00:00Z|1970-01-02T00:00:00Z|Thu 1970-01-01 2;all days 2
2999-12-31T00:00:00Z|3000-01-01T00:00:00Z|Tue 2999-12-31 2;all days 2
2024-06-03T06:00:00Z|2024-06-05T12:00:01Z|Mon 2024-06-03 1;Tue 2024-06-04 2;Wed 2024-06-05 2;all days 5
2024-06-03T00:00:01Z|2024-06-05T00:00:00Z|Mon 2024-06-03 1;Tue 2024-06-04 2;all days 3
2024-06-03T13:00:00Z|2024-06-03T14:00:00Z|Mon 2024-06-03 0;all days 0
ROWS

# A sum of seven digits has no blanks before it but one: these are 1,000,000 starts in as many seconds.
windows_million() {
  local day
  {
    for day in 'Mon 2024-01-01' 'Tue 2024-01-02' 'Wed 2024-01-03' 'Thu 2024-01-04' 'Fri 2024-01-05' 'Sat 2024-01-06' 'Sun 2024-01-07' \
      'Mon 2024-01-08' 'Tue 2024-01-09' 'Wed 2024-01-10' 'Thu 2024-01-11'; do
      echo "$day|########################|86400"
    done
    echo 'Fri 2024-01-12|##############__________|49600'
    echo 'all days|########################|1000000'
  } >"$work/million"
  windows_picture '--since @00:00:00Z --until 2024-01-12T13:46:40Z seconds.timer' \
    '1000000 starts from @00:00:00Z to 2024-01-12T13:46:40Z, UTC' <"$work/million"
}
windows_million

# With --json there is an object for each hour that has a start, by day and by hour, and no sums.
windows_rows <<'ROWS'
week span --json --crontab marks|{"day":"2024-01-01","hour":0,"starts":9};{"day":"2024-01-01","hour":1,"starts":10};{"day":"2024-01-01","hour":23,"starts":1}
week --json --since @07:00:00Z --until 2024-01-03T07:00:00Z --crontab fives|{"day":"2024-01-01","hour":7,"starts":5};{"day":"2024-01-02","hour":7,"starts":5};{"day":"2024-01-02","hour":8,"starts":1}
week --json --since @00:00:00Z --until 2024-01-01T01:00:00Z seconds.timer|{"day":"2024-01-01","hour":0,"starts":3600}
week span --json --crontab none|
week span --json --zone UTC noon.timer --crontab boot|{"day":"2024-01-01","hour":0,"starts":1};{"day":"2024-01-01","hour":12,"starts":1}
ROWS
windows_picture 'span --zone UTC noon.timer' '1 start from @00:00:00+00:00 to 2024-01-02T00:00:00+00:00, UTC' <<'DAYS'
Mon 2024-01-01|............1...........|1
all days|............1...........|1
DAYS

# ---- downtime as JSON

# `user` is there for lines that name one, before what is run.
windows_file quotes '0 6 * * * a "b" \\ %\n'
windows_rows <<'ROWS'
downtime --json --since @01:30:00Z --until @04:00:00Z --crontab c p.timer q.timer|{"first":"@01:00:00Z","last":"@03:00:00Z","starts":3,"then":"lost","job":"q.timer","run":"q.service"};{"first":"@02:00:00Z","last":"@02:00:00Z","starts":1,"then":"lost","job":"cron:1","run":"nightly"};{"first":"@03:00:00Z","last":"@03:00:00Z","starts":1,"then":"made up","job":"p.timer","run":"p.service"};{"first":"@04:00:00Z","last":"@04:00:00Z","starts":1,"then":"at boot","job":"cron:2","run":"warm"}
downtime span --json --system-crontab users --cron-d boots --spool spool/anna|{"first":"@00:00:00Z","last":"@00:00:00Z","starts":1,"then":"lost","job":"system:3","user":"root","run":"b  c"};{"first":"@06:00:00Z","last":"@06:00:00Z","starts":1,"then":"lost","job":"anna:1","run":"f"};{"first":"^","last":"^","starts":1,"then":"at boot","job":"boots:1","user":"root","run":"d"}
downtime span --json --crontab quotes|{"first":"@06:00:00Z","last":"@06:00:00Z","starts":1,"then":"lost","job":"cron:1","run":"a \"b\" \\ %"}
downtime span --json --crontab minutes.one|{"first":"@00:00:00Z","last":"@23:59:00Z","starts":1440,"then":"lost","job":"cron:1","run":"m"}
downtime span --json empty.timer|
ROWS

# ---- zones

# Rules start by the clock of the zone, and times are in UTC. cron starts a job at 03:00 that the clock skips, and a timer waits for the next
# day. Delays are counted in seconds, whatever the clock shows meanwhile.
windows_file night '30 2 * * * n\n'
windows_timer night 02:30
windows_timer late 02:30 'RandomizedDelaySec=2h\nAccuracySec=0'
windows_timer tokyo '08:00 Asia/Tokyo' 'RandomizedDelaySec=1h\nAccuracySec=0'
windows_in_zones() {
  windows_rows <<'ROWS'
downtime --zone Europe/Oslo --since 2024-03-30T23:00:00Z --until 2024-03-31T22:00:00Z --crontab night night.timer|2024-03-31T01:00:00Z>2024-03-31T01:00:00Z>1>lost>cron:1>n
downtime --zone Europe/Oslo --since 2024-10-26T22:00:00Z --until 2024-10-27T23:00:00Z --crontab night night.timer|2024-10-27T00:30:00Z>2024-10-27T00:30:00Z>1>lost>cron:1>n;2024-10-27T00:30:00Z>2024-10-27T00:30:00Z>1>lost>night.timer>night.service
downtime --zone Europe/Oslo --since 2024-10-27T02:30:00Z --until 2024-10-27T03:00:00Z late.timer|2024-10-27T00:30:00Z>2024-10-27T00:30:00Z>1>lost>late.timer>late.service
downtime --zone Europe/Oslo --since 2024-10-27T02:30:01Z --until 2024-10-27T03:00:00Z late.timer|
downtime --event-zones --since @00:00:00Z --until @12:00:00Z tokyo.timer hour.timer|<23:00:00Z><23:00:00Z>1>lost>tokyo.timer>tokyo.service;@06:00:00Z>@06:00:00Z>1>lost>hour.timer>hour.service
week --json --zone Europe/Oslo --since 2024-10-26T22:00:00Z --until 2024-10-27T23:00:00Z late.timer|{"day":"2024-10-27","hour":2,"starts":1}
week --json --event-zones --since @00:00:00Z --until 2024-01-03T00:00:00Z tokyo.timer|{"day":"2024-01-01","hour":23,"starts":1};{"day":"2024-01-02","hour":23,"starts":1}
week --json --event-zones --zone Asia/Tokyo --since @00:00:00Z --until 2024-01-03T00:00:00Z tokyo.timer|{"day":"2024-01-02","hour":8,"starts":1};{"day":"2024-01-03","hour":8,"starts":1}
ROWS
  windows_found <<'ROWS'
--zone Europe/Oslo --since 2024-03-31T00:59:59Z --until 2024-03-31T01:00:01Z --crontab night|2024-03-31T01:00:00Z>2024-03-31T01:00:00Z>cron:1>n
--local --zone Europe/Oslo --since 2024-10-27T02:00:00Z --until 2024-10-27T03:00:00Z late.timer|2024-10-27T02:30:00+02:00>2024-10-27T03:30:00+01:00>late.timer>late.service
--local --nominal --zone Europe/Oslo --since 2024-03-31T01:00:00Z --until 2024-03-31T02:00:00Z --crontab night|2024-03-31T03:00:00+02:00>cron:1>n
ROWS
  windows_clear <<'ROWS'
--zone Europe/Oslo --since 2024-03-30T23:00:00Z --until 2024-03-31T22:00:00Z night.timer
--zone Europe/Oslo --since 2024-10-27T02:30:01Z --until 2024-10-27T03:00:00Z late.timer
ROWS
  # The clock skips an hour, which is a blank, and shows one twice, which counts twice.
  windows_file hours '30 * * * * h\n'
  windows_picture '--zone Europe/Oslo --since 2024-03-30T23:00:00Z --until 2024-03-31T22:00:00Z --crontab hours' \
    '23 starts from 2024-03-31T00:00:00+01:00 to 2024-04-01T00:00:00+02:00, Europe/Oslo' <<'DAYS'
Sun 2024-03-31|11_111111111111111111111|23
all days|11_111111111111111111111|23
DAYS
  windows_picture '--zone Europe/Oslo --since 2024-10-26T22:00:00Z --until 2024-10-27T23:00:00Z --crontab hours' \
    '25 starts from 2024-10-27T00:00:00+02:00 to 2024-10-28T00:00:00+01:00, Europe/Oslo' <<'DAYS'
Sun 2024-10-27|112111111111111111111111|25
all days|112111111111111111111111|25
DAYS
  # The second showing of the hour alone, and the hour before and after the one that is skipped.
  windows_picture '--zone Europe/Oslo --since 2024-10-27T01:00:00Z --until 2024-10-27T02:00:00Z --crontab hours' \
    '1 start from 2024-10-27T02:00:00+01:00 to 2024-10-27T03:00:00+01:00, Europe/Oslo' <<'DAYS'
Sun 2024-10-27|__1_____________________|1
all days|__1_____________________|1
DAYS
  windows_picture '--zone Europe/Oslo --since 2024-03-31T00:59:59Z --until 2024-03-31T01:00:01Z --crontab hours' \
    '0 starts from 2024-03-31T01:59:59+01:00 to 2024-03-31T03:00:01+02:00, Europe/Oslo' <<'DAYS'
Sun 2024-03-31|_._.____________________|0
all days|_._.____________________|0
DAYS
  # A span of a day in UTC is part of two local days. An offset may have minutes.
  windows_picture '--zone Asia/Kathmandu --since @00:00:00Z --until @20:00:00Z --crontab hours' \
    '20 starts from @05:45:00+05:45 to 2024-01-02T01:45:00+05:45, Asia/Kathmandu' <<'DAYS'
Mon 2024-01-01|_____.111111111111111111|18
Tue 2024-01-02|11______________________|2
all days|11___.111111111111111111|20
DAYS
  # Samoa skipped a whole day.
  windows_picture '--zone Pacific/Apia --since 2011-12-30T08:00:00Z --until 2011-12-30T12:00:00Z --crontab hours' \
    '4 starts from 2011-12-29T22:00:00-10:00 to 2011-12-31T02:00:00+14:00, Pacific/Apia' <<'DAYS'
Thu 2011-12-29|______________________11|2
Sat 2011-12-31|11______________________|2
all days|11____________________11|4
DAYS
  # A time whose local time is before 1970 is in UTC. No rule starts then.
  windows_picture '--zone America/New_York --since 1970-01-01T00:00:00Z --until 1970-01-01T07:00:00Z --crontab hours' \
    '2 starts from 1970-01-01T00:00:00Z to 1970-01-01T02:00:00-05:00, America/New_York' <<'DAYS'
Thu 1970-01-01|11...___________________|2
all days|11...___________________|2
DAYS
  windows_refused <<'ROWS'
downtime span tokyo.timer|tokyo.timer: line 2: part 8: Zone
clear span --zone Nowhere/City noon.timer|zone: NoSuchZone
week span --zone Europe/ noon.timer|zone: BadZoneName
ROWS
}
passed_over "windows in zones" /usr/share/zoneinfo/Europe/Oslo /usr/share/zoneinfo/Pacific/Apia || windows_in_zones

# ---- any number of planners

# Any number of planners with any capacity finds the same: each hour's start may fall up to five hours later.
windows_by_planners() {
  local planners places
  windows_timer hours hourly 'RandomizedDelaySec=5h\nAccuracySec=0'
  for planners in 1 2 3 8; do
    for places in 1 16 1024; do
      windows_rows <<ROWS
downtime span --planners $planners --room $places hours.timer --crontab minutes.one|<19:00:00Z>@23:00:00Z>29>lost>hours.timer>hours.service;@00:00:00Z>@23:59:00Z>1440>lost>cron:1>m
week --json --since @00:30:00Z --until @02:00:00Z --planners $planners --room $places hours.timer --crontab minutes.one|{"day":"2024-01-01","hour":0,"starts":30};{"day":"2024-01-01","hour":1,"starts":61}
ROWS
      windows_found <<ROWS
span --planners $planners --room $places hours.timer --crontab minutes.one|<19:00:00Z>@00:00:00Z>hours.timer>hours.service
ROWS
    done
  done
}
windows_by_planners

# ---- as plan has it

# Rows from standard input: a span and sources. What is missed, the first start and the hours are those of the agenda. Neither source is @reboot
# or persistent.
windows_as_plan() {
  local written
  while IFS= read -r written; do
    windows_run "plan --delays --limit 1000000 $written"
    cp -- "$work/out" "$work/agenda"
    [ "$(wc -l <"$work/agenda")" -gt 20 ] || tell "$(wc -l <"$work/agenda") lines"
    count "windows: the agenda of $written"
    tail -n +2 "$work/agenda" | awk -F '\t' -v OFS='\t' '
      !($3 in starts) {
        jobs[++count] = $3
        first[$3] = $1
        runs[$3] = $0
        sub(/^[^\t]*\t[^\t]*\t[^\t]*\t/, "", runs[$3])
      }
      {
        starts[$3]++
        last[$3] = $1
      }
      END { for (i = 1; i <= count; i++) print first[jobs[i]], last[jobs[i]], starts[jobs[i]], "lost", jobs[i], runs[jobs[i]] }' >"$work/downtime.wanted"
    windows_run "downtime $written"
    compare "windows: downtime as plan has it: $written" "$work/downtime.wanted" /dev/null 0
    sed -n 2p "$work/agenda" >"$work/first.wanted"
    windows_run "clear $written"
    compare "windows: clear as plan has it: $written" "$work/first.wanted" /dev/null 1
    windows_run "plan --limit 1000000 $written"
    tail -n +2 "$work/out" | cut -c 1-13 | uniq -c |
      sed -E 's/^ *([0-9]+) (.{10})T0?([0-9]+)$/{"day":"\2","hour":\3,"starts":\1}/' >"$work/week.wanted"
    windows_run "week --json $written"
    compare "windows: week as plan has it: $written" "$work/week.wanted" /dev/null 0
  done
}
windows_timer three '0/3:20' 'RandomizedDelaySec=40min\nAccuracySec=1us'
windows_timer quarters '9..17:0/15' 'RandomizedDelaySec=7min 30s\nAccuracySec=0'
windows_timer weekly 'Wed,Sat 04:10' 'RandomizedDelaySec=7h'
windows_file work '5 0-8/2 * * * a\n0 12 * * 1-5 b\tc\n*/7 22 * * * c\n'
windows_as_plan <<ROWS
--since @00:00:00Z --until 2024-01-03T00:00:00Z three.timer quarters.timer weekly.timer --crontab work
--since @00:10:30Z --until 2024-01-08T12:00:00Z three.timer weekly.timer hour.timer twice.timer
--since 2023-12-29T23:59:59Z --until @09:07:15Z quarters.timer hour.timer --crontab work --planners 8 --room 1
--since 2024-05-27T00:00:00Z --until 2024-06-03T00:00:00Z --crontab $top/examples/week-text/crontab $top/examples/week-text/search.timer
ROWS

# ---- errors

# The limit counts all starts of the span, and for downtime those before it that may fall into it.
windows_rows <<'ROWS'
downtime --since @00:00:00Z --until @10:00:00Z --limit 3 day.timer --crontab night|<00:00:00Z>@00:00:00Z>2>lost>day.timer>day.service;@02:30:00Z>@02:30:00Z>1>lost>cron:1>n
week --json --limit 4 --since @00:00:00Z --until ^ --crontab six|{"day":"2024-01-01","hour":0,"starts":1};{"day":"2024-01-01","hour":6,"starts":1};{"day":"2024-01-01","hour":12,"starts":1};{"day":"2024-01-01","hour":18,"starts":1}
ROWS
windows_refused <<'ROWS'
downtime --since @00:00:00Z --until @10:00:00Z --limit 2 day.timer --crontab night|plan: TooMany
downtime --since @00:00:00Z --until 2024-01-12T13:46:41Z seconds.timer|plan: TooMany
downtime --since 1970-01-01T00:00:00Z --until 1970-01-12T13:46:41Z --planners 8 endless.timer|plan: TooMany
downtime span --json --limit 1439 --crontab minutes.one|plan: TooMany
week span --limit 3 --crontab six|plan: TooMany
week span --json --limit 3 --crontab six|plan: TooMany
week --since @00:00:00Z --until 2024-01-12T13:46:41Z seconds.timer|plan: TooMany
ROWS

# The timestamps are checked first, then their order, the zone, the files, what these hold, the sizes, and the limit.
for windows_command in downtime clear week; do
  questions_refused "$windows_command" <<'ROWS'
--since 2024 --until x|since: BadForm
--since 2024-02-30T00:00:00Z --upto x|since: NoSuchDate
--since 3000-01-01T00:00:01Z --until 3000-01-01T00:00:01Z|since: OutOfYears
--since 2024-01-01T00:00:00Z --until 2024|upto: BadForm
--since 2024-01-01T00:00:00Z --upto 2024-01-01T24:00:00Z|upto: NoSuchDate
--since 2999-12-31T23:59:59Z --until 3000-01-01T00:00:01Z|upto: OutOfYears
--since 2024-01-01T00:00:00Z --until 2023-12-31T23:59:59Z|span: Backwards
--since 2024-01-01T00:00:01Z --until 2024-01-01T00:00:00Z --zone Nowhere/City --crontab nothing|span: Backwards
--since 2024-01-01T00:00:01Z --until 2024-01-01T00:00:00Z --planners 0 --crontab part|span: Backwards
--since 2024-01-01T00:00:00Z --until 2024-01-01T00:00:01Z --zone Nowhere/City --planners 0 --crontab nothing|zone: NoSuchZone
ROWS
  questions_refuse_sources "$windows_command" "${day[@]}"
  questions_refused "$windows_command" "${day[@]}" <<'ROWS'
--planners 0|plan: BadSize
--planners 9|plan: BadSize
--planners 4294967295|plan: BadSize
--room 0|plan: BadSize
--room 1025|plan: BadSize
--planners 0 --crontab part|crontab: line 2: part 1: OutOfRange
--room 0 unit.timer|unit.timer: line 0: NoTimerSection
--room 0 --crontab many|jobs: Full
--room 0 --crontab nothing|nothing: Device
--room 0 --crontab thousand|plan: BadSize
ROWS
done
for windows_command in downtime week; do
  questions_refused "$windows_command" "${day[@]}" <<'ROWS'
--limit 0|plan: BadLimit
--limit 1000001|plan: BadLimit
--planners 9 --limit 0|plan: BadSize
--limit 0 --crontab thousand|plan: BadLimit
--room 0 --limit 1 --crontab thousand|plan: BadSize
--limit 1 --crontab thousand|plan: TooMany
ROWS
done

# With --keep-going the rest is answered, and the status says that something is skipped.
windows_file mixed '60 * * * * x\n0 9 * * * y\n@reboot z\n'
windows_skips() {
  local error="mixed:1: error: minute '60': out of range 0-59 [OutOfRange]"$'\n'
  windows_run 'downtime span --keep-going --crontab mixed'
  compare_texts "windows: downtime that keeps going" "2024-01-01T09:00:00Z${tab}2024-01-01T09:00:00Z${tab}1${tab}lost${tab}cron:2${tab}y
2024-01-02T00:00:00Z${tab}2024-01-02T00:00:00Z${tab}1${tab}at boot${tab}cron:3${tab}z
" "$error" 1
  windows_run 'week span --json --keep-going --crontab mixed nothing.timer'
  compare_texts "windows: week that keeps going" '{"day":"2024-01-01","hour":9,"starts":1}'$'\n' "agenda: nothing.timer: Device"$'\n'"$error" 3
  windows_run 'week span --keep-going --limit 1 --crontab mixed noon.timer'
  compare_texts "windows: week that keeps going, with too many starts" '' "$error"$'agenda: plan: TooMany\n' 1
}
windows_skips
