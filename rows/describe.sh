# shellcheck shell=bash disable=SC2154,SC2034
# Rows of `agenda describe` and `agenda machine describe`: the sentences of rules, the lines, objects and tables of jobs, and
# what is rejected. The sentences are worked out by hand from the tables of docs/FORMATS.md.

# shellcheck source=/dev/null
. "$top/rows/lib/program.sh"

describe_directory=$work/describe
mkdir "$describe_directory"

describe_run() {
  run_in "$describe_directory" agenda describe "$@"
}

# Sets `option` to the option for the rule $1: that of cron if it has five words or begins with `@`.
describe_option() {
  local -a words
  read -ra words <<<"$1"
  option=--calendar
  [[ $1 != @* && ${#words[@]} != 5 ]] || option=--cron
}

# Rows of standard input: a rule and its sentence. `machine describe` says the same.
describe_sentences() {
  local rule sentence option
  while IFS='|' read -r rule sentence; do
    describe_option "$rule"
    describe_run "$option" "$rule" --event-zones
    compare_texts "describe $option '$rule'" "$sentence"$'\n' '' 0
  done
}

# Writes the escaped text $2 to the file $1.
describe_file() {
  printf '%b' "$2" >"$describe_directory/$1"
}

# The arguments after the status $1 print the lines of standard input. Those that begin with `! ` are on standard error. `|` is a tab.
describe_both() {
  local code=$1
  shift
  tr '|' '\t' >"$describe_directory/both"
  sed -n 's/^! //p' "$describe_directory/both" >"$work/err.wanted"
  grep -v '^! ' "$describe_directory/both" >"$work/out.wanted"
  describe_run "$@"
  compare "describe $*" "$work/out.wanted" "$work/err.wanted" "$code"
}

# Rows of standard input: arguments with `|` between them, ` => ` and the error.
describe_errors() {
  local row arguments
  while IFS= read -r row; do
    IFS='|' read -ra arguments <<<"${row%% => *}"
    describe_run "${arguments[@]}"
    is_refused "describe ${row%% => *}" "${row#* => }" 1
  done
}

# Rows of standard input: arguments with `|` between them, ` => ` and the first line of the usage error.
describe_usage() {
  local row arguments
  while IFS= read -r row; do
    IFS='|' read -ra arguments <<<"${row%% => *}"
    printf '%s\n' "${row#* => }" >"$work/err.wanted"
    describe_run "${arguments[@]}"
    head -n 1 "$work/err" >"$work/first"
    mv -- "$work/first" "$work/err"
    compare "usage: describe ${row%% => *}" /dev/null "$work/err.wanted" 2
  done
}

# ---- sentences

describe_sentences <<'END'
*/15 */4 * * *|every 15 minutes of hours 0, 4, 8, 12, 16 and 20
*/10 22-23,0-6 * * *|every 10 minutes from 00:00 to 06:50 and from 22:00 to 23:50
* */2 * * *|every minute of every 2nd hour from 00:00 to 22:59
0 7,8,12,13,18,19,22 * * *|at 07:00, 08:00, 12:00, 13:00, 18:00, 19:00 and 22:00
*:0/5:30|at second 30 of every 5th minute from 0 to 55 of every hour
1,2,5,9,12:*:0/20|every 20 seconds of every minute of hours 1, 2, 5, 9 and 12
1,2,3,5,8,13,21 9 * * *|at minutes 1 to 3, 5, 8, 13 and 21 of hour 9
*/5 9-17 * * 1-5|every 5 minutes from 09:00 to 17:55 from Monday to Friday
*/7 * * * *|every 7 minutes from minute 0 to 56 of every hour
*/25 9-17 * * *|at minutes 0, 25 and 50 of every hour from 09:00 to 17:59
*:0,30:15|at second 15 of minutes 0 and 30 of every hour
*:*:0/7|every 7 seconds from second 0 to 56 of every minute
*/25 * * * *|at minutes 0, 25 and 50 of every hour
0 9,17 * * 1-5|at 09:00 and 17:00 from Monday to Friday
30 */2 * * *|every 2 hours from 00:30 to 22:30
*:17:30|at second 30 of minute 17 of every hour
0-30 * * * *|at minutes 0 to 30 of every hour
0 */5 * * *|every 5 hours from 00:00 to 20:00
0 */6 * * *|at 00:00, 06:00, 12:00 and 18:00
9:*:*|every second from 09:00:00 to 09:59:59
12:00:00,30|at 12:00:00 and 12:00:30
17 * * * *|at minute 17 of every hour
0,15,30,45 * * * *|every 15 minutes
*:*:30|at second 30 of every minute
0 */4 * * *|every 4 hours
*:*:0/10|every 10 seconds
0 * * * *|every hour
* * * * *|every minute
*:*:*|every second
30 4 * * *|at 04:30
5 0 * 8 *|at 00:05 on every day in August
2000..2020/2-02-29|at 00:00 on the 29th of February in every 2nd year from 2000 to 2020, where it exists
52 6 1 1,7 *|at 06:52 on the 1st of January and July
Mon..Wed *-*-1..7|at 00:00 on the 1st to 7th of each month, but only from Monday to Wednesday
0 0 1,15 * *|at 00:00 on the 1st and 15th of each month
0 0 1 * 1-5|at 00:00 on the 1st of each month, and also on every day from Monday to Friday
2024-12-25 12:00|at 12:00 on the 25th of December 2024
0 0 */7 * *|at 00:00 on the 1st, 8th, 15th, 22nd and 29th of each month, where they exist
Mon *-*~14..8|at 00:00 on the 2nd last Monday of each month
Tue 2024-01-01|at 00:00 on the 1st of January 2024, but only on Tuesdays (no such day)
0 0 */100,1-7 * MON|at 00:00 on the 1st Monday of each month
0 0 1-5,15,20-25 * *|at 00:00 on the 1st to 5th, 15th and 20th to 25th of each month
0 0 31 * *|at 00:00 on the 31st of each month, where it exists
*-*~31/3|at 00:00 on every 3rd day from the 31st last to the last day of each month
0 0 29 2 *|at 00:00 on the 29th of February, where it exists
0 0 1,15 6 5|at 00:00 on the 1st and 15th of June, and also on every Friday in June
0 9 * 6-8 1-5|at 09:00 from Monday to Friday from June to August
0 0 1,15 * 5|at 00:00 on the 1st and 15th of each month, and also on every Friday
Fri *-*-13|at 00:00 on the 13th of each month, but only on Fridays
2003-02..04-05|at 00:00 on the 5th of each month from February to April in 2003
0 0 */2 * 1|at 00:00 on odd days of each month, but only on Mondays
0 0 1-7 * 1|at 00:00 on the 1st to 7th of each month, and also on every Monday
Mon 2024,2026..2028-*-*|at 00:00 on Mondays in 2024 and 2026 to 2028
*-*~10..5,1|at 00:00 on the 10th last to 5th last and last days of each month
2024..2026-01-01|at 00:00 on the 1st of January from 2024 to 2026
0 0 */3 * *|at 00:00 on every 3rd day from the 1st to the 31st of each month
0 0 1 1-3,6 *|at 00:00 on the 1st of January, February, March and June
2024/2-01-01|at 00:00 on the 1st of January in every 2nd year from 2024 on
0 0 1 6-8 *|at 00:00 on the 1st of each month from June to August
0 0 29-31 * *|at 00:00 on the 29th to 31st of each month, where they exist
0 0 31 1,3 *|at 00:00 on the 31st of January and March
0 0 31 2 *|at 00:00 on the 31st of February (no such day)
0 0 2-30/2 * *|at 00:00 on even days of each month
2024/1-*-* 12:00|at 12:00 on every day from 2024 on
*-*~3/1|at 00:00 on the last 3 days of each month
0 0 * * 1-4,6,0|at 00:00 from Saturday to Thursday
*-*~2|at 00:00 on the 2nd last day of each month
Mon *-05~07/1|at 00:00 on the last Monday of May
0 10 * * 6,0|at 10:00 on Saturdays and Sundays
0 0 */2 * *|at 00:00 on odd days of each month
*-*~1|at 00:00 on the last day of each month
@reboot|never by the clock; when cron starts
0 0 1 * *|at 00:00 on the 1st of each month
0 0 * * 0-4|at 00:00 from Sunday to Thursday
02:30 UTC|at 02:30 (UTC)
0 2 * * 0|at 02:00 on Sundays
0 0 1 * 0-6|at 00:00
END

# Sets of numbers without a pattern, and the words of time spans of systemd.
describe_sentences <<'END'
1-3,7 4,6 * * *|at minutes 1 to 3 and 7 of hours 4 and 6
@hourly|every hour
@daily|at 00:00
@weekly|at 00:00 on Sundays
@monthly|at 00:00 on the 1st of each month
@yearly|at 00:00 on the 1st of January
minutely|every minute
hourly|every hour
daily|at 00:00
weekly|at 00:00 on Mondays
monthly|at 00:00 on the 1st of each month
quarterly|at 00:00 on the 1st of January, April, July and October
yearly|at 00:00 on the 1st of January
02:30 utc|at 02:30 (UTC)
2999-12-31 23:59:59|at 23:59:59 on the 31st of December 2999
1970-01-01|at 00:00 on the 1st of January 1970
Sun 1970..2999/1-*-* 00:00|at 00:00 on Sundays
END

# ---- jobs of files

describe_file jobs '# jobs\nMAILTO=x\n*/15 * * * * a  b\n@reboot c "d"\n60 * * * * e\n0 0 13 * 5 f\n'
describe_file valid '0 9 13 * 5 a\n'
describe_file system '@daily root x\n'
describe_file backup.timer \
  '[Timer]\nOnCalendar=12:00\nOnCalendar=12:00:00\nOnCalendar=02:30 UTC\nOnCalendar=*-*-* 12:00\nUnit=x.service\n'
describe_file zones.timer '[Timer]\nOnCalendar=daily\nOnCalendar=\nOnCalendar=09:00 Europe/Oslo\nOnCalendar=09:00\n'
describe_file boot.timer '[Timer]\nOnBootSec=5\n'
describe_file bad.timer '[Timer]\nOnCalendar=25:00\nOnCalendar=daily\n'

describe_both 0 --crontab valid --system-crontab system backup.timer boot.timer <<'END'
cron:1|at 09:00 on the 13th of each month, and also on every Friday|a
system:1|at 00:00|root x
backup.timer|at 12:00; at 02:30 (UTC)|x.service
boot.timer|never|boot.service
END
describe_both 0 --json --crontab valid --system-crontab system backup.timer <<'END'
{"job":"cron:1","rule":"at 09:00 on the 13th of each month, and also on every Friday","run":"a"}
{"job":"system:1","rule":"at 00:00","user":"root","run":"x"}
{"job":"backup.timer","rule":"at 12:00; at 02:30 (UTC)","run":"x.service"}
END
describe_both 0 --json --cron '*/25 * * * *' <<'END'
{"rule":"at minutes 0, 25 and 50 of every hour"}
END
describe_both 0 </dev/null

# What is invalid stops the answer, or is skipped.
describe_both 1 --crontab jobs bad.timer <<'END'
! agenda: crontab: line 5: part 1: OutOfRange
END
describe_both 1 --keep-going --crontab jobs bad.timer <<'END'
cron:3|every 15 minutes|a  b
cron:4|never by the clock; when cron starts|c "d"
cron:6|at 00:00 on the 13th of each month, and also on every Friday|f
bad.timer|at 00:00|bad.service
! jobs:5: error: minute '60': out of range 0-59 [OutOfRange]
! bad.timer:2: error: hour in '25:00': out of range 0-23 [OutOfRange]
END
describe_both 3 --keep-going nothing.timer --crontab valid <<'END'
cron:1|at 09:00 on the 13th of each month, and also on every Friday|a
! agenda: nothing.timer: Device
END
describe_both 3 nothing.timer <<'END'
! agenda: nothing.timer: Device
END

# The zone of --zone is checked, and no sentence has it.
describe_errors <<'END'
--cron|60 * * * * => rule: part 1: OutOfRange
--cron|* * * * => rule: part 0: WrongParts
--calendar|25:00 => rule: part 5: OutOfRange
--calendar|daily Nowhere/City => rule: part 8: Zone
--calendar|daily Nowhere/City|--event-zones => rule: part 8: Zone
--calendar|%H:00 => rule: part 0: Specifier
--zone|Nowhere|--cron|@daily => zone: NoSuchZone
--zone|Europe//Oslo|--crontab|valid => zone: BadZoneName
zones.timer => zones.timer: line 4: part 8: Zone
END
describe_usage <<'END'
--cron|@daily|backup.timer => error: --cron and --calendar describe one rule, and take no files
--calendar|daily|--crontab|valid => error: --cron and --calendar describe one rule, and take no files
--cron|@daily|--calendar|daily => exactly one of --cron and --calendar
--local|--cron|@daily => error: unexpected argument '--local' found
--table|backup.timer => error: unexpected argument '--table' found
END

if [ -e /usr/share/zoneinfo/Europe/Oslo ]; then
  describe_sentences <<'END'
Mon..Fri 09:00 Europe/Oslo|at 09:00 from Monday to Friday (Europe/Oslo)
*:0/15 Europe/Oslo|every 15 minutes (Europe/Oslo)
*-02-30 Europe/Oslo|at 00:00 on the 30th of February (Europe/Oslo) (no such day)
END
  describe_both 0 --event-zones zones.timer <<'END'
zones.timer|at 09:00 (Europe/Oslo); at 09:00|zones.service
END
  describe_both 0 --zone Europe/Oslo --crontab valid <<'END'
cron:1|at 09:00 on the 13th of each month, and also on every Friday|a
END
else
  echo "describe --event-zones: skipped, since /usr/share/zoneinfo/Europe/Oslo is not here"
fi

# ---- jobs of a machine

# The table of the root with the description $1 and the arguments $2 is on standard input, after the lines $3 on standard error.
describe_machine() {
  local words code=${4:-0}
  cat >"$work/out.wanted"
  printf '%s' "${3:+$3$'\n'}" >"$work/err.wanted"
  program_make "$1"
  IFS=' ' read -r -a words <<<"$2"
  program_run describe --root root "${words[@]}"
  program_compare "describe $2 of '$1'" "$work/out.wanted" "$work/err.wanted" "$code"
}

describe_machine 'etc/crontab=17\x20*\x20*\x20*\x20*\x20root\x20a\x20\x20b\n C/p=@reboot\x20u\x20c\n
  *a.timer U/a.timer=[Timer]\nOnCalendar=Mon\x2009:00\nOnCalendar=Sun\n *b@x.timer U/b@.timer=DAILY N/b@.service' --table <<'TABLE'
JOB        STARTS                                    RUNS
system:1   at minute 17 of every hour                root a  b
p:1        never by the clock; when cron starts      u c
a.timer    at 09:00 on Mondays; at 00:00 on Sundays  a.service
b-x.timer  at 00:00                                  b-x.service
4 jobs, UTC
TABLE
describe_machine 'etc/crontab=@daily\x20root\x20a\n' '--table --zone UTC' <<'TABLE'
JOB       STARTS    RUNS
system:1  at 00:00  root a
1 job, UTC
TABLE
describe_machine x/ --table <<'TABLE'
JOB  STARTS  RUNS
0 jobs, UTC
TABLE
describe_machine 'etc/crontab=@daily\x20root\x20a\n@hourly\x20root\x20b\n' '--except system:1' <<TABLE
system:2${tab}every hour${tab}root b
TABLE
describe_machine 'etc/crontab=@daily\x20root\x20a\n' --json <<'TABLE'
{"job":"system:1","rule":"at 00:00","user":"root","run":"a"}
TABLE
describe_skipped='agenda: not planned: root/etc/cron.d/p: cron ignores this file because of line 1
root/etc/cron.d/p:1: error: expected NAME=VALUE, or five fields and a command [BadSetting]'
describe_machine 'C/p=x\n@daily\x20root\x20a\n etc/crontab=@daily\x20root\x20a\n' '' "$describe_skipped" 1 <<TABLE
system:1${tab}at 00:00${tab}root a
TABLE
describe_machine 'C/p=x\n@daily\x20root\x20a\n etc/crontab=@daily\x20root\x20a\n' --strict "$describe_skipped" 1 </dev/null

# A rule by itself, and its error in words.
describe_rule() {
  local rule=$1 words
  printf '%s' "${3:+$3$'\n'}" >"$work/out.wanted"
  printf '%s' "${4:+$4$'\n'}" >"$work/err.wanted"
  IFS=' ' read -r -a words <<<"$2"
  program_run describe "$rule" "${words[@]}"
  program_compare "describe '$rule' $2" "$work/out.wanted" "$work/err.wanted" "${5:-0}"
}
describe_rule '0 0 1,15 * 5' '' 'at 00:00 on the 1st and 15th of each month, and also on every Friday'
describe_rule 'Mon..Fri 09:00' '' 'at 09:00 from Monday to Friday'
describe_rule '@daily' --json '{"rule":"at 00:00"}'
describe_rule '60 * * * *' '' '' "agenda: rule: minute '60': out of range 0-59 [OutOfRange]" 1
describe_rule 'daily Nowhere/City' '' '' "agenda: rule: time zone in 'daily Nowhere/City': unknown [Zone]" 1
