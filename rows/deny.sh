# shellcheck shell=bash disable=SC2154
# Rows of bin/check-examples: which warnings `agenda check` and `agenda machine check` print as errors, and which they leave out, by
# --deny and --allow and by comments in the files. Expected findings are worked out by hand from docs/FORMATS.md. Findings are in
# the short form of rows/lib/findings.sh.

# shellcheck source=/dev/null
. "$top/rows/lib/program.sh"
# shellcheck source=/dev/null
. "$top/rows/lib/findings.sh"

deny_folder="$work/deny"
mkdir -p "$deny_folder"

# Writes the escaped text $2 to the file $1.
deny_file() {
  printf '%b' "$2" >"$deny_folder/$1"
}

# Compares the last run, with the name $1, with the findings $2, with `;` between them. The status is 1 if one of them is an error.
deny_compare() {
  local wanted=0
  printf '%s' "${2:+$2;}" | tr ';' '\n' >"$work/findings.wanted"
  ! grep -qv ': warning \[' "$work/findings.wanted" || wanted=1
  shorten_findings <"$work/out" >"$work/findings" && mv -- "$work/findings" "$work/out"
  compare "$1" "$work/findings.wanted" /dev/null "$wanted"
}

# Rows from standard input: arguments that end with the path of a file, its escaped text, and the findings, with `;` between them.
# Each finding begins with the `:` after the path.
deny_texts() {
  local written text findings words path
  while IFS='|' read -r written text findings; do
    read -r -a words <<<"$written"
    path=${words[*]: -1}
    deny_file "$path" "$text"
    run_in "$deny_folder" agenda check "${words[@]}"
    findings=${findings:+$path$findings}
    deny_compare "check $written '$text'" "${findings//;:/;$path:}"
  done
}

# Rows from standard input: arguments that end with the path of a file, its escaped text, and the whole output.
deny_outputs() {
  local written text wanted status words
  while IFS='|' read -r written text status wanted; do
    read -r -a words <<<"$written"
    deny_file "${words[*]: -1}" "$text"
    run_in "$deny_folder" agenda check "${words[@]}"
    compare_texts "check $written '$text'" "${wanted:+$wanted$'\n'}" '' "$status"
  done
}

# Rows from standard input: arguments, and the text of the usage error without its last line, with the escapes of printf.
deny_usage() {
  local written text words
  while IFS='|' read -r written text; do
    read -r -a words <<<"$written"
    printf -v text '%b' "$text"
    run_in "$deny_folder" agenda "${words[@]}"
    compare_texts "$written" '' "$text"$'\n\nFor more information, try \'--help\'.\n' 2
  done
}

# ---- options

# A crontab with two warnings on a line and one on another, and one with an error besides.
deny_texts <<'ROWS'
--crontab jobs|0 9 13 * 5 a%b\n0 0 31 2 * c\n|:1: warning [EitherDay];:1: warning [Percent];:2: warning [NeverStarts]
--deny Percent --crontab jobs|0 9 13 * 5 a%b\n0 0 31 2 * c\n|:1: warning [EitherDay];:1: error [Percent];:2: warning [NeverStarts]
--deny=Percent --crontab jobs|0 9 13 * 5 a%b\n0 0 31 2 * c\n|:1: warning [EitherDay];:1: error [Percent];:2: warning [NeverStarts]
--deny percent --crontab jobs|@daily a%b\n|:1: error [Percent]
--deny PERCENT --crontab jobs|@daily a%b\n|:1: error [Percent]
--deny Percent --deny NeverStarts --crontab jobs|0 9 13 * 5 a%b\n0 0 31 2 * c\n|:1: warning [EitherDay];:1: error [Percent];:2: error [NeverStarts]
--deny Percent --deny Percent --crontab jobs|@daily a%b\n|:1: error [Percent]
--deny all --crontab jobs|0 9 13 * 5 a%b\n0 0 31 2 * c\n|:1: error [EitherDay];:1: error [Percent];:2: error [NeverStarts]
--deny ALL --crontab jobs|0 9 13 * 5 a\n|:1: error [EitherDay]
--deny All --deny Percent --crontab jobs|0 9 13 * 5 a\n|:1: error [EitherDay]
--deny all --crontab jobs|@daily a\n|
--deny EitherDay --crontab jobs|@daily a%b\n|:1: warning [Percent]
--deny all --system-crontab jobs|0 9 13 * 5 root a\n|:1: error [EitherDay]
--deny all --cron-d jobs|CRON_TZ=UTC\n@daily root a\n|:1: error [ZoneSetting]
--deny all --spool jobs|@daily a\r\n|:1: error [CarriageReturn]
--deny all a.timer|[Timer]\nOnCalendar=daily\nRandomizedDelaySec=1h\nOnCalender=daily\n|: error [Delayed];:4: error [UnknownKey]
--deny Delayed a.timer|[Timer]\nOnCalendar=daily\nRandomizedDelaySec=1h\nOnCalender=daily\n|: error [Delayed];:4: warning [UnknownKey]
--allow Percent --crontab jobs|0 9 13 * 5 a%b\n0 0 31 2 * c\n|:1: warning [EitherDay];:2: warning [NeverStarts]
--allow percent --allow=EITHERDAY --crontab jobs|0 9 13 * 5 a%b\n0 0 31 2 * c\n|:2: warning [NeverStarts]
--allow Percent --crontab jobs|@daily a%b\n|
--allow TimerRejected a.timer|[Timer]\n|
--allow UnknownKey a.timer|[Timer]\nOnCalendar=daily\nRandomizedDelaySec=1h\nOnCalender=daily\n|: warning [Delayed]
--deny all --allow Percent --crontab jobs|0 9 13 * 5 a%b\n0 0 31 2 * c\n|:1: error [EitherDay];:2: error [NeverStarts]
--allow Percent --deny all --crontab jobs|0 9 13 * 5 a%b\n0 0 31 2 * c\n|:1: error [EitherDay];:2: error [NeverStarts]
--deny all --allow Percent --crontab jobs|@daily a%b\n|
--deny EitherDay --allow Percent --crontab jobs|0 9 13 * 5 a%b\n0 0 31 2 * c\n|:1: error [EitherDay];:2: warning [NeverStarts]
ROWS

# An error stays what it is, also if its code is denied.
deny_texts <<'ROWS'
--deny OutOfRange --crontab jobs|0 24 * * * a\n|:1: error hour [OutOfRange]
--deny outofrange --crontab jobs|@daily a%b\n|:1: warning [Percent]
--allow Percent --crontab jobs|0 24 * * * a%b\n@daily a%b\n|:1: error hour [OutOfRange]
--deny all --allow EitherDay --crontab jobs|0 24 * * * a\n@daily a%b\n|:1: error hour [OutOfRange];:2: error [Percent]
--allow UnknownKey a.timer|[Timer]\nOnCalendar=24:00\nOnCalender=x\n|:2: error hour [OutOfRange]
ROWS

# The text of a denied warning is that of the warning, in JSON too.
deny_outputs <<'ROWS'
--deny all --crontab jobs|0 9 13 * 5 a\n|1|jobs:1: error: starts on days that match either day field, not both [EitherDay]
--crontab jobs|0 9 13 * 5 a\n|0|jobs:1: warning: starts on days that match either day field, not both [EitherDay]
--deny UnknownKey a.timer|[Timer]\nOnCalendar=daily\nOnCalender=x\n|1|a.timer:3: error: unknown setting 'OnCalender' in [Timer] [UnknownKey]
--deny all --json --crontab jobs|0 9 13 * 5 a\n|1|{"path":"jobs","line":1,"severity":"error","code":"EitherDay","text":"starts on days that match either day field, not both"}
--deny Percent --json --crontab jobs|0 9 13 * 5 a\n|0|{"path":"jobs","line":1,"severity":"warning","code":"EitherDay","text":"starts on days that match either day field, not both"}
--deny TimerRejected --json a.timer|[Timer]\n|1|{"path":"a.timer","line":null,"severity":"error","code":"TimerRejected","text":"systemd 252 rejects this timer: it has no valid trigger"}
--allow TimerRejected --json a.timer|[Timer]\n|0|
ROWS

# ---- comments on a line

# The line before keeps the comment from the head of the file.
deny_texts <<'ROWS'
--crontab jobs|@daily x\n# agenda: allow Percent\n@daily a%b\n|
--crontab jobs|@daily x\n# agenda: allow Percent\n@daily a%b\n@daily a%b\n|:4: warning [Percent]
--crontab jobs|@daily x\n@daily a%b\n# agenda: allow Percent\n|:2: warning [Percent]
--crontab jobs|@daily x\n# agenda: allow Percent\n\n@daily a%b\n|:4: warning [Percent]
--crontab jobs|@daily x\n# agenda: allow Percent\n \t\n@daily a%b\n|:4: warning [Percent]
--crontab jobs|@daily x\n# agenda: allow Percent\n# why\n@daily a%b\n|
--crontab jobs|@daily x\n# why\n# agenda: allow Percent\n@daily a%b\n|
--crontab jobs|@daily x\n# agenda: allow Percent\nA=b\n@daily a%b\n|:4: warning [Percent]
--crontab jobs|@daily x\n# agenda: allow EitherDay\n0 9 13 * 5 a%b\n|:3: warning [Percent]
--crontab jobs|@daily x\n# agenda: allow EitherDay Percent\n0 9 13 * 5 a%b\n|
--crontab jobs|@daily x\n# agenda: allow EitherDay\n# agenda: allow Percent\n0 9 13 * 5 a%b\n|
--crontab jobs|@daily x\n#agenda: allow Percent\n@daily a%b\n|
--crontab jobs|@daily x\n \t#\t agenda:\tallow  Percent \t\n@daily a%b\n|
--crontab jobs|@daily x\n# agenda: allow percent\n@daily a%b\n|
--crontab jobs|@daily x\n# agenda: allow PERCENT\r\n@daily a%b\n|
--crontab jobs|@daily x\n# agenda: allow Percent\r\r\n@daily a%b\n|:3: warning [Percent]
--crontab jobs|@daily x\n# agenda: allow\n@daily a%b\n|:3: warning [Percent]
--crontab jobs|@daily x\n# agenda: allow Percent,EitherDay\n@daily a%b\n|:3: warning [Percent]
--crontab jobs|@daily x\n# agenda: allow all\n@daily a%b\n|:3: warning [Percent]
--crontab jobs|@daily x\n# agenda: deny Percent\n@daily a%b\n|:3: warning [Percent]
--crontab jobs|@daily x\n# agenda:allow Percent\n@daily a%b\n|:3: warning [Percent]
--crontab jobs|@daily x\n# Agenda: allow Percent\n@daily a%b\n|:3: warning [Percent]
--crontab jobs|@daily x\n# agenda: Allow Percent\n@daily a%b\n|:3: warning [Percent]
--crontab jobs|@daily x\n# agenda allow Percent\n@daily a%b\n|:3: warning [Percent]
--crontab jobs|@daily x\n# see agenda: allow Percent\n@daily a%b\n|:3: warning [Percent]
--crontab jobs|@daily x\n## agenda: allow Percent\n@daily a%b\n|:3: warning [Percent]
--crontab jobs|@daily x # agenda: allow Percent\n@daily a%b\n|:2: warning [Percent]
--system-crontab jobs|@daily u x\n# agenda: allow EitherDay\n0 9 13 * 5 u a\n|
--cron-d jobs|@daily u x\n# agenda: allow ZoneSetting\nCRON_TZ=UTC\n|
--spool jobs|@daily x\n# agenda: allow NeverStarts\n0 0 31 2 * a\n|
ROWS

# A word that isn't the code of a warning is ignored; an error isn't allowed by its code.
deny_texts <<'ROWS'
--crontab jobs|@daily x\n# agenda: allow Prcent Percent newer-code \xff\n@daily a%b\n|: error [NotUtf8]
--crontab jobs|@daily x\n# agenda: allow Prcent Percent newer-code\n@daily a%b\n|
--crontab jobs|@daily x\n# agenda: allow Percen\n@daily a%b\n|:3: warning [Percent]
--crontab jobs|@daily x\n# agenda: allow Percents\n@daily a%b\n|:3: warning [Percent]
--crontab jobs|@daily x\n# agenda: allow OutOfRange\n0 24 * * * a\n|:3: error hour [OutOfRange]
--crontab jobs|# agenda: allow OutOfRange Percent\n0 24 * * * a\n@daily a%b\n|:2: error hour [OutOfRange]
ROWS

# In timers `;` begins a comment, too. A merged line has the comments above its first line.
deny_texts <<'ROWS'
a.timer|[Timer]\n; agenda: allow UnknownKey\nOnCalender=x\nOnCalendar=daily\n|
a.timer|[Timer]\n# agenda: allow UnknownKey\nOnCalender=x\nOnCalendar=daily\n|
a.timer|[Timer]\n;agenda: allow UnknownKey\r\nOnCalender=x\nOnCalendar=daily\n|
a.timer|[Timer]\n; agenda: allow UnknownKey\n# why\nOnCalender=x\nOnCalendar=daily\n|
a.timer|[Timer]\n; agenda: allow UnknownKey\nOnCalendar=daily\nOnCalender=x\n|:4: warning [UnknownKey]
a.timer|[Timer]\n; agenda: allow NeverStarts\nOnCalendar=\\\n2024-02-30\n|
a.timer|[Timer]\nOnCalendar=\\\n; agenda: allow NeverStarts\n2024-02-30\n|:2: warning [NeverStarts]
a.timer|[Timer]\n; agenda: allow TimerRejected Delayed\n|: warning [TimerRejected]
--crontab jobs|@daily x\n; agenda: allow Percent\n@daily a%b\n|:2: error [WrongParts];:3: warning [Percent]
ROWS

# ---- comments at the head of a file

deny_texts <<'ROWS'
--crontab jobs|# agenda: allow Percent\n@daily a%b\n@daily a%b\n|
--crontab jobs|\n\n# agenda: allow Percent\n\n@daily a%b\n@daily a%b\n|
--crontab jobs|# jobs\n\n \t\n# agenda: allow Percent\n# more\n\t\n@daily a%b\n@daily a%b\n|
--crontab jobs|# agenda: allow Percent\n# agenda: allow EitherDay\n@daily a%b\n0 9 13 * 5 a%b\n|
--crontab jobs|# agenda: allow Percent EitherDay\n@daily a%b\n0 9 13 * 5 a%b\n0 0 31 2 * a\n|:4: warning [NeverStarts]
--crontab jobs|A=b\n# agenda: allow Percent\n@daily a%b\n@daily a%b\n|:4: warning [Percent]
--crontab jobs|@daily a%b\n# agenda: allow Percent\n@daily a%b\n|:1: warning [Percent]
a.timer|# agenda: allow TimerRejected\n[Timer]\n|
a.timer|; agenda: allow Delayed\n\n[Timer]\nOnCalendar=daily\nRandomizedDelaySec=1h\nOnCalender=x\n|:6: warning [UnknownKey]
a.timer|; agenda: allow NoEvents Monotonic\n[Timer]\nOnBootSec=5\n|
a.timer|[Timer]\n# agenda: allow TimerRejected\n|: warning [TimerRejected]
a.timer|\\\n# agenda: allow TimerRejected\n[Timer]\n|: warning [TimerRejected]
a.timer|# x\r\n\r\n; agenda: allow TimerRejected\r\n\r\n[Timer]\r\n|
ROWS

# ---- comments and options

deny_texts <<'ROWS'
--deny all --crontab jobs|@daily x\n# agenda: allow Percent\n@daily a%b\n@daily a%b\n|:4: error [Percent]
--deny Percent --crontab jobs|@daily x\n# agenda: allow Percent\n@daily a%b\n@daily a%b\n|:4: error [Percent]
--deny all --crontab jobs|# agenda: allow Percent\n@daily a%b\n@daily a%b\n|
--deny all --allow EitherDay --crontab jobs|# agenda: allow Percent\n@daily a%b\n0 9 13 * 5 a%b\n0 0 31 2 * a\n|:4: error [NeverStarts]
--allow Percent --crontab jobs|@daily x\n# agenda: allow EitherDay\n0 9 13 * 5 a%b\n|
ROWS

# The comments of a file are of that file alone.
deny_file one '# agenda: allow Percent\n@daily a%b\n'
deny_file two '@daily a%b\n'
deny_file three '# agenda: allow EitherDay\n@daily u a\n'
run_in "$deny_folder" agenda check --deny all --crontab one --spool two --cron-d three
deny_compare "check --deny all of three files" 'two:1: error [Percent]'
run_in "$deny_folder" agenda check --deny all --crontab two --spool one
deny_compare "check --deny all of two files" 'two:1: error [Percent]'

# Many warnings and many comments: each line has a comment of its own, and the head has many words.
{ yes '# agenda: allow Percent' | head -n 5000; echo; yes '# agenda: allow EitherDay
0 9 13 * 5 a%b' | head -n 20000; } >"$deny_folder/jobs"
run_in "$deny_folder" agenda check --deny all --crontab jobs
deny_compare "check --deny all of many comments" 'jobs:7003: error [Full];jobs:10005: error [CronIgnores]'

# ---- usage errors

deny_usage <<'ROWS'
check --deny Percnt|error: invalid value 'Percnt' for '--deny <CODE>'\n\n  tip: a similar code exists: 'Percent'
check --deny all --deny eitherdays|error: invalid value 'eitherdays' for '--deny <CODE>'\n\n  tip: a similar code exists: 'EitherDay'
check --deny=badzon|error: invalid value 'badzon' for '--deny <CODE>'\n\n  tip: a similar code exists: 'BadZone'
check --deny=|error: invalid value '' for '--deny <CODE>'\n\n  tip: a similar code exists: 'Full'
check --allow NeverStart|error: invalid value 'NeverStart' for '--allow <CODE>'\n\n  tip: a similar code exists: 'NeverStarts'
check --allow all|error: invalid value 'all' for '--allow <CODE>'\n\n  tip: a similar code exists: 'Full'
check --allow Percent --deny x --allow y|error: invalid value 'x' for '--deny <CODE>'\n\n  tip: a similar code exists: 'Full'
check --deny Percent,EitherDay|error: invalid value 'Percent,EitherDay' for '--deny <CODE>'\n\n  tip: a similar code exists: 'EitherDay'
check --allow OutOfRange|error: invalid value 'OutOfRange' for '--allow <CODE>': an error can't be allowed, only a warning
check --allow outofrange --allow x|error: invalid value 'outofrange' for '--allow <CODE>': an error can't be allowed, only a warning
check --deny Percent --allow Percent|error: the argument '--deny Percent' cannot be used with '--allow Percent'
check --allow EitherDay --allow percent --deny PERCENT --deny eitherday|error: the argument '--deny EitherDay' cannot be used with '--allow EitherDay'
check --deny all --deny Percent --allow Percent|error: the argument '--deny Percent' cannot be used with '--allow Percent'
machine check --deny Percnt|error: invalid value 'Percnt' for '--deny <CODE>'\n\n  tip: a similar code exists: 'Percent'
machine check --allow OutOfRange|error: invalid value 'OutOfRange' for '--allow <CODE>': an error can't be allowed, only a warning
machine check --deny Percent --allow Percent|error: the argument '--deny Percent' cannot be used with '--allow Percent'
machine check --deny x --zone a --utc|error: the argument '--zone <ZONE>' cannot be used with '--utc'
ROWS

# ---- a crontab where a timer is expected

deny_outputs <<'ROWS'
jobs|[Timer]\nOnCalendar=daily\n|1|jobs: error: not a timer's name: it must end in .timer and name no template (for a crontab, use --crontab or --cron-d) [BadTimerName]
a.timers|[Timer]\nOnCalendar=daily\n|1|a.timers: error: not a timer's name: it must end in .timer and name no template (for a crontab, use --crontab or --cron-d) [BadTimerName]
a.Timer|[Timer]\nOnCalendar=daily\n|1|a.Timer: error: not a timer's name: it must end in .timer and name no template (for a crontab, use --crontab or --cron-d) [BadTimerName]
a@.timer|[Timer]\nOnCalendar=daily\n|1|a@.timer: error: not a timer's name: it must end in .timer and name no template [BadTimerName]
.timer|[Timer]\nOnCalendar=daily\n|1|.timer: error: not a timer's name: it must end in .timer and name no template [BadTimerName]
--json jobs|[Timer]\nOnCalendar=daily\n|1|{"path":"jobs","line":null,"severity":"error","code":"BadTimerName","text":"not a timer's name: it must end in .timer and name no template (for a crontab, use --crontab or --cron-d)"}
ROWS

# ---- machines

# Rows from standard input: a root, the options, and the findings. Each has a path, the `:` after it and the rest, and a `;` at its end.
deny_roots() {
  local root options findings words finding text=
  while IFS='|' read -r root options findings; do
    program_make "$root"
    read -r -a words <<<"$options"
    program_run check --root "$machine_root" "${words[@]}"
    text=
    while IFS= read -r -d ';' finding; do
      machine_path "${finding%%:*}"
      text+="${text:+;}$machine_root/$path:${finding#*:}"
    done <<<"$findings"
    deny_compare "machine check $options of '$root'" "$text"
  done
}

deny_roots <<'ROWS'
S/u=0\x209\x2013\x20*\x205\x20a%b\n||S/u:1: warning [EitherDay];S/u:1: warning [Percent];
S/u=0\x209\x2013\x20*\x205\x20a%b\n|--deny all|S/u:1: error [EitherDay];S/u:1: error [Percent];
S/u=0\x209\x2013\x20*\x205\x20a%b\n|--deny percent|S/u:1: warning [EitherDay];S/u:1: error [Percent];
S/u=0\x209\x2013\x20*\x205\x20a%b\n|--deny all --allow Percent|S/u:1: error [EitherDay];
S/u=0\x209\x2013\x20*\x205\x20a%b\n|--allow Percent --allow EitherDay|
S/u=#\x20agenda:\x20allow\x20Percent\n0\x209\x2013\x20*\x205\x20a%b\n|--deny all|S/u:2: error [EitherDay];
C/a=@daily\x20u\x20x\n#\x20agenda:\x20allow\x20EitherDay\n0\x209\x2013\x20*\x205\x20u\x20a\n S/u=0\x209\x2013\x20*\x205\x20a\n|--deny all|S/u:1: error [EitherDay];
*a.timer U/a.timer=[Timer]\n;\x20agenda:\x20allow\x20UnknownKey\nOnCalender=x\nOnCalendar=daily\n|--deny all|
*a.timer U/a.timer=DAILY E/a.timer.d/b.conf=[Timer]\nOnCalender=x\n|--deny all|E/a.timer.d/b.conf:2: error [UnknownKey];
*a.timer U/a.timer=DAILY E/a.timer.d/b.conf=[Timer]\n#\x20agenda:\x20allow\x20UnknownKey\nOnCalender=x\nOnCalendar2=x\n|--deny all|E/a.timer.d/b.conf:4: error [UnknownKey];
*a.timer U/a.timer=#\x20agenda:\x20allow\x20UnknownKey\nDAILY E/a.timer.d/b.conf=[Timer]\nOnCalender=x\n|--deny all|
*a.timer U/a.timer=DAILY E/a.timer.d/b.conf=#\x20agenda:\x20allow\x20UnknownKey\n[Timer]\nOnCalender=x\n|--deny all|E/a.timer.d/b.conf:3: error [UnknownKey];
S/u=@daily\n|--deny all|S/u:1: error [NoCommand];
ROWS
