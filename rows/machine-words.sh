# shellcheck shell=bash disable=SC2154
# What the words of the commands of `agenda machine` ask for: the texts of help, and of usage. In the rows the words have `|` between
# them; `machine` and the name of the program aren't among them. rows/words.sh has the help of `machine` itself.

machine_words_folder=$work/machine-words

# Runs `agenda machine` with the words $1.
machine_words_run() {
  local words
  IFS='|' read -ra words <<<"$1"
  run_in "$machine_words_folder" agenda machine "${words[@]}"
}

machine_words_make_help() {
  cat >"$machine_words_folder/sources.text" <<'END'
Lists a machine's crontabs and timers

Usage: agenda machine sources [OPTIONS]

Options:
      --root <DIR>  Read the machine whose root directory is DIR [default: /]
      --all         Include timers that aren't enabled
      --json        Print each line as a JSON object; agenda(1)
                    describes the keys
  -h, --help        Print help

Prints a line for each crontab and each timer: its kind, its name and its path, separated
by tabs. The kinds are system-crontab, cron-d, spool and timer. After a timer there is a
line of the kind drop-in for each of its drop-ins. Standard error has a line for each file
that is skipped or isn't planned. The exit status is 1 if a file or a directory can't be
read, otherwise 0.

Example:
  agenda machine sources --root /mnt --all
END
  cat >"$machine_words_folder/check.text" <<'END'
Prints errors and likely mistakes in a machine's crontabs and timers

Usage: agenda machine check [OPTIONS]

Options:
      --root <DIR>    Read the machine whose root directory is DIR [default: /]
      --all           Include timers that aren't enabled
      --zone <ZONE>   The time zone of the rules, such as Europe/Berlin,
                      or the path of a TZif file; that of the machine
                      if it isn't given
      --utc           Read the rules in UTC, like --zone UTC, and print
                      times in UTC
      --deny <CODE>   Print this warning as an error, with status 1; all is
                      every warning; may be given more than once
      --allow <CODE>  Don't print this warning, even with --deny all; may be
                      given more than once
      --json          Print each line as a JSON object; agenda(1)
                      describes the keys
  -h, --help          Print help

Prints all errors and warnings about the files that 'agenda machine sources' lists, in the
form of 'agenda check'. Each names the file and the line that it is about, even if that is
a line of a drop-in. Standard error has a line for each file that is skipped or isn't
planned. The exit status is 1 if there is an error, or if a file or a directory can't be
read, otherwise 0.

Example:
  agenda machine check --root /mnt --zone Europe/Berlin
END
}

machine_words_make_answers_help() {
  cat >"$machine_words_folder/upcoming.text" <<'END'
Prints when each job of a machine starts next

Usage: agenda machine upcoming [OPTIONS]

Options:
      --root <DIR>        Read the machine whose root directory is DIR [default: /]
      --all               Include timers that aren't enabled
      --after <TIME>      Only starts later than this time, such as
                          'tomorrow 02:00', '2026-12-01 22:00' or +8h [default: now]
      --zone <ZONE>       The time zone of the rules, such as Europe/Berlin,
                          or the path of a TZif file; that of the machine
                          if it isn't given
      --utc               Read the rules in UTC, like --zone UTC, and print
                          times in UTC
      --except <PATTERN>  Ignore the jobs and crontabs with such a name: in it
                          * stands for any bytes and ? for one byte; may be
                          given more than once
      --only <PATTERN>    Ignore all other jobs; may be given more than once
      --idle              Include idle jobs, whose commands do nothing on the
                          machine; otherwise they are only reported
      --delays            Show each start with the latest time at which it may
                          happen (RandomizedDelaySec= and AccuracySec=)
      --strict            Let an error in a file stop the answer, instead of
                          skipping what is invalid
      --table             Print a table, also if standard output isn't a terminal
      --text              Print text, also on a terminal
      --json              Print each line as a JSON object; agenda(1)
                          describes the keys
  -h, --help              Print help

Prints what 'agenda upcoming' prints, about the files that 'agenda machine sources' lists.
Times are those of the machine's clocks, with their offset from UTC. Standard error has a
line for each file that is skipped or isn't planned, and the errors of the files. The exit
status is 1 if there is such an error or if a file can't be read, otherwise 0.

Example:
  agenda machine upcoming --root /mnt --delays
END
  cat >"$machine_words_folder/next.text" <<'END'
Prints the next starts of a rule by the machine's clock

Usage: agenda machine next [OPTIONS] <RULE>

Arguments:
  <RULE>  A cron rule of five words, or one that begins with @,
          or a calendar event of systemd; put it in quotes

Options:
      --after <TIME>  Only starts later than this time, such as
                      'tomorrow 02:00', '2026-12-01 22:00' or +8h [default: now]
      --count <N>     How many starts, from 1 to 1000 [default: 5]
      --zone <ZONE>   The time zone of the rules, such as Europe/Berlin,
                      or the path of a TZif file; that of the machine
                      if it isn't given
      --utc           Read the rules in UTC, like --zone UTC, and print
                      times in UTC
      --table         Print a table, also if standard output isn't a terminal
      --text          Print text, also on a terminal
      --json          Print each line as a JSON object; agenda(1)
                      describes the keys
  -h, --help          Print help

Prints what 'agenda next' prints of the rule, in the time zone of the machine that agenda
runs on. Times are those of its clocks, with their offset from UTC. A RULE of five words,
or that begins with @, is a cron rule; any other is a calendar event, which may end with a
time zone.

Examples:
  agenda machine next '30 2 * * *'
  agenda machine next 'Mon..Fri 09:00 Europe/Berlin' --count 1
END
  cat >"$machine_words_folder/describe.text" <<'END'
Says in words when each job of a machine starts

Usage: agenda machine describe [OPTIONS] [RULE]

Arguments:
  [RULE]  A cron rule of five words, or one that begins with @,
          or a calendar event of systemd; put it in quotes

Options:
      --root <DIR>        Read the machine whose root directory is DIR [default: /]
      --all               Include timers that aren't enabled
      --zone <ZONE>       The time zone of the rules, such as Europe/Berlin,
                          or the path of a TZif file; that of the machine
                          if it isn't given
      --utc               Read the rules in UTC, like --zone UTC, and print
                          times in UTC
      --except <PATTERN>  Ignore the jobs and crontabs with such a name: in it
                          * stands for any bytes and ? for one byte; may be
                          given more than once
      --only <PATTERN>    Ignore all other jobs; may be given more than once
      --idle              Include idle jobs, whose commands do nothing on the
                          machine; otherwise they are only reported
      --strict            Let an error in a file stop the answer, instead of
                          skipping what is invalid
      --table             Print a table, also if standard output isn't a terminal
      --text              Print text, also on a terminal
      --json              Print each line as a JSON object; agenda(1)
                          describes the keys
  -h, --help              Print help

Prints what 'agenda describe' prints, about the files that 'agenda machine sources' lists,
or, with a RULE, about this rule alone. Standard error has a line for each file that is
skipped or isn't planned, and the errors of the files. The exit status is 1 if there is
such an error or if a file can't be read, otherwise 0.

Examples:
  agenda machine describe
  agenda machine describe 'Mon..Fri 09:00 Europe/Berlin'
END
}

machine_words_make_windows_help() {
  cat >"$machine_words_folder/downtime.text" <<'END'
Prints what a machine misses while it is down, and what then

Usage: agenda machine downtime [OPTIONS]

Options:
      --root <DIR>        Read the machine whose root directory is DIR [default: /]
      --all               Include timers that aren't enabled
      --since <TIME>      The start of the span, such as 'tomorrow 02:00',
                          '2026-12-01 22:00' or +8h [default: now]
      --until <TIME>      The end of the span, written in the same way, which
                          isn't in it; 06:00 and +8h are counted from its
                          start [default: +24h] [alias: --upto]
      --zone <ZONE>       The time zone of the rules, such as Europe/Berlin,
                          or the path of a TZif file; that of the machine
                          if it isn't given
      --utc               Read the rules in UTC, like --zone UTC, and print
                          times in UTC
      --except <PATTERN>  Ignore the jobs and crontabs with such a name: in it
                          * stands for any bytes and ? for one byte; may be
                          given more than once
      --only <PATTERN>    Ignore all other jobs; may be given more than once
      --idle              Include idle jobs, whose commands do nothing on the
                          machine; otherwise they are only reported
      --strict            Let an error in a file stop the answer, instead of
                          skipping what is invalid
      --table             Print a table, also if standard output isn't a terminal
      --text              Print text, also on a terminal
      --json              Print each line as a JSON object; agenda(1)
                          describes the keys
      --limit <N>         The maximum number of starts, from 1 to 1000000;
                          more are an error [default: 1000000]
  -h, --help              Print help

Tuning (the output stays the same):
      --planners <N>  How many threads search, from 1 to 8 [default: 2]
      --room <N>      How many messages of each thread may wait,
                      from 1 to 1024 [default: 16]

Prints what 'agenda downtime' prints, about the files that 'agenda machine sources' lists.
Times are those of the machine's clocks, with their offset from UTC. Standard error has a
line for each file that is skipped or isn't planned, and the errors of the files. The exit
status is 1 if there is such an error or if a file can't be read, otherwise 0.

Example:
  agenda machine downtime --since 'sat 22:00' --until 'sun 04:00'
END
  cat >"$machine_words_folder/clear.text" <<'END'
Succeeds if no job of a machine starts in a span

Usage: agenda machine clear [OPTIONS]

Options:
      --root <DIR>        Read the machine whose root directory is DIR [default: /]
      --all               Include timers that aren't enabled
      --since <TIME>      The start of the span, such as 'tomorrow 02:00',
                          '2026-12-01 22:00' or +8h [default: now]
      --until <TIME>      The end of the span, written in the same way, which
                          isn't in it; 06:00 and +8h are counted from its
                          start [default: +24h] [alias: --upto]
      --zone <ZONE>       The time zone of the rules, such as Europe/Berlin,
                          or the path of a TZif file; that of the machine
                          if it isn't given
      --utc               Read the rules in UTC, like --zone UTC, and print
                          times in UTC
      --except <PATTERN>  Ignore the jobs and crontabs with such a name: in it
                          * stands for any bytes and ? for one byte; may be
                          given more than once
      --only <PATTERN>    Ignore all other jobs; may be given more than once
      --idle              Include idle jobs, whose commands do nothing on the
                          machine; otherwise they are only reported
      --nominal           Don't count the delays of timers
      --strict            Let an error in a file stop the answer, instead of
                          skipping what is invalid
  -h, --help              Print help

Tuning (the output stays the same):
      --planners <N>  How many threads search, from 1 to 8 [default: 2]
      --room <N>      How many messages of each thread may wait,
                      from 1 to 1024 [default: 16]

Exit status 0: no start of a job may fall into the span, and nothing is unknown. 1: a start
may, and the first one is printed. 4: none is known to, but a job may start at times that
files don't tell, as standard error says. 2: an argument is rejected.

Example:
  agenda machine clear --until +90min && reboot
END
  cat >"$machine_words_folder/changes.text" <<'END'
Compares a machine's plan with one made before

Usage: agenda machine changes [OPTIONS] <BEFORE>

Arguments:
  <BEFORE>  A file with what 'plan' printed, as text

Options:
      --root <DIR>        Read the machine whose root directory is DIR [default: /]
      --all               Include timers that aren't enabled
      --zone <ZONE>       The time zone of the rules, such as Europe/Berlin,
                          or the path of a TZif file; that of the machine
                          if it isn't given
      --utc               Read the rules in UTC, like --zone UTC, and print
                          times in UTC
      --except <PATTERN>  Ignore the jobs and crontabs with such a name: in it
                          * stands for any bytes and ? for one byte; may be
                          given more than once
      --only <PATTERN>    Ignore all other jobs; may be given more than once
      --idle              Include idle jobs, whose commands do nothing on the
                          machine; otherwise they are only reported
      --strict            Let an error in a file stop the answer, instead of
                          skipping what is invalid
      --table             Print a table, also if standard output isn't a terminal
      --text              Print text, also on a terminal
      --json              Print each line as a JSON object; agenda(1)
                          describes the keys
      --limit <N>         The maximum number of starts, from 1 to 1000000;
                          more are an error [default: 1000000]
  -h, --help              Print help

Tuning (the output stays the same):
      --planners <N>  How many threads search, from 1 to 8 [default: 2]
      --room <N>      How many messages of each thread may wait,
                      from 1 to 1024 [default: 16]

Prints what 'agenda changes' prints, about the files that 'agenda machine sources' lists.
BEFORE has what 'agenda machine plan' printed into a file. Times are those of the machine's
clocks, with their offset from UTC. Standard error has a line for each file that is skipped
or isn't planned, and the errors of the files. The exit status is 1 if a start changed, if
there is such an error or if a file can't be read, otherwise 0.

Example:
  agenda machine plan --until +7d >before
  agenda machine changes before
END
  cat >"$machine_words_folder/week.text" <<'END'
Shows how many jobs of a machine start in each hour

Usage: agenda machine week [OPTIONS]

Options:
      --root <DIR>        Read the machine whose root directory is DIR [default: /]
      --all               Include timers that aren't enabled
      --since <TIME>      The start of the span, such as 'tomorrow 02:00',
                          '2026-12-01 22:00' or +8h [default: today]
      --until <TIME>      The end of the span, written in the same way, which
                          isn't in it; 06:00 and +8h are counted from its
                          start [default: +7d] [alias: --upto]
      --zone <ZONE>       The time zone of the rules, such as Europe/Berlin,
                          or the path of a TZif file; that of the machine
                          if it isn't given
      --utc               Read the rules in UTC, like --zone UTC, and print
                          times in UTC
      --except <PATTERN>  Ignore the jobs and crontabs with such a name: in it
                          * stands for any bytes and ? for one byte; may be
                          given more than once
      --only <PATTERN>    Ignore all other jobs; may be given more than once
      --idle              Include idle jobs, whose commands do nothing on the
                          machine; otherwise they are only reported
      --strict            Let an error in a file stop the answer, instead of
                          skipping what is invalid
      --json              Print each line as a JSON object; agenda(1)
                          describes the keys
      --limit <N>         The maximum number of starts, from 1 to 1000000;
                          more are an error [default: 1000000]
  -h, --help              Print help

Tuning (the output stays the same):
      --planners <N>  How many threads search, from 1 to 8 [default: 2]
      --room <N>      How many messages of each thread may wait,
                      from 1 to 1024 [default: 16]

Prints what 'agenda week' prints, about the files that 'agenda machine sources' lists, in
the machine's time zone: a week from the start of today, if no span is given. Standard
error has a line for each file that is skipped or isn't planned, and the errors of the
files. The exit status is 1 if there is such an error or if a file can't be read, otherwise
0.

Example:
  agenda machine week --since 'mon' --until '+7d'
END
}

machine_words_make_scripts_help() {
  cat >"$machine_words_folder/scripts.text" <<'END'
Lists the scripts that run-parts starts, with the next start of each

Usage: agenda machine scripts [OPTIONS]

Options:
      --root <DIR>        Read the machine whose root directory is DIR [default: /]
      --all               Include timers that aren't enabled
      --after <TIME>      Only starts later than this time, such as
                          'tomorrow 02:00', '2026-12-01 22:00' or +8h [default: now]
      --zone <ZONE>       The time zone of the rules, such as Europe/Berlin,
                          or the path of a TZif file; that of the machine
                          if it isn't given
      --utc               Read the rules in UTC, like --zone UTC, and print
                          times in UTC
      --except <PATTERN>  Ignore the jobs and crontabs with such a name: in it
                          * stands for any bytes and ? for one byte; may be
                          given more than once
      --only <PATTERN>    Ignore all other jobs; may be given more than once
      --idle              Include idle jobs, whose commands do nothing on the
                          machine; otherwise they are only reported
      --strict            Let an error in a file stop the answer, instead of
                          skipping what is invalid
  -h, --help              Print help

Prints a line for each script that a job of the machine starts by run-parts, such as those
in /etc/cron.daily: the name of the job, the time of its next start and the path of the
script, separated by tabs. A job starts its scripts one after the other, in the order of
their lines. Times are those of the machine's clocks, with their offset from UTC. Standard
error has a line for each file that is skipped or isn't planned, and the errors of the
files. The exit status is 1 if there is such an error or if a file can't be read, otherwise
0.

Examples:
  agenda machine scripts
  agenda machine scripts --after 'tomorrow'
END
}

# Each row has a text and words that ask for it.
machine_words_tell_help() {
  local text words
  while IFS=' ' read -r text words; do
    machine_words_run "$words"
    compare "words: machine|$words" "$machine_words_folder/$text.text" /dev/null 0
  done <<'END'
sources sources|--help
sources sources|-h
sources sources|--root|none|--all|--json|-h
upcoming upcoming|--help
upcoming --after|x|-h
upcoming --all|--help
check check|--help
check check|-h
check check|--root|none|--utc|--zone|UTC|-h
next next|--help
next next|daily|--utc|-h
describe describe|--help
describe describe|daily|--root|none|-h
downtime downtime|--help
downtime downtime|--since|x|--utc|--table|-h
clear clear|--help
clear clear|--root|none|--nominal|-h
changes changes|--help
changes changes|nothing|--root|none|-h
week week|--help
week week|--until|x|--zone|Nowhere/City|-h
scripts scripts|--help
scripts scripts|--root|none|--idle|-h
END
}

# The words $1 are no use of the program, and standard input has the text that says so.
machine_words_tell_usage() {
  cat >"$machine_words_folder/usage"
  machine_words_run "$1"
  compare "words: machine|$1" /dev/null "$machine_words_folder/usage" 2
}

machine_words_tell_usages() {
  local words
  machine_words_tell_usage 'source' <<'END'
error: unrecognized subcommand 'source'

  tip: a similar subcommand exists: 'sources'

Usage: agenda machine [COMMAND] [OPTIONS]

For more information, try '--help'.
END
  machine_words_tell_usage 'check|--local' <<'END'
error: unexpected argument '--local' found

Usage: agenda machine check [OPTIONS]

For more information, try '--help'.
END
  machine_words_tell_usage 'plan|tomorrow' <<'END'
error: unexpected argument 'tomorrow' (for a time, use --since or --until)

Usage: agenda machine plan [OPTIONS]

For more information, try '--help'.
END
  machine_words_tell_usage 'clear|tomorrow' <<'END'
error: unexpected argument 'tomorrow' (for a time, use --since or --until)

Usage: agenda machine clear [OPTIONS]

For more information, try '--help'.
END
  machine_words_tell_usage 'next|daily|tomorrow' <<'END'
error: unexpected argument 'tomorrow' (for a time, use --after)

Usage: agenda machine next [OPTIONS] <RULE>

For more information, try '--help'.
END
  for words in 'check|--zone|Europe/Berlin|--utc' 'check|--utc|--root=none|--zone=UTC' 'check|--utc|--zone=' '--utc|--zone=UTC' \
    'upcoming|--utc|--zone=UTC' 'plan|--utc|--zone=UTC' 'quiet|--utc|--zone=UTC' 'next|daily|--utc|--zone=UTC' 'describe|--utc|--zone=UTC' 'describe|daily|--utc|--zone=UTC' \
    'downtime|--utc|--zone=UTC' 'clear|--utc|--zone=UTC' 'changes|before|--utc|--zone=UTC' 'week|--zone=UTC|--utc' 'scripts|--utc|--zone=UTC'; do
    machine_words_tell_usage "$words" <<'END'
error: the argument '--zone <ZONE>' cannot be used with '--utc'

For more information, try '--help'.
END
  done
  for words in '--table|--text' 'plan|--text|--json|--table' 'quiet|--text|--table' 'downtime|--table|--text' 'next|daily|--table|--text' 'describe|daily|--table|--text'; do
    machine_words_tell_usage "$words" <<'END'
error: the argument '--table' cannot be used with '--text'

For more information, try '--help'.
END
  done
  for words in 'upcoming|--json|--table' 'downtime|--table|--json' 'next|--json|daily|--table' 'describe|--json|--table'; do
    machine_words_tell_usage "$words" <<'END'
error: the argument '--table' cannot be used with '--json'

For more information, try '--help'.
END
  done
  machine_words_tell_usage 'plan|--text|--json' <<'END'
error: the argument '--text' cannot be used with '--json'

For more information, try '--help'.
END
}

# Each row has words that are no use of the program, ` => ` and the first line of the text that says so.
machine_words_begin_usage() {
  local row words
  while IFS= read -r row; do
    words=${row%% => *}
    printf '%s\n' "${row#* => }" >"$machine_words_folder/usage"
    machine_words_run "$words"
    head -n 1 "$work/err" >"$machine_words_folder/begin"
    mv -- "$machine_words_folder/begin" "$work/err"
    compare "words: machine|$words" /dev/null "$machine_words_folder/usage" 2
  done <<'END'
machine => error: unrecognized subcommand 'machine'
help => error: unrecognized subcommand 'help'
Check => error: unrecognized subcommand 'Check'
--version => error: unexpected argument '--version' found
--all|sources => error: unexpected argument 'sources' (for a time, use --after)
--root|.|sources => error: unexpected argument 'sources' (for a time, use --after)
--since=x => error: unexpected argument '--since' found
--|sources => error: unexpected argument 'sources' (for a time, use --after)
--utc|22:00 => error: unexpected argument '22:00' (for a time, use --after)
sources|check => error: unexpected argument 'check' found
sources|a.timer => error: unexpected argument 'a.timer' found
sources|tomorrow => error: unexpected argument 'tomorrow' found
sources|--root => error: a value is required for '--root <DIR>' but none was supplied
sources|--root=a|--root=a => error: the argument '--root <DIR>' cannot be used multiple times
sources|--all|--all => error: the argument '--all' cannot be used multiple times
sources|--all=yes => error: unexpected value 'yes' for '--all' found; no more were expected
sources|--json|--json => error: the argument '--json' cannot be used multiple times
sources|--zone=UTC => error: unexpected argument '--zone' found
sources|--utc => error: unexpected argument '--utc' found
sources|--crontab=a => error: unexpected argument '--crontab' found
sources|--keep-going => error: unexpected argument '--keep-going' found
sources|--version => error: unexpected argument '--version' found
describe|daily|hourly => error: unexpected argument 'hourly' found
describe|--after=now => error: unexpected argument '--after' found
describe|--count=1 => error: unexpected argument '--count' found
sources|-x => error: unexpected argument '-x' found
check|a.timer => error: unexpected argument 'a.timer' found
check|tomorrow => error: unexpected argument 'tomorrow' found
check|--root => error: a value is required for '--root <DIR>' but none was supplied
check|--root=a|--root=b => error: the argument '--root <DIR>' cannot be used multiple times
check|--deny => error: a value is required for '--deny <CODE>' but none was supplied
check|--all|--all => error: the argument '--all' cannot be used multiple times
check|--zone => error: a value is required for '--zone <ZONE>' but none was supplied
check|--zone=UTC|--zone=UTC => error: the argument '--zone <ZONE>' cannot be used multiple times
check|--utc|--utc => error: the argument '--utc' cannot be used multiple times
check|--utc=yes => error: unexpected value 'yes' for '--utc' found; no more were expected
check|--json=yes => error: unexpected value 'yes' for '--json' found; no more were expected
check|--crontab=a => error: unexpected argument '--crontab' found
check|--event-zones => error: unexpected argument '--event-zones' found
check|--keep-going => error: unexpected argument '--keep-going' found
check|--since=x => error: unexpected argument '--since' found
check|--version => error: unexpected argument '--version' found
upcoming|tomorrow => error: unexpected argument 'tomorrow' (for a time, use --after)
upcoming|--after|now|tomorrow|02:00 => error: unexpected argument 'tomorrow' (for a time, use --after)
upcoming|22:00|--all => error: unexpected argument '22:00' (for a time, use --after)
upcoming|--since=x => error: unexpected argument '--since' found
upcoming|--after=x|--after=x => error: the argument '--after <TIME>' cannot be used multiple times
upcoming|--except => error: a value is required for '--except <PATTERN>' but none was supplied
--except => error: a value is required for '--except <PATTERN>' but none was supplied
upcoming|--nominal => error: unexpected argument '--nominal' found
upcoming|--limit=1 => error: unexpected argument '--limit' found
plan|tomorrow 02:00 => error: unexpected argument 'tomorrow 02:00' (for a time, use --since or --until)
plan|--since|now|tomorrow => error: unexpected argument 'tomorrow' (for a time, use --since or --until)
plan|--|+8h => error: unexpected argument '+8h' (for a time, use --since or --until)
plan|don't => error: unexpected argument 'don't' (for a time, use --since or --until)
plan|' found => error: unexpected argument '' found' (for a time, use --since or --until)
plan|-8h => error: unexpected argument '-8' found
plan|--tomorrow => error: unexpected argument '--tomorrow' found
quiet|sat => error: unexpected argument 'sat' (for a time, use --since or --until)
quiet|--least|2h|sun|04:00 => error: unexpected argument 'sun' (for a time, use --since or --until)
plan|--after=x => error: unexpected argument '--after' found
plan|--except|a|--except => error: a value is required for '--except <PATTERN>' but none was supplied
plan|--only|a|--only => error: a value is required for '--only <PATTERN>' but none was supplied
plan|--except|a|b => error: unexpected argument 'b' (for a time, use --since or --until)
quiet|--except => error: a value is required for '--except <PATTERN>' but none was supplied
plan|--since => error: a value is required for '--since <TIME>' but none was supplied
plan|--until=x|--upto=x => error: the argument '--until <TIME>' cannot be used multiple times
plan|--least=1 => error: unexpected argument '--least' found
plan|--local => error: unexpected argument '--local' found
plan|--limit=x => error: invalid value 'x' for '--limit <N>': invalid digit found in string
quiet|--delays => error: unexpected argument '--delays' found
check|--except=a => error: unexpected argument '--except' found
check|--only=a => error: unexpected argument '--only' found
sources|--except=a => error: unexpected argument '--except' found
sources|--only=a => error: unexpected argument '--only' found
check|--idle => error: unexpected argument '--idle' found
sources|--idle => error: unexpected argument '--idle' found
plan|--idle|--idle => error: the argument '--idle' cannot be used multiple times
describe|--idle=yes => error: unexpected value 'yes' for '--idle' found; no more were expected
check|--strict => error: unexpected argument '--strict' found
sources|--strict => error: unexpected argument '--strict' found
plan|--strict|--strict => error: the argument '--strict' cannot be used multiple times
quiet|--strict=yes => error: unexpected value 'yes' for '--strict' found; no more were expected
check|--table => error: unexpected argument '--table' found
sources|--text => error: unexpected argument '--text' found
plan|--table|--table => error: the argument '--table' cannot be used multiple times
quiet|--text=yes => error: unexpected value 'yes' for '--text' found; no more were expected
downtime|sat 22:00 => error: unexpected argument 'sat 22:00' (for a time, use --since or --until)
downtime|--since|now|tomorrow => error: unexpected argument 'tomorrow' (for a time, use --since or --until)
downtime|--|+8h => error: unexpected argument '+8h' (for a time, use --since or --until)
downtime|a.timer => error: unexpected argument 'a.timer' (for a time, use --since or --until)
downtime|--since => error: a value is required for '--since <TIME>' but none was supplied
downtime|--since=x|--since=y => error: the argument '--since <TIME>' cannot be used multiple times
downtime|--until=x|--upto=x => error: the argument '--until <TIME>' cannot be used multiple times
downtime|--after=x => error: unexpected argument '--after' found
downtime|--least=1 => error: unexpected argument '--least' found
downtime|--delays => error: unexpected argument '--delays' found
downtime|--nominal => error: unexpected argument '--nominal' found
downtime|--local => error: unexpected argument '--local' found
downtime|--keep-going => error: unexpected argument '--keep-going' found
downtime|--event-zones => error: unexpected argument '--event-zones' found
downtime|--crontab=a => error: unexpected argument '--crontab' found
downtime|--limit=x => error: invalid value 'x' for '--limit <N>': invalid digit found in string
downtime|--except => error: a value is required for '--except <PATTERN>' but none was supplied
downtime|--strict|--strict => error: the argument '--strict' cannot be used multiple times
downtime|--version => error: unexpected argument '--version' found
clear|+90min => error: unexpected argument '+90min' (for a time, use --since or --until)
clear|--until|+8h|sun => error: unexpected argument 'sun' (for a time, use --since or --until)
clear|--until=x|--upto=x => error: the argument '--until <TIME>' cannot be used multiple times
clear|--since=x|--since=y => error: the argument '--since <TIME>' cannot be used multiple times
clear|--delays => error: unexpected argument '--delays' found
clear|--limit=1 => error: unexpected argument '--limit' found
clear|--json => error: unexpected argument '--json' found
clear|--table => error: unexpected argument '--table' found
clear|--text => error: unexpected argument '--text' found
clear|--local => error: unexpected argument '--local' found
clear|--nominal|--nominal => error: the argument '--nominal' cannot be used multiple times
clear|--nominal=yes => error: unexpected value 'yes' for '--nominal' found; no more were expected
clear|--planners=x => error: invalid value 'x' for '--planners <N>': invalid digit found in string
clear|--keep-going => error: unexpected argument '--keep-going' found
clear|--version => error: unexpected argument '--version' found
changes => error: the following required arguments were not provided:
changes|before|--since=x => error: unexpected argument '--since' found
changes|before|--until=x => error: unexpected argument '--until' found
changes|before|--delays => error: unexpected argument '--delays' found
changes|before|--local => error: unexpected argument '--local' found
changes|before|--keep-going => error: unexpected argument '--keep-going' found
changes|before|--event-zones => error: unexpected argument '--event-zones' found
changes|before|--crontab=a => error: unexpected argument '--crontab' found
changes|before|--json|--json => error: the argument '--json' cannot be used multiple times
changes|before|--strict=yes => error: unexpected value 'yes' for '--strict' found; no more were expected
changes|before|--limit=x => error: invalid value 'x' for '--limit <N>': invalid digit found in string
changes|before|--version => error: unexpected argument '--version' found
week|mon => error: unexpected argument 'mon' (for a time, use --since or --until)
week|--since|mon|sun => error: unexpected argument 'sun' (for a time, use --since or --until)
week|--until=x|--upto=x => error: the argument '--until <TIME>' cannot be used multiple times
week|--since=x|--since=y => error: the argument '--since <TIME>' cannot be used multiple times
week|--delays => error: unexpected argument '--delays' found
week|--nominal => error: unexpected argument '--nominal' found
week|--table => error: unexpected argument '--table' found
week|--text => error: unexpected argument '--text' found
week|--local => error: unexpected argument '--local' found
week|--json|--json => error: the argument '--json' cannot be used multiple times
week|--limit=4294967296 => error: invalid value '4294967296' for '--limit <N>': 4294967296 is not in 0..=4294967295
week|--room=-1 => error: invalid value '-1' for '--room <N>': -1 is not in 0..=4294967295
week|--version => error: unexpected argument '--version' found
scripts|tomorrow => error: unexpected argument 'tomorrow' (for a time, use --after)
scripts|--after|now|tomorrow => error: unexpected argument 'tomorrow' (for a time, use --after)
scripts|--since=x => error: unexpected argument '--since' found
scripts|--after=x|--after=x => error: the argument '--after <TIME>' cannot be used multiple times
scripts|--except => error: a value is required for '--except <PATTERN>' but none was supplied
scripts|--delays => error: unexpected argument '--delays' found
scripts|--table => error: unexpected argument '--table' found
scripts|--text => error: unexpected argument '--text' found
scripts|--json => error: unexpected argument '--json' found
scripts|--limit=1 => error: unexpected argument '--limit' found
Downtime => error: unrecognized subcommand 'Downtime'
--nominal => error: unexpected argument '--nominal' found
next => error: the following required arguments were not provided:
next|daily|weekly => error: unexpected argument 'weekly' (for a time, use --after)
next|daily|--count|2|tomorrow => error: unexpected argument 'tomorrow' (for a time, use --after)
next|daily|--root=. => error: unexpected argument '--root' found
next|daily|--all => error: unexpected argument '--all' found
next|daily|--except=a => error: unexpected argument '--except' found
next|daily|--only=a => error: unexpected argument '--only' found
next|daily|--idle => error: unexpected argument '--idle' found
next|daily|--strict => error: unexpected argument '--strict' found
next|daily|--delays => error: unexpected argument '--delays' found
next|daily|--table|--table => error: the argument '--table' cannot be used multiple times
next|daily|--since=x => error: unexpected argument '--since' found
next|daily|--local => error: unexpected argument '--local' found
next|--cron=@daily => error: unexpected argument '--cron' found
next|daily|--count=x => error: invalid value 'x' for '--count <N>': invalid digit found in string
next|daily|--after=x|--after=x => error: the argument '--after <TIME>' cannot be used multiple times
next|-1 => error: unexpected argument '-1' found
END
}

# Only the first word after the name of the program is `machine`: these words aren't those of `agenda machine`. Each row has words, ` => `
# and the first line of the text that says that they are no use of the program.
machine_words_elsewhere() {
  local row words
  while IFS= read -r row; do
    words=${row%% => *}
    printf '%s\n' "${row#* => }" >"$machine_words_folder/usage"
    IFS='|' read -ra words <<<"$words"
    run_in "$machine_words_folder" agenda "${words[@]}"
    head -n 1 "$work/err" >"$machine_words_folder/begin"
    mv -- "$machine_words_folder/begin" "$work/err"
    compare "words: ${row%% => *}" /dev/null "$machine_words_folder/usage" 2
  done <<'END'
--|machine|sources => error: unexpected argument 'machine' found
Machine|sources => error: unrecognized subcommand 'Machine'
machin|sources => error: unrecognized subcommand 'machin'
help|machine => error: unrecognized subcommand 'help'
explain|machine => error: invalid value 'machine' for '[CODE]'
END
}

mkdir -p "$machine_words_folder"
machine_words_make_help
machine_words_make_answers_help
machine_words_make_windows_help
machine_words_make_scripts_help
machine_words_tell_help
machine_words_tell_usages
machine_words_begin_usage
machine_words_elsewhere
