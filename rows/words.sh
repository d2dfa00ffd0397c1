# shellcheck shell=bash disable=SC2154
# What the words of the command line ask for: the texts of help, of the version and of usage, and, by what the program does, how it
# reads each word. In the rows the words have `|` between them; the name of the program isn't among them. Those of the commands of
# `agenda machine` are in rows/machine-words.sh.

# Runs the program with the words $1.
words_run() {
  local words
  IFS='|' read -ra words <<<"$1"
  run_in "$work/words" agenda "${words[@]}"
}

# The files that the rows name: a script says its own name, and a timer is that of its name.
words_make_files() {
  local name
  mkdir -p "$work/words/a b" "$work/words/etc"
  for name in script "a b/c" skript-ä - --help; do
    printf 'mailbox 1 1\nsend 0 this is %s\ntake\n' "$name" >"$work/words/$name"
  done
  for name in a.timer c.timer --limit.timer --limit; do
    printf '[Timer]\nOnCalendar=daily\n' >"$work/words/$name"
  done
  printf '[Timer]\nOnCalendar=*-*-* 0/12:00\n' >"$work/words/b.timer"
  printf 'agenda 2\t2024-01-01T00:00:00Z\t2024-01-02T00:00:00Z\t0\n' >"$work/words/before"
  printf '[Timer]\nOnCalendar=*:*:*\n' >"$work/words/second.timer"
  for name in jobs etc/crontab "my jobs-ä"; do
    printf '@daily root says %s\n' "$name" >"$work/words/$name"
  done
}

words_make_help_of_agenda() {
  cat >"$work/words/agenda.text" <<'END'
Shows when cron jobs and systemd timers will run

Usage: agenda <COMMAND>

Commands:
  next      Prints the next starts of one rule
  plan      Prints every start of crontabs and timers in a span of time
  upcoming  Prints when each job of crontabs and timers starts next
  quiet     Prints the gaps in which no job of crontabs and timers starts
  downtime  Prints what a machine misses while it is down, and what then
  clear     Succeeds if no job of crontabs and timers starts in a span
  changes   Compares a plan with one that was made before
  week      Shows how many jobs start in each hour of a span
  check     Prints errors and likely mistakes in crontabs and timers
  describe  Says in words when a rule or each job starts
  machine   Answers questions about a machine's crontabs and timers
  explain   Explains a code, such as OutOfRange, and what to do about it
  steps     Runs a script of steps on a mailbox, for testing

Options:
  -h, --help     Print help
  -V, --version  Print version

Times are given and printed in UTC, for the years 1970 to 2999. Rules are read in UTC, or
in the time zone that you give with --zone; --local prints times in that zone, too.
'agenda machine' finds the crontabs, the timers and the time zone of a machine. agenda(1)
describes the formats, the limits and every error.

Examples:
  agenda next --cron @daily --after 2024-01-01T00:00:00Z
  agenda plan --since 2024-01-01T00:00:00Z --until 2024-01-02T00:00:00Z backup.timer
  agenda upcoming --after 2024-01-01T00:00:00Z --crontab jobs backup.timer
  agenda quiet --since 2024-01-01T00:00:00Z --until 2024-01-02T00:00:00Z --crontab jobs
  agenda check --crontab jobs backup.timer
  agenda describe --cron '0 0 1,15 * 5'
  agenda machine check
  agenda explain OutOfRange
  agenda steps script
END
}

words_make_help_of_next() {
  cat >"$work/words/next.text" <<'END'
Prints the next starts of one rule

Usage: agenda next [OPTIONS] --after <T> (--cron <TEXT> | --calendar <TEXT>)

Options:
      --after <T>        Only starts later than this time, in UTC, such as
                         2024-01-01T00:00:00Z; the years are 1970 to 2999
      --zone <ZONE>      The time zone of the rules, such as Europe/Berlin,
                         or the path of a TZif file; UTC if it isn't given
      --event-zones      Read events that end with a time zone, such as
                         'Mon..Fri 09:00 Europe/Berlin'
      --count <N>        How many starts, from 1 to 1000 [default: 1]
      --cron <TEXT>      A cron rule: minute, hour, day of month, month and day
                         of week, or @hourly, @daily, @weekly, @monthly, @yearly
      --calendar <TEXT>  A calendar event, such as 'Mon..Fri *-*-* 04:30' or daily
      --json             Print each line as a JSON object; agenda(1)
                         describes the keys
      --local            Print times in the time zone of --zone, such as
                         2024-03-31T03:00:00+02:00
  -h, --help             Print help

Give exactly one of --cron and --calendar. Prints one time per line. If the rule has fewer
starts before the year 3000, the last line is 'none'. With --json, there is no such line.
agenda(1) describes both grammars.

Example:
  agenda next --cron '30 4 1,15 * 5' --after 2024-01-01T00:00:00Z --count 4
END
}

# That 2 planners with room for 16 messages each are the defaults, no other row can show: neither changes a line.
words_make_help_of_plan() {
  cat >"$work/words/plan.text" <<'END'
Prints every start of crontabs and timers in a span of time

Usage: agenda plan [OPTIONS] --since <T> --until <T> [TIMER]...

Arguments:
  [TIMER]...  A systemd timer file, such as backup.timer

Options:
      --since <T>           The start of the span, in UTC, such as
                            2024-01-01T00:00:00Z; the years are 1970 to 2999
      --until <T>           The end of the span, written in the same way; a start
                            at this time isn't included [alias: --upto]
      --zone <ZONE>         The time zone of the rules, such as Europe/Berlin,
                            or the path of a TZif file; UTC if it isn't given
      --event-zones         Read events that end with a time zone, such as
                            'Mon..Fri 09:00 Europe/Berlin'
      --keep-going          Skip what is invalid or can't be read, and report it
      --delays              Show each start with the latest time at which it may
                            happen (RandomizedDelaySec= and AccuracySec=)
      --json                Print each line as a JSON object; agenda(1)
                            describes the keys
      --local               Print times in the time zone of --zone, such as
                            2024-03-31T03:00:00+02:00
      --crontab <F>         A user's crontab, as 'crontab -l' prints it
      --system-crontab <F>  A crontab whose lines name a user, such as
                            /etc/crontab
      --cron-d <F>          A package's crontab, such as /etc/cron.d/php;
                            may be given more than once
      --spool <F>           A user's crontab in the spool directory;
                            may be given more than once
      --limit <N>           The maximum number of starts, from 1 to 1000000;
                            more are an error [default: 10000]
  -h, --help                Print help

Tuning (the output stays the same):
      --planners <N>  How many threads search, from 1 to 8 [default: 2]
      --room <N>      How many messages of each thread may wait,
                      from 1 to 1024 [default: 16]

Prints a header line with the span and the number of starts, then a line for each start:
the time, the job's name and what it runs, separated by tabs. Lines are sorted by time.
Jobs that start at the same time are in this order: the user's crontab, the system
crontab, --cron-d, --spool, timers. With --delays, the latest time follows the time, and
a start before --since is included if it may be delayed into the span. With --json, there
is no header. agenda(1) describes the formats of the files.

Example:
  agenda plan --since 2024-01-01T00:00:00Z --until 2024-01-02T00:00:00Z \
    --crontab jobs --limit 100 backup.timer rotate.timer
END
}

words_make_help_of_upcoming() {
  cat >"$work/words/upcoming.text" <<'END'
Prints when each job of crontabs and timers starts next

Usage: agenda upcoming [OPTIONS] --after <T> [TIMER]...

Arguments:
  [TIMER]...  A systemd timer file, such as backup.timer

Options:
      --after <T>           Only starts later than this time, in UTC, such as
                            2024-01-01T00:00:00Z; the years are 1970 to 2999
      --zone <ZONE>         The time zone of the rules, such as Europe/Berlin,
                            or the path of a TZif file; UTC if it isn't given
      --event-zones         Read events that end with a time zone, such as
                            'Mon..Fri 09:00 Europe/Berlin'
      --keep-going          Skip what is invalid or can't be read, and report it
      --delays              Show each start with the latest time at which it may
                            happen (RandomizedDelaySec= and AccuracySec=)
      --json                Print each line as a JSON object; agenda(1)
                            describes the keys
      --local               Print times in the time zone of --zone, such as
                            2024-03-31T03:00:00+02:00
      --crontab <F>         A user's crontab, as 'crontab -l' prints it
      --system-crontab <F>  A crontab whose lines name a user, such as
                            /etc/crontab
      --cron-d <F>          A package's crontab, such as /etc/cron.d/php;
                            may be given more than once
      --spool <F>           A user's crontab in the spool directory;
                            may be given more than once
  -h, --help                Print help

Prints a line for each job: the time of its next start, the job's name and what it runs,
separated by tabs. Lines are sorted by time, then by job, as in plan. Jobs that don't
start again before the year 3000 come last, with 'none' instead of a time. With --delays,
the latest time follows the time. With --json, null stands for 'none'. agenda(1) describes
the formats of the files.

Example:
  agenda upcoming --after 2024-01-01T00:00:00Z --crontab jobs backup.timer
END
}

words_make_help_of_quiet() {
  cat >"$work/words/quiet.text" <<'END'
Prints the gaps in which no job of crontabs and timers starts

Usage: agenda quiet [OPTIONS] --since <T> --until <T> [TIMER]...

Arguments:
  [TIMER]...  A systemd timer file, such as backup.timer

Options:
      --since <T>           The start of the span, in UTC, such as
                            2024-01-01T00:00:00Z; the years are 1970 to 2999
      --until <T>           The end of the span, written in the same way; a start
                            at this time isn't included [alias: --upto]
      --zone <ZONE>         The time zone of the rules, such as Europe/Berlin,
                            or the path of a TZif file; UTC if it isn't given
      --event-zones         Read events that end with a time zone, such as
                            'Mon..Fri 09:00 Europe/Berlin'
      --keep-going          Skip what is invalid or can't be read, and report it
      --delays              Show gaps in which no job may start, delays included
                            (RandomizedDelaySec= and AccuracySec=)
      --json                Print each line as a JSON object; agenda(1)
                            describes the keys
      --local               Print times in the time zone of --zone, such as
                            2024-03-31T03:00:00+02:00
      --crontab <F>         A user's crontab, as 'crontab -l' prints it
      --system-crontab <F>  A crontab whose lines name a user, such as
                            /etc/crontab
      --cron-d <F>          A package's crontab, such as /etc/cron.d/php;
                            may be given more than once
      --spool <F>           A user's crontab in the spool directory;
                            may be given more than once
      --least <N>           The minimum length of a gap in seconds,
                            from 1 to 4294967295 [default: 1800]
      --limit <N>           The maximum number of starts, from 1 to 1000000;
                            more are an error [default: 1000000]
  -h, --help                Print help

Tuning (the output stays the same):
      --planners <N>  How many threads search, from 1 to 8 [default: 2]
      --room <N>      How many messages of each thread may wait,
                      from 1 to 1024 [default: 16]

Prints a line for each gap of the span in which nothing starts: its start, its end and its
length in seconds, separated by tabs. A gap lasts from a job's start, or from --since, to
the next job's start, or to --until. With --delays, it begins at the latest time of all
starts before it. agenda(1) describes the formats of the files.

Example:
  agenda quiet --since 2024-01-01T00:00:00Z --until 2024-01-08T00:00:00Z \
    --least 3600 --crontab jobs backup.timer
END
}

words_make_help_of_downtime() {
  cat >"$work/words/downtime.text" <<'END'
Prints what a machine misses while it is down, and what then

Usage: agenda downtime [OPTIONS] --since <T> --until <T> [TIMER]...

Arguments:
  [TIMER]...  A systemd timer file, such as backup.timer

Options:
      --since <T>           The start of the span, in UTC, such as
                            2024-01-01T00:00:00Z; the years are 1970 to 2999
      --until <T>           The end of the span, written in the same way; a start
                            at this time isn't included [alias: --upto]
      --zone <ZONE>         The time zone of the rules, such as Europe/Berlin,
                            or the path of a TZif file; UTC if it isn't given
      --event-zones         Read events that end with a time zone, such as
                            'Mon..Fri 09:00 Europe/Berlin'
      --keep-going          Skip what is invalid or can't be read, and report it
      --json                Print each line as a JSON object; agenda(1)
                            describes the keys
      --crontab <F>         A user's crontab, as 'crontab -l' prints it
      --system-crontab <F>  A crontab whose lines name a user, such as
                            /etc/crontab
      --cron-d <F>          A package's crontab, such as /etc/cron.d/php;
                            may be given more than once
      --spool <F>           A user's crontab in the spool directory;
                            may be given more than once
      --limit <N>           The maximum number of starts, from 1 to 1000000;
                            more are an error [default: 1000000]
  -h, --help                Print help

Tuning (the output stays the same):
      --planners <N>  How many threads search, from 1 to 8 [default: 2]
      --room <N>      How many messages of each thread may wait,
                      from 1 to 1024 [default: 16]

Prints a line for each job with a start in the span, delays included: the time of its first
start and of its last one, the number of its starts, what happens to them, the job's name
and what it runs, separated by tabs. 'lost' is missed for good, 'made up' starts once after
the end of the span (Persistent=), and 'at boot' is a job of @reboot. Lines are sorted by
the first start, then by job. agenda(1) describes the formats of the files.

Example:
  agenda downtime --since 2024-06-01T22:00:00Z --until 2024-06-02T04:00:00Z \
    --crontab jobs backup.timer
END
}

words_make_help_of_clear() {
  cat >"$work/words/clear.text" <<'END'
Succeeds if no job of crontabs and timers starts in a span

Usage: agenda clear [OPTIONS] --since <T> --until <T> [TIMER]...

Arguments:
  [TIMER]...  A systemd timer file, such as backup.timer

Options:
      --since <T>           The start of the span, in UTC, such as
                            2024-01-01T00:00:00Z; the years are 1970 to 2999
      --until <T>           The end of the span, written in the same way; a start
                            at this time isn't included [alias: --upto]
      --zone <ZONE>         The time zone of the rules, such as Europe/Berlin,
                            or the path of a TZif file; UTC if it isn't given
      --event-zones         Read events that end with a time zone, such as
                            'Mon..Fri 09:00 Europe/Berlin'
      --keep-going          Skip what is invalid or can't be read, and report it
      --nominal             Don't count the delays of timers
      --local               Print times in the time zone of --zone, such as
                            2024-03-31T03:00:00+02:00
      --crontab <F>         A user's crontab, as 'crontab -l' prints it
      --system-crontab <F>  A crontab whose lines name a user, such as
                            /etc/crontab
      --cron-d <F>          A package's crontab, such as /etc/cron.d/php;
                            may be given more than once
      --spool <F>           A user's crontab in the spool directory;
                            may be given more than once
  -h, --help                Print help

Tuning (the output stays the same):
      --planners <N>  How many threads search, from 1 to 8 [default: 2]
      --room <N>      How many messages of each thread may wait,
                      from 1 to 1024 [default: 16]

Prints nothing if no start may fall into the span, and the exit status is 0. Otherwise it
prints the first one, as plan --delays prints it, and the exit status is 1. What can't be
read or is invalid is an error, never status 0.

Example:
  agenda clear --since 2024-06-01T22:00:00Z --until 2024-06-01T23:30:00Z backup.timer
END
}

words_make_help_of_changes() {
  cat >"$work/words/changes.text" <<'END'
Compares a plan with one that was made before

Usage: agenda changes [OPTIONS] <BEFORE> [TIMER]...

Arguments:
  <BEFORE>    A file with what 'plan' printed, as text
  [TIMER]...  A systemd timer file, such as backup.timer

Options:
      --zone <ZONE>         The time zone of the rules, such as Europe/Berlin,
                            or the path of a TZif file; UTC if it isn't given
      --event-zones         Read events that end with a time zone, such as
                            'Mon..Fri 09:00 Europe/Berlin'
      --keep-going          Skip what is invalid or can't be read, and report it
      --json                Print each line as a JSON object; agenda(1)
                            describes the keys
      --local               Print times in the time zone of --zone, such as
                            2024-03-31T03:00:00+02:00
      --crontab <F>         A user's crontab, as 'crontab -l' prints it
      --system-crontab <F>  A crontab whose lines name a user, such as
                            /etc/crontab
      --cron-d <F>          A package's crontab, such as /etc/cron.d/php;
                            may be given more than once
      --spool <F>           A user's crontab in the spool directory;
                            may be given more than once
      --limit <N>           The maximum number of starts, from 1 to 1000000;
                            more are an error [default: 10000]
  -h, --help                Print help

Tuning (the output stays the same):
      --planners <N>  How many threads search, from 1 to 8 [default: 2]
      --room <N>      How many messages of each thread may wait,
                      from 1 to 1024 [default: 16]

Plans the span of the agenda in BEFORE again, and prints a line for each start that is only
in one of both agendas: '-' for one that is only in BEFORE or '+' for one that is new, the
time, the job's name and what it runs, separated by tabs. Starts are compared by their time
and by what they run. The exit status is 0 if nothing changed, otherwise 1.

Example:
  agenda plan --since 2024-01-01T00:00:00Z --until 2024-01-08T00:00:00Z \
    --crontab jobs >before
  agenda changes before --crontab jobs
END
}

words_make_help_of_week() {
  cat >"$work/words/week.text" <<'END'
Shows how many jobs start in each hour of a span

Usage: agenda week [OPTIONS] --since <T> --until <T> [TIMER]...

Arguments:
  [TIMER]...  A systemd timer file, such as backup.timer

Options:
      --since <T>           The start of the span, in UTC, such as
                            2024-01-01T00:00:00Z; the years are 1970 to 2999
      --until <T>           The end of the span, written in the same way; a start
                            at this time isn't included [alias: --upto]
      --zone <ZONE>         The time zone of the rules, such as Europe/Berlin,
                            or the path of a TZif file; UTC if it isn't given
      --event-zones         Read events that end with a time zone, such as
                            'Mon..Fri 09:00 Europe/Berlin'
      --keep-going          Skip what is invalid or can't be read, and report it
      --json                Print each line as a JSON object; agenda(1)
                            describes the keys
      --crontab <F>         A user's crontab, as 'crontab -l' prints it
      --system-crontab <F>  A crontab whose lines name a user, such as
                            /etc/crontab
      --cron-d <F>          A package's crontab, such as /etc/cron.d/php;
                            may be given more than once
      --spool <F>           A user's crontab in the spool directory;
                            may be given more than once
      --limit <N>           The maximum number of starts, from 1 to 1000000;
                            more are an error [default: 1000000]
  -h, --help                Print help

Tuning (the output stays the same):
      --planners <N>  How many threads search, from 1 to 8 [default: 2]
      --room <N>      How many messages of each thread may wait,
                      from 1 to 1024 [default: 16]

Prints a row for each day and a column for each hour, as the clock of --zone shows them: '.'
for no start, 1 to 9, and '#' for 10 or more. A row ends with the sum of its day, and the
last row has the sums of all days. With --json, prints an object for each hour that has a
start.

Example:
  agenda week --since 2024-05-27T00:00:00Z --until 2024-06-03T00:00:00Z --crontab jobs
END
}

words_make_help_of_check() {
  cat >"$work/words/check.text" <<'END'
Prints errors and likely mistakes in crontabs and timers

Usage: agenda check [OPTIONS] [TIMER]...

Arguments:
  [TIMER]...  A systemd timer file, such as backup.timer

Options:
      --zone <ZONE>         The time zone of the rules, such as Europe/Berlin,
                            or the path of a TZif file; UTC if it isn't given
      --event-zones         Read events that end with a time zone, such as
                            'Mon..Fri 09:00 Europe/Berlin'
      --deny <CODE>         Print this warning as an error, with status 1; all is
                            every warning; may be given more than once
      --allow <CODE>        Don't print this warning, even with --deny all; may be
                            given more than once
      --json                Print each line as a JSON object; agenda(1)
                            describes the keys
      --crontab <F>         A user's crontab, as 'crontab -l' prints it
      --system-crontab <F>  A crontab whose lines name a user, such as
                            /etc/crontab
      --cron-d <F>          A package's crontab, such as /etc/cron.d/php;
                            may be given more than once
      --spool <F>           A user's crontab in the spool directory;
                            may be given more than once
  -h, --help                Print help

Prints all errors of all files, one per line, as PATH:LINE: error: TEXT [CODE], and
warnings, as PATH:LINE: warning: TEXT [CODE], about lines that are valid but may not mean
what you intended. A message about a whole file has no line number. The exit status is 1
if there is an error, otherwise 0. 'agenda explain CODE' says what to do about each CODE.

A comment '# agenda: allow CODE ..' directly above a line allows these warnings there; at
the head of a file, it allows them in the whole file.

Examples:
  agenda check --crontab jobs backup.timer
  agenda check --deny all --allow EitherDay --cron-d etc/cron.d/backup
END
}

words_make_help_of_describe() {
  cat >"$work/words/describe.text" <<'END'
Says in words when a rule or each job starts

Usage: agenda describe [OPTIONS] [TIMER]...

Arguments:
  [TIMER]...  A systemd timer file, such as backup.timer

Options:
      --zone <ZONE>         The time zone of the rules, such as Europe/Berlin,
                            or the path of a TZif file; UTC if it isn't given
      --event-zones         Read events that end with a time zone, such as
                            'Mon..Fri 09:00 Europe/Berlin'
      --cron <TEXT>         A cron rule: minute, hour, day of month, month and day
                            of week, or @hourly, @daily, @weekly, @monthly, @yearly
      --calendar <TEXT>     A calendar event, such as 'Mon..Fri *-*-* 04:30' or daily
      --keep-going          Skip what is invalid or can't be read, and report it
      --json                Print each line as a JSON object; agenda(1)
                            describes the keys
      --crontab <F>         A user's crontab, as 'crontab -l' prints it
      --system-crontab <F>  A crontab whose lines name a user, such as
                            /etc/crontab
      --cron-d <F>          A package's crontab, such as /etc/cron.d/php;
                            may be given more than once
      --spool <F>           A user's crontab in the spool directory;
                            may be given more than once
  -h, --help                Print help

With --cron or --calendar, prints one line: when the rule starts its job. Otherwise prints
a line for each job of the files: its name, when it starts, and what it runs, separated by
tabs. The words say exactly which times match: rules that match different times never have
the same words. A rule of --cron or --calendar comes without files.

Examples:
  agenda describe --cron '0 0 1,15 * 5'
  agenda describe --crontab jobs backup.timer
END
}

words_make_help_of_machine() {
  cat >"$work/words/machine.text" <<'END'
Answers questions about a machine's crontabs and timers

Usage: agenda machine [COMMAND] [OPTIONS]

Commands:
  upcoming  Prints when each job of a machine starts next
  plan      Prints every start of a machine's jobs in a span of time
  quiet     Prints the gaps in which no job of a machine starts
  downtime  Prints what a machine misses while it is down, and what then
  clear     Succeeds if no job of a machine starts in a span
  changes   Compares a machine's plan with one made before
  week      Shows how many jobs of a machine start in each hour
  scripts   Lists the scripts that run-parts starts, with the next start of each
  check     Prints errors and likely mistakes in a machine's crontabs and timers
  sources   Lists a machine's crontabs and timers
  next      Prints the next starts of a rule by the machine's clock
  describe  Says in words when each job of a machine starts

Options:
  -h, --help  Print help

The machine is the one that agenda runs on, or, with --root, one whose disk is mounted at
DIR. Its crontabs, its timers with their drop-ins, and its time zone are found by the rules
of cron and systemd. Nothing on it is changed. agenda(1) says which files are read.
Without a command, the options are those of upcoming.

Examples:
  agenda machine
  agenda machine plan --since 'sat 22:00' --until 'sun 04:00'
  agenda machine check --root /mnt
END
}

words_make_help_of_steps() {
  cat >"$work/words/steps.text" <<'END'
Runs a script of steps on a mailbox, for testing

Usage: agenda steps <FILE>

Arguments:
  <FILE>  The script: a line that makes the mailbox, then a line for each step

Options:
  -h, --help  Print help

Prints the mailbox's reply to each step, one per line. The first line of the script is
'mailbox SENDERS CAPACITY': 1 to 8 senders, each with 1 to 1024 messages that may wait.
Each further line is a step, 10000 at most: 'send S TEXT', 'take' or 'close S', where S
counts the senders from 0. agenda-steps(1) describes the replies.

Example:
  agenda steps script
END
}

words_make_help_of_explain() {
  cat >"$work/words/explain.text" <<'END'
Explains a code, such as OutOfRange, and what to do about it

Usage: agenda explain [CODE]

Arguments:
  [CODE]  The code of an error or a warning, in upper or lower case;
          without it, all codes are listed

Options:
  -h, --help  Print help

A code is the name that a line of an error or a warning ends with. Prints what the code
means and what to do about it, for some codes with an example. Without a code, prints a
line for each: the code and what it means in one sentence, separated by a tab. agenda(1)
has the same sentences.

Example:
  agenda explain OutOfRange
END
}

words_make_version() {
  cat >"$work/words/version.text" <<'END'
agenda 0.1.0
proved with rattle-kit-13f logic dac8208d650f15bf
END
}

# Each row has a text and words that ask for it.
words_tell_help() {
  local text words
  while IFS=' ' read -r text words; do
    words_run "$words"
    compare "words: $words" "$work/words/$text.text" /dev/null 0
  done <<'END'
agenda --help
agenda -h
agenda --help|--version
version --version
version -V
version -Vh
next next|--help
next next|-h
next next|--after|2024-01-01T00:00:00Z|-h
plan plan|--help
plan plan|-h
plan plan|--since|2024-01-01T00:00:00Z|-h
upcoming upcoming|--help
upcoming upcoming|-h
upcoming upcoming|--after|2024-01-01T00:00:00Z|-h
quiet quiet|--help
quiet quiet|-h
quiet quiet|--since|2024-01-01T00:00:00Z|--least|0|-h
downtime downtime|--help
downtime downtime|-h
downtime downtime|--since|2024-01-01T00:00:00Z|--limit|0|-h
clear clear|--help
clear clear|-h
clear clear|--nominal|--until|2024-01-01T00:00:00Z|-h
changes changes|--help
changes changes|-h
changes changes|nothing|--zone|Nowhere/City|-h
week week|--help
week week|-h
week week|--zone|Nowhere/City|-h
check check|--help
check check|-h
check check|--crontab|nothing|nothing|-h
describe describe|--help
describe describe|--cron|@daily|-h
machine machine|--help
machine machine|-h
machine machine|--help|check
steps steps|--help
steps steps|-h
steps steps|script|-h
explain explain|--help
explain explain|-h
explain explain|OutOfRange|-h
END
}

# The words $1 are no use of the program, and standard input has the text that says so.
words_tell_usage() {
  cat >"$work/words/usage"
  words_run "$1"
  compare "words: $1" /dev/null "$work/words/usage" 2
}

words_tell_usage_of_agenda() {
  words_tell_usage '' <<'END'
error: 'agenda' requires a subcommand but one was not provided
  [subcommands: next, plan, upcoming, quiet, downtime, clear, changes, week, check, describe, machine, explain, steps]

Usage: agenda <COMMAND>

For more information, try '--help'.
END
  words_tell_usage 'help' <<'END'
error: unrecognized subcommand 'help'

Usage: agenda <COMMAND>

For more information, try '--help'.
END
  words_tell_usage 'nxt' <<'END'
error: unrecognized subcommand 'nxt'

  tip: a similar subcommand exists: 'next'

Usage: agenda <COMMAND>

For more information, try '--help'.
END
}

words_tell_usage_of_commands() {
  local words
  words_tell_usage 'next|--cron|30 4 1,15 * 5' <<'END'
error: the following required arguments were not provided:
  --after <T>

Usage: agenda next [OPTIONS] --after <T> (--cron <TEXT> | --calendar <TEXT>)

For more information, try '--help'.
END
  words_tell_usage 'next|--after|2024-01-01T00:00:00Z|--cron|30 4 1,15 * 5|--count|x' <<'END'
error: invalid value 'x' for '--count <N>': invalid digit found in string

For more information, try '--help'.
END
  words_tell_usage 'steps|script|another' <<'END'
error: unexpected argument 'another' found

Usage: agenda steps <FILE>

For more information, try '--help'.
END
  for words in 'next|--after|2024-01-01T00:00:00Z' 'next|--after|x' \
    'next|--after|2024-01-01T00:00:00Z|--cron|30 4 1,15 * 5|--calendar|daily'; do
    words_tell_usage "$words" <<<'exactly one of --cron and --calendar'
  done
  words_tell_usage 'clear|--until|2024-01-01T00:00:00Z|a.timer' <<'END'
error: the following required arguments were not provided:
  --since <T>

Usage: agenda clear --since <T> --until <T> <TIMER>...

For more information, try '--help'.
END
  words_tell_usage 'changes' <<'END'
error: the following required arguments were not provided:
  <BEFORE>

Usage: agenda changes <BEFORE> [TIMER]...

For more information, try '--help'.
END
  words_tell_usage 'check|--since|2024-01-01T00:00:00Z|a.timer' <<'END'
error: unexpected argument '--since' found

  tip: to pass '--since' as a value, use '-- --since'

Usage: agenda check [OPTIONS] [TIMER]...

For more information, try '--help'.
END
  # a word that is not UTF-8
  words_tell_usage $'steps|\xff' <<<'a word of the command line is not UTF-8'
}

# Each row of standard input has words that are no use of the program, ` => ` and the first lines of the text that says so.
words_begin_usage() {
  local row words count
  while IFS= read -r row; do
    words=${row%% => *}
    printf '%b\n' "${row#* => }" >"$work/words/usage"
    count=$(wc -l <"$work/words/usage")
    words_run "$words"
    head -n "$count" "$work/err" >"$work/words/begin"
    mv -- "$work/words/begin" "$work/err"
    compare "words: $words" /dev/null "$work/words/usage" 2
  done
}

words_begin_usage_of_agenda_next_steps_and_explain() {
  local after="--after|2024-01-01T00:00:00Z" cron="--cron|30 4 1,15 * 5"
  words_begin_usage <<END
version => error: unrecognized subcommand 'version'
plans => error: unrecognized subcommand 'plans'
steps => error: the following required arguments were not provided:\n  <FILE>
steps|a|b => error: unexpected argument 'b' found
steps|--version => error: unexpected argument '--version' found
steps|$after => error: unexpected argument '--after' found
steps|--delays => error: unexpected argument '--delays' found
steps|--json => error: unexpected argument '--json' found
steps|--local => error: unexpected argument '--local' found
explain|Zone|Full => error: unexpected argument 'Full' found
explain|--version => error: unexpected argument '--version' found
explain|$after => error: unexpected argument '--after' found
explain|--json => error: unexpected argument '--json' found
explain|--local => error: unexpected argument '--local' found
explain|Zon => error: invalid value 'Zon' for '[CODE]'
next => error: the following required arguments were not provided:\n  --after <T>
next|--version => error: unexpected argument '--version' found
next|$after|--cron => error: a value is required for '--cron <TEXT>' but none was supplied
next|$after|$cron|daily => error: unexpected argument 'daily' found
next|$after|$cron|--least=1 => error: unexpected argument '--least' found
next|$after|$cron|--delays => error: unexpected argument '--delays' found
next|$after|$cron|--until=x => error: unexpected argument '--until' found
next|$after|$cron|--json|--json => error: the argument '--json' cannot be used multiple times
next|$after|$cron|--local=yes => error: unexpected value 'yes' for '--local' found; no more were expected
next|$after|$cron|--count|-1 => error: unexpected argument '-1' found
next|$after|$cron|--count|4294967296 => error: invalid value '4294967296' for '--count <N>': 4294967296 is not in 0..=4294967295
next|$after|$cron|$cron => error: the argument '--cron <TEXT>' cannot be used multiple times
next|--after|x|--cron|@daily|--count|x => error: invalid value 'x' for '--count <N>': invalid digit found in string
END
}

words_begin_usage_of_plan() {
  local span="--since|2024-01-01T00:00:00Z|--upto|2024-01-02T00:00:00Z"
  local missing="error: the following required arguments were not provided:"
  words_begin_usage <<END
plan => $missing\n  --since <T>\n  --until <T>
plan|--since|x => $missing\n  --until <T>
plan|--since|2024-01-01T00:00:00Z|a.timer => $missing\n  --until <T>
plan|--upto|2024-01-02T00:00:00Z => $missing\n  --since <T>
plan|--until|2024-01-02T00:00:00Z => $missing\n  --since <T>
plan|--since=x|--until => error: a value is required for '--until <T>' but none was supplied
plan|$span|--until=x => error: the argument '--until <T>' cannot be used multiple times
plan|--since=x|--until=y|--until=z => error: the argument '--until <T>' cannot be used multiple times
plan|$span|--planners=x => error: invalid value 'x' for '--planners <N>': invalid digit found in string
plan|$span|--planners= => error: invalid value '' for '--planners <N>': cannot parse integer from empty string
plan|$span|--planners|-1 => error: unexpected argument '-1' found
plan|$span|--room=-1 => error: invalid value '-1' for '--room <N>': -1 is not in 0..=4294967295
plan|$span|--limit=4294967296 => error: invalid value '4294967296' for '--limit <N>': 4294967296 is not in 0..=4294967295
plan|$span|--count=1 => error: unexpected argument '--count' found
plan|$span|--after=x => error: unexpected argument '--after' found
plan|$span|--least=1 => error: unexpected argument '--least' found
plan|$span|--since=x => error: the argument '--since <T>' cannot be used multiple times
plan|$span|--delays|--delays => error: the argument '--delays' cannot be used multiple times
plan|$span|--json|--json => error: the argument '--json' cannot be used multiple times
plan|$span|--json=yes => error: unexpected value 'yes' for '--json' found; no more were expected
plan|$span|--local|--local => error: the argument '--local' cannot be used multiple times
plan|$span|--crontab=a|--crontab=b => error: the argument '--crontab <F>' cannot be used multiple times
plan|$span|--cron-d => error: a value is required for '--cron-d <F>' but none was supplied
plan|$span|--spool=a|--spool => error: a value is required for '--spool <F>' but none was supplied
plan|$span|--version => error: unexpected argument '--version' found
END
}

# What the two commands don't take, among it what others take.
words_begin_usage_of_upcoming_and_quiet() {
  local after="--after|2024-01-01T00:00:00Z" span="--since|2024-01-01T00:00:00Z|--upto|2024-01-02T00:00:00Z"
  local missing="error: the following required arguments were not provided:"
  words_begin_usage <<END
upcoming => $missing\n  --after <T>
upcoming|--crontab|jobs|a.timer => $missing\n  --after <T>
upcoming|$after|--after=x => error: the argument '--after <T>' cannot be used multiple times
upcoming|$after|--delays|--delays => error: the argument '--delays' cannot be used multiple times
upcoming|$after|--crontab=a|--crontab=b => error: the argument '--crontab <F>' cannot be used multiple times
upcoming|$after|--cron-d => error: a value is required for '--cron-d <F>' but none was supplied
upcoming|$after|--count=1 => error: unexpected argument '--count' found
upcoming|$after|--since=x => error: unexpected argument '--since' found
upcoming|$after|--upto=x => error: unexpected argument '--upto' found
upcoming|$after|--until=x => error: unexpected argument '--until' found
upcoming|$after|--local|--local => error: the argument '--local' cannot be used multiple times
upcoming|$after|--json=yes => error: unexpected value 'yes' for '--json' found; no more were expected
upcoming|$after|--least=1 => error: unexpected argument '--least' found
upcoming|$after|--planners=1 => error: unexpected argument '--planners' found
upcoming|$after|--room=1 => error: unexpected argument '--room' found
upcoming|$after|--limit=1 => error: unexpected argument '--limit' found
upcoming|$after|--cron=@daily => error: unexpected argument '--cron' found
upcoming|$after|--calendar=daily => error: unexpected argument '--calendar' found
upcoming|$after|--version => error: unexpected argument '--version' found
quiet => $missing\n  --since <T>\n  --until <T>
quiet|--since|x|--least=1|a.timer => $missing\n  --until <T>
quiet|--upto|2024-01-02T00:00:00Z => $missing\n  --since <T>
quiet|$span|--least=x => error: invalid value 'x' for '--least <N>': invalid digit found in string
quiet|$span|--least= => error: invalid value '' for '--least <N>': cannot parse integer from empty string
quiet|$span|--least|-1 => error: unexpected argument '-1' found
quiet|$span|--least=-1 => error: invalid value '-1' for '--least <N>': -1 is not in 0..=4294967295
quiet|$span|--least=4294967296 => error: invalid value '4294967296' for '--least <N>': 4294967296 is not in 0..=4294967295
quiet|$span|--least => error: a value is required for '--least <N>' but none was supplied
quiet|$span|--least=1|--least=1 => error: the argument '--least <N>' cannot be used multiple times
quiet|$span|--planners=x => error: invalid value 'x' for '--planners <N>': invalid digit found in string
quiet|$span|--room=-1 => error: invalid value '-1' for '--room <N>': -1 is not in 0..=4294967295
quiet|$span|--limit=4294967296 => error: invalid value '4294967296' for '--limit <N>': 4294967296 is not in 0..=4294967295
quiet|$span|--since=x => error: the argument '--since <T>' cannot be used multiple times
quiet|$span|--until=x => error: the argument '--until <T>' cannot be used multiple times
quiet|$span|--delays|--delays => error: the argument '--delays' cannot be used multiple times
quiet|$span|--json|--json => error: the argument '--json' cannot be used multiple times
quiet|$span|--local=yes => error: unexpected value 'yes' for '--local' found; no more were expected
quiet|$span|--spool=a|--spool => error: a value is required for '--spool <F>' but none was supplied
quiet|$span|--count=1 => error: unexpected argument '--count' found
quiet|$span|--after=x => error: unexpected argument '--after' found
quiet|$span|--cron=@daily => error: unexpected argument '--cron' found
quiet|$span|--version => error: unexpected argument '--version' found
END
}

# What downtime, clear and week don't take, among it what plan takes: delays always count or never do, and only clear has local times.
words_begin_usage_of_windows() {
  local span="--since|2024-01-01T00:00:00Z|--upto|2024-01-02T00:00:00Z" command
  local missing="error: the following required arguments were not provided:"
  for command in downtime clear week; do
    words_begin_usage <<END
$command => $missing\n  --since <T>\n  --until <T>
$command|--since|x|a.timer => $missing\n  --until <T>
$command|--upto|2024-01-02T00:00:00Z => $missing\n  --since <T>
$command|--until|2024-01-02T00:00:00Z => $missing\n  --since <T>
$command|--since=x|--until => error: a value is required for '--until <T>' but none was supplied
$command|$span|--since=x => error: the argument '--since <T>' cannot be used multiple times
$command|$span|--upto=x => error: the argument '--until <T>' cannot be used multiple times
$command|$span|--until=x => error: the argument '--until <T>' cannot be used multiple times
$command|$span|--after=x => error: unexpected argument '--after' found
$command|$span|--count=1 => error: unexpected argument '--count' found
$command|$span|--least=1 => error: unexpected argument '--least' found
$command|$span|--delays => error: unexpected argument '--delays' found
$command|$span|--table => error: unexpected argument '--table' found
$command|$span|--utc => error: unexpected argument '--utc' found
$command|$span|--except=a => error: unexpected argument '--except' found
$command|$span|--only=a => error: unexpected argument '--only' found
$command|$span|--idle => error: unexpected argument '--idle' found
$command|$span|--cron=@daily => error: unexpected argument '--cron' found
$command|$span|--calendar=daily => error: unexpected argument '--calendar' found
$command|$span|--version => error: unexpected argument '--version' found
$command|$span|--planners=x => error: invalid value 'x' for '--planners <N>': invalid digit found in string
$command|$span|--room=-1 => error: invalid value '-1' for '--room <N>': -1 is not in 0..=4294967295
$command|$span|--zone => error: a value is required for '--zone <ZONE>' but none was supplied
$command|$span|--zone=UTC|--zone=UTC => error: the argument '--zone <ZONE>' cannot be used multiple times
$command|$span|--event-zones|--event-zones => error: the argument '--event-zones' cannot be used multiple times
$command|$span|--keep-going=yes => error: unexpected value 'yes' for '--keep-going' found; no more were expected
$command|$span|--crontab=a|--crontab=b => error: the argument '--crontab <F>' cannot be used multiple times
$command|$span|--cron-d => error: a value is required for '--cron-d <F>' but none was supplied
$command|$span|--spool=a|--spool => error: a value is required for '--spool <F>' but none was supplied
END
  done
  for command in downtime week; do
    words_begin_usage <<END
$command|$span|--limit=4294967296 => error: invalid value '4294967296' for '--limit <N>': 4294967296 is not in 0..=4294967295
$command|$span|--limit=1|--limit=1 => error: the argument '--limit <N>' cannot be used multiple times
$command|$span|--json|--json => error: the argument '--json' cannot be used multiple times
$command|$span|--json=yes => error: unexpected value 'yes' for '--json' found; no more were expected
$command|$span|--nominal => error: unexpected argument '--nominal' found
$command|$span|--local => error: unexpected argument '--local' found
END
  done
  words_begin_usage <<END
clear|$span|--limit=1 => error: unexpected argument '--limit' found
clear|$span|--json => error: unexpected argument '--json' found
clear|$span|--nominal|--nominal => error: the argument '--nominal' cannot be used multiple times
clear|$span|--nominal=yes => error: unexpected value 'yes' for '--nominal' found; no more were expected
clear|$span|--local|--local => error: the argument '--local' cannot be used multiple times
plan|$span|--nominal => error: unexpected argument '--nominal' found
downtimes => error: unrecognized subcommand 'downtimes'
Clear => error: unrecognized subcommand 'Clear'
END
}

# What changes doesn't take: a moment, a span and delays.
words_begin_usage_of_changes() {
  words_begin_usage <<'END'
changes => error: the following required arguments were not provided:\n  <BEFORE>
changes|--limit=1 => error: the following required arguments were not provided:\n  <BEFORE>
changes|before|--since=x => error: unexpected argument '--since' found
changes|before|--upto=x => error: unexpected argument '--upto' found
changes|before|--until=x => error: unexpected argument '--until' found
changes|before|--after=x => error: unexpected argument '--after' found
changes|before|--before=x => error: unexpected argument '--before' found
changes|before|--least=1 => error: unexpected argument '--least' found
changes|before|--delays => error: unexpected argument '--delays' found
changes|before|--nominal => error: unexpected argument '--nominal' found
changes|before|--table => error: unexpected argument '--table' found
changes|before|--utc => error: unexpected argument '--utc' found
changes|before|--except=a => error: unexpected argument '--except' found
changes|before|--only=a => error: unexpected argument '--only' found
changes|before|--idle => error: unexpected argument '--idle' found
changes|before|--version => error: unexpected argument '--version' found
changes|before|--planners=x => error: invalid value 'x' for '--planners <N>': invalid digit found in string
changes|before|--room=-1 => error: invalid value '-1' for '--room <N>': -1 is not in 0..=4294967295
changes|before|--limit=4294967296 => error: invalid value '4294967296' for '--limit <N>': 4294967296 is not in 0..=4294967295
changes|before|--limit=1|--limit=1 => error: the argument '--limit <N>' cannot be used multiple times
changes|before|--zone => error: a value is required for '--zone <ZONE>' but none was supplied
changes|before|--event-zones|--event-zones => error: the argument '--event-zones' cannot be used multiple times
changes|before|--keep-going=yes => error: unexpected value 'yes' for '--keep-going' found; no more were expected
changes|before|--json|--json => error: the argument '--json' cannot be used multiple times
changes|before|--local=yes => error: unexpected value 'yes' for '--local' found; no more were expected
changes|before|--crontab=a|--crontab=b => error: the argument '--crontab <F>' cannot be used multiple times
change => error: unrecognized subcommand 'change'
END
}

# What describe doesn't take: a moment, a span, delays, local times, sizes and limits.
words_begin_usage_of_describe() {
  words_begin_usage <<END
describe|--cron=@daily|--cron=@daily => error: the argument '--cron <TEXT>' cannot be used multiple times
describe|--calendar => error: a value is required for '--calendar <TEXT>' but none was supplied
describe|--crontab=a|--crontab=b => error: the argument '--crontab <F>' cannot be used multiple times
describe|--spool=a|--spool => error: a value is required for '--spool <F>' but none was supplied
describe|--after=x => error: unexpected argument '--after' found
describe|--since=x => error: unexpected argument '--since' found
describe|--delays => error: unexpected argument '--delays' found
describe|--local => error: unexpected argument '--local' found
describe|--json|--json => error: the argument '--json' cannot be used multiple times
describe|--keep-going=yes => error: unexpected value 'yes' for '--keep-going' found; no more were expected
describe|--limit=1 => error: unexpected argument '--limit' found
describe|--deny=all => error: unexpected argument '--deny' found
END
}

# What check doesn't take: a moment, a span, delays, local times, sizes and limits.
words_begin_usage_of_check() {
  words_begin_usage <<END
check|--crontab=a|--crontab=b => error: the argument '--crontab <F>' cannot be used multiple times
check|--system-crontab=a|--system-crontab=b => error: the argument '--system-crontab <F>' cannot be used multiple times
check|--cron-d => error: a value is required for '--cron-d <F>' but none was supplied
check|--spool=a|--spool => error: a value is required for '--spool <F>' but none was supplied
check|--after=x => error: unexpected argument '--after' found
check|--since=x => error: unexpected argument '--since' found
check|--upto=x => error: unexpected argument '--upto' found
check|--until=x => error: unexpected argument '--until' found
check|--count=1 => error: unexpected argument '--count' found
check|--least=1 => error: unexpected argument '--least' found
check|--planners=1 => error: unexpected argument '--planners' found
check|--room=1 => error: unexpected argument '--room' found
check|--limit=1 => error: unexpected argument '--limit' found
check|--delays => error: unexpected argument '--delays' found
check|--local => error: unexpected argument '--local' found
check|--json|--json => error: the argument '--json' cannot be used multiple times
check|--deny => error: a value is required for '--deny <CODE>' but none was supplied
check|--allow=Percent|--allow => error: a value is required for '--allow <CODE>' but none was supplied
check|--json=yes => error: unexpected value 'yes' for '--json' found; no more were expected
check|--cron=@daily => error: unexpected argument '--cron' found
check|--calendar=daily => error: unexpected argument '--calendar' found
check|--version => error: unexpected argument '--version' found
check|-x => error: unexpected argument '-x' found
END
}

# Each row has words of `next`, ` => ` and the starts that they ask for. Where each second is a start, the next is one after the moment.
words_ask_for_starts() {
  local row starts after="--after|2024-01-01T00:00:00Z"
  while IFS= read -r row; do
    starts=${row#* => }
    words_run "${row%% => *}"
    compare_texts "words: ${row%% => *}" "${starts// /$'\n'}"$'\n' '' 0
  done <<END
next|--calendar|*-02~03|$after => 2024-02-27T00:00:00Z
next|--after|2024-02-28T23:59:58Z|--calendar=*:*:*|--count=2 => 2024-02-28T23:59:59Z 2024-02-29T00:00:00Z
next|$after|--count|4|--cron|30 4 1,15 * 5 => 2024-01-01T04:30:00Z 2024-01-05T04:30:00Z 2024-01-12T04:30:00Z 2024-01-15T04:30:00Z
next|$after|--cron|30 4 1,15 * 5 => 2024-01-01T04:30:00Z
next|--cron=@daily|--count=002|--after=2024-01-01T00:00:00Z => 2024-01-02T00:00:00Z 2024-01-03T00:00:00Z
next|--cron|* * * * *|$after => 2024-01-01T00:01:00Z
END
}

# Each row has words that ask for what is refused, ` => `, the status and the fault.
words_ask_for_what_is_refused() {
  local row told after="--after=2024-01-01T00:00:00Z" span="--since=2024-01-01T00:00:00Z|--upto=2024-01-02T00:00:00Z"
  while IFS= read -r row; do
    told=${row#* => }
    words_run "${row%% => *}"
    is_refused "words: ${row%% => *}" "${told#* }" "${told%% *}"
  done <<END
next|--cron=@daily|--count=0|--after= => 1 after: BadForm
next|--cron=@daily|--count=0|$after => 1 count: BadCount
next|--cron|* * * * *|--count|4294967295|--after|x => 1 after: BadForm
next|--cron|* * * * *|--count|4294967295|$after => 1 count: BadCount
next|--cron|* * * * *|--count|65537|$after => 1 count: BadCount
next|--cron|daily|$after => 1 rule: part 0: WrongParts
next|--calendar|@daily|$after => 1 rule: part 0: WrongParts
plan|c|--since=x|a|b|--upto=|a|--|--limit => 1 since: BadForm
plan|c|--since=2024-01-01T00:00:00Z|a|b|--upto=|a|--|--limit => 1 upto: BadForm
plan|--since=2024-01-01T00:00:00Z|--until=x => 1 upto: BadForm
plan|--since|2024-01-02T00:00:00Z|--upto|2024-01-01T00:00:00Z => 1 span: Backwards
plan|c.timer|--since=2024-01-01T00:00:00Z|a.timer|b.timer|--upto=2024-01-02T00:00:00Z|a.timer|--|--limit => 1 job a.timer: SameName
plan|$span|--|--limit => 1 --limit: line 0: BadTimerName
plan|$span|--|--room => 3 --room: Device
plan|$span|--|-- => 3 --: Device
plan|--planners=0|--room=4294967295|--limit=007|--since=x|--upto=y => 1 since: BadForm
plan|--planners=0|$span => 1 plan: BadSize
plan|--planners=9|$span => 1 plan: BadSize
plan|--planners=65537|$span => 1 plan: BadSize
plan|--planners=4294967295|$span => 1 plan: BadSize
plan|--room=0|$span => 1 plan: BadSize
plan|--room=1025|$span => 1 plan: BadSize
plan|--room=65537|$span => 1 plan: BadSize
plan|--room=4294967295|$span => 1 plan: BadSize
plan|--limit=0|$span => 1 plan: BadLimit
plan|--limit=1000001|$span => 1 plan: BadLimit
plan|--limit=4294967295|$span => 1 plan: BadLimit
plan|--limit|1|$span|b.timer => 1 plan: TooMany
plan|$span|--crontab|jobs|--system-crontab|etc/crontab|--planners|3|--room|4|--limit|4|b.timer|a.timer => 1 plan: TooMany
upcoming|--crontab=none|--after= => 1 after: BadForm
upcoming|c|$after|--crontab|jobs|a => 3 c: Device
upcoming|c.timer|$after|b.timer|c.timer|--|--limit => 1 job c.timer: SameName
upcoming|$after|--|--limit => 1 --limit: line 0: BadTimerName
upcoming|$after|--|--after => 3 --after: Device
check|c|--crontab|jobs|a => 3 c: Device
check|a.timer|--spool=nothing|--cron-d|c => 3 c: Device
check|--|--help.timer => 3 --help.timer: Device
quiet|--least=0|--planners=0|--since=x|--upto=y => 1 since: BadForm
quiet|--least=0|--planners=0|$span => 1 quiet: BadLeast
quiet|$span|--least|0|b.timer|b.timer => 1 quiet: BadLeast
quiet|$span|--|--limit => 1 --limit: line 0: BadTimerName
quiet|$span|--|--least => 3 --least: Device
quiet|$span|--least=4294967295|--limit=0 => 1 plan: BadLimit
quiet|$span|--least=4294967295|--planners=9 => 1 plan: BadSize
quiet|$span|--least=1|--limit|1|b.timer => 1 plan: TooMany
quiet|$span|--crontab|jobs|--system-crontab|etc/crontab|--planners|3|--room|4|--limit|4|b.timer|a.timer => 1 plan: TooMany
downtime|--planners=0|--room=4294967295|--limit=007|--since=x|--until=y => 1 since: BadForm
downtime|--since=2024-01-01T00:00:00Z|a|b|--until=|a|--|--limit => 1 upto: BadForm
downtime|$span|--|--limit => 1 --limit: line 0: BadTimerName
downtime|$span|--|-- => 3 --: Device
downtime|$span|--limit=0 => 1 plan: BadLimit
downtime|$span|--limit=1000001 => 1 plan: BadLimit
downtime|$span|--planners=9 => 1 plan: BadSize
downtime|$span|--room=1025 => 1 plan: BadSize
downtime|$span|--crontab|jobs|--system-crontab|etc/crontab|--planners|3|--room|4|--limit|4|b.timer|a.timer => 1 plan: TooMany
clear|--planners=0|--room=4294967295|--since=x|--until=y => 1 since: BadForm
clear|--since=2024-01-01T00:00:00Z|a|b|--until=|a|--|--limit => 1 upto: BadForm
clear|$span|--|--limit => 1 --limit: line 0: BadTimerName
clear|$span|--|--nominal => 3 --nominal: Device
clear|$span|--planners=65537 => 1 plan: BadSize
clear|$span|--room=0 => 1 plan: BadSize
changes|nothing|--planners=0|--limit=007 => 3 nothing: Device
changes|--limit=007|--zone|Nowhere/City|nothing|a.timer|a.timer => 3 nothing: Device
changes|--|--limit => 1 --limit:1: not a line of agenda plan [BadBaseline]
changes|--|--help.timer => 3 --help.timer: Device
changes|a.timer|--json|b.timer => 1 a.timer:1: not a line of agenda plan [BadBaseline]
changes|before|--|--limit => 1 --limit: line 0: BadTimerName
changes|before|--|--room => 3 --room: Device
changes|before|--limit=0 => 1 plan: BadLimit
changes|before|--planners=9|--local => 1 plan: BadSize
changes|--crontab|jobs|before|--system-crontab|etc/crontab|--planners|3|--room|4|--limit|4|b.timer|a.timer => 1 plan: TooMany
week|--planners=0|--room=4294967295|--limit=007|--since=x|--until=y => 1 since: BadForm
week|--since=2024-01-01T00:00:00Z|a|b|--until=|a|--|--limit => 1 upto: BadForm
week|$span|--|--limit => 1 --limit: line 0: BadTimerName
week|$span|--|-- => 3 --: Device
week|$span|--limit=4294967295 => 1 plan: BadLimit
week|$span|--planners=0 => 1 plan: BadSize
week|$span|--room=65537 => 1 plan: BadSize
week|$span|--crontab|jobs|--system-crontab|etc/crontab|--planners|3|--room|4|--limit|4|b.timer|a.timer => 1 plan: TooMany
END
}

# The files of the scripts that are asked for tell which they are.
words_ask_for_replies() {
  local words
  for words in 'steps|script' 'steps|a b/c' 'steps|skript-ä' 'steps|-' 'steps|--|--help' 'steps|--|script'; do
    words_run "$words"
    compare_texts "words: $words" "sent"$'\n'"took 0 this is ${words##*|}"$'\n' '' 0
  done
}

# The words $1 ask for the agenda whose lines after the header are on standard input, with `|` for tabs.
words_ask_for_agenda() {
  tr '|' '\t' >"$work/words/agenda"
  words_run "$1"
  compare_agenda "words: $1" "$work/words/agenda"
}

words_ask_for_sources() {
  local span="--since|2024-01-01T00:00:00Z|--upto|2024-01-02T00:00:00Z" start="2024-01-01T00:00:00Z"
  words_ask_for_agenda "plan|$span" </dev/null
  words_ask_for_agenda "plan|$span|--crontab|jobs" <<<"$start|cron:1|root says jobs"
  words_ask_for_agenda "plan|--system-crontab|jobs|$span" <<<"$start|system:1|root says jobs"
  words_ask_for_agenda "plan|--crontab=my jobs-ä|$span" <<<"$start|cron:1|root says my jobs-ä"
  words_ask_for_agenda "plan|--system-crontab=my jobs-ä|$span" <<<"$start|system:1|root says my jobs-ä"
  words_ask_for_agenda "plan|--system-crontab|etc/crontab|$span|--crontab|jobs" <<END
$start|cron:1|root says jobs
$start|system:1|root says etc/crontab
END
  words_ask_for_agenda \
    "plan|$span|--crontab|jobs|--system-crontab|etc/crontab|--planners|3|--room|4|--limit|5|b.timer|a.timer" <<END
$start|cron:1|root says jobs
$start|system:1|root says etc/crontab
$start|b.timer|b.service
$start|a.timer|a.service
2024-01-01T12:00:00Z|b.timer|b.service
END
}

words_ask_for_timers() {
  local span="--since|2024-01-01T00:00:00Z|--upto|2024-01-01T00:00:01Z" start="2024-01-01T00:00:00Z"
  words_ask_for_agenda "plan|$span|b.timer|a.timer" <<END
$start|b.timer|b.service
$start|a.timer|a.service
END
  words_ask_for_agenda "plan|a.timer|b.timer|$span" <<END
$start|a.timer|a.service
$start|b.timer|b.service
END
  words_ask_for_agenda "plan|c.timer|--since=$start|a.timer|b.timer|--upto=2024-01-01T00:00:01Z|--|--limit.timer|second.timer" <<END
$start|c.timer|c.service
$start|a.timer|a.service
$start|b.timer|b.service
$start|--limit.timer|--limit.service
$start|second.timer|second.service
END
  words_ask_for_agenda "plan|--upto|2024-02-29T00:00:01Z|--since|2024-02-28T23:59:59Z|second.timer" <<END
2024-02-28T23:59:59Z|second.timer|second.service
2024-02-29T00:00:00Z|second.timer|second.service
END
}

# The words $1 ask for what standard input has, with `|` for tabs.
words_ask_for_text() {
  tr '|' '\t' >"$work/words/answer"
  words_run "$1"
  compare "words: $1" "$work/words/answer" /dev/null 0
}

words_ask_for_upcoming() {
  local after="--after|2023-12-31T23:59:59Z" start="2024-01-01T00:00:00Z"
  words_ask_for_text "upcoming|$after" </dev/null
  words_ask_for_text "upcoming|$after|--crontab|jobs" <<<"$start|cron:1|root says jobs"
  words_ask_for_text "upcoming|--system-crontab=my jobs-ä|--after=$start" <<<"2024-01-02T00:00:00Z|system:1|root says my jobs-ä"
  words_ask_for_text "upcoming|b.timer|--system-crontab|etc/crontab|--after|$start|--crontab|jobs|--|--limit.timer|a.timer" <<END
2024-01-01T12:00:00Z|b.timer|b.service
2024-01-02T00:00:00Z|cron:1|root says jobs
2024-01-02T00:00:00Z|system:1|root says etc/crontab
2024-01-02T00:00:00Z|--limit.timer|--limit.service
2024-01-02T00:00:00Z|a.timer|a.service
END
  words_ask_for_text "upcoming|--cron-d|jobs|--after|2024-02-28T23:59:58Z|--spool=etc/crontab|second.timer" <<END
2024-02-28T23:59:59Z|second.timer|second.service
2024-02-29T00:00:00Z|jobs:1|root says jobs
2024-02-29T00:00:00Z|crontab:1|root says etc/crontab
END
}

# None of the four numbers of `quiet` is taken for another: each is too large here for those that the others are taken for.
words_ask_for_quiet() {
  local span="--since|2024-01-01T00:00:00Z|--upto|2024-01-02T00:00:00Z" start="2024-01-01T00:00:00Z" words
  words_ask_for_text "quiet|$span" <<<"$start|2024-01-02T00:00:00Z|86400"
  words_ask_for_text "quiet|$span|--crontab|jobs" <<<"$start|2024-01-02T00:00:00Z|86400"
  words_ask_for_text "quiet|b.timer|$span|--|--limit.timer" <<END
$start|2024-01-01T12:00:00Z|43200
2024-01-01T12:00:00Z|2024-01-02T00:00:00Z|43200
END
  for words in '--least|43200' '--least=0043200' '--planners|1|--room|1' '--planners=8|--room=1024' '--limit=2' \
    '--limit|1000000|--least=9|--planners=8|--room=9' '--room|9|--limit|1025|--least|1026'; do
    words_ask_for_text "quiet|$words|$span|b.timer" <<END
$start|2024-01-01T12:00:00Z|43200
2024-01-01T12:00:00Z|2024-01-02T00:00:00Z|43200
END
  done
  for words in '--least|43201' '--least=1000001' '--least|4294967295|--limit|2'; do
    words_ask_for_text "quiet|$words|$span|b.timer" </dev/null
  done
}

# `--until` is another name of `--upto`: here it has each place and form that `--upto` may have.
words_ask_for_until() {
  local start="2024-01-01T00:00:00Z" noon="2024-01-01T12:00:00Z"
  words_ask_for_text "plan|--until|$noon|--since|$start|b.timer" <<END
agenda 2|$start|$noon|1
$start|b.timer|b.service
END
  words_ask_for_text "plan|b.timer|--since=$start|--until=2024-01-01T12:00:01Z" <<END
agenda 2|$start|2024-01-01T12:00:01Z|2
$start|b.timer|b.service
$noon|b.timer|b.service
END
  words_ask_for_text "quiet|--since|$start|b.timer|--until|$noon" <<<"$start|$noon|43200"
}

# The word after `--delays` is not a value of it: here it is a timer or another option. The timer has the delay that is the default, a minute.
words_ask_for_delays() {
  local span="--since|2024-01-01T00:00:00Z|--upto|2024-01-02T00:00:00Z" start="2024-01-01T00:00:00Z" noon="2024-01-01T12:00:00Z"
  words_ask_for_text "plan|--delays|b.timer|$span" <<END
agenda 3|$start|2024-01-02T00:00:00Z|2
$start|2024-01-01T00:01:00Z|b.timer|b.service
$noon|2024-01-01T12:01:00Z|b.timer|b.service
END
  words_ask_for_text "upcoming|--delays|b.timer|--after|$start" <<<"$noon|2024-01-01T12:01:00Z|b.timer|b.service"
  words_ask_for_text "quiet|b.timer|--delays|$span" <<END
2024-01-01T00:01:00Z|$noon|43140
2024-01-01T12:01:00Z|2024-01-02T00:00:00Z|43140
END
}

# Each option and each place of `downtime` and `week` is read as that of `quiet`. b.timer starts at 00:00 and at 12:00, and may start a minute
# later.
words_ask_for_downtime_and_week() {
  local start="2024-01-01T00:00:00Z" noon="2024-01-01T12:00:00Z" words
  local span="--since|$start|--upto|2024-01-02T00:00:00Z"
  words_ask_for_text "downtime|$span" </dev/null
  words_ask_for_text "downtime|$span|--crontab|jobs" <<<"$start|$start|1|lost|cron:1|root says jobs"
  words_ask_for_text "downtime|b.timer|--system-crontab=etc/crontab|--since=$start|--until=$noon|--|--limit.timer" <<END
$start|$start|1|lost|system:1|root says etc/crontab
$start|$start|1|lost|b.timer|b.service
$start|$start|1|lost|--limit.timer|--limit.service
END
  for words in '--planners|1|--room|1' '--planners=8|--room=1024' '--limit=2' '--limit|1000000|--planners=8|--room=9'; do
    words_ask_for_text "downtime|$words|$span|b.timer" <<<"$start|$noon|2|lost|b.timer|b.service"
    words_ask_for_text "week|$words|--json|$span|b.timer" <<END
{"day":"2024-01-01","hour":0,"starts":1}
{"day":"2024-01-01","hour":12,"starts":1}
END
  done
  words_ask_for_text "week|--json|--until|$noon|--since|$start|b.timer|--|--limit.timer" <<<'{"day":"2024-01-01","hour":0,"starts":2}'
}

# The word after `--nominal` is not a value of it: here it is a timer or another option. A start at 12:00 may fall up to 12:01.
words_ask_for_clear() {
  local noon="2024-01-01T12:00:00Z" latest="2024-01-01T12:01:00Z" words
  for words in '' '--planners|1|--room|1|' '--planners=8|--room=1024|'; do
    printf '%s\t%s\tb.timer\tb.service\n' "$noon" "$latest" >"$work/words/answer"
    words_run "clear|$words--since|$noon|b.timer|--until|2024-01-01T13:00:00Z"
    compare "words: clear|$words" "$work/words/answer" /dev/null 1
    printf '%s\tb.timer\tb.service\n' "$noon" >"$work/words/answer"
    words_run "clear|$words--nominal|b.timer|--since=$noon|--upto=2024-01-01T13:00:00Z"
    compare "words: clear|$words--nominal" "$work/words/answer" /dev/null 1
  done
  words_ask_for_text "clear|--since|2024-01-01T12:00:30Z|--upto|2024-01-01T13:00:00Z|--nominal|b.timer" </dev/null
  words_ask_for_text "clear|b.timer|--since|2024-01-01T12:01:01Z|--until|2024-01-01T13:00:00Z" </dev/null
  words_ask_for_text "clear|--since|2024-01-01T12:01:01Z|--until|2024-01-02T00:00:00Z|--|--limit.timer" </dev/null
}

# The first word that is neither an option nor the value of one is the earlier agenda, and the others are timers.
words_ask_for_changes() {
  local words
  printf '+\t2024-01-01T%s:00:00Z\tb.timer\tb.service\n' 00 12 >"$work/words/answer"
  for words in 'before|b.timer' '--limit=2|before|b.timer' '--planners|1|before|--room|1|--|b.timer' '--|before|b.timer' \
    '--keep-going|before|b.timer|--event-zones'; do
    words_run "changes|$words"
    compare "words: changes|$words" "$work/words/answer" /dev/null 1
  done
  words_ask_for_text "changes|before" </dev/null
}

# The words $1 ask for what is wrong with the files, which is that of standard input.
words_ask_for_findings() {
  cat >"$work/words/answer"
  words_run "$1"
  compare "words: $1" "$work/words/answer" /dev/null 1
}

# The files hold no fault but their names, and so show which options and paths were read.
words_ask_for_check() {
  words_ask_for_text "check" </dev/null
  words_ask_for_text "check|--crontab|jobs" </dev/null
  words_ask_for_text "check|--crontab|jobs|--system-crontab=etc/crontab|--cron-d|jobs|b.timer|--spool|etc/crontab|--|--limit.timer" </dev/null
  words_ask_for_findings "check|b.timer|--cron-d=my jobs-ä|--|jobs|--limit" <<'END'
my jobs-ä: error: not a name that cron reads [BadTabName]
jobs: error: not a timer's name: it must end in .timer and name no template (for a crontab, use --crontab or --cron-d) [BadTimerName]
jobs: error: no [Timer] section [NoTimerSection]
--limit: error: not a timer's name: it must end in .timer and name no template (for a crontab, use --crontab or --cron-d) [BadTimerName]
END
  words_ask_for_findings "check|a.timer|a.timer|--spool|jobs|--spool=jobs|--cron-d|etc/crontab" <<'END'
jobs:1: error: another job is named 'jobs:1' [SameName]
a.timer: error: another job is named 'a.timer' [SameName]
END
}

# Planners and room change no line: that they aren't taken for each other shows where a number is too large for planners alone.
words_ask_for_sizes() {
  local span="--since|2024-01-01T00:00:00Z|--upto|2024-01-02T00:00:00Z" line="2024-01-01T00:00:00Z|a.timer|a.service" words
  for words in '--planners|1|--room|1' '--planners|8|--room|9' '--room=1024|--planners=8' '--limit=1' '--limit|1000000'; do
    words_ask_for_agenda "plan|$words|$span|a.timer" <<<"$line"
  done
}

# The first $1 seconds of 2024 are the starts, where $2 is the limit's option. One more is refused.
words_ask_for_limit() {
  local since="plan${2:+|$2}|--since|2024-01-01T00:00:00Z" upto one_more
  upto=$(words_moment_after "$1")
  one_more=$(words_moment_after "$(($1 + 1))")
  awk -v most="$1" 'BEGIN {
    for (second = 0; second < most; second++)
      printf "2024-01-01T%02d:%02d:%02dZ|second.timer|second.service\n", second / 3600, second / 60 % 60, second % 60
  }' >"$work/words/starts"
  words_ask_for_agenda "$since|--upto|$upto|second.timer" <"$work/words/starts"
  words_run "$since|--upto|$one_more|second.timer"
  is_refused "words: $since|--upto|$one_more|second.timer" "plan: TooMany" 1
}

# The moment that is so many seconds after the begin of 2024, less than a day.
words_moment_after() {
  printf '2024-01-01T%02d:%02d:%02dZ' $(($1 / 3600)) $(($1 / 60 % 60)) $(($1 % 60))
}

words_make_files
words_make_help_of_agenda
words_make_help_of_next
words_make_help_of_plan
words_make_help_of_upcoming
words_make_help_of_quiet
words_make_help_of_downtime
words_make_help_of_clear
words_make_help_of_changes
words_make_help_of_week
words_make_help_of_check
words_make_help_of_describe
words_make_help_of_machine
words_make_help_of_steps
words_make_help_of_explain
words_make_version
words_tell_help
words_tell_usage_of_agenda
words_tell_usage_of_commands
words_begin_usage_of_agenda_next_steps_and_explain
words_begin_usage_of_plan
words_begin_usage_of_upcoming_and_quiet
words_begin_usage_of_windows
words_begin_usage_of_changes
words_begin_usage_of_check
words_begin_usage_of_describe
words_ask_for_starts
words_ask_for_what_is_refused
words_ask_for_replies
words_ask_for_sources
words_ask_for_timers
words_ask_for_upcoming
words_ask_for_quiet
words_ask_for_until
words_ask_for_delays
words_ask_for_downtime_and_week
words_ask_for_clear
words_ask_for_changes
words_ask_for_check
words_ask_for_sizes
words_ask_for_limit 10000 ''
words_ask_for_limit 7 --limit=007
words_ask_for_limit 65543 --limit=65543
