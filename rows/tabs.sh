# shellcheck shell=bash disable=SC2154
# Rows of bin/check-examples: crontabs with names, those of packages (--cron-d) and of users (--spool): their
# names, their order among the sources, and the names in their jobs and errors.

tabs_folder="$work/tabs"
tabs_begin="2024-01-01T00:00:00Z"
mkdir -p "$tabs_folder"/{cron.d,spool,one,two}

# Writes the escaped text $2 to the file $1.
tabs_file() {
  printf '%b' "$2" >"$tabs_folder/$1"
}

# Plans the first second of 2024 with these arguments.
tabs_run() {
  run_in "$tabs_folder" agenda plan --since "$tabs_begin" --upto "2024-01-01T00:00:01Z" "$@"
}

# Rows from standard input: arguments, and after a bar the jobs that start at once: a name, a space and the
# command, with a semicolon between jobs.
tabs_jobs() {
  local written jobs words
  while IFS='|' read -r written jobs; do
    read -r -a words <<<"$written"
    tabs_run "${words[@]}"
    printf '%s' "${jobs:+$jobs;}" | tr ';' '\n' | sed "s/ /$tab/; s/^/$tabs_begin$tab/" >"$work/agenda.wanted"
    compare_agenda "plan $written" "$work/agenda.wanted"
  done
}

# Rows from standard input: arguments, and after a bar the error. The status is 3 if a device failed.
tabs_refused() {
  local written fault words status
  while IFS='|' read -r written fault; do
    read -r -a words <<<"$written"
    status=1
    [ "${fault%: Device}" = "$fault" ] || status=3
    tabs_run "${words[@]}"
    is_refused "plan $written" "$fault" "$status"
  done
}

# Rows from standard input: an option, and names. They are accepted if $1 is `taken`, and otherwise rejected.
tabs_names() {
  local option names name
  while read -r option names; do
    for name in $names; do
      printf '@daily u x\n' >"$tabs_folder/one/$name"
      tabs_run "$option" "one/$name"
      if [ "$1" = taken ]; then
        compare_lines "plan $option one/$name" "$tabs_begin${tab}$name:1${tab}u x"$'\n'
      else
        is_refused "plan $option one/$name" "$name: line 0: BadTabName" 1
      fi
      rm -- "$tabs_folder/one/$name"
    done
  done
}

tabs_file jobs '@daily a\n'
tabs_file system '@daily root b\n'
tabs_file cron.d/php '# sessions\nSHELL=/bin/sh\n\n09,39 * * * * root sessions\n@daily www-data  clean  all\n'
tabs_file cron.d/e2scrub_all '0 0 * * * root scrub\n'
tabs_file spool/anna '@daily mail -s x\n'
tabs_file spool/bob.smith '\n@hourly c\n@reboot d\n'
tabs_file a.timer '[Timer]\nOnCalendar=daily\n'

# The text of a package's job is the user, one space and the command, and that of a user's job the command.
# The sources are in the order of the options in the synopsis, and those of one option in the given order.
tabs_jobs <<'ROWS'
--cron-d cron.d/php|php:5 www-data clean  all
--spool spool/anna|anna:1 mail -s x
--spool=spool/anna --spool=spool/bob.smith|anna:1 mail -s x;bob.smith:2 c
--cron-d cron.d/php --cron-d cron.d/e2scrub_all|php:5 www-data clean  all;e2scrub_all:1 root scrub
--cron-d cron.d/e2scrub_all --cron-d cron.d/php|e2scrub_all:1 root scrub;php:5 www-data clean  all
a.timer --spool spool/anna --cron-d cron.d/php --system-crontab system --crontab jobs|cron:1 a;system:1 root b;php:5 www-data clean  all;anna:1 mail -s x;a.timer a.service
--spool spool/bob.smith --cron-d cron.d/php --spool spool/anna a.timer --cron-d cron.d/e2scrub_all|php:5 www-data clean  all;e2scrub_all:1 root scrub;bob.smith:2 c;anna:1 mail -s x;a.timer a.service
ROWS

# The name of a package's file has letters, digits, `_` and `-`. That of a user's file may have `.` too, but
# not as its first character.
tabs_names taken <<'ROWS'
--cron-d a Z 0 _ - a_b-9 --- crontab cron system
--spool a Z 0 _ - a.b a. a..b root.timer b-.-_ cron
ROWS
tabs_names refused <<'ROWS'
--cron-d a.b .a a. php.dpkg-dist a~ a+b a:b ä a, a@b
--spool .a ..a a~ a+b a:b ä a, a@b
ROWS

# A file with a space in its name, and one without a name.
tabs_file 'one/a b' '@daily u x\n'
for option in --cron-d --spool; do
  tabs_run "$option" 'one/a b'
  is_refused "plan $option 'one/a b'" "a b: line 0: BadTabName" 1
  tabs_run "$option" one/
  is_refused "plan $option one/" "one/: Device" 3
done

# Each error has the file's name, and the name is checked before the bytes. All files are read first, then one
# text after the other.
tabs_file cron.d/bad '@daily root\n'
tabs_file spool/bad '\n99 * * * * x\n'
tabs_file spool/latin '@daily \xe4\n'
tabs_file spool/latin~ '@daily \xe4\n'
{ printf '@daily u x\n' && head -c 1048566 /dev/zero | tr '\0' '\n'; } >"$tabs_folder/one/large"
cp "$tabs_folder/one/large" "$tabs_folder/one/large+"
tabs_refused <<'ROWS'
--cron-d cron.d/bad|bad: line 1: NoCommand
--spool spool/bad|bad: line 2: part 1: OutOfRange
--spool spool/latin|latin: line 0: NotUtf8
--spool spool/latin~|latin~: line 0: BadTabName
--cron-d one/large|large: line 0: TooLarge
--spool one/large|large: line 0: TooLarge
--cron-d one/large+|large+: line 0: BadTabName
--spool one/large+|large+: line 0: BadTabName
--spool spool/bad --cron-d cron.d/bad|bad: line 1: NoCommand
--cron-d spool/latin~ --spool spool/none|spool/none: Device
--spool spool/bad a.timer none.timer|none.timer: Device
--cron-d none --crontab none2|none2: Device
--spool none --cron-d none2|none2: Device
--cron-d . --spool none|.: Device
a --spool spool/bad|a: Device
--crontab cron.d/bad --cron-d cron.d/bad|bad: line 1: NoCommand
ROWS

# The second of two jobs with the same name is rejected, whatever their sources are. A path that is given
# twice is rejected only if it has a job.
tabs_file one/x '\n@daily u a\n'
tabs_file two/x '\n@daily u b\n'
tabs_file two/y 'A=b\n@daily u b\n'
tabs_file spool/x '@daily c\n\n@daily d\n'
tabs_file one/cron '@daily u a\n'
tabs_file one/system '\n@daily u a\n'
tabs_file one/none '# no job\n'
tabs_refused <<'ROWS'
--cron-d one/x --cron-d two/x|job x:2: SameName
--cron-d one/x --cron-d one/x|job x:2: SameName
--spool one/x --cron-d one/x|job x:2: SameName
--crontab jobs --cron-d one/cron|job cron:1: SameName
--crontab jobs --spool one/cron|job cron:1: SameName
--system-crontab one/x --cron-d one/system|job system:2: SameName
--cron-d one/x --cron-d two/x --spool spool/bad|job x:2: SameName
--spool spool/bad --cron-d one/x --cron-d two/x|job x:2: SameName
ROWS
tabs_jobs <<'ROWS'
--cron-d one/x --spool spool/x|x:2 u a;x:1 c;x:3 d
--cron-d one/x --cron-d two/y|x:2 u a;y:2 u b
--system-crontab system --cron-d one/system|system:1 root b;system:2 u a
--cron-d one/cron --spool spool/x|cron:1 u a;x:1 c;x:3 d
--cron-d one/none --cron-d one/none --spool one/none|
ROWS

# All sources together have at most a thousand jobs, and the sources after them aren't read.
yes '@daily u x' | head -n 999 >"$tabs_folder/one/many"
tabs_run --cron-d one/many --spool spool/anna --limit 1000
{ seq -f "$tabs_begin${tab}many:%g${tab}u x" 999 && echo "$tabs_begin${tab}anna:1${tab}mail -s x"; } >"$work/agenda.wanted"
compare_agenda "a thousand jobs of named crontabs" "$work/agenda.wanted"
tabs_refused <<'ROWS'
--cron-d one/many --spool spool/anna a.timer|jobs: Full
--cron-d one/many --spool spool/bob.smith|jobs: Full
--cron-d one/many --spool spool/anna --spool spool/bob.smith --spool spool/bad|jobs: Full
ROWS
