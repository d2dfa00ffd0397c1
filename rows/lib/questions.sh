# shellcheck shell=bash disable=SC2154
# Shared by the rows of `agenda upcoming`, `agenda quiet` and `agenda check`: all of them take the sources of
# a plan, and reject the same sources as a plan. The tables of rows/ that need it source it.

questions_folder="$work/questions"

# Writes the escaped text $2 to the file $1.
questions_file() {
  printf '%b' "$2" >"$questions_folder/$1"
}

# Makes the files for the rows of these commands.
questions_begin() {
  mkdir -p "$questions_folder"/{cron.d,spool,one,two,folder.timer}
  questions_file daily '@daily a\n'
  questions_file system '@daily root b\n'
  questions_file cron.d/php '# sessions\n\n@daily www-data  clean  all\n'
  questions_file spool/anna '@daily mail -s x\n'
  questions_file d.timer '[Timer]\nOnCalendar=daily\n'
  questions_file reboot '@reboot a\n'
  questions_file none '# no job\n'
  questions_file empty.timer '[Timer]\n'
  yes '* * * * * x' | head -n 1000 >"$questions_folder/thousand"
  # what is rejected
  questions_file part '\n60 * * * * x\n'
  questions_file setting '@daily a\nx\n'
  questions_file bare '@daily\n'
  questions_file command '@daily root\n'
  questions_file cron.d/bad '@daily root\n'
  questions_file spool/bad '* * * dec-jan * x\n'
  questions_file latin '@daily \xe4\n'
  questions_file one/a.b '@daily u x\n'
  questions_file one/.a '@daily x\n'
  questions_file one/x '\n@reboot u a\n'
  questions_file two/x '\n@daily u b\n'
  questions_file one/cron '@daily a\n'
  questions_file hour.timer '[Timer]\nOnCalendar=25:00\n'
  questions_file unit.timer '[Unit]\n'
  cp -- "$questions_folder/d.timer" "$questions_folder/one/d.timer"
  yes '* * * * * x' | head -n 1001 >"$questions_folder/many"
}

# Rows from standard input: arguments, and after a bar the error of the command $@ with these arguments after
# it. The status is 3 if a device failed.
questions_refused() {
  local written fault words status
  while IFS='|' read -r written fault; do
    read -r -a words <<<"$written"
    status=1
    [ "${fault%: Device}" = "$fault" ] || status=3
    run_in "$questions_folder" agenda "$@" "${words[@]}"
    is_refused "$* $written" "$fault" "$status"
  done
}

# What the command $@ rejects in its sources. Their options come before the others or after them. First all
# files are read, in order. Then each text is read in full, and its jobs are added, before the next one's.
questions_refuse_sources() {
  questions_refused "$@" <<'ROWS'
--crontab nothing|nothing: Device
--system-crontab nothing|nothing: Device
--cron-d nothing|nothing: Device
--spool nothing|nothing: Device
nothing.timer|nothing.timer: Device
folder.timer|folder.timer: Device
--crontab .|.: Device
nothing.timer --spool none4 --cron-d none3 --system-crontab none2 --crontab none1|none1: Device
nothing.timer --spool none4 --cron-d none3 --system-crontab none2|none2: Device
nothing.timer --spool none4 --cron-d none3|none3: Device
nothing.timer --spool none4|none4: Device
--cron-d cron.d/php --cron-d none3 --cron-d none4|none3: Device
--crontab part nothing.timer|nothing.timer: Device
--spool one/.a nothing.timer|nothing.timer: Device
--crontab /dev/zero nothing|nothing: Device
--crontab part|crontab: line 2: part 1: OutOfRange
--crontab setting|crontab: line 2: BadSetting
--crontab bare|crontab: line 1: NoCommand
--system-crontab command|system crontab: line 1: NoCommand
--cron-d cron.d/bad|bad: line 1: NoCommand
--spool spool/bad|bad: line 1: part 4: Backwards
hour.timer|hour.timer: line 2: part 5: OutOfRange
unit.timer|unit.timer: line 0: NoTimerSection
--crontab latin|crontab: line 0: NotUtf8
--spool latin|latin: line 0: NotUtf8
--crontab /dev/zero|crontab: line 0: TooLarge
--cron-d /dev/zero|zero: line 0: TooLarge
--cron-d one/a.b|a.b: line 0: BadTabName
--spool one/.a|.a: line 0: BadTabName
daily|daily: line 0: BadTimerName
hour.timer --spool spool/bad --cron-d cron.d/bad --system-crontab command --crontab part|crontab: line 2: part 1: OutOfRange
hour.timer --spool spool/bad --cron-d cron.d/bad --system-crontab command|system crontab: line 1: NoCommand
hour.timer --spool spool/bad --cron-d cron.d/bad|bad: line 1: NoCommand
hour.timer --spool spool/bad|bad: line 1: part 4: Backwards
hour.timer unit.timer|hour.timer: line 2: part 5: OutOfRange
d.timer one/d.timer|job d.timer: SameName
empty.timer empty.timer|job empty.timer: SameName
--cron-d one/x --spool two/x|job x:2: SameName
--crontab daily --spool one/cron|job cron:1: SameName
--cron-d one/x --cron-d two/x hour.timer|job x:2: SameName
hour.timer --cron-d one/x --spool one/.a|.a: line 0: BadTabName
--crontab many|jobs: Full
--crontab thousand empty.timer|jobs: Full
--crontab thousand --system-crontab command|system crontab: line 1: NoCommand
--crontab many --system-crontab command|jobs: Full
ROWS
}

[ -d "$questions_folder" ] || questions_begin
