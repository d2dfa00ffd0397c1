# shellcheck shell=bash disable=SC2154,SC2034
# Rows of the command `agenda machine`: roots that are made from one line, as in machine.sh, and what the program says of
# them. The tables of rows/ that need it source it.
#
# These entries and letters are added to those of machine.sh:
#
#   %NAME        the enabled timer NAME.timer in U, and its service
#   A G H I J K M N   the other directories of units. In their order all are A G H I E J R K M L B U N
#
# Each root has default.target, a link to x.target, and x.target in N, unless program_has_boot is `no`. N is the last
# directory of units, so files of these names elsewhere count first. In N is also a service for each timer of the
# description, unless program_has_services is `no`.

# shellcheck source=/dev/null
. "$top/rows/lib/machine.sh"

machine_short+=(
  [A]=etc/systemd/system.control [G]=run/systemd/system.control [H]=run/systemd/transient [I]=run/systemd/generator.early
  [J]=etc/systemd/system.attached [K]=run/systemd/system.attached [M]=run/systemd/generator [N]=run/systemd/generator.late
)
# The letters of all directories of units, in their order.
program_units=(A G H I E J R K M L B U N)
program_has_boot=yes
program_has_services=yes

# Sets `text` to the path $1 as people see it: control characters are \xNN, and a backslash is doubled.
program_shown() {
  local rest=$1 byte code
  text=$1
  [[ $1 = *[[:cntrl:]\\]* || $1 = *$'\xc2'* ]] || return 0
  text=
  while [ -n "$rest" ]; do
    byte=${rest:0:1}
    rest=${rest:1}
    case $byte in
      \\) byte=\\\\ ;;
      [[:cntrl:]])
        printf -v code '%d' "'$byte"
        printf -v byte '\\x%02x' "$code"
        ;;
      $'\xc2')
        # U+0080 to U+009F are control characters too
        if [[ ${rest:0:1} = [$'\x80'-$'\x9f'] ]]; then
          printf -v code '%d' "'${rest:0:1}"
          printf -v byte '\\xc2\\x%02x' $((code & 255))
          rest=${rest:1}
        fi
        ;;
    esac
    text+=$byte
  done
}

# Sets `text` to the string of JSON for the text $1, without quotes.
program_string() {
  local rest=$1 byte code
  text=$1
  [[ $1 = *[[:cntrl:]\"\\]* ]] || return 0
  text=
  while [ -n "$rest" ]; do
    byte=${rest:0:1}
    rest=${rest:1}
    case $byte in
      [\"\\]) byte="\\$byte" ;;
      $'\b') byte='\b' ;;
      $'\t') byte='\t' ;;
      $'\n') byte='\n' ;;
      $'\f') byte='\f' ;;
      $'\r') byte='\r' ;;
      [[:cntrl:]])
        printf -v code '%d' "'$byte"
        printf -v byte '\\u%04x' "$code"
        ;;
    esac
    text+=$byte
  done
}

# Makes a new root from the description $1, in which CET and EAST are the texts of zones, and DAILY that of a timer.
program_make() {
  local entry name root=${1//CET/$machine_cet} wanted=''
  local -a entries
  root=${root//EAST/$machine_east}
  root=${root//DAILY/'[Timer]\nOnCalendar=daily\n'}
  IFS=$' \n' read -r -d '' -a entries <<<"$root"
  for entry in "${entries[@]}"; do
    case $entry in
      %*) wanted+=" *${entry#%}.timer U/${entry#%}.timer U/${entry#%}.service" ;;
      *)
        wanted+=" $entry"
        # a timer, whatever it is: the last name of the path
        name=${entry%%[=>]*}
        name=${name##*/}
        name=${name%!}
        name=${name#\*}
        [[ $program_has_services = no || $name != *.timer ]] || wanted+=" N/${name%.timer}.service"
        ;;
    esac
  done
  [ "$program_has_boot" = no ] || wanted="N/default.target>x.target N/x.target$wanted"
  machine_make "$wanted"
}

# Runs `agenda machine` with the arguments $@, from the directory with the root.
program_run() {
  run_in "$machine_folder" "${machine_by[@]}" "$machine_folder/whole/agenda" machine "$@"
}

# Lets the clock of the program stand still, $1 seconds after 1970. Fails if that can't be done here.
program_still() {
  local library=$machine_folder/still-clock.so
  [ -e "$library" ] || cc -shared -fPIC -o "$library" "$top/rows/lib/still-clock.c" 2>/dev/null || return
  machine_by=(env "LD_PRELOAD=$library" "STILL_CLOCK=$1")
}

# Counts the last run, with the name $1, in the same way as compare, by the wanted files $2 and $3 and the status $4.
program_compare() {
  {
    diff -a -u --label "standard output wanted" --label "standard output" -- "$2" "$work/out"
    diff -a -u --label "standard error wanted" --label "standard error" -- "$3" "$work/err"
    [ "$status" = "$4" ] || echo "status $status, and not $4"
  } >"$work/told" 2>&1
  count "agenda machine: $1"
}

# Writes to the file err.wanted what $1 means, with commas between its entries, in their order: a path and a reason for
# what is skipped, or one of these:
#
#   wanted PATH UNIT    only UNIT wants the timer, and isn't reached: it may start it
#   missing PATH UNIT   the timer isn't planned, because its unit is missing
#   mask PATH UNIT      the same, because its unit is masked
#   idle PATH UNIT      the same, because its unit has no command
#   not PATH WHY        cron ignores the crontab, for WHY; PATH may end in `:LINE`. In WHY `;` is a comma
#   zoned PATH:LINE     the line comes after CRON_TZ=
#   monotonic PATH KEY  the timer starts by KEY= alone, or by OnBootSec= if KEY is missing
#   also PATH KEY       the timer also starts by KEY=
#   otherwise PATH:LINE systemd may read the line otherwise
#   anacron, at PATH, user PATH    jobs that aren't planned
#   spool, lib          no directory of users' crontabs; no var/lib
#   cron                no cron daemon
#   zone                the zone is unknown
#   clear COUNT, quiet COUNT    so many things are unknown: the last line, for which `last` is set
#
# Sets `wanted` to the status: 1 if something can't be read, otherwise 0. Sets `last` to the last line, with its newline, or to
# nothing: it comes after errors.
program_lines() {
  local entry line path why text
  local -a entries
  wanted=0
  last=
  : >"$work/err.wanted"
  IFS=, read -r -a entries <<<"$1"
  for entry in "${entries[@]}"; do
    read -r line path why <<<"$entry"
    case $line in
      wanted) why="may be started by $why" line=unknown: ;;
      missing) why="its unit $why is missing" line='not planned:' ;;
      mask) why="its unit $why is masked" line='not planned:' ;;
      idle) why="its unit $why has no ExecStart=" line='not planned:' ;;
      not) why=${why//;/,} line='not planned:' ;;
      zoned) why='after CRON_TZ=, which agenda does not read' line=unknown: ;;
      anacron) path=etc/anacrontab why='anacron starts jobs by days since they ran' line=unknown: ;;
      monotonic) why="starts by ${why:-OnBootSec}=" line=unknown: ;;
      also) why="also starts by $why=" line=unknown: ;;
      otherwise) why='systemd may read it otherwise' line=unknown: ;;
      at) why='jobs of at' line=unknown: ;;
      user) why='user timers' line=unknown: ;;
      spool) path=var/spool/cron why="no directory of users' crontabs: is another disk mounted there?" line=unknown: ;;
      lib) path=var/lib why='is another disk mounted there?' line=unknown: ;;
      cron)
        program_shown "$machine_root"
        line="no cron daemon below $text: crontabs start nothing" path=
        ;;
      zone)
        program_shown "$machine_root"
        line="the zone of $text is unknown: rules are read as UTC" path=
        ;;
      clear | quiet)
        text='jobs may start'
        [ "$path" != 1 ] || text='job may start'
        last="agenda: not known to be $line: $path $text at times that files don't tell; --except NAME leaves one out"$'\n'
        continue
        ;;
      *)
        why="$path${why:+ $why}" path=$line line=skipped
        case $why in
          'not readable' | "a name that isn't UTF-8") wanted=1 ;;
          'no link' | 'bad name' | escape | 'no such timer' | masked | 'name taken') ;;
          *) refuse "no such reason: $entry" ;;
        esac
        ;;
    esac
    if [ -n "$path" ]; then
      machine_path "$path"
      program_shown "$machine_root/$path"
      line+=" $text: $why"
    fi
    printf 'agenda: %s\n' "$line" >>"$work/err.wanted"
  done
}

# Writes the listing of the sources $1 to the file out.wanted, and as objects to the file objects.wanted: paths, with `+`
# before that of a drop-in, and with `=` and the program's name for it if that isn't the end of the path.
program_listing() {
  local -a list
  local source kind name path given='' text string
  : >"$work/out.wanted"
  : >"$work/objects.wanted"
  IFS=' ' read -r -a list <<<"$1"
  for source in "${list[@]}"; do
    path=${source%%=*}
    machine_path "${path#+}"
    name=${path##*/}
    [ "$source" = "${source#*=}" ] || name=${source#*=}
    case $source in
      +*) kind=drop-in name=$given ;;
      etc/crontab) kind=system-crontab ;;
      C/*) kind=cron-d ;;
      [STF]/*) kind=spool ;;
      *) kind=timer given=$name ;;
    esac
    program_shown "$machine_root/$path"
    printf '%s\t%s\t%s\n' "$kind" "$name" "$text" >>"$work/out.wanted"
    program_string "$name"
    string=$text
    program_string "$machine_root/$path"
    printf '{"kind":"%s","name":"%s","path":"%s"}\n' "$kind" "$string" "$text" >>"$work/objects.wanted"
  done
}

# Compares the sources of the present root with $1, and its lines with $2. The root has the name $3, and the options are the
# others.
program_is() {
  local wanted last name=$3
  program_listing "$1"
  program_lines "$2"
  shift 3
  program_run sources --root "$machine_root" "$@"
  program_compare "sources $* of '$name'" "$work/out.wanted" "$work/err.wanted" "$wanted"
  [ -s "$work/out.wanted" ] || return 0
  program_run sources --json --root "$machine_root" "$@"
  program_compare "sources --json $* of '$name'" "$work/objects.wanted" "$work/err.wanted" "$wanted"
}

# Rows from standard input: a root, its sources as in program_listing, and the lines on standard error as in
# program_lines. The options of the command are $@.
program_sources() {
  local root sources lines
  while IFS='|' read -r root sources lines; do
    program_make "$root"
    program_is "$sources" "$lines" "$root" "$@"
  done
}

# Compares what the present root answers to the arguments $1 with the lines $2, in which `;` is a newline and `>` a tab, the
# errors $3, with `;` between them, and the lines $4 as in program_lines. The root has the name $5. The status is $6, or, if that is
# missing, 1 if there is an error or something can't be read, and otherwise 0.
program_answers_are() {
  local wanted last errors words
  local text=${2//;/$'\n'}
  text=${text//>/$tab}
  printf '%s' "${text:+$text$'\n'}" >"$work/out.wanted"
  program_lines "$4"
  errors=${3//;/$'\n'}
  printf '%s%s' "${errors:+$errors$'\n'}" "$last" >>"$work/err.wanted"
  [ -z "$errors" ] || wanted=1
  IFS=' ' read -r -a words <<<"$1"
  program_run "${words[@]}" --root root
  program_compare "$1 of '$5'" "$work/out.wanted" "$work/err.wanted" "${6:-$wanted}"
}

# Rows from standard input: a root, arguments, and the fields of program_answers_are, with the status at the end if it is there.
program_answers() {
  local root words lines errors reports code
  while IFS='|' read -r root words lines errors reports code; do
    program_make "$root"
    program_answers_are "$words" "$lines" "$errors" "$reports" "$root" "$code"
  done
}

# Prints a length of $1 seconds as a line for people has it: in at most two units, rounded down.
program_length() {
  local hours=$(($1 / 3600)) minutes=$(($1 / 60 % 60)) seconds=$(($1 % 60))
  if [ "$1" -lt 60 ]; then
    echo "$seconds s"
  elif [ "$hours" = 0 ]; then
    echo "$minutes min$([ "$seconds" = 0 ] || echo " $seconds s")"
  else
    echo "$hours h$([ "$minutes" = 0 ] || echo " $minutes min")"
  fi
}

# Rows from standard input: arguments, with bars between them, that are usage errors: nothing is written to standard
# output. The root exists.
program_usage() {
  local row words
  program_make etc/crontab
  while IFS= read -r row; do
    IFS='|' read -r -a words <<<"$row"
    program_run "${words[@]}"
    [ -s "$work/err" ] || echo "nothing on standard error" >"$work/out"
    program_compare "usage of '$row'" /dev/null "$work/err" 2
  done
}
