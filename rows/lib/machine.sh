# shellcheck shell=bash disable=SC2154,SC2034
# Small roots of machines that are made from one line. The tables of rows/ that need them source this file.
#
# A root's description has these entries, with blanks between them. Escapes are those of printf's %b, so that
# a blank in a name is \x20:
#
#   PATH         a file whose text is a comment with its path
#   PATH=TEXT    a file of this text
#   PATH>TEXT    a link
#   PATH/        a directory
#   PATH!        a named pipe
#   *NAME        the enablement link for a timer: a link in D to /lib/systemd/system/NAME
#
# The first letter of a PATH may be short for a directory: E, R, L, B and U for five directories of units in
# their order, C for etc/cron.d, S for the spool directory of Debian, T and F for those of SUSE and Fedora, and
# D for the directory of the enablement links of x.target in E.
#
# Each root has the cron daemon usr/sbin/cron too, or the one that machine_daemon names, unless machine_has_cron is `no`. Only
# Debian's cron, and cronie, ignore crontabs that agenda can read: rows that aren't about that name another daemon.
#
# A file below var/spool/cron or opt has the mode 0600, as cron demands of a user's crontab. If the rows run as root, and the program doesn't, the root
# belongs to its user, so that cron's demands don't count, and these files can be read.

machine_folder=$work/machine
# What comes before the program's own name, such as a program that drops permissions.
machine_by=()
machine_root=root
machine_has_cron=yes
machine_has_system=yes
machine_daemon=usr/sbin/cron
machine_owner=
declare -A machine_short=(
  [E]=etc/systemd/system [R]=run/systemd/system [L]=usr/local/lib/systemd/system [B]=lib/systemd/system [U]=usr/lib/systemd/system
  [C]=etc/cron.d [S]=var/spool/cron/crontabs [T]=var/spool/cron/tabs [F]=var/spool/cron [D]=etc/systemd/system/x.target.wants
)

# Makes the directory of the rows, and in it `whole`, which has the program.
machine_begin() {
  mkdir -p "$machine_folder/whole"
  ln -s "$program" "$machine_folder/whole/agenda"
}

# Sets `path` to the path of $1 below the root, without its escapes.
machine_path() {
  path=$1
  if [[ $path = [A-Z]/* ]] && [ -n "${machine_short[${path:0:1}]-}" ]; then
    path=${machine_short[${path:0:1}]}${path:1}
  fi
  [[ $path != *\\* ]] || printf -v path '%b' "$path"
}

# Ends the rows if a name of `path` below the root is a link: nothing is ever written through a link, because
# it may lead out of the root.
machine_refuse_links() {
  local rest=$path/ at=$machine_folder/$machine_root
  while [ -n "$rest" ]; do
    at+=/${rest%%/*}
    rest=${rest#*/}
    [ ! -L "$at" ] || refuse "a row writes through the link $at"
  done
}

# Makes the entry $1 of a description below the root, with its directories if they are missing.
machine_entry() {
  local name=${1%%[=>]*} rest path folder
  rest=${1#"$name"}
  if [ "$name" != "${name#\*}" ]; then
    rest=">/lib/systemd/system/${name#\*}"
    name=D/${name#\*}
  fi
  machine_path "$name"
  machine_refuse_links
  folder=$machine_folder/$machine_root/${path%/*}
  [[ $path = */* ]] || folder=$machine_folder/$machine_root
  [ -d "$folder" ] || mkdir -p -- "$folder"
  path=$machine_folder/$machine_root/$path
  case $rest in
    =*) printf '%b' "${rest#=}" >"$path" ;;
    \>*)
      printf -v rest '%b' "${rest#>}"
      ln -sT -- "$rest" "$path"
      ;;
    *)
      case $path in
        */) ;;
        *!) mkfifo -- "${path%!}" ;;
        *) echo "# ${path#"$machine_folder/$machine_root/"}" >"$path" ;;
      esac
      ;;
  esac
  case ${path#"$machine_folder/$machine_root/"} in
    var/spool/cron/* | opt/*) [ -n "$machine_owner" ] || machine_close "$path" ;;
  esac
}

# Lets nobody but the owner read and write a file, as cron demands of a user's crontab.
machine_close() {
  [ -L "$1" ] || [ ! -f "$1" ] || chmod 600 -- "$1"
}

# Makes what a system has below the root $1: var/lib and var/spool/cron, since agenda reports that they are missing, and usr if neither
# etc nor usr is there, since without one the root is rejected. Nothing is made beyond a link.
machine_add_system() {
  local name
  for name in var var/lib var/spool var/spool/cron; do
    [ ! -L "$1/$name" ] || break
    [ -e "$1/$name" ] || mkdir -- "$1/$name" 2>/dev/null || break
  done
  for name in etc usr; do
    if [ -e "$1/$name" ] || [ -L "$1/$name" ]; then return; fi
  done
  mkdir -- "$1/usr"
}

# Makes a new root from the description $1.
machine_make() {
  local entry
  local -a entries
  rm -rf -- "${machine_folder:?}/$machine_root"
  mkdir -p -- "$machine_folder/$machine_root"
  [ -z "$machine_owner" ] || chown "$machine_owner" -- "$machine_folder/$machine_root"
  IFS=$' \n' read -r -d '' -a entries <<<"$1"
  for entry in "${entries[@]}"; do
    machine_entry "$entry"
  done
  [ "$machine_has_cron" = no ] || machine_entry "$machine_daemon"
  [ "$machine_has_system" = no ] || machine_add_system "$machine_folder/$machine_root"
}

# Sets `tzif` to the escaped text of a TZif file: $1 seconds east of UTC, with the name $2, in 1970, and the
# footer $3 after that.
machine_zone_text() {
  local zeros='\x00\x00\x00\x00' head='' offset
  printf -v head '%s' 'TZif2\x00\x00\x00' "$zeros$zeros$zeros" "$zeros$zeros$zeros"
  printf -v offset '\\x%02x\\x%02x\\x%02x\\x%02x' $(($1 >> 24 & 255)) $(($1 >> 16 & 255)) $(($1 >> 8 & 255)) $(($1 & 255))
  # in the first version one type without a name; in the second one change, one type and its name
  tzif="$head$zeros"'\x00\x00\x00\x01\x00\x00\x00\x01'"$zeros"'\x00\x00\x00'
  tzif+="$head"'\x00\x00\x00\x01\x00\x00\x00\x01\x00\x00\x00'"\\x0$((${#2} + 1))$zeros$zeros"'\x00'
  tzif+="$offset"'\x00\x00'"$2"'\x00\n'"$3"'\n'
}

# Like Berlin: clocks are put forward on 2024-03-31 and 2025-03-30, and back on 2024-10-27 and 2025-10-26, all at
# 01:00 UTC.
machine_zone_text 3600 CET CET-1CEST,M3.5.0,M10.5.0/3
machine_cet=$tzif
# Five hours east, which is different from all zones of this machine whose names are in the rows.
machine_zone_text 18000 +05 '<+05>-5'
machine_east=$tzif

# Sets machine_by to a command that drops root's permissions, if the rows run as root. Fails if that isn't possible.
machine_as_nobody() {
  [ "$(id -u)" = 0 ] || return 0
  machine_by=(setpriv --reuid=65534 --regid=65534 --clear-groups)
  machine_owner=65534
  command -v setpriv >/dev/null && "${machine_by[@]}" true 2>/dev/null || return
  chmod 711 "$work"
  chmod 1777 "$machine_folder"
}

[ -d "$machine_folder" ] || machine_begin
