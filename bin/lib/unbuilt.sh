# shellcheck shell=bash disable=SC2154
# Answers for the program `agenda` without building it, from its sources: help, the version, and arguments that
# name no command. bin/agenda sources this file, after bin/lib/project.sh and bin/lib/preview.sh.

# The command line of the program, and the help texts that the rows compare with those of the program.
command_source=$top/crates/agenda_options/src/command.rt
help_source=$top/rows/words.sh

# Prints the names of the commands, one per line.
command_names() {
  sed -n '/^pub fn agenda_command/,/^    \];/s/^ *Subcommand::\([A-Za-z]*\),$/\1/p' "$command_source" |
    tr '[:upper:]' '[:lower:]'
}

# Prints the help of the command $1, or that of the program for `agenda`, and ends the script.
say_help() {
  local text
  text=$(sed -n "/^words_make_help_of_$1()/,/^}/p" "$help_source" | sed -n "/<<'END'\$/,/^END\$/p" | sed '1d;$d')
  # without the text the program has to be built
  [ -n "$text" ] || return
  printf '%s\n' "$text" 2>/dev/null || refuse_device
  say_unbuilt
  exit 0
}

# Prints the version, without the line about its proofs, and ends the script.
say_version() {
  local version
  version=$(sed -n 's/^const VERSION: &str = "\([^"\\]*\).*/\1/p' "$command_source")
  [ -n "$version" ] || return
  printf 'agenda %s\n' "$version" 2>/dev/null || refuse_device
  if [ -x "$preview" ]; then say_preview; else say_unbuilt; fi
  exit 0
}

# Reports that standard output can't be written, as the program does, and ends the script.
refuse_device() {
  echo 'agenda: Device' >&2
  exit 3
}

say_unbuilt() {
  echo "agenda: not built, or older than its sources; the first command builds a preview, which takes about a minute" >&2
}

# Reports the usage error $1 as the program does, and ends the script.
refuse_words() {
  printf "error: %s\n\nUsage: agenda <COMMAND>\n\nFor more information, try '--help'.\n" "$1" >&2
  exit 2
}

# Ends the script with the version, if the arguments $@ request it. A preview would say that it is proved.
answer_version() {
  case ${1-} in
    -V* | --version) say_version ;;
  esac
}

# Ends the script with an answer to the arguments $@, if that needs no program.
answer_unbuilt() {
  local names
  names=$(command_names)
  [ -n "$names" ] || return
  if grep -qxF -e "${1-}" <<<"$names"; then
    case ${2-} in
      -h* | --help) say_help "$1" ;;
    esac
    return
  fi
  answer_version "$@"
  case ${1-} in
    -h* | --help) say_help agenda ;;
    -?*) [ "$1" = -- ] || refuse_words "unexpected argument '$1' found" ;;
    *)
      [ $# = 0 ] || refuse_words "unrecognized subcommand '$1'"
      refuse_words "'agenda' requires a subcommand but one was not provided"$'\n'"  [subcommands: ${names//$'\n'/, }]"
      ;;
  esac
}
