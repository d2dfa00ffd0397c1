# shellcheck shell=bash disable=SC2154
# Which files of the project are installed, and where. bin/install and bin/package source this file.

# The pages of docs/ that are installed.
installed_pages="DIFFERENCES.md FORMATS.md IDLE.md USERS.md"

# Sets `program` to the program that is installed, with all symlinks resolved. AGENDA_PROGRAM names it. Without that variable it is the one
# that bin/build proves and builds.
find_program() {
  local given=${AGENDA_PROGRAM:-$program}
  [ -n "${AGENDA_PROGRAM:-}" ] || build_program || stop "the program isn't built"
  program=$(readlink -e -- "$given") || stop "no such program: '$given'"
}

# Prints a line for each file: its mode, its path, and the path below the prefix $1 where it is installed.
installed_files() {
  local prefix=$1 share="$1/share" zsh fish mode file name
  zsh="$share/zsh/site-functions"
  fish="$share/fish/vendor_completions.d"
  case $prefix in
    # Debian's zsh reads the completions of packages from another directory
    /usr) zsh="$share/zsh/vendor-completions" ;;
    # fish reads $share below /usr/local only if XDG_DATA_DIRS names it, but it always reads the administrator's completions
    /usr/local) fish=/etc/fish/completions ;;
  esac
  printf '%s\t%s\t%s\n' \
    755 "$program" "$prefix/bin/agenda" \
    755 "$top/bin/agenda-machine" "$prefix/bin/agenda-machine" \
    644 "$top/completions/agenda.bash" "$share/bash-completion/completions/agenda" \
    644 "$top/completions/agenda-machine.bash" "$share/bash-completion/completions/agenda-machine" \
    644 "$top/completions/_agenda" "$zsh/_agenda" \
    644 "$top/completions/_agenda-machine" "$zsh/_agenda-machine" \
    644 "$top/completions/agenda.fish" "$fish/agenda.fish" \
    644 "$top/completions/agenda-machine.fish" "$fish/agenda-machine.fish" \
    644 "$top/bin/lib/package/copyright" "$share/doc/agenda/copyright"
  for file in agenda agenda-machine agenda-steps; do
    printf '644\t%s\t%s\n' "$top/man/$file.1" "$share/man/man1/$file.1"
  done
  for file in $installed_pages; do
    printf '644\t%s\t%s\n' "$top/docs/$file" "$share/doc/agenda/$file"
  done
  while IFS=$'\t' read -r mode file name; do
    case $mode in
      -??x*) mode=755 ;;
      *) mode=644 ;;
    esac
    printf '%s\t%s\t%s\n' "$mode" "$file" "$share/doc/agenda/examples/$name"
  done < <(find "$top/examples" -type f -printf '%M\t%p\t%P\n')
}

# Prints the page $1 of the project, such as docs/FORMATS.md, with the links that it has where it is installed.
installed_page() {
  awk -v page="$1" -v installed="$installed_pages" -f "$top/bin/lib/installed-links.awk" "$top/$1"
}

# Installs the file $2 as $3, with the mode $1.
put_file() {
  local from=$2
  case $from in
    *.md)
      from=$work/page
      installed_page "${2#"$top/"}" >"$from" || return
      ;;
  esac
  install -D -m "$1" -- "$from" "$3"
}

# Installs all files below the directory $1 and the prefix $2, and prints the path of each one.
put_files() {
  local mode from to
  while IFS=$'\t' read -r mode from to; do
    put_file "$mode" "$from" "$1$to" || stop "can't write '$1$to'"
    printf '%s\n' "$1$to"
  done < <(installed_files "$2")
}
