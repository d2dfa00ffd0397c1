# shellcheck shell=bash disable=SC2154
# Compares what `agenda machine` finds below made roots with what systemd loads below them. bin/witness sources this file.
#
# systemd needn't run for it: `systemd-analyze verify` loads what a target enables. Each file of a made root
# has an event that is rejected, so that the log names each file that is read, in order, and the text with its
# specifiers expanded. Timers start x.target, so none is rejected because its unit is missing.

roots=100

# Makes the roots of standard input, which roots.awk or boot-roots.awk writes, in the directory $3: those whose number
# has the remainder $1 when divided by $2.
make_roots() {
  local number kind path text
  while IFS=$'\t' read -r number kind path text; do
    [ $((number % $2)) = "$1" ] || continue
    path=$3/$number/$path
    # nothing is written through a link, which may lead out of the root
    if [ -L "$path" ] || [ -L "${path%/*}" ]; then continue; fi
    [ -d "${path%/*}" ] || mkdir -p -- "${path%/*}"
    case $kind in
      file) printf '[Timer]\nOnCalendar=%%n %%N %%p %%i %%j %%I %%P 0%%%%\nUnit=x.target\n' >"$path" ;;
      text) printf '%b' "$text" >"$path" ;;
      target) printf '[Unit]\nDescription=wishes\n' >"$path" ;;
      boot) printf '[Unit]\nWants=x.target y.target z.target\n' >"$path" ;;
      empty) : >"$path" ;;
      folder) mkdir -p -- "$path" ;;
      link) ln -s -- "$text" "$path" ;;
    esac
  done
}

# Lists what systemd loads below the root $1: in the file $1.loaded, the name of each timer and the files that
# are read; in $1.written, the texts of instances; and in $1.masked, the names that are masked. Drop-ins of a
# timer that doesn't exist are read too. So the files of a timer are those whose text has its name, before the
# line that says that the timer is read. The file of a timer with a link of another name may have that name.
ask_systemd_of() {
  systemd-analyze --root="$1" verify {x,y,z}.target 2>&1 </dev/null | awk -v root="$1/" -v written="$1.written" '
    at = index($0, ": Failed to parse calendar specification, ignoring: ") {
      path = substr($0, length(root) + 1, at - length(root) - 1)
      sub(/:[0-9]+$/, "", path)
      text = substr($0, at + 52)
      name = text
      sub(/ .*/, "", name)
      if (name == "alias.timer" && path !~ /[.]timer[.]d[/]/) main = " " path
      else files[name] = files[name] " " path
      texts[name] = texts[name] text "\n"
    }
    sub(/: Timer unit lacks value setting[.] Refusing[.]$/, "") {
      print $0 main files[$0]
      if (/@/) printf "%s", texts[$0] >written
      main = ""
    }
    /^Assertion / { print }' | sort >"$1.loaded"
  systemctl --root="$1" list-unit-files --type=timer --no-legend 2>/dev/null </dev/null |
    awk '$2 ~ /^(masked|masked-runtime|bad)$/ { print $1 }' >"$1.masked"
}

# Lists what agenda finds below the root $1, in the same form as ask_systemd_of. What it skips is in $1.left. In $1.texts
# are the events without unexpanded specifiers, which check quotes.
ask_machine_of() {
  "$program" machine sources --root "$1" 2>"$1.left" </dev/null | awk -F '\t' -v root="$1/" '
    { path = substr($3, length(root) + 1); gsub(/\\\\/, "\\", path) }
    $1 == "timer" { if (line != "") print line; line = $2 " " path }
    $1 == "drop-in" { line = line " " path }
    END { if (line != "") print line }' | sort >"$1.found"
  "$program" machine check --root "$1" 2>/dev/null </dev/null |
    sed -nE "/%%/d; s/^[^']*: error: [^']*'(.*)'[^']*$/\1/p" | sort >"$1.texts"
}

# Removes from what systemd loads below the root $1 what agenda skips and reports by its own rules: escapes, and names that
# are already used.
drop_known() {
  awk -v left="$1.left" '
    BEGIN {
      while ((getline line <left) > 0) {
        if (!match(line, /: (escape|name taken)$/)) continue
        name = substr(line, 1, RSTART - 1)
        sub(/.*[/]/, "", name)
        gsub(/\\\\/, "\\", name)
        known[name] = 1
      }
    }
    { name = $1 }
    name in known { next }
    { gsub(/@/, "-", $1); print }' "$1.loaded" | sort
}

# Prints how the two differ for the root $1. If /lib is a link to /usr/lib, a path may be shown in either
# form. If systemctl says that a name is bad, a directory with the name comes before the mask.
compare_root() {
  local path
  [ ! -L "$1/lib" ] || sed -i 's, lib/, usr/lib/,g' "$1.loaded" "$1.found"
  drop_known "$1" | diff --label systemd --label agenda - "$1.found"
  while IFS= read -r path; do
    grep -qxF -e "${path##*/}" "$1.masked" || echo "not masked: $path"
  done < <(sed -nE '/[.]target[.](wants|requires)[/]/d; s/^agenda: skipped (.*[.]timer): masked$/\1/p' "$1.left" |
    sed 's/\\\\/\\/g')
  [ -f "$1.written" ] || : >"$1.written"
  sort -u "$1.texts" | comm -13 <(sort -u "$1.written") - | sed 's/^/other text: /'
}

# Makes and compares the roots whose number has the remainder $1 when divided by $2.
compare_share() {
  local number root
  make_roots "$1" "$2" "$work/roots" <"$work/roots.list"
  for ((number = 1; number <= roots; number++)); do
    [ $((number % $2)) = "$1" ] || continue
    root=$work/roots/$number
    ask_systemd_of "$root"
    ask_machine_of "$root"
    compare_root "$root" >"$root.told" 2>&1
  done
}

# Compares agenda with systemd below the made roots.
compare_roots() {
  local shares share number
  local -a children=()
  awk -f "$parts/roots.awk" -v seed="$seed" -v count="$roots" >"$work/roots.list" </dev/null
  shares=$(nproc)
  for ((share = 0; share < shares; share++)); do
    compare_share "$share" "$shares" &
    children+=($!)
  done
  wait "${children[@]}"
  for ((number = 1; number <= roots; number++)); do
    cp "$work/roots/$number.told" "$work/told"
    count "root $number of seed $seed"
  done
  echo "roots: $roots, agenda beside systemd: $(cat "$work"/roots/*.found | wc -l) timers with $(cat "$work"/roots/*.found |
    awk '{ count += NF - 2 } END { print count + 0 }') drop-ins are the same; $(cat "$work"/roots/*.left | wc -l) lines say what is left out"
}
