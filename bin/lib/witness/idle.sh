# shellcheck shell=bash disable=SC2154
# Runs made commands by dash, and compares what they do with what `agenda machine check` says of idle jobs; and compares the
# scripts of made directories with those of run-parts. bin/witness sources this file.

# Makes the directory $1, in which commands look, with a program that makes a file in $PWD_OF_EFFECTS.
make_places() {
  local name
  mkdir -p "$1"/{bin,full,empty,scripts,dir/sub}
  # shellcheck disable=SC2016
  printf '#!/bin/sh\n: >"$EFFECTS/act"\n' >"$1/bin/act"
  for name in bin/tool scripts/one scripts/two full/run; do cp "$1/bin/act" "$1/$name"; done
  chmod 755 "$1"/bin/* "$1"/scripts/* "$1/full/run"
  chmod 644 "$1/bin/tool"
  printf 'text\n' | tee "$1/plain" >"$1/scripts/README.txt"
  : >"$1/empty-file"
  : >"$1/empty/not-a-script"
  ln -s bin/act "$1/link-to-act"
  ln -s full "$1/link-to-full"
  ln -s nowhere "$1/dangling"
}

# Makes the root $1 with the crontab on standard input, which cron would load, and a copy of the directory $2 at $3. /bin is /usr/bin,
# which has none of the commands.
make_idle_root() {
  mkdir -p "$1"/{etc,usr/sbin,usr/bin,var/lib,var/spool/cron} "$1$(dirname -- "$3")"
  ln -s usr/bin "$1/bin"
  printf 'root:x:0:0:root:/root:/bin/sh\n' >"$1/etc/passwd"
  : >"$1/usr/sbin/cron"
  chmod 755 "$1/usr/sbin/cron"
  cp -a -- "$2" "$1$3"
  cat >"$1/etc/crontab"
  chmod 644 "$1/etc/crontab"
  chmod -R go-w "$1"
}

# Writes the commands of standard input as lines of a crontab: cron removes a backslash before `%` and `\`.
as_crontab() {
  printf 'PATH=%s/bin:/usr/bin:/bin\n' "$1"
  sed 's/[\\%]/\\&/g; s/^/* * * * * root /'
}

# Runs the commands of the file $1, whose number has the remainder $2 when divided by $3, each in a directory of its own in $5: one
# may leave a process that has an effect only later. They have no rights to change the directory $4.
run_share() {
  local number=0 text effects
  while IFS= read -r text; do
    number=$((number + 1))
    [ $((number % $3)) = "$2" ] || continue
    effects=$5/$number
    mkdir -- "$effects"
    (cd "$effects" && exec env -i PATH="$4/bin:/usr/bin:/bin" EFFECTS="$effects" timeout 10 dash -c "$text") >/dev/null 2>&1 </dev/null
  done <"$1"
}

# Prints the numbers of the commands of the file $1 that have an effect: there is something in their directory in the end.
acting_commands() {
  local share shares effects=$work/idle/effects
  shares=$(nproc)
  mkdir -- "$effects"
  chmod 777 "$effects"
  for ((share = 0; share < shares; share++)); do
    if [ "$(id -u)" = 0 ] && command -v setpriv >/dev/null; then
      setpriv --reuid=65534 --regid=65534 --clear-groups bash -c "$(declare -f run_share); run_share \"\$@\"" - "$1" "$share" "$shares" "$2" "$effects" &
    else
      run_share "$1" "$share" "$shares" "$2" "$effects" &
    fi
  done
  wait
  sleep 1
  find "$effects" -mindepth 2 -printf '%P\n' | cut -d / -f 1 | sort -u
}

# Compares the commands that are idle with those that dash runs.
compare_idle_commands() {
  local made=$work/idle/made root=$work/idle/root idle quiet
  make_places "$made"
  chmod 755 "$work" "$work/idle"
  chmod 777 "$work/idle"
  awk -f "$parts/random.awk" -f "$parts/idle-commands.awk" -v seed="$seed" -v count="$cases" -v made="$made" >"$work/idle/commands" </dev/null
  # Only what is in a directory of the system is known: there the made directory is /usr/made.
  as_crontab "$made" <"$work/idle/commands" | sed "s|$made|/usr/made|g" | make_idle_root "$root" "$made" /usr/made
  "$program" machine check --root "$root" 2>&1 >/dev/null </dev/null | sed -n 's|^agenda: idle: .*/etc/crontab:\([0-9]*\): .*|\1|p' |
    awk '{ print $1 - 1 }' | sort >"$work/idle/idle"
  acting_commands "$work/idle/commands" "$made" >"$work/idle/acting"
  idle=$(wc -l <"$work/idle/idle")
  [ "$idle" != 0 ] || tell "no command is idle"
  comm -12 "$work/idle/idle" "$work/idle/acting" | head -n 5 | while IFS= read -r number; do
    tell "has an effect: $(sed -n "${number}p" "$work/idle/commands")"
  done
  count "$idle idle commands of seed $seed"
  quiet=$(seq "$cases" | sort | comm -23 - "$work/idle/acting" | comm -23 - "$work/idle/idle" | wc -l)
  passed=$((passed + cases - 1))
  echo "idle: $cases commands, agenda beside dash: $idle are idle and have no effect; $quiet have none here and aren't called idle"
}

# Prints what is in 40 made directories: the number of a directory, a kind, a mode or a target, and a name.
list_script_places() {
  awk -f "$parts/random.awk" -f /dev/fd/3 -v seed="$seed" 3<<'AWK' </dev/null
    BEGIN {
      start_rolling(seed)
      names = "alpha Beta 0daily man-db under_score dotted.sh backup~ .hidden #save# x.dpkg-old plus+ UPPER run z9 _ -dash two,words"
      for (number = 1; number <= 40; number++) {
        for (more = roll(14); more > 0; more--) {
          kind = pick("script script script directory link file")
          detail = pick("755 644 700 111 654 766")
          if (kind == "link") detail = pick("../tool nowhere ../d2/alpha .")
          print number "\t" kind "\t" detail "\t" pick(names)
        }
      }
    }
AWK
}

# Makes these directories in $1. A name that is there already is left as it is.
make_script_places() {
  local number kind detail name file
  mkdir -p -- "$1"/d{1..40}
  cp -- "$(command -v cat)" "$1/tool"
  while IFS=$'\t' read -r number kind detail name; do
    file=$1/d$number/$name
    if [ -e "$file" ] || [ -L "$file" ]; then continue; fi
    case $kind in
      script) printf '#!/bin/sh\n' >"$file" && chmod "$detail" -- "$file" ;;
      directory) mkdir -- "$file" ;;
      link) ln -s -- "$detail" "$file" ;;
      file) : >"$file" && chmod "$detail" -- "$file" ;;
    esac
  done < <(list_script_places)
}

# Compares the scripts of directories with those that run-parts of debianutils would run.
compare_scripts() {
  local made=$work/idle/places/made root=$work/idle/scripts-root number
  mkdir -p "$made"
  make_script_places "$made"
  seq 40 | sed "s|.*|$made/d&|" | sed 's/^/run-parts /' | as_crontab "$made" | make_idle_root "$root" "$made" "$made"
  "$program" machine scripts --root "$root" --utc 2>"$work/idle/scripts-told" </dev/null | cut -f 1,3 >"$work/idle/scripts"
  for ((number = 1; number <= 40; number++)); do
    sed -n "s|^system:$((number + 1))\t||p" "$work/idle/scripts" |
      diff --label run-parts --label agenda <(run-parts --test "$made/d$number" 2>/dev/null) - >>"$work/told"
    count "the scripts of directory $number of seed $seed"
  done
  echo "scripts: 40 directories, agenda beside run-parts: $(wc -l <"$work/idle/scripts") scripts"
}

# Compares idle commands and scripts.
compare_idle() {
  if ! command -v dash >/dev/null || ! command -v run-parts >/dev/null; then
    echo "idle commands and scripts: skipped, since dash or run-parts is missing"
    return
  fi
  mkdir -p "$work/idle"
  compare_idle_commands
  compare_scripts
}
