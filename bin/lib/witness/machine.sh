# shellcheck shell=bash disable=SC2154
# Lets agenda find the crontabs and timers of some Debian packages, all below one root, and plan a day of them.
# bin/witness sources this file.

# Puts the files of the packages below the root. Its boot starts each target that a timer is wanted by, and each timer has
# a service.
unpack_machine() {
  local deb
  mkdir -p "$machine"
  for deb in "$fetched"/debs/*.deb; do
    [ -f "$deb" ] || continue
    dpkg-deb --fsys-tarfile "$deb" | tar -x -C "$machine" --wildcards './etc/crontab' './etc/cron.d/*' '*/systemd/system/*.timer' \
      '*/systemd/system/*.timer.d/*' '*/systemd/system/*.wants/*' 2>/dev/null
  done
  start_targets
}

# Makes default.target, which wants the targets of all timers, those targets, and a service for each timer.
start_targets() {
  local path name target units=$machine/usr/lib/systemd/system
  mkdir -p -- "$units"
  echo '[Unit]' >"$units/default.target"
  while IFS= read -r path; do
    name=${path##*/}
    printf '[Service]\nExecStart=/bin/true\n' >"$units/${name%.timer}.service"
    while IFS= read -r target; do
      echo '[Unit]' >"$units/$target"
      echo "Wants=$target" >>"$units/default.target"
    done < <(sed -nE 's/^(WantedBy|RequiredBy)=//p' "$path" | tr -s ' \r' '\n' | grep '[.]target$')
  done < <(shipped_timers others && shipped_timers templates)
}

# Prints the paths below the root of the packages' timers: only templates if $1 is `templates`, and otherwise
# the others.
shipped_timers() {
  find "$machine/lib/systemd/system" "$machine/usr/lib/systemd/system" -maxdepth 1 -name '*.timer' -type f 2>/dev/null | sort |
    if [ "$1" = templates ]; then grep '@[.]timer$'; else grep -v '@[.]timer$'; fi
}

# Enables the timers for their targets, as their [Install] section says, and templates for the instance `one`.
enable_timers() {
  local path name target
  while IFS= read -r path; do
    name=${path##*/}
    while IFS= read -r target; do
      mkdir -p "$machine/etc/systemd/system/$target.wants"
      ln -sf "${path#"$machine"}" "$machine/etc/systemd/system/$target.wants/${name/@./@one.}"
    done < <(sed -nE 's/^(WantedBy|RequiredBy)=//p' "$path" | tr -s ' \r' '\n' | grep .)
  done < <(shipped_timers others && shipped_timers templates)
}

# Complains about paths of standard input that agenda neither lists, in the file $1, nor reports, in the file $2.
tell_unnamed() {
  local path
  while IFS= read -r path; do
    cut -f 3 "$1" | grep -qxF -e "$path" || grep -qF -e " $path: " "$2" || echo "not named: ${path#"$machine"}"
  done
}

# Compares what agenda finds with the files of the packages.
compare_machine() {
  local machine=$work/machine path wishes templates
  unpack_machine
  if [ -z "$(find "$machine" -type f -print -quit)" ]; then
    echo "the packages as one machine: skipped, since they can't be fetched here"
    return
  fi
  enable_timers
  "$program" machine sources --root "$machine" --all >"$work/all" 2>"$work/all.left" </dev/null
  "$program" machine sources --root "$machine" >"$work/wished" 2>"$work/wished.left" </dev/null
  {
    find "$machine/etc/crontab" "$machine/etc/cron.d" -type f -not -name '.*' 2>/dev/null
    shipped_timers others
  } | tell_unnamed "$work/all" "$work/all.left" >"$work/told"
  count "the files of the packages as one machine"
  # what is enabled
  while IFS= read -r path; do
    find "$machine"/{etc,lib,usr/lib}/systemd/system -path "*.target.wants/$(basename "${path/@./@one.}")" 2>/dev/null | grep -q . && echo "$path"
  done < <(shipped_timers others && shipped_timers templates) >"$work/wishes"
  tell_unnamed "$work/wished" "$work/wished.left" <"$work/wishes" >"$work/told"
  count "the timers of the packages that a target wishes for"
  wishes=$(wc -l <"$work/wishes")
  templates=$(grep -c '@[.]timer$' "$work/wishes")
  plan_machine
  echo "the packages as one machine: $(wc -l <"$work/all") sources, of which $wishes timers are wished for, $templates of them by a template; \
$(cat "$work/all.left" "$work/wished.left" | grep -E '^agenda: (skipped|unknown:) ' | sort -u | wc -l) files are left out; a day has $planned starts"
}

# Lets agenda plan the first day of the month of all of them.
plan_machine() {
  "$program" machine plan --root "$machine" --all --since "$since" \
    >"$work/planned" 2>"$work/planned.told" </dev/null || tell "the plan of a day: status $?, $(grep -vE '^agenda: (skipped|unknown:|not planned:|no cron daemon) ' "$work/planned.told")"
  planned=$(($(wc -l <"$work/planned") - 1))
  [ "$planned" -gt 0 ] || tell "the plan of a day has no starts"
  count "a day of the packages as one machine"
}
