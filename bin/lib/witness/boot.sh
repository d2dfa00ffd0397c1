# shellcheck shell=bash disable=SC2154
# Compares the timers that `agenda machine` lists with those that systemd starts at boot, below made roots and below
# one of some Debian packages. bin/witness sources this file after roots.sh.
#
# systemd needn't run for it. Its test mode loads the units that default.target wants, and prints the jobs that it
# would start. It runs in the root itself, in a mount namespace, as a user without rights.

# what a boot prints if systemd's test mode doesn't run here
no_boot="skipped, since it wants root, unshare, control groups and systemd, whose test mode has to run here"

# Copies systemd and its libraries into $work/systemd, and sets `loader` to the name of the program that loads them.
copy_systemd() {
  local path
  local -a needed
  for path in /usr/lib/systemd/systemd /lib/systemd/systemd; do
    [ -x "$path" ] || continue
    mapfile -t needed < <(ldd "$path" | grep -o '/[^ ]*')
    loader=$(ldd "$path" | sed -n 's|^[[:blank:]]*/.*/\([^ /]*\) (.*|\1|p')
    mkdir "$work/systemd" && cp -L -- "$path" "${needed[@]}" "$work/systemd" && [ -n "$loader" ]
    return
  done
  return 1
}

# Prints what systemd's test mode says about the boot below the root $1. Its log is in $1.log, and has what is as grave as $2.
test_boot() {
  local chroot
  chroot=$(PATH=$PATH:/usr/sbin:/sbin command -v chroot) || return
  mkdir -p -- "$1"/{run,tmp,proc,sys,dev,sd} && : >>"$1/dev/null" && chown -R 65534 "$1/run" "$1/tmp" || return
  # shellcheck disable=SC2016
  unshare -m bash -c '
    mount --bind "$2" "$1/sd" && mount --bind /proc "$1/proc" && mount --rbind /sys "$1/sys" && mount --bind /dev/null "$1/dev/null" &&
      exec env -i PATH=/usr/bin SYSTEMD_LOG_LEVEL="$5" SYSTEMD_LOG_TARGET=console timeout 20 "$4" --userspec=65534:65534 "$1" \
        "/sd/$3" --library-path /sd /sd/systemd --test --system --unit=default.target' \
    - "$1" "$work/systemd" "$loader" "$chroot" "$2" 2>"$1.log" </dev/null
}

# Prints the units that systemd would start below the root $1, one per line. Its log is in $1.log.
started_units() {
  test_boot "$1" debug | sed -n 's/^[[:blank:]]*Action: \(.*\) -> start$/\1/p' | sort -u
}

# Tests whether systemd's test mode runs here, by a root that has one unit.
can_boot() {
  local root=$work/boot/0
  [ "$(id -u)" = 0 ] && mkdir -p "$root/usr/lib/systemd/system" && copy_systemd || return
  printf '[Unit]\nDescription=boot\n' >"$root/usr/lib/systemd/system/default.target"
  started_units "$root" | grep -qx default.target
} 2>/dev/null

# Lists the timers that agenda finds below the root $1 in $1.listed, with those that it doesn't plan since it finds
# that their units can't start. What it skips is in $1.left.
list_timers() {
  "$program" machine sources --root "$1" >"$1.sources" 2>"$1.left" </dev/null
  [ $? -le 1 ] || echo "agenda ended with an error: $(head -n 1 "$1.left")"
  {
    awk -F '\t' '$1 == "timer" { print $2 }' "$1.sources"
    sed -n 's|^agenda: not planned: .*/\([^/]*\): its unit [^ ]* is [a-z]*$|\1|p' "$1.left" | tr @ -
  } | sort >"$1.listed"
}

# Prints how the timers differ below the root $1. agenda runs first, so that it doesn't find what systemd needs there.
boot_root() {
  list_timers "$1"
  started_units "$1" >"$1.units"
  [ -s "$1.units" ] || echo "systemd starts nothing: $(tail -n 1 "$1.log")"
  grep '[.]timer$' "$1.units" | tr @ - | sort >"$1.started"
  diff --label systemd --label agenda "$1.started" "$1.listed"
}

# Makes the roots whose number has the remainder $1 when divided by $2, and compares their timers.
boot_share() {
  local number
  make_roots "$1" "$2" "$work/boot" <"$work/boot/list"
  for ((number = 1; number <= boots; number++)); do
    [ $((number % $2)) = "$1" ] || continue
    boot_root "$work/boot/$number" >"$work/boot/$number.told" 2>&1
  done
}

# Counts the made roots, and shows the first differences.
count_boots() {
  local number more=0
  for ((number = 1; number <= boots; number++)); do
    if [ -s "$work/boot/$number.told" ] && [ "$shown" -ge "$most_shown" ]; then
      more=$((more + 1))
      continue
    fi
    [ ! -s "$work/boot/$number.told" ] || shown=$((shown + 1))
    cp "$work/boot/$number.told" "$work/told"
    count "the boot of root $number of seed $seed"
  done
  [ $more = 0 ] || echo "FAILED: $more more boots"
  failed=$((failed + more))
}

# Compares the timers of the boots of made roots.
compare_boots() {
  local boots=$(((cases + 74) / 75)) shown=0 shares share
  local -a children=()
  if ! can_boot; then
    echo "boot: $no_boot"
    return
  fi
  has_boot=yes
  awk -f "$parts/boot-roots.awk" -v seed="$seed" -v count="$boots" >"$work/boot/list" </dev/null
  shares=$(nproc)
  for ((share = 0; share < shares; share++)); do
    boot_share "$share" "$shares" &
    children+=($!)
  done
  wait "${children[@]}"
  count_boots
  echo "boot: $boots roots, agenda beside systemd: $(cat "$work"/boot/[1-9]*.started 2>/dev/null | wc -l) timers are started"
}

# Puts the units of the packages below the root, and enables them as Debian does, and two timers of one database.
unpack_boot() {
  local deb
  mkdir -p "$1"
  for deb in "$fetched"/{debs,boot}/*.deb; do
    [ -f "$deb" ] || continue
    dpkg-deb --fsys-tarfile "$deb" | tar -x -C "$1" --wildcards '*/systemd/system/*' '*/systemd/system-preset/*'
  done
  systemctl --root="$1" preset-all && systemctl --root="$1" enable postgresql@15-main.service pg_{basebackup,dump}@15-main.timer
} >"$work/unpack.log" 2>&1 </dev/null

# Compares the timers of the boot of the packages.
compare_package_boot() {
  local root=$work/boot/packages
  if [ "$has_boot" = no ]; then
    echo "the boot of the packages: $no_boot"
  elif [ -z "$(find "$fetched/boot" -name '*.deb' 2>/dev/null)" ]; then
    echo "the boot of the packages: skipped, since they can't be fetched here"
  else
    unpack_boot "$root" || tell "the units can't be enabled: $(tail -n 1 "$work/unpack.log")"
    boot_root "$root" >>"$work/told" 2>&1
    count "the boot of the packages"
    echo "the boot of the packages: $(wc -l <"$root.started") timers are started, of $(find "$root" -name '*.timer' -type f | wc -l) files"
  fi
}
