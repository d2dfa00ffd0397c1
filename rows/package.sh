# shellcheck shell=bash disable=SC2154
# Rows of bin/package and bin/install: what the package and the archive contain and say, that they run where nothing else of the project
# is, that the same tree gives the same bytes, what is installed and removed, and what is rejected. If a machine misses a program that a
# row needs, the row is skipped, and a line says so.

# shellcheck source=bin/lib/documents/rules.sh
. "$top/bin/lib/documents/rules.sh" || exit 3

package_dir=$work/package
package_time=1700000000
package_day='2023-11-14 22:13'
package_version=$(agenda --version | sed -n '1s/^agenda //p')
package_machine=$(uname -m)
package_archive=agenda-$package_version-linux-$package_machine
package_deb=
! command -v dpkg-deb >/dev/null || package_deb=agenda_${package_version}_$(dpkg --print-architecture).deb

# What the program needs on a machine, by readelf.
package_linker='' package_libraries='' package_libc=''
if command -v readelf >/dev/null; then
  package_linker=$(readelf -l "$program" | sed -n 's/.*Requesting program interpreter: \(.*\)]$/\1/p')
  package_libraries=$(readelf -d "$program" | sed -n 's/.*(NEEDED).*\[\(.*\)]$/\1/p' | sort | paste -sd, | sed 's/,/, /g')
  package_libc=$(readelf -V "$program" | sed -n 's/.*Name: GLIBC_\([0-9.]*\) .*/\1/p' | sort -V | tail -n 1)
fi

# Runs bin/package of the tree $1 with the arguments after it, on the program of the other rows.
package_run() {
  local tree=$1
  shift
  run_in "$package_dir" env AGENDA_PROGRAM="$program" "$tree/bin/package" "$@"
}

# Writes what bin/package has to print on standard error if the programs $@ are missing: strip, dpkg-deb, dpkg-shlibdeps.
package_said() {
  local tool
  for tool; do
    case $tool in
      strip) echo "bin/package: strip is missing: the program keeps its symbol table" ;;
      dpkg-deb) echo "bin/package: dpkg-deb is missing: no Debian package is written" ;;
      dpkg-shlibdeps)
        [ -z "$package_libc" ] || echo "bin/package: dpkg-shlibdeps is missing: the package depends on libc6 (>= $package_libc)," \
          "the latest version that the program names"
        ;;
    esac
  done >"$work/err.wanted"
}

# Prints the names of those programs $@ that are missing here.
package_lacks() {
  local tool
  for tool; do
    command -v "$tool" >/dev/null || echo "$tool"
  done
}

# Compares the last run, which $1 names, with the paths that it has to print, in the directory $2.
package_written() {
  local lacks
  mapfile -t lacks < <(package_lacks strip dpkg-deb)
  [ -z "$package_deb" ] || mapfile -t -O ${#lacks[@]} lacks < <(package_lacks dpkg-shlibdeps)
  package_said "${lacks[@]}"
  # without readelf, nothing here knows the version in that line
  [ -n "$package_libc" ] || sed -i '/^bin\/package: dpkg-shlibdeps is missing: /d' "$work/err"
  printf '%s\n' ${package_deb:+"$2/$package_deb"} "$2/$package_archive.tar.gz" >"$work/out.wanted"
  compare "$1" "$work/out.wanted" "$work/err.wanted" 0
}

# Compares standard input, which $1 names, with the text $2.
package_shows() {
  cat >"$work/out"
  : >"$work/err"
  status=0
  compare_texts "$1" "$2" '' 0
}

# Makes the directory $1 a copy of what bin/package reads of the project, with other times and fewer rights.
package_copy() {
  mkdir -p "$1"
  cp -R -- "$top/bin" "$top/man" "$top/completions" "$top/docs" "$top/examples" "$top/CHANGELOG.md" "$1/"
  chmod -R go-rwx "$1"
  find "$1" -exec touch -d '2001-02-03 04:05:06' {} +
}

# Makes the package and the archive, in the directory `one`.
package_make() {
  export SOURCE_DATE_EPOCH=$package_time
  package_run "$top" one
  package_written "bin/package DIR" one
  package_shows "bin/package writes nothing else" "$package_archive.tar.gz"$'\n'"${package_deb:+$package_deb$'\n'}" \
    < <(ls -A "$package_dir/one")
}

# The same tree gives the same bytes: by another user, in another directory, with other times and rights of its files, with another mask,
# zone, language and directory for temporary files, on one processor, in another second.
package_again() {
  local by=() file nobody=(setpriv --reuid=65534 --regid=65534 --clear-groups)
  package_copy "$package_dir/a copy"
  cp -- "$program" "$package_dir/a copy/agenda"
  mkdir "$package_dir/the second"
  mkdir -m 2775 "$package_dir/temporary"
  if [ "$(id -u)" = 0 ] && "${nobody[@]}" true 2>/dev/null; then
    chmod 711 "$work"
    chown -R 65534:65534 "$package_dir/a copy" "$package_dir/the second" "$package_dir/temporary"
    chmod 2775 "$package_dir/temporary"
    by=("${nobody[@]}")
  fi
  ! taskset -c 0 true 2>/dev/null || by+=(taskset -c 0)
  # shellcheck disable=SC2016
  run_in "$package_dir" env AGENDA_PROGRAM="a copy/agenda" HOME=/ TZ=Asia/Tokyo LC_ALL=C.UTF-8 TMPDIR="$package_dir/temporary" \
    TAR_OPTIONS=-v POSIXLY_CORRECT=1 DPKG_DEB_COMPRESSOR_LEVEL=1 CDPATH=/ "${by[@]}" bash -c 'umask 077; exec "$@"' again \
    "a copy/bin/package" "the second/time"
  package_written "bin/package of the same tree again" "the second/time"
  ls -A "$package_dir/temporary" >"$work/told"
  count "bin/package leaves nothing in the directory for temporary files"
  for file in ${package_deb:+"$package_deb"} "$package_archive.tar.gz"; do
    cmp "$package_dir/one/$file" "$package_dir/the second/time/$file" >"$work/told" 2>&1
    count "$file has the same bytes again"
  done
  # another file system may list a directory in another order
  tar -tzf "$package_dir/one/$package_archive.tar.gz" >"$work/names"
  package_shows "the archive's files are in order" "$(tr / '\001' <"$work/names" | sort | tr '\001' /)"$'\n' <"$work/names"
  if [ -n "$package_deb" ]; then
    dpkg-deb --fsys-tarfile "$package_dir/one/$package_deb" | tar -t >"$work/names"
    package_shows "the package's files are in order" "$(tr / '\001' <"$work/names" | sort | tr '\001' /)"$'\n' <"$work/names"
  fi
}

# Prints rows of the tree of examples as it has to be in the directory $1: all of it, and no file can be executed that can't be in the tree.
package_examples() {
  find "$top/examples" \( -type d -printf "755 $1/examples/%P/\\n" -o -perm -u+x -printf "755 $1/examples/%P\\n" -o \
    -printf "644 $1/examples/%P\\n" \) | sed 's|//$|/|'
}

# Writes the lines of a listing for the rows of standard input: a mode and a path. Each file belongs to root, and has the day.
package_listing() {
  local mode path text
  while read -r mode path; do
    case $1$path in
      */) text=d ;;
      *) text=- ;;
    esac
    case $mode in
      755) text+=rwxr-xr-x ;;
      644) text+=rw-r--r-- ;;
    esac
    echo "$text root/root $package_day $1$path"
  done | sort >"$work/out.wanted"
}

# Compares the file `listing`, which $1 names, with the rows of standard input and the examples, which are in the directory $3. Before each
# path is $2.
package_lists() {
  { cat && package_examples "$3"; } >"$work/rows"
  package_listing "$2" <"$work/rows"
  package_shows "$1" "$(<"$work/out.wanted")"$'\n' < <(sed -E 's/^([^ ]+ [^ ]+) +[0-9]+ /\1 /' "$work/listing" | sort)
}

# The fields of the package, as deb-control(5) and Debian's policy, chapter 5, have them. Its size is that of its files in kilobytes, each
# rounded up, plus one for each directory.
package_fields() {
  local size
  size=$(awk '{ sum += /^d/ ? 1 : int(($3 + 1023) / 1024) } END { print sum }' "$work/listing")
  cat >"$work/out.wanted" <<END
Package: agenda
Version: $package_version
Section: admin
Priority: optional
Architecture: $(dpkg --print-architecture)
Maintainer: Yigpander maintainers <maintainers@users.noreply.yigpander.example>
Installed-Size: $size
Depends: libc6 (>= $package_libc)
Suggests: cron, bash-completion
Description: show when cron jobs and systemd timers will run
END
  run_in "$package_dir" bash -c "dpkg-deb -f one/$package_deb | grep -v '^ '"
  compare "the fields of the package" "$work/out.wanted" /dev/null 0
  # a line of the long description starts with one blank, and is shown as it is
  dpkg-deb -f "$package_dir/one/$package_deb" Description | sed 1d | grep -vnE '^ ([^ .].{0,77}|\.)$' >"$work/told"
  count "the long description of the package"
  run_in "$package_dir" bash -c "dpkg-deb -e one/$package_deb control && ls control"
  compare_texts "the files that dpkg reads" $'control\nmd5sums\n' '' 0
  run_in "$package_dir" bash -c "dpkg-deb -x one/$package_deb files && cd files && md5sum -c --quiet --strict ../control/md5sums"
  compare_texts "the sums of the package's files" '' '' 0
  package_shows "the files that have sums" "$(cd "$package_dir/files" && find . -type f -printf '%P\n' | sort)"$'\n' \
    < <(cut -c 35- "$package_dir/control/md5sums")
}

# Each row: a file of the project, and its path below the directory $1. A compressed file has neither a name nor a time in its header.
package_same() {
  local from to
  while read -r from to; do
    case $to in
      *.gz)
        gzip -dc "$1/$to" | cmp - "$top/$from"
        [ "$(head -c 9 "$1/$to" | od -An -tx1)" = ' 1f 8b 08 00 00 00 00 00 02' ] || echo "the header of $to is another"
        ;;
      *) cmp "$1/$to" "$top/$from" ;;
    esac >"$work/told" 2>&1
    count "${1##*/}/$to is $from"
  done
}

# The program at $1 is the one that was given: what is loaded when it runs is the same, byte by byte, and so is the note of what proved
# it. Its symbol table is gone.
package_program() {
  passed_over "whether ${1#"$package_dir/"} is the program" strip objcopy readelf && return
  {
    objcopy -O binary -- "$program" "$work/image.wanted"
    objcopy -O binary -- "$1" "$work/image"
    cmp "$work/image.wanted" "$work/image"
    [ -s "$work/image" ] || echo "nothing is loaded"
    diff <(readelf -p .comment "$program") <(readelf -p .comment "$1")
    readelf -p .comment "$1" | grep -q 'logic=' || echo "no note says what proved it"
    readelf -SW "$1" | grep symtab
  } >"$work/told" 2>&1
  count "what is loaded of ${1#"$package_dir/"} is the program"
}

# The program at $1 and the script at $2 run: the version, a plan, and the plan of a machine's root.
package_runs() {
  local root=$package_dir/root
  agenda --version >"$work/out.wanted"
  run_in "$package_dir" "$1" --version
  compare "$1 --version" "$work/out.wanted" /dev/null 0
  run_in "$package_dir" "$1" plan "${day[@]}" --crontab jobs
  compare_lines "$1 plan" "2024-01-01T01:30:00Z${tab}cron:1${tab}dump-database"$'\n'
  run_in "$package_dir" env -i PATH=/usr/bin:/bin "$2" sources --root "$root"
  compare_texts "$2 sources" \
    "system-crontab${tab}crontab${tab}$root/etc/crontab"$'\n'"timer${tab}a.timer${tab}$root/usr/lib/systemd/system/a.timer"$'\n' '' 0
  run_in "$package_dir" env -i PATH=/usr/bin:/bin "$2" plan --utc --root "$root" "${day[@]}"
  compare_lines "$2 plan" \
    "2024-01-01T03:00:00Z${tab}a.timer${tab}a.service"$'\n'"2024-01-01T04:00:00Z${tab}system:1${tab}root b"$'\n'
}

# Makes what the rows read: a crontab, and a machine's root with cron, a crontab and a timer that the boot starts.
package_make_files() {
  local units=$package_dir/root/usr/lib/systemd/system enabled=$package_dir/root/etc/systemd/system/timers.target.wants
  mkdir -p "$package_dir" "$units" "$enabled" "$package_dir/root"/{usr/sbin,var/lib,var/spool/cron}
  : >"$package_dir/root/usr/sbin/cron"
  echo '30 1 * * * dump-database' >"$package_dir/jobs"
  echo '0 4 * * * root b' >"$package_dir/root/etc/crontab"
  printf '[Unit]\nWants=timers.target\n' >"$units/default.target"
  printf '[Unit]\n' >"$units/timers.target"
  printf '[Service]\nExecStart=/bin/a\n' >"$units/a.service"
  printf '[Timer]\nOnCalendar=3:00\n' >"$units/a.timer"
  ln -s /usr/lib/systemd/system/a.timer "$enabled/a.timer"
}

# A reader sees the manual page at $1 as the project's page $2.
package_page() {
  passed_over "man -l ${1##*/}" man && return
  run_in "$package_dir" env -i PATH="$PATH" MANWIDTH=80 man -l "$top/$2"
  cp "$work/out" "$work/out.wanted"
  if ! grep -q agenda "$work/out.wanted"; then
    echo "man -l ${1##*/}: skipped, since man shows no page here"
    return
  fi
  run_in "$package_dir" env -i PATH="$PATH" MANWIDTH=80 man -l "$1"
  compare "man -l ${1#"$package_dir/"}" "$work/out.wanted" /dev/null 0
}

# Makes the directory $1 a root that dpkg takes for a machine with a C library of the version $2, and nothing else.
package_empty_root() {
  mkdir -p "$1/var/lib/dpkg/updates" "$1/var/lib/dpkg/info"
  printf '%s\n' "Package: libc6" "Status: install ok installed" "Maintainer: nobody" "Architecture: $(dpkg --print-architecture)" \
    "Version: $2" "Description: the C library" >"$1/var/lib/dpkg/status"
}

# Runs dpkg on the empty root $1. This machine may be set up to install no manual pages and documents.
package_dpkg() {
  local root=$1
  shift
  run_in "$package_dir" env PATH="$PATH:/usr/sbin:/sbin" dpkg --root="$package_dir/$root" --log=/dev/null --force-not-root \
    --path-include='/usr/share/*' "$@"
}

# dpkg installs the package into an empty root, where program and script run, and removes it again. It doesn't install the package if the
# C library is too old.
package_installs() {
  local empty=$package_dir/empty
  package_empty_root "$empty" "$package_libc"
  package_dpkg empty -i "one/$package_deb"
  [ "$status" = 0 ] || { tell "status $status"; cat "$work/err" >>"$work/told"; }
  count "dpkg -i into an empty root"
  # shellcheck disable=SC2016
  run_in "$package_dir" dpkg-query --admindir="$empty/var/lib/dpkg" -W -f '${Status} ${Version}\n' agenda
  compare_texts "the status of the package then" "install ok installed $package_version"$'\n' '' 0
  package_runs "$empty/usr/bin/agenda" "$empty/usr/bin/agenda-machine"
  package_page "$empty/usr/share/man/man1/agenda.1.gz" man/agenda.1
  package_page "$empty/usr/share/man/man1/agenda-machine.1.gz" man/agenda-machine.1
  package_page "$empty/usr/share/man/man1/agenda-steps.1.gz" man/agenda-steps.1
  package_alone "$empty"
  package_dpkg empty -P agenda
  [ "$status" = 0 ] || tell "status $status"
  find "$empty" -name '*agenda*' >>"$work/told"
  count "dpkg -P leaves nothing of it"
  package_empty_root "$package_dir/older" "$package_libc~"
  package_dpkg older -i "one/$package_deb"
  [ "$status" != 0 ] || tell "status 0"
  grep -qF "agenda depends on libc6 (>= $package_libc)" "$work/err" || tell "it doesn't say which C library it needs"
  count "dpkg -i with an older C library"
}

# The package runs in the root $1, which has only its files and what the program was found to need.
package_alone() {
  local path
  if [ "$(id -u)" != 0 ] || ! chroot / true 2>/dev/null; then
    echo "bin/package: the root with nothing else in it is skipped, since chroot isn't permitted here"
    return
  fi
  for path in "$package_linker" $(ldd "$program" | awk '$2 == "=>" && $3 ~ /^\// { print $3 }'); do
    mkdir -p "$1${path%/*}"
    cp -L -- "$path" "$1$path"
  done
  agenda --version >"$work/out.wanted"
  run_in "$package_dir" chroot "$1" /usr/bin/agenda --version
  compare "the package in a root with nothing else: --version" "$work/out.wanted" /dev/null 0
  cp "$package_dir/jobs" "$1/jobs"
  run_in "$package_dir" chroot "$1" /usr/bin/agenda plan "${day[@]}" --crontab jobs
  compare_lines "the package in a root with nothing else: plan" "2024-01-01T01:30:00Z${tab}cron:1${tab}dump-database"$'\n'
}

# lintian finds no error and no warning in the package of the directory $1. The arguments after that are lintian's.
package_lint() {
  local dir=$1
  shift
  passed_over "lintian of $dir/$package_deb" lintian && return
  run_in "$package_dir" lintian --allow-root --fail-on error,warning "$@" "$dir/$package_deb"
  compare_texts "lintian of $dir/$package_deb" '' '' 0
}

# The changelog of the package, $1, has the form of Debian's policy, 4.4, and the items of CHANGELOG.md for the version and for what isn't
# released yet.
package_changelog() {
  gzip -dc "$1" >"$work/changelog"
  package_shows "the first lines of the changelog" "agenda ($package_version) unstable; urgency=medium"$'\n\n' < <(head -n 2 "$work/changelog")
  package_shows "the last lines of the changelog" \
    $'\n -- Yigpander maintainers <maintainers@users.noreply.yigpander.example>  Tue, 14 Nov 2023 22:13:20 +0000\n' < <(tail -n 2 "$work/changelog")
  awk -v version="## $package_version" '
    /^## / { is_read = /^## Unreleased$/ || index($0 " ", version " ") == 1; next }
    is_read && (/^- / || /^ /) { sub("^- ", "* "); print }' "$top/CHANGELOG.md" | xargs -d '\n' printf '%s ' | tr -s ' ' '\n' >"$work/items"
  package_shows "the items of the changelog" "$(<"$work/items")"$'\n' < <(sed '1,2d; /^ --/d; /^$/d' "$work/changelog" | tr -s ' ' '\n' | sed '/^$/d')
  sed '1,2d; /^ --/d; /^$/d' "$work/changelog" | grep -nvE '^(  \* |    )[^ ].{0,75}$' >"$work/told"
  count "the lines of the changelog"
  passed_over "dpkg-parsechangelog of the changelog" dpkg-parsechangelog && return
  run_in "$package_dir" dpkg-parsechangelog -l "$work/changelog" -S Version
  compare_texts "the version by dpkg-parsechangelog" "$package_version"$'\n' '' 0
}

# What a changelog says that is written in many ways: CHANGELOG.md of a copy of the tree.
package_written_changelog() {
  local copy="$package_dir/a changelog" long
  long=$(printf '%080d' 0)
  package_copy "$copy"
  cat >"$copy/CHANGELOG.md" <<END
# Changelog

- of no version

## Unreleased

- not
  released

## $package_version - 2026-01-02

Words that are no item.

- The first line of this item has 80 columns in the package, not more than so.
- The first line of this item has 81 columns in the package, so it is split up.
  - $long

### Fixed

- last

## ${package_version}1

- of another version
END
  run_in "$package_dir" env AGENDA_PROGRAM="$program" "$copy/bin/package" "$copy"
  cat >"$work/out.wanted" <<END
agenda ($package_version) unstable; urgency=medium

  * not released
  * The first line of this item has 80 columns in the package, not more than so.
  * The first line of this item has 81 columns in the package, so it is split
    up. -
    $long
  * last

END
  dpkg-deb --fsys-tarfile "$copy/$package_deb" | tar -xO ./usr/share/doc/agenda/changelog.gz | gzip -d | sed '$d' >"$work/changelog"
  package_shows "a changelog of many forms" "$(<"$work/out.wanted")"$'\n\n' <"$work/changelog"
  # these are two versions, though they are one number
  printf '#!/bin/sh\necho agenda 1.10\n# /lib64/ld-linux-x86-64.so.2 libc.so.6 GLIBC_2.34\n' >"$copy/ten"
  chmod 755 "$copy/ten"
  sed -i 's/^## 0.*/## 1.1/' "$copy/CHANGELOG.md"
  run_in "$package_dir" env AGENDA_PROGRAM="$copy/ten" "$copy/bin/package" "$copy"
  compare_texts "a changelog without the version" '' $'bin/package: CHANGELOG.md has no section \'1.10\'\n' 3
}

# Reports links of the pages below the directory $1 to files and headings that aren't there.
package_dead_links() {
  (cd "$1" && find . -printf '%P\n' | document_awk -f "$document_parts/markdown.awk" -f "$document_parts/links.awk" reads=paths - \
    reads=pages DIFFERENCES.md FORMATS.md IDLE.md USERS.md examples/README.md examples/*/README.md)
}

# Writes the text of the page $1 without the targets of links.
package_text() {
  tr '\n' '\001' <"$1" | sed -E 's/\[([^][]*)\]\([^() \x01]*\)/\1/g; s/ \(in the sources of agenda\)//g' | tr '\001' '\n'
}

# The documents and examples in the directory $1 are those of the project. The pages have their text, and no dead link.
package_pages() {
  local from to
  diff -r -x '*.md' "$top/examples" "$1/examples" >"$work/told" 2>&1
  count "the examples in ${1#"$package_dir/"}"
  while IFS= read -r from; do
    to=${from#docs/}
    diff <(package_text "$top/$from") <(package_text "$1/$to") >"$work/told" 2>&1
    count "${1#"$package_dir/"}/$to has the text of $from"
  done < <(printf '%s\n' docs/DIFFERENCES.md docs/FORMATS.md docs/IDLE.md docs/USERS.md && cd "$top" && find examples -name '*.md')
  package_dead_links "$1" >"$work/told" 2>&1
  count "the links of the pages in ${1#"$package_dir/"}"
}

# Each path below $2 that the files from $3 on name is below the root $1.
package_paths() {
  local root=$1 prefix=$2 file path
  shift 2
  for file; do
    while IFS= read -r path; do
      [ -e "$root/$path" ] || tell "$path is missing"
    done < <(sed 's/\\-/-/g; s/\\&//g' "$file" | grep -oE "${prefix}[-A-Za-z0-9_./@]*" | sed 's/[.]*$//' | sort -u)
    count "the paths below $prefix in ${file##*/}"
  done
}

# The pages that are installed, of a copy of the tree whose pages have links of all kinds.
package_written_pages() {
  local copy="$package_dir/a page" doc="$package_dir/linked pages"
  package_copy "$copy"
  cat >"$copy/docs/FORMATS.md" <<'END'
[a](DIFFERENCES.md), [b](DIFFERENCES.md#b) and [c](#here); [d](../examples/README.md#d)
[e](../README.md#e), [f](HACKING.md), [g](https://example.org/a.md#g), [h
i](../examples/../examples/leap-day/), `[0](1)` [j][k]
END
  cat >"$copy/examples/README.md" <<'END'
[a](../docs/FORMATS.md#a) [b](../docs/SPEED.md#b) [c](leap-day/command) [d](../README.md)
END
  cat >"$copy/examples/fleet/README.md" <<'END'
[a](../../docs/FORMATS.md#a) [b](../../docs/SPEED.md#b) [c](fleet.sh) [d](../README.md#d) [e](../leap-day/)
END
  run_in "$package_dir" env AGENDA_PROGRAM="$program" DESTDIR="$doc" "$copy/bin/install" /
  package_shows "the links of FORMATS.md" "[a](DIFFERENCES.md), [b](DIFFERENCES.md#b) and [c](#here); [d](examples/README.md#d)
e (in the sources of agenda), f (in the sources of agenda), [g](https://example.org/a.md#g), [h
i](examples/leap-day/), \`[0](1)\` [j][k]
" <"$doc/share/doc/agenda/FORMATS.md"
  package_shows "the links of examples/README.md" "[a](../FORMATS.md#a) b (in the sources of agenda) [c](leap-day/command)\
 d (in the sources of agenda)
" <"$doc/share/doc/agenda/examples/README.md"
  package_shows "the links of examples/fleet/README.md" "[a](../../FORMATS.md#a) b (in the sources of agenda) [c](fleet.sh)\
 [d](../README.md#d) [e](../leap-day/)
" <"$doc/share/doc/agenda/examples/fleet/README.md"
}

# The file copyright has the machine-readable format of Debian, version 1.0.
package_dep5() {
  awk '
    function say(text) {
      print "paragraph " NR ": " text
    }
    BEGIN { RS = ""; FS = "\n" }
    {
      split("", fields)
      for (i = 1; i <= NF; i++) {
        if ($i ~ /^ +[^ ]/) fields[name] = fields[name] "\n" $i
        else if (match($i, /^[A-Z][-A-Za-z]*:/)) {
          name = substr($i, 1, RLENGTH - 1)
          if (name in fields) say("two fields " name)
          fields[name] = substr($i, RLENGTH + 2)
        }
        else say("no field: " $i)
      }
      if (NR == 1) {
        if (fields["Format"] != "https://www.debian.org/doc/packaging-manuals/copyright-format/1.0/") say("Format: " fields["Format"])
        next
      }
      license = fields["License"]
      sub("\n.*", "", license)
      if (license == "") say("no licence")
      if ("Files" in fields) {
        if (++files == 1 && fields["Files"] != "*") say("the first Files is not *")
        if (fields["Copyright"] == "") say("no copyright")
        count = split(license, names, / (or|and) /)
        for (i = 1; i <= count; i++) used[names[i]] = 1
      }
      else if (fields["License"] !~ "\n") say("no text of the licence " license)
      else if (license in texts) say("another text of the licence " license)
      else texts[license] = 1
    }
    END {
      for (name in used) if (!(name in texts)) print "no text of the licence " name
      for (name in texts) if (!(name in used)) print "no file has the licence " name
    }' "$top/bin/lib/package/copyright" >"$work/told"
  count "the format of the file copyright"
}

# Prints the names of the kit's crates that the crates of the program name.
package_kit_crates() {
  local name
  while IFS= read -r name; do
    [ -d "$top/crates/$name" ] || echo "$name"
  done < <(crate_lines agenda | awk '{ for (i = 2; i <= NF; i++) print $i }' | sort -u)
}

# The file copyright has a paragraph of each crate of the kit that the crates of the program name.
package_crates() {
  local name
  while IFS= read -r name; do
    grep -qxF "Files: rattle/$name/*" "$top/bin/lib/package/copyright" || tell "no paragraph of $name"
  done < <(package_kit_crates)
  count "the crates in the file copyright"
}

# Prints a text without its line breaks and indents.
package_flat() {
  tr -s ' \n' ' ' | sed 's/^ //; s/ $//'
}

# Prints what is after the line $1, which starts a paragraph, in the file copyright.
package_paragraph() {
  awk -v line="$1" 'BEGIN { RS = ""; FS = "\n" } $1 == line { sub("^[^\n]*\n", ""); print }' "$top/bin/lib/package/copyright"
}

# The file copyright has for the crate $1 of the kit, whose directory is $2, what the licence files there say.
package_notice() {
  local file license=Expat
  for file in "$2/LICENSE-MIT" "$2/LICENSE"; do
    [ ! -e "$file" ] || break
  done
  if [ ! -e "$file" ]; then
    grep -qxE "(Files:)? rattle/$1/\*" "$top/bin/lib/package/copyright" || tell "$1 is missing"
    return
  fi
  [ ! -e "$2/LICENSE-APACHE" ] || license='Apache-2.0 or Expat'
  diff <(sed -n 's/^Copyright (c) //p' "$file" | awk 'END { if (NR == 0) print "not stated" } { print }' |
    sed '1s/^/Copyright: /; 1!s/^/           /' && echo "License: $license") <(package_paragraph "Files: rattle/$1/*") >>"$work/told" ||
    tell "this is of $1"
  [ "$(sed -n '/^Permission is/,$p' "$file" | package_flat)" = "$(package_paragraph 'License: Expat' | sed '/^ \.$/d' | package_flat)" ] ||
    tell "the licence of $1 has another text"
}

# The file copyright says of each crate of the kit what its licence files say. These are the crates that the crates of the program name, and
# those that they need, by the kit's list.
package_notices() {
  local kit name at=0
  local -a names
  passed_over "the notices of the kit's crates" rt && return
  kit=$(readlink -f -- "$(command -v rt)") && kit=${kit%/bin/rt}
  mapfile -t names < <(package_kit_crates)
  while [ "$at" -lt ${#names[@]} ]; do
    name=${names[at]}
    at=$((at + 1))
    [ -d "$kit/rattle/$name" ] || tell "the kit has no $name"
    package_notice "$name" "$kit/rattle/$name"
    mapfile -t -O ${#names[@]} names < <(sed -n 's/^dep //p' "$kit/rlibs/$name.rlib/format" 2>/dev/null | grep -vxF "$(printf '%s\n' "${names[@]}")")
    # a notice in a source of a crate without licence files
    [ -n "$(find "$kit/rattle/$name" -maxdepth 1 -name 'LICENSE*')" ] || while IFS= read -r name; do
      name=${name#"$kit/"}
      grep -qxF -e "Files: $name" -e "Files: ${name%/*}/*" "$top/bin/lib/package/copyright" || tell "$name has a notice"
    done < <(grep -rlE 'Permission is hereby|Unlicense|Apache License' "$kit/rattle/$name/src")
  done
  count "the notices of the kit's crates"
}

# The footer of each manual page names the version of the program.
package_versions() {
  local page
  for page in "$top"/man/*.1; do
    package_shows "the version in ${page##*/}" ".Os agenda $package_version"$'\n' < <(grep '^\.Os' "$page")
  done
}

# Runs bin/install with the arguments $@, on the program of the other rows. What it prints is put in order.
package_install() {
  run_in "$package_dir" env AGENDA_PROGRAM="$program" DESTDIR="$package_dir/dest" bash -c 'umask 077; exec "$@"' install "$top/bin/install" "$@"
  sort -o "$work/out" "$work/out"
}

# Prints a mode and a path for all that is below the directory `dest`.
package_dest() {
  find "$package_dir/dest" -mindepth 1 \( -type d -printf '%m %P/\n' -o -printf '%m %P\n' \) | sort
}

# Each row: a mode and a path that bin/install makes below DESTDIR, by default below the prefix /usr/local. --remove removes all files, and
# the directories that only agenda has; but a file of the user stays.
package_installed() {
  local dest=$package_dir/dest
  { cat && package_examples usr/local/share/doc/agenda; } | sort >"$work/rows"
  sed -n "s|^... \(.*[^/]\)\$|$dest/\1|p" "$work/rows" | sort >"$work/paths"
  package_install
  cp "$work/paths" "$work/out.wanted"
  compare "bin/install" "$work/out.wanted" /dev/null 0
  package_shows "the files that bin/install writes" "$(<"$work/rows")"$'\n' < <(package_dest)
  package_runs "$dest/usr/local/bin/agenda" "$dest/usr/local/bin/agenda-machine"
  package_same "$dest/usr/local" <<'ROWS'
bin/lib/package/copyright share/doc/agenda/copyright
completions/agenda.bash share/bash-completion/completions/agenda
man/agenda.1 share/man/man1/agenda.1
man/agenda-machine.1 share/man/man1/agenda-machine.1
man/agenda-steps.1 share/man/man1/agenda-steps.1
ROWS
  package_pages "$dest/usr/local/share/doc/agenda"
  echo mine >"$dest/usr/local/share/doc/agenda/examples/mine"
  package_install --remove
  {
    cat "$work/paths"
    grep -E '/share/doc/agenda/.*/$' "$work/rows" | grep -v '/examples/$' | sed "s|^... \(.*\)/\$|$dest/\1|"
  } | sed 's/^/removed /' | sort >"$work/out.wanted"
  compare "bin/install --remove" "$work/out.wanted" /dev/null 0
  rm "$dest/usr/local/share/doc/agenda/examples/mine"
  package_install --remove /usr/local/
  compare_texts "bin/install --remove once more" \
    "removed $dest/usr/local/share/doc/agenda"$'\n'"removed $dest/usr/local/share/doc/agenda/examples"$'\n' '' 0
  package_shows "what bin/install --remove leaves" "$(grep '/$' "$work/rows" | grep -v '/share/doc/agenda/')"$'\n' < <(package_dest)
}

# Each row: the message, and the arguments. `''` is an empty one.
package_install_usage() {
  local text words
  cat >"$work/usage" <<'END'
Usage: bin/install [--remove] [PREFIX]

Installs agenda and agenda-machine below PREFIX, with their manual pages, completions, documents and examples. PREFIX is
/usr/local by default. If DESTDIR is set, it is put before each path. AGENDA_PROGRAM names the program. Without it, the
program is the one that bin/build proves and builds.

--remove removes the files. It also removes PREFIX/share/doc/agenda and the directories below it, if they are empty then.
All other directories stay.

If PREFIX is neither /usr nor /usr/local, let the shells find the completions: for bash and fish, add PREFIX/share to
XDG_DATA_DIRS; for zsh, add PREFIX/share/zsh/site-functions to fpath.
END
  run_in "$package_dir" "$top/bin/install" --help
  compare "bin/install --help" "$work/usage" /dev/null 0
  while IFS='|' read -r text words; do
    IFS='|' read -ra words <<<"$words"
    run_in "$package_dir" env DESTDIR=refused "$top/bin/install" "${words[@]/#\'\'/}"
    { [[ $text = more\ * ]] || cat "$work/usage"; echo "bin/install: $text"; } >"$work/err.wanted"
    compare "bin/install ${words[*]}" /dev/null "$work/err.wanted" 2
  done
  run_in "$package_dir" env AGENDA_PROGRAM=nothing DESTDIR="$package_dir/refused" "$top/bin/install"
  compare_texts "bin/install of no program" '' $'bin/install: no such program: \'nothing\'\n' 3
  run_in "$package_dir" env AGENDA_PROGRAM="$program" "$top/bin/install" "$package_dir/jobs"
  sed -i '/^bin/!d' "$work/err"
  compare_texts "bin/install below a file" '' "bin/install: can't write '$package_dir/jobs/bin/agenda'"$'\n' 3
}
# The archive, unpacked in a directory with a blank in its name, runs there, also by a link. Its README says what it needs.
package_unpacks() {
  local dir="$package_dir/un packed"
  mkdir "$dir"
  run_in "$dir" tar -xzf "$package_dir/one/$package_archive.tar.gz"
  compare_texts "the archive is unpacked" '' '' 0
  mv "$dir/$package_archive" "$dir/moved to"
  dir+="/moved to"
  package_runs "$dir/bin/agenda" "$dir/bin/agenda-machine"
  ln -s "$dir/bin" "$package_dir/linked"
  package_runs ./linked/agenda ./linked/agenda-machine
  package_page "$dir/share/man/man1/agenda.1" man/agenda.1
  package_program "$dir/bin/agenda"
  package_pages "$dir/share/doc/agenda"
  package_paths "$dir" share/doc/agenda "$dir/README"
  passed_over "the README of the archive" readelf && return
  run_in "$dir" grep -A 4 '^bin/agenda is linked' README
  cat >"$work/out.wanted" <<END
bin/agenda is linked dynamically, and needs:

    dynamic linker    $package_linker
    libraries         $package_libraries
    GNU C library     $package_libc or later
END
  compare "the needs of the archive in its README" "$work/out.wanted" /dev/null 0
  run_in "$dir" grep -n @ README
  compare_texts "each name in the archive's README has its value" '' '' 1
}

# Makes links to the programs that the archive needs, and to the programs $@, in the directory `few`, for a PATH of only these.
package_few() {
  local tool
  rm -rf -- "${package_dir:?}/few"
  mkdir "$package_dir/few"
  for tool in bash env readlink dirname mktemp mkdir install find touch chmod cp mv rm tar gzip grep sort tail awk date uname cat git \
    "$@"; do
    ! command -v "$tool" >/dev/null || ln -s "$(command -v "$tool")" "$package_dir/few/$tool"
  done
}

# Runs bin/package with only the programs of package_few. It writes to the directory `few-made`.
package_run_few() {
  package_few "$@"
  run_in "$package_dir" env AGENDA_PROGRAM="$program" PATH="$package_dir/few" "$top/bin/package" few-made
}

# Without dpkg-deb, only the archive is made. Without strip and dpkg-shlibdeps, the package is made, and standard error says so.
package_lacking() {
  local lacks
  package_run_few strip
  mapfile -t lacks < <(package_lacks strip)
  package_said "${lacks[@]}" dpkg-deb
  echo "few-made/$package_archive.tar.gz" >"$work/out.wanted"
  compare "bin/package without dpkg-deb" "$work/out.wanted" "$work/err.wanted" 0
  package_shows "bin/package without dpkg-deb writes only the archive" "$package_archive.tar.gz"$'\n' < <(ls -A "$package_dir/few-made")
  cmp "$package_dir/one/$package_archive.tar.gz" "$package_dir/few-made/$package_archive.tar.gz" >"$work/told" 2>&1
  count "the archive without dpkg-deb"
  [ -n "$package_deb" ] || return
  passed_over "bin/package without strip and dpkg-shlibdeps" readelf && return
  package_run_few dpkg dpkg-deb xargs md5sum
  package_said strip dpkg-shlibdeps
  printf '%s\n' "few-made/$package_deb" "few-made/$package_archive.tar.gz" >"$work/out.wanted"
  compare "bin/package without strip and dpkg-shlibdeps" "$work/out.wanted" "$work/err.wanted" 0
  run_in "$package_dir" dpkg-deb -f "few-made/$package_deb" Depends
  compare_texts "what that package depends on" "libc6 (>= $package_libc)"$'\n' '' 0
  run_in "$package_dir" bash -c "dpkg-deb -x few-made/$package_deb whole && cmp whole/usr/bin/agenda \"\$1\"" whole "$program"
  compare_texts "the program that isn't stripped" '' '' 0
  package_lint few-made --tags unstripped-binary-or-object
}

# Without SOURCE_DATE_EPOCH the time is the commit's, and without a commit a fixed one. DIR is out/ of the project by default.
package_times() {
  local copy="$package_dir/a tree" said="bin/package: dpkg-deb is missing: no Debian package is written"
  unset SOURCE_DATE_EPOCH
  package_copy "$copy"
  package_few strip
  run_in "$package_dir" env AGENDA_PROGRAM="$program" PATH="$package_dir/few" "$copy/bin/package"
  grep -v 'strip is missing' "$work/err" >"$work/said"
  mv "$work/said" "$work/err"
  compare_texts "bin/package without DIR and a time" "$copy/out/$package_archive.tar.gz"$'\n' \
    "bin/package: SOURCE_DATE_EPOCH isn't set and there is no commit: all files get the time 2026-01-01T00:00:00Z"$'\n'"$said"$'\n' 0
  package_shows "the time without a commit" $'2026-01-01 00:00\n' < <(package_day_of "$copy/out/$package_archive.tar.gz")
  grep -qx 'out/' "$top/.gitignore" || tell ".gitignore doesn't have it"
  count "git ignores out/"
  passed_over "the time of a commit" git && return
  git -C "$copy" init -q
  GIT_COMMITTER_DATE='1600000000 +0000' git -C "$copy" -c user.name=a -c user.email=a@b.example -c commit.gpgsign=false \
    commit -q --allow-empty -m a
  run_in "$package_dir" env AGENDA_PROGRAM="$program" PATH="$package_dir/few" "$copy/bin/package"
  package_shows "the time of a commit" $'2020-09-13 12:26\n' < <(package_day_of "$copy/out/$package_archive.tar.gz")
}

# Prints the times of all files of the archive $1.
package_day_of() {
  TZ=UTC tar -tvzf "$1" | awk '{ print $4, $5 }' | sort -u
}

# Each row: the message, and the arguments. `''` is an empty one.
package_usage() {
  local text words
  cat >"$work/usage" <<'END'
Usage: bin/package [DIR]

Writes agenda_VERSION_ARCH.deb and agenda-VERSION-linux-MACHINE.tar.gz to the directory DIR, by default to out/ of the
project. AGENDA_PROGRAM names the program. Without it, the program is the one that bin/build proves and builds.

All files get the time SOURCE_DATE_EPOCH, or else the time of the commit. If dpkg-deb is missing, only the archive is
written.
END
  package_run "$top" --help
  compare "bin/package --help" "$work/usage" /dev/null 0
  while IFS='|' read -r text words; do
    IFS='|' read -ra words <<<"$words"
    package_run "$top" "${words[@]/#\'\'/}"
    { [[ $text = more\ * ]] || cat "$work/usage"; echo "bin/package: $text"; } >"$work/err.wanted"
    compare "bin/package ${words[*]}" /dev/null "$work/err.wanted" 2
  done
}

# Each row: a setting, the directory, the status, and the message. HERE is the directory of the rows.
package_refused() {
  local setting dir wanted text
  printf '#!/bin/sh\necho agenda 1.0-2\n' >"$package_dir/dashed"
  printf '#!/bin/sh\necho other 1.0\n' >"$package_dir/other"
  printf '#!/bin/sh\necho agenda 1.0\n' >"$package_dir/script"
  printf '#!/bin/sh\necho agenda 0.1.00\n# /lib64/ld-linux-x86-64.so.2 libc.so.6 GLIBC_2.34\n' >"$package_dir/unknown"
  chmod 755 "$package_dir/dashed" "$package_dir/other" "$package_dir/script" "$package_dir/unknown"
  while IFS='|' read -r setting dir wanted text; do
    run_in "$package_dir" env AGENDA_PROGRAM="$program" ${setting:+"$setting"} "$top/bin/package" "$dir"
    compare_texts "bin/package $dir, $setting" '' "bin/package: ${text//HERE/"$package_dir"}"$'\n' "$wanted"
    find "$package_dir/$dir" -name '*agenda*' >"$work/told" 2>/dev/null
    count "bin/package $dir, $setting: nothing is written"
  done
}

package_make_files
package_make
package_again

TZ=UTC tar -tvzf "$package_dir/one/$package_archive.tar.gz" >"$work/listing"
package_lists "the files of the archive" "$package_archive/" share/doc/agenda <<'ROWS'
755 
755 bin/
755 bin/agenda
755 bin/agenda-machine
644 README
755 share/
755 share/bash-completion/
755 share/bash-completion/completions/
644 share/bash-completion/completions/agenda
644 share/bash-completion/completions/agenda-machine
755 share/doc/
755 share/doc/agenda/
644 share/doc/agenda/DIFFERENCES.md
644 share/doc/agenda/FORMATS.md
644 share/doc/agenda/IDLE.md
644 share/doc/agenda/USERS.md
644 share/doc/agenda/copyright
755 share/fish/
755 share/fish/vendor_completions.d/
644 share/fish/vendor_completions.d/agenda.fish
644 share/fish/vendor_completions.d/agenda-machine.fish
755 share/man/
755 share/man/man1/
644 share/man/man1/agenda.1
644 share/man/man1/agenda-machine.1
644 share/man/man1/agenda-steps.1
755 share/zsh/
755 share/zsh/site-functions/
644 share/zsh/site-functions/_agenda
644 share/zsh/site-functions/_agenda-machine
ROWS
package_unpacks
package_same "$package_dir/un packed/moved to" <<'ROWS'
bin/agenda-machine bin/agenda-machine
bin/lib/package/copyright share/doc/agenda/copyright
completions/_agenda share/zsh/site-functions/_agenda
completions/_agenda-machine share/zsh/site-functions/_agenda-machine
completions/agenda.bash share/bash-completion/completions/agenda
completions/agenda-machine.bash share/bash-completion/completions/agenda-machine
completions/agenda.fish share/fish/vendor_completions.d/agenda.fish
completions/agenda-machine.fish share/fish/vendor_completions.d/agenda-machine.fish
man/agenda.1 share/man/man1/agenda.1
man/agenda-machine.1 share/man/man1/agenda-machine.1
man/agenda-steps.1 share/man/man1/agenda-steps.1
ROWS
package_dep5
package_crates
package_notices
package_versions

if ! passed_over "the package" dpkg-deb readelf; then
  TZ=UTC dpkg-deb -c "$package_dir/one/$package_deb" >"$work/listing"
  package_lists "the files of the package" ./ usr/share/doc/agenda <<'ROWS'
755 
755 usr/
755 usr/bin/
755 usr/bin/agenda
755 usr/bin/agenda-machine
755 usr/share/
755 usr/share/bash-completion/
755 usr/share/bash-completion/completions/
644 usr/share/bash-completion/completions/agenda
644 usr/share/bash-completion/completions/agenda-machine
755 usr/share/doc/
755 usr/share/doc/agenda/
644 usr/share/doc/agenda/DIFFERENCES.md
644 usr/share/doc/agenda/FORMATS.md
644 usr/share/doc/agenda/IDLE.md
644 usr/share/doc/agenda/USERS.md
644 usr/share/doc/agenda/changelog.gz
644 usr/share/doc/agenda/copyright
755 usr/share/fish/
755 usr/share/fish/vendor_completions.d/
644 usr/share/fish/vendor_completions.d/agenda.fish
644 usr/share/fish/vendor_completions.d/agenda-machine.fish
755 usr/share/man/
755 usr/share/man/man1/
644 usr/share/man/man1/agenda.1.gz
644 usr/share/man/man1/agenda-machine.1.gz
644 usr/share/man/man1/agenda-steps.1.gz
755 usr/share/zsh/
755 usr/share/zsh/vendor-completions/
644 usr/share/zsh/vendor-completions/_agenda
644 usr/share/zsh/vendor-completions/_agenda-machine
ROWS
  package_fields
  package_same "$package_dir/files" <<'ROWS'
bin/agenda-machine usr/bin/agenda-machine
bin/lib/package/copyright usr/share/doc/agenda/copyright
completions/_agenda usr/share/zsh/vendor-completions/_agenda
completions/_agenda-machine usr/share/zsh/vendor-completions/_agenda-machine
completions/agenda.bash usr/share/bash-completion/completions/agenda
completions/agenda-machine.bash usr/share/bash-completion/completions/agenda-machine
completions/agenda.fish usr/share/fish/vendor_completions.d/agenda.fish
completions/agenda-machine.fish usr/share/fish/vendor_completions.d/agenda-machine.fish
man/agenda.1 usr/share/man/man1/agenda.1.gz
man/agenda-machine.1 usr/share/man/man1/agenda-machine.1.gz
man/agenda-steps.1 usr/share/man/man1/agenda-steps.1.gz
ROWS
  package_pages "$package_dir/files/usr/share/doc/agenda"
  package_paths "$package_dir/files" /usr/share/doc/agenda "$top"/man/*.1
  package_changelog "$package_dir/files/usr/share/doc/agenda/changelog.gz"
  package_program "$package_dir/files/usr/bin/agenda"
  package_installs
  package_lint one
  package_written_changelog
fi
package_lacking

package_usage <<'ROWS'
neither an option nor a directory: '--frob'|--frob
neither an option nor a directory: '--frob'|out|--frob
neither an option nor a directory: '-'|-
neither an option nor a directory: '--'|--|out
neither an option nor a directory: ''|''
neither an option nor a directory: ''|out|''
more than one directory: 'one' and 'two'|one|two
ROWS
package_refused <<'ROWS'
|jobs|3|can't write to 'jobs'
|jobs/below|3|can't write to 'jobs/below'
|/dev/null/below|3|can't write to '/dev/null/below'
AGENDA_PROGRAM=nothing|refused|3|no such program: 'nothing'
AGENDA_PROGRAM=jobs|refused|3|'HERE/jobs --version' doesn't print a version of agenda
AGENDA_PROGRAM=other|refused|3|'HERE/other --version' doesn't print a version of agenda
AGENDA_PROGRAM=dashed|refused|3|'HERE/dashed --version' doesn't print a version of agenda
AGENDA_PROGRAM=script|refused|3|the program names no dynamic linker, library or version of glibc: 'HERE/script'
AGENDA_PROGRAM=unknown|refused|3|CHANGELOG.md has no section '0.1.00'
SOURCE_DATE_EPOCH=yesterday|refused|2|SOURCE_DATE_EPOCH isn't a number of seconds: 'yesterday'
SOURCE_DATE_EPOCH=-1|refused|2|SOURCE_DATE_EPOCH isn't a number of seconds: '-1'
ROWS
package_times

package_installed <<'ROWS'
755 etc/
755 etc/fish/
755 etc/fish/completions/
644 etc/fish/completions/agenda.fish
644 etc/fish/completions/agenda-machine.fish
755 usr/
755 usr/local/
755 usr/local/bin/
755 usr/local/bin/agenda
755 usr/local/bin/agenda-machine
755 usr/local/share/
755 usr/local/share/bash-completion/
755 usr/local/share/bash-completion/completions/
644 usr/local/share/bash-completion/completions/agenda
644 usr/local/share/bash-completion/completions/agenda-machine
755 usr/local/share/doc/
755 usr/local/share/doc/agenda/
644 usr/local/share/doc/agenda/DIFFERENCES.md
644 usr/local/share/doc/agenda/FORMATS.md
644 usr/local/share/doc/agenda/IDLE.md
644 usr/local/share/doc/agenda/USERS.md
644 usr/local/share/doc/agenda/copyright
755 usr/local/share/man/
755 usr/local/share/man/man1/
644 usr/local/share/man/man1/agenda.1
644 usr/local/share/man/man1/agenda-machine.1
644 usr/local/share/man/man1/agenda-steps.1
755 usr/local/share/zsh/
755 usr/local/share/zsh/site-functions/
644 usr/local/share/zsh/site-functions/_agenda
644 usr/local/share/zsh/site-functions/_agenda-machine
ROWS
package_install_usage <<'ROWS'
neither an option nor an absolute path: '--frob'|--frob
neither an option nor an absolute path: 'here'|here
neither an option nor an absolute path: ''|''
more than one prefix: '/one' and '/two'|/one|--remove|/two
ROWS
package_written_pages
