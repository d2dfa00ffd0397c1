# shellcheck shell=bash disable=SC2154
# Proves and builds a program of the project.
#
# rattle, the compiler of the kit, builds each crate with the libraries of the crates below it. Several crates
# are built in parallel, and the one with the heaviest chain of crates above it on several processors. The library
# of a crate is kept next to the program, under a name with a checksum of everything that it was made from. So an
# interrupted build continues where it stopped, and a build after an edit makes only what the edit concerns.
#
# bin/build and bin/bench source this file, after bin/lib/project.sh and bin/lib/memory.sh. The sources are
# copied to the directory $work, which has the libraries too.

# For each crate: all crates that it names; those of them that are the project's; the checksum of everything
# that it is made from; the size of its sources, and that of the heaviest chain of crates above it, both in
# bytes; the state of its build (waiting, at_work, built); and the process that builds it. The names are in
# order: each after those below it, and the program last.
declare -A named=() below=() sum=() bytes=() above=() state=() child=()
names=()
libraries=${program%/*}/libraries

# Copies what crate $1 is made from, and finds its size.
copy_sources() {
  local copy=$work/crates/$1 part
  mkdir -p "$copy" || return
  for part in src specs proofs; do
    [ ! -d "$top/crates/$1/$part" ] || cp -R -- "$top/crates/$1/$part" "$copy/" || return
  done
  bytes[$1]=$(find "$copy" -type f -exec cat {} + | wc -c)
}

# Prints the checksum of everything that crate $1 is made from: the kit's version, the names of the crates that
# it depends on, its sources, and the checksums of the project's crates below it.
sum_of_sources() {
  local dep
  {
    echo "$version ${named[$1]}"
    (cd "$work/crates/$1" && find . -type f -print0 | sort -z | xargs -0 sha256sum)
    for dep in ${below[$1]:-}; do
      echo "${sum[$dep]}"
    done
  } | sha256sum | cut -c 1-40
}

# Reads which crates the program of crate $1 needs, and reuses the libraries that an earlier build
# made from the same sources.
read_crates() {
  local name deps dep place chain
  mkdir -p "$work/libraries" "$libraries" || return
  while read -r name deps; do
    names+=("$name")
    named[$name]=$deps
    above[$name]=0
    state[$name]=waiting
    for dep in $deps; do
      [ -z "${state[$dep]:-}" ] || below[$name]+=" $dep"
    done
    copy_sources "$name" || return
    sum[$name]=$(sum_of_sources "$name")
    if [ -e "$libraries/$name-${sum[$name]}.tar" ] && tar -C "$work/libraries" -xf "$libraries/$name-${sum[$name]}.tar"; then
      state[$name]=built
    fi
  done < <(crate_lines "$1")
  for ((place = ${#names[@]} - 1; place >= 0; place--)); do
    name=${names[place]}
    chain=$((${above[$name]} + ${bytes[$name]}))
    for dep in ${below[$name]:-}; do
      [ "${above[$dep]}" -ge "$chain" ] || above[$dep]=$chain
    done
  done
}

# Prints how many crates are in the state $1.
count_of() {
  local name many=0
  for name in "${names[@]}"; do
    [ "${state[$name]}" != "$1" ] || many=$((many + 1))
  done
  echo "$many"
}

# Tests whether crate $1 waits for no other crate.
is_ready() {
  local name
  [ "${state[$1]}" = waiting ] || return
  for name in ${below[$1]:-}; do
    [ "${state[$name]}" = built ] || return
  done
}

# Sets `next` to the crate to start next: of those that wait for no other, the one with the heaviest chain above it.
find_next() {
  local name
  next=
  for name in "${names[@]}"; do
    if is_ready "$name" && { [ -z "$next" ] || [ "${above[$name]}" -gt "${above[$next]}" ]; }; then
      next=$name
    fi
  done
  [ -n "$next" ]
}

# Prints how many crates that are being built have a heavier chain above them than crate $1.
count_before() {
  local name many=0
  for name in "${names[@]}"; do
    if [ "${state[$name]}" = at_work ] && [ "${above[$name]}" -gt "${above[$1]}" ]; then
      many=$((many + 1))
    fi
  done
  echo "$many"
}

# Proves crate $1 and makes its library or its object file. The arguments after $1 are for rattle.
prove_crate() {
  local dep root=src/lib.rt words=()
  cd "$work/crates/$1" || return
  [ ! -e src/main.rt ] || root=src/main.rt
  for dep in std ${named[$1]}; do
    if [ -n "${state[$dep]:-}" ]; then
      words+=(--extern "$dep=$work/libraries/$dep.rlib")
    else
      words+=(--extern "$dep=$kit/rlibs/$dep.rlib")
    fi
  done
  words+=(-L "dependency=$kit/rlibs" -L "dependency=$work/libraries" --antt-project "$kit/rattle/logic/antt-project.json")
  words+=(--logic-built "$kit/logic_built" --links "$1=" --jobs "$jobs")
  nice -n $((5 * before)) "$kit/bin/rattle" build --crate-name "$1" "$root" "${words[@]}" "${@:2}"
}

# Keeps the library of crate $1, instead of earlier ones, if there is space for it.
keep_library() {
  local kept="$1-${sum[$1]}.tar"
  rm -f -- "$libraries/$1"-*.tar
  if tar -C "$work/libraries" -cf "$libraries/$kept.part" "$1.rlib"; then
    mv -- "$libraries/$kept.part" "$libraries/$kept"
  else
    rm -f -- "$libraries/$kept.part"
  fi
}

# Proves and builds crate $1.
build_crate() {
  if [ -e "$work/crates/$1/src/main.rt" ]; then
    prove_crate "$1" --toolchain "$kit/toolchain" --backend llvm -o "$work/$1.o" || return
    "$kit/bin/rattle-link" --target x86_64-unknown-linux-gnu --toolchain "$kit/toolchain" -o "$work/$1" "$work/$1.o" \
      "$kit/c/libos_c.a" "$kit/c/liblibc_c.a"
  else
    prove_crate "$1" --statements -o "$work/libraries/$1.rlib" && keep_library "$1"
  fi
}

# Starts to build crate $1, as a process group. Crates that are being built and have a heavier chain above
# them have a higher priority. The crate with the heaviest chain gets all processors. The others fill what it
# leaves idle, each on one processor: on several, a crate takes a quarter more of their time.
start_crate() {
  local before jobs=1
  before=$(count_before "$1")
  [ "$before" != 0 ] || jobs=$(nproc)
  state[$1]=at_work
  set -m
  build_crate "$1" >"$work/$1.log" 2>&1 </dev/null 9>&- &
  child[$1]=$!
  set +m
}

# Collects the crates whose processes ended, and appends their output to the log $1, with the project's paths
# instead of those of the copy. Fails if one of them failed.
end_crates() {
  local name status failed=0
  for name in "${names[@]}"; do
    if [ "${state[$name]}" = at_work ] && ! kill -0 "${child[$name]}" 2>/dev/null; then
      wait "${child[$name]}"
      status=$?
      state[$name]=built
      { echo "== $name" && sed "s|$work/crates/|$top/crates/|g" "$work/$name.log"; } >>"$1"
      [ "$status" = 0 ] || failed=1
    fi
  done
  return $failed
}

# Ends the processes of the crates that are being built.
stop_crates() {
  local name
  for name in "${names[@]}"; do
    [ "${state[$name]}" != at_work ] || kill -- "-${child[$name]}" 2>/dev/null
  done
  wait
}

# Prints how many crates are built at once: at most one for each processor, and one for each 5 GB of memory.
most_at_once() {
  local most=$(($(free_memory) / 5000000)) processors
  processors=$(nproc)
  [ "$most" -le "$processors" ] || most=$processors
  [ "$most" -ge 1 ] || most=1
  echo "$most"
}

# Proves and builds the program of crate $1, with the log $2, and calls the function $3 regularly meanwhile.
# The program gets the time at which the sources were read, so that the next run builds what was edited since.
build_crates() {
  local most
  kit=$(dirname "$(rt doc)") && version=$(rt version) || return
  : >"$work/begun"
  read_crates "$1" || return
  most=$(most_at_once)
  while [ "$(count_of built)" -lt ${#names[@]} ]; do
    while [ "$(count_of at_work)" -lt "$most" ] && find_next; do
      start_crate "$next"
    done
    "$3"
    sleep 0.3
    end_crates "$2" || return
  done
  mkdir -p "$top/crates/$1/out" && touch -r "$work/begun" "$work/$1" && mv -- "$work/$1" "$top/crates/$1/out/"
}
