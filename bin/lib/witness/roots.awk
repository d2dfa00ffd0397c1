# Makes `count` roots with units for bin/lib/witness/roots.sh, from `seed`. There is one line per entry: the
# root's number, the kind of the entry, its path, and the target of a link, separated by tabs. The kinds are:
#
#   file     a file with a setting that systemd rejects and reports
#   target   a target's file
#   boot     the file of default.target, which wants the targets
#   empty    an empty file
#   folder   a directory
#   link     a link
#
# Links to files are relative to their own directory, because systemd follows a link that begins with `/` out
# of the root here. Directories that are links aren't made: `systemd-analyze --root` doesn't read them, but systemd and
# agenda do, as boot-roots.awk shows.

# Returns a number from 0 up to n, excluded.
function any(n) {
  state = (state * 16807) % 2147483647
  return int(state / 2147483647 * n)
}

# Returns 1 in so many of a hundred cases.
function comes(times) { return any(100) < times }

function make(kind, path, text) {
  if ((number, path) in made) return
  made[number, path] = kind
  print number "\t" kind "\t" path "\t" text
}

# Returns the target of a link from a unit directory or one below it, $1, to a file of the root's opt.
function elsewhere(folder, name, pieces) {
  return substr("../../../../../../../", 1, 3 * split(folder, pieces, "/")) "opt/" name
}

# Makes a file of the unit $2 in the directory $1, or something instead of it.
function make_unit(folder, name, other) {
  other = any(100)
  if (other < 58) make("file", folder "/" name)
  else if (other < 66) make("empty", folder "/" name)
  else if (other < 74) make("link", folder "/" name, "/dev/null")
  else if (other < 84) make("link", folder "/" name, "/" folders[1 + any(5)] "/" name)
  else if (other < 88) make("link", folder "/" name, elsewhere(folder, comes(50) ? "unit" : name))
  else if (other < 92) make("link", folder "/" name, elsewhere(folder, "empty"))
  else if (other < 95) make("link", folder "/" name, elsewhere(folder, "nowhere"))
  else make("folder", folder "/" name)
}

# Tests whether the path of the unit $1 below /lib has a file or nothing, and keeps it so. Then a link to that
# path may enable the unit: systemd follows it out of the root here, and what it finds there isn't a mask
# either.
function is_no_mask(name, path) {
  path = folders[4] "/" name
  if (!((number, path) in made)) made[number, path] = "nothing"
  return made[number, path] == "file" || made[number, path] == "nothing"
}

# Makes an enablement link for the unit $1, or something instead of it.
function make_wish(name, folder, other, text) {
  folder = folders[1 + any(5)] "/" targets[1 + any(2)] ".target." (comes(75) ? "wants" : "requires")
  if ((number, folder) in made) return
  other = any(100)
  text = comes(50) && is_no_mask(name) ? "/lib/systemd/system/" name : comes(50) ? "../" name : "nowhere"
  if (other < 84) make("link", folder "/" name, text)
  else if (other < 89) make("link", folder "/" name, "/dev/null")
  else if (other < 92) make("empty", folder "/" name)
  else if (other < 95) make("link", folder "/" name, elsewhere(folder, "empty"))
  else make("file", folder "/" name)
}

# Makes a drop-in in the directory $1, or something instead of it.
function make_drop_in(folder, path, other) {
  path = folder "/" drop_ins[1 + any(n_drop_ins)]
  other = any(100)
  if (other < 76) make("file", path)
  else if (other < 82) make("empty", path)
  else if (other < 87) make("link", path, "/dev/null")
  else if (other < 92) make("link", path, elsewhere(folder, "drop-in"))
  else if (other < 95) make("link", path, elsewhere(folder, "empty"))
  else if (other < 98) make("link", path, "/nowhere")
  else make("folder", path)
}

# Makes the units of a root: a timer or an instance, in some of the directories, and its enablement links.
function make_timer(name, at) {
  for (at = any(3); at >= 0; at--) {
    if (name !~ /@/) make_unit(folders[1 + any(5)], name)
    else if (comes(80)) make_unit(folders[1 + any(5)], substr(name, 1, index(name, "@")) ".timer")
    else make_unit(folders[1 + any(5)], name)
  }
  for (at = any(4); at >= 0; at--) make_wish(name)
}

# Makes the targets, the files to which links lead, and a link with another name to a timer, which is enabled
# itself too.
function make_common(name) {
  folders[4] = folders[5]
  make("target", "usr/lib/systemd/system/x.target")
  make("target", "usr/lib/systemd/system/y.target")
  make("target", "usr/lib/systemd/system/z.target")
  make("boot", "usr/lib/systemd/system/default.target")
  make("empty", "opt/empty")
  make("file", "opt/unit")
  make("file", "opt/drop-in")
  if (comes(30)) {
    name = comes(50) ? "a.timer" : "a-b.timer"
    make("link", folders[1 + any(5)] "/alias.timer", comes(50) ? name : "/usr/lib/systemd/system/" name)
    make_wish("alias.timer")
    make("link", "usr/lib/systemd/system/z.target.wants/" name, "nowhere")
  }
  if (comes(10)) make_wish("a b.timer")
  if (comes(10)) make_wish("@x.timer")
  if (comes(10)) make_wish("u@.timer")
  if (comes(10)) make_wish("t@i\\x2dj.timer")
}

BEGIN {
  state = seed * 7919 % 2147483646 + 1
  split("etc/systemd/system run/systemd/system usr/local/lib/systemd/system lib/systemd/system usr/lib/systemd/system", folders, " ")
  split("x y", targets, " ")
  n_timers = split("a a-b a-b-c -a a- --a a--b a\\x2db t-i t@i t@j t@i-j t@i@j t-u@i t-u@i-j t-u-v@i t--u@i t-@i", timers, " ")
  n_owners = split("a a-b a-b- a-b-c a- -a - -- --a a-- a--b a\\x2db t t- t-i t-u t-u- t--u t@ t@i t@j t@i- t@i-j t@i@ t@i@j t-@ t-@i t-@i-j " \
    "t-u@ t-u@i t-u@i-j t-u-@ t-u-@i t-u-v@ t-u-v@i t--@ t--@i t--u@ t--u@i", owners, " ")
  for (at = 1; at <= n_owners; at++) owners[at] = owners[at] ".timer"
  owners[++n_owners] = "timer"
  n_drop_ins = split("a.conf b.conf B.conf 10.conf 9.conf _.conf -.conf .x.conf x.confx", drop_ins, " ")
  for (number = 1; number <= count; number++) {
    make_common()
    # in some roots, /lib and /usr/lib are the same directory
    merged = comes(12)
    if (merged) make("link", "lib", "usr/lib")
    folders[4] = merged ? folders[5] : "lib/systemd/system"
    for (at = 3 + any(6); at > 0; at--) {
      chosen = timers[1 + any(n_timers)]
      make_timer(chosen ".timer")
      # drop-ins with names that are similar to the timer's
      stem = substr(chosen, 1, 1)
      for (more = any(7); more > 0; more--) {
        owner = owners[1 + any(n_owners)]
        if (comes(70) && substr(owner, 1, 1) != stem) owner = comes(50) ? chosen ".timer" : owner
        if (comes(12)) owner = "timer"
        folder = folders[1 + any(5)] "/" owner ".d"
        if ((number, folder) in made) continue
        for (files = any(3); files >= 0; files--) make_drop_in(folder)
      }
    }
  }
}
