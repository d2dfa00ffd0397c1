# Makes `count` roots with units that a boot starts, for bin/lib/witness/boot.sh, from `seed`. There is one line
# per entry: the root's number, the kind of the entry, its path and its text, separated by tabs. The kinds are:
#
#   text     a file with this text, in which `\n` is a newline and `\\` a backslash
#   empty    an empty file
#   folder   a directory
#   link     a link with this text
#
# Some directories are links, and some names are invalid. What docs/DIFFERENCES.md names as not compared is not made. In
# particular, units that a unit requires can start, and so can the units of timers; aliases have no directories, and files
# of units that have aliases name no templates.

# Returns a number from 0 up to n, excluded.
function any(n) {
  state = (state * 16807) % 2147483647
  return int(state / 2147483647 * n)
}

# Returns 1 in so many of a hundred cases.
function comes(times) { return any(100) < times }

# Returns one of the words of a text.
function one_of(text, words) { return words[1 + any(split(text, words, " "))] }

# Makes an entry, unless there is one with its path. Returns whether it does.
function make(kind, path, text) {
  if (path in made) return 0
  made[path] = kind
  print number "\t" kind "\t" path "\t" text
  return 1
}

# Returns the type of a unit, without its `.`.
function type_of(name) {
  sub(/.*[.]/, "", name)
  return name
}

# Returns the template of an instance, and any other name itself.
function template_of(name) {
  sub(/@[^.]*/, "@", name)
  return name
}

# Returns a directory of the search path, more often one that machines use.
function a_folder() { return folders[comes(60) ? one_of("3 8 9 9") : 1 + any(n_folders)] }

# Returns the text of a link to a unit, which leads to the directory of units or nowhere.
function link_text(name) { return one_of("../" name " /usr/lib/systemd/system/" name " /nowhere/" name " " name) }

# ---- which units there are

# Plans the unit $1: the directories that have something of its name, and what that is.
function plan_unit(name, at, other) {
  places[name] = name ~ /@./ ? comes(40) : name in always ? 1 : comes(88) + comes(25)
  solid[name] = places[name] > 0
  for (at = 1; at <= places[name]; at++) {
    place[name, at] = a_folder()
    other = any(100)
    if (other < 79 || name in always) what[name, at] = "text"
    else {
      solid[name] = 0
      what[name, at] = one_of("mask mask empty folder same same opt-mask")
    }
  }
}

# Plans an alias $1 of the unit $2, whose file may be loaded by either name then.
function plan_alias(name, other) {
  alias[name] = ""
  if (comes(60)) return
  alias[name] = other
  while (other != "") {
    aliased[other] = aliased[template_of(other)] = 1
    other = alias[other]
  }
}

# Plans all units. If a template has an alias, its instances have no files.
function plan_root(at) {
  split("", aliased)
  split("", solid)
  split("", level)
  for (at = 1; at <= n_units; at++) plan_unit(units[at])
  for (at = 1; at <= n_aliases; at += 2) plan_alias(aliases[at], aliases[at + 1])
  if (alias["zt@.timer"] != "") places["t@i.timer"] = places["t@j.timer"] = 0
  for (at = 1; at <= n_targets; at++) level[targets[at]] = at
  level["zx.target"] = level["x.target"]
}

# Tests whether a unit surely can start.
function is_solid(name) {
  if (name ~ /@[.]/) return 0
  return name in solid && places[name] > 0 ? solid[name] : solid[template_of(name)]
}

# ---- what units want

# Tests whether the unit $1 may want the unit $2. In a root with default dependencies, targets are started
# after what they want, so only some may want others: systemd would break a cycle.
function may_want(name, other) {
  if (free || type_of(name) != "target" || type_of(other) == "timer") return 1
  if (!(name in level)) return 0
  if (type_of(other) == "target") return level[other] > level[name]
  return level[name] <= n_late
}

# Returns the name of a unit that the unit $1 may want.
function a_name(name, other) {
  do other = comes(55) ? one_of(wanted_timers) : comes(60) ? units[1 + any(n_units)] : one_of(wanted_others)
  while (!may_want(name, other))
  return other
}

# Returns the name of a unit that the unit $1 may require.
function a_solid_name(name, other, tries) {
  for (tries = 0; tries < 100; tries++) {
    other = units[1 + any(n_units)]
    if (may_want(name, other) && is_solid(other)) return other
  }
  return "sysinit.target"
}

# Returns a word of a setting of the unit $1, in its file if $2 is set.
function a_word(name, in_file, word) {
  if (name ~ /@/ && !(in_file && name in aliased) && comes(50))
    return one_of("t@%i.timer %p.timer t-u@%j.timer %N.timer %p@%i.timer v@%i.service %i.timer")
  do word = a_name(name)
  while (in_file && word ~ /@[.]/ && (name in aliased))
  return word
}

# Returns a setting of the unit $1, in its file if $2 is set.
function a_setting(name, in_file, key, value, at) {
  key = one_of("Wants Wants Wants Upholds Requires BindsTo PartOf OnFailure")
  # PartOf= and OnFailure= start nothing
  for (at = any(3); at >= 0; at--) {
    value = value (key == "Requires" || key == "BindsTo" ? a_solid_name(name) : a_word(name, in_file))
    if (at > 0) value = value one_of("_ __ \\t _\\\\\\n _\\\\\\n_ _\\\\\\n#_no.timer\\n")
  }
  gsub(/_/, " ", value)
  return (comes(10) ? " " key " = " : key "=") value "\\n" (comes(8) ? key "=\\n" : "")
}

# Returns the settings of the unit $1 for a section [Unit], in its file if $2 is set, and what only looks like them.
function settings(name, in_file, text, at) {
  text = "[Unit]\\n" (free && in_file ? "DefaultDependencies=no\\n" : "")
  for (at = any(3); at > 0; at--) text = text a_setting(name, in_file)
  if (comes(10)) text = text "#Wants=" a_name(name) "\\n; Wants=" a_name(name) "\\n"
  if (comes(10)) text = text "[X-Unit]\\nWants=" a_name(name) "\\n[Unit]\\n"
  if (comes(10)) text = text "[Install]\\nWantedBy=" a_name(name) "\\nAlso=" a_name(name) "\\n"
  return text
}

# Returns the section of the type of the unit $1.
function own_section(name, type, service) {
  type = type_of(name)
  service = name
  sub(/[.]timer$/, ".service", service)
  if (type == "service") return "[Service]\\nType=oneshot\\nExecStart=/bin/true\\n"
  if (type == "path") return "[Path]\\nPathExists=/nowhere\\n"
  if (type == "socket") return "[Socket]\\nListenStream=/run/k\\n"
  if (type != "timer") return ""
  return "[Timer]\\nOnCalendar=daily\\n" ((service in solid) && solid[service] && comes(60) ? "" : "Unit=job.service\\n")
}

# Returns the text of the file of the unit $1. Units with default dependencies require sysinit.target, so in each
# root a file does so too.
function unit_text(name, unit) {
  unit = settings(name, 1)
  if (name ~ /^(multi-user|graphical)/) unit = unit "[Unit]\\nRequires=sysinit.target\\n"
  return comes(80) ? unit own_section(name) : own_section(name) unit
}

# ---- what is made

# Makes a file of the unit $2, in the directory $1 or where a link in it leads.
function make_text(folder, name, text) {
  if (comes(92)) make("text", folder "/" name, text)
  else if (make("link", folder "/" name, "/opt/" name)) make("text", "opt/" name, text)
}

# Makes what is planned for the unit $1.
function make_unit(name, at, kind, path) {
  for (at = 1; at <= places[name]; at++) {
    kind = what[name, at]
    path = place[name, at] "/" name
    if (kind == "text") make_text(place[name, at], name, unit_text(name))
    else if (kind == "empty" || kind == "folder") make(kind, path)
    else if (kind == "mask") make("link", path, "/dev/null")
    else if (kind == "same") make("link", path, "/" folders[1 + any(n_folders)] "/" name)
    else make("link", path, "/opt/empty")
  }
}

# Makes the alias $1, and perhaps a file of its name.
function make_alias(name) {
  if (alias[name] == "") return
  make("link", a_folder() "/" name, comes(50) ? alias[name] : "/" folders[1 + any(n_folders)] "/" alias[name])
  if (comes(15)) make("text", a_folder() "/" name, unit_text(name))
}

# Makes default.target, as a file, or as an alias of one of two targets. It may have another file in a later directory.
function make_default(folder, other) {
  plain = comes(40)
  folder = a_folder()
  other = one_of("multi-user.target graphical.target")
  if (plain) make_text(folder, "default.target", settings("default.target", 1) "[Unit]\\nWants=" other " timers.target\\n")
  else {
    aliased[other] = 1
    make("link", folder "/default.target", one_of(other " /lib/systemd/system/" other " runlevel.target"))
    make("link", a_folder() "/runlevel.target", other)
  }
  if (comes(30)) make("link", folders[n_folders] "/default.target", "n.target")
}

# Returns a unit, or another name whose directories hold for units.
function an_owner(name) {
  do name = comes(50) ? targets[1 + any(n_targets)] : comes(60) ? units[1 + any(n_units)] : one_of(owners)
  while (name == "default.target" && !plain)
  return name
}

# Returns where the entries of the directory $1 are made: in itself, or where a link leads that is made in its place.
function home_of(folder, text) {
  if (folder in homes) return homes[folder]
  homes[folder] = folder
  if (comes(15)) {
    homes[folder] = "opt/d" ++n_homes
    text = "/" homes[folder]
    if (comes(30)) {
      make("link", "opt/l" n_homes, comes(50) ? text : "d" n_homes)
      text = "/opt/l" n_homes
    }
    make("link", folder, text)
  }
  return homes[folder]
}

# Makes entries in a directory of links, of which some only look like links.
function make_links(owner, suffix, folder, path, name, at, other) {
  owner = an_owner()
  suffix = comes(70) ? ".wants" : ".requires"
  folder = home_of(a_folder() "/" owner suffix)
  for (at = any(4); at >= 0; at--) {
    name = suffix == ".wants" ? a_name(owner) : a_solid_name(owner)
    path = folder "/" name
    other = any(100)
    if (other < 86) make("link", path, link_text(name))
    else if (other < 92) make("link", path, "/dev/null")
    else if (other < 95) make("link", path, "/opt/empty")
    else make(other < 98 ? "empty" : "text", path, other < 98 ? "" : unit_text(name))
  }
}

# Makes drop-ins in a directory of drop-ins, of which some are masks.
function make_drop_ins(owner, folder, path, at, other) {
  owner = an_owner()
  folder = home_of(a_folder() "/" owner ".d")
  for (at = any(3); at >= 0; at--) {
    path = folder "/" one_of("a.conf b.conf B.conf 10.conf .x.conf x.confx")
    other = any(100)
    if (other < 80) make("text", path, settings(owner, 0))
    else if (other < 88) make("link", path, "/dev/null")
    else if (other < 92) make("empty", path)
    else if (other < 96) make("link", path, "/nowhere")
    else make("text", path, "Wants=" a_name(owner) "\\n")
  }
}

# Makes a root. In some, /lib and /usr/lib are the same directory.
function make_root(at) {
  split("", made)
  split("", homes)
  n_homes = 0
  free = comes(50)
  merged = comes(20)
  folders[8] = merged ? folders[9] : "lib/systemd/system"
  if (merged) make("link", "lib", "usr/lib")
  make("empty", "opt/empty")
  plan_root()
  make_default()
  for (at = 1; at <= n_units; at++) make_unit(units[at])
  for (at = 1; at <= n_aliases; at += 2) make_alias(aliases[at])
  for (at = 8 + any(10); at > 0; at--) make_links()
  for (at = 2 + any(8); at > 0; at--) make_drop_ins()
}

BEGIN {
  state = seed * 6271 % 2147483646 + 1
  n_folders = split("etc/systemd/system.control run/systemd/system.control etc/systemd/system etc/systemd/system.attached run/systemd/system " \
    "run/systemd/system.attached usr/local/lib/systemd/system lib/systemd/system usr/lib/systemd/system", folders, " ")
  n_units = split("job.service sysinit.target multi-user.target graphical.target basic.target timers.target x.target x-y.target y.target n.target " \
    "a.service a-b.service s.service s-t.service s-t-u.service t@.service v@.service v-w@.service v@i.service p.path k.socket w.slice " \
    "a.timer a-b.timer a-b-c.timer c.timer d-.timer e.timer t@.timer t-u@.timer t@i.timer t@j.timer t-u@i.timer", units, " ")
  n_targets = split("default.target graphical.target multi-user.target x.target x-y.target y.target n.target " \
    "basic.target timers.target sysinit.target", targets, " ")
  # the targets up to this one may want units of each type
  n_late = 7
  n_aliases = split("za.timer a.timer zz.timer za.timer zc.timer c.timer zs.service s.service zx.target x.target zt@.timer t@.timer " \
    "zv@i.service v@i.service", aliases, " ")
  split("job.service sysinit.target multi-user.target graphical.target", words, " ")
  for (at in words) always[words[at]] = 1
  wanted_timers = "a.timer a-b.timer a-b-c.timer c.timer d-.timer e.timer t@.timer t@i.timer t@j.timer t@k.timer t@i-k.timer t-u@i.timer " \
    "t-u@.timer za.timer zz.timer zc.timer zt@i.timer zt@.timer m.timer t@k@i.timer t@i+k.timer a+b.timer @i.timer"
  wanted_others = "v@.service v@i.service v@k.service v-w@k.service zs.service zx.target zv@i.service m.service"
  owners = "default.target a-.timer a-b-.timer s-.service s-t-.service t-.timer v-.service x-.target timer service target v@k.service t@k.timer"
  for (number = 1; number <= count; number++) make_root()
}
