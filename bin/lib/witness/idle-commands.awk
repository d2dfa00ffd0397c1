# Makes commands for idle.sh, one per line: lists of sh(1) in the grammar that agenda reads, over the made directory
# `made`, and beyond it; a third of them bent. Their effects are files: `act` makes one, and redirections do.
# It is run with random.awk.

function path() { return made "/" pick(paths) }

function name() { return pick("act gone plain tool act") }

function test_of(bracket) {
  return pick("-x -e -f -d -s -x -d") " " path()
}

function condition(text, more) {
  text = (one_in(3) ? pick("! \\! !") " " : "") test_of()
  for (more = roll(3); more > 1; more--) text = text " -a " (one_in(3) ? "\\! " : "") test_of()
  return one_in(2) ? "test " text : "[ " text " ]"
}

function silenced() { return pick("> /dev/null;>/dev/null;> /dev/null 2>&1;>/dev/null 2>&1", ";") }

# a command that decides whether others run
function guard(kind) {
  kind = roll(10)
  if (kind < 6) return condition()
  if (kind == 6) return "command -v " name() " " silenced()
  if (kind == 7) return "cd " path()
  if (kind == 8) return "run-parts " pick(" --report --verbose  -v") " " made "/" pick("full empty scripts dir gone")
  return pick("true : false true")
}

# a command that is not in the grammar, or has an effect
function other(kind) {
  kind = roll(8)
  if (kind == 0) return made "/bin/act " pick("one;'two words';\"three\";four", ";")
  if (kind == 1) return "A=1 act"
  if (kind == 2) return "act >" pick("/dev/null log")
  if (kind == 3) return pick("echo%exit 1%[ $A -le 7 ]%[ $(date +%d) -le 7 ]%: >log%while false%true & act%. ./x%exec act", "%")
  return "act"
}

function simple() { return one_in(3) ? other() : guard() }

function command(depth, kind) {
  kind = roll(depth > 1 ? 20 : 10)
  if (depth > 2 || kind > 4) return simple()
  if (kind == 0) return "{ " list(depth + 1) "; }"
  if (kind == 1) return "( " list(depth + 1) " )"
  if (kind == 2) return "if " guard() "; then " list(depth + 1) "; fi"
  if (kind == 3) return "if " list(depth + 1) "; then " list(depth + 1) "; else " guard() "; fi"
  return "if " guard() "; then " list(depth + 1) "; elif " guard() "; then " other() "; fi"
}

function pipeline(depth, text) {
  text = (one_in(8) ? "! " : "") command(depth)
  return one_in(16) ? text " | " simple() : text
}

function and_or(depth, text, more) {
  text = pipeline(depth)
  for (more = roll(3); more > 0; more--) text = text pick(" && ; || ;&&;||", ";") pipeline(depth + 1)
  return text
}

function list(depth, text) {
  text = and_or(depth)
  if (one_in(10)) text = text "; " and_or(depth + 1)
  return text
}

# a guard and what it decides about, as crontabs of packages have them
function usual() { return guard() pick(" && ; || ;&&; && ", ";") (one_in(2) ? other() : "{ " list(2) "; }") }

BEGIN {
  start_rolling(seed)
  paths = "bin/act bin/tool plain empty-file full empty gone gone/below link-to-act link-to-full dangling scripts/one ."
  for (number = 0; number < count; number++) {
    do text = one_in(3) ? usual() : list(0); while (length(text) > 800)
    if (one_in(40)) text = text "; "
    if (one_in(30)) text = text " # a comment; act"
    if (one_in(3)) text = bend_character(text, ";|&(){}!\\'\"#$ <>a[]`")
    sub(/^ +/, "", text)
    print text == "" ? "true" : text
  }
}
