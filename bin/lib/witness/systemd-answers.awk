# Prints one answer per line from the output of `systemd-analyze calendar` for several events. An empty line
# separates two events. An event that is rejected has no other line. An event with neither a next start nor
# `never` was given up.
function finish() {
  print !seen ? "refused" : count ? "" : never ? "none" : "given up"
  seen = never = count = 0
}
/^$/ { finish(); next }
{ seen = 1 }
/^ *Next elapse: never$/ { never = 1 }
/^ *(Next elapse|Iter[.] #[0-9]+): [A-Z][a-z][a-z] [0-9-]+ [0-9:]+ UTC$/ { printf "%s%s", count++ ? " " : "", $(NF - 2) "T" $(NF - 1) "Z" }
END { finish() }
