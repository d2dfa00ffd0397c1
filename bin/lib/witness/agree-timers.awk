# Makes `count` timers in the directory `folder`: 1.timer, 2.timer and so on; every second one is bent. They have what systemd may
# reject or read otherwise: headers of sections, units, events, other triggers, merged lines, carriage returns and NUL
# bytes. The same `seed` makes the same timers. It needs random.awk.

# Returns the value of Unit=. In a timer with odd units it is often none.
function unit() { return bend == "unit" ? pick(odd_units, "|") : pick("x.service x-y.target _.socket a@b.service a.b:c.path \\x2d.mount") }

# Returns a setting of the timer.
function setting(kind) {
  kind = roll(16)
  if (bend == "unit" && kind < 6) kind = 15
  if (kind < 8) return "OnCalendar" equals() pick(bend == "event" && one_in(2) ? odd_events : events, "|")
  if (kind == 8) return pick("OnCalendar OnBootSec OnUnitActiveSec OnActiveSec") equals()
  if (kind == 9) return pick("OnBootSec OnStartupSec OnUnitActiveSec OnUnitInactiveSec OnActiveSec") equals() pick("5min|1h 30m|0|5|x|1.5h|-1|infinity|5 min x", "|")
  if (kind == 10) return pick("OnClockChange OnTimezoneChange") equals() pick("yes|true|1|on|TRUE|y|t|no|false|0|off|maybe||n|f|2", "|")
  if (kind < 13) return pick("AccuracySec=1s|Persistent=true|WakeSystem=no|FixedRandomDelay=x|Unknown=1|Description=a|OnCalendar", "|")
  return "Unit" equals() unit()
}

function equals() { return one_in(5) ? pick(" = | =|=\t|\t= ", "|") : "=" }

# Returns a line, or several that are merged.
function line(text) {
  if (one_in(12)) return pick("|# a|; b|  # OnCalendar=daily|\t|  ", "|")
  if (one_in(bend == "header" ? 3 : 14)) return header()
  text = setting()
  if (one_in(10)) text = pick("  |\t", "|") text
  if (one_in(12)) text = text pick(" |\t|  ", "|")
  return one_in(12) ? merged(text) : text
}

# Returns a text cut in two lines that are merged, or that seem to be.
function merged(text, at) {
  at = 1 + roll(length(text))
  return substr(text, 1, at) pick("\\\n|\\\n|\\\n |\\\\\n|\\\n#c\n|\\\n\n|\\ \n|\\\r\n|\\\n\\\n", "|") substr(text, at + 1)
}

function header() {
  if (bend != "header" || one_in(2)) return pick("[Timer] [Timer] [Unit] [Install] [X-a] [Other]")
  return pick(odd_headers, "|")
}

# Puts a byte that ends lines, or another control character, into a text.
function put_byte(text, at) {
  at = roll(length(text) + 1)
  return substr(text, 1, at) pick("\r|\r|\r\r|\n\r|\r\n|\r\r\n|\v|\f|\001|" nul "|" nul, "|") substr(text, at + 1)
}

# Returns the text of a timer.
function timer(text, lines) {
  text = one_in(4) ? "[Unit]\nDescription=a\n[Timer]\n" : "[Timer]\n"
  for (lines = 1 + roll(5); lines > 0; lines--) text = text line() "\n"
  if (one_in(6)) text = text pick("[Install]\nWantedBy=timers.target\n|[Unit]\nDescription=b\n|[Install]\n", "|")
  if (bend != "trigger" && !one_in(8)) text = text "[Timer]\nOnCalendar=" pick(events, "|") "\n"
  if (one_in(6)) gsub(/\n/, "\r\n", text)
  if (one_in(6)) text = substr(text, 1, length(text) - 1)
  if (bend == "byte") text = one_in(20) ? "\357\273\277" text : put_byte(text)
  return text
}

BEGIN {
  start_rolling(seed)
  nul = sprintf("%c", 0)
  events = "daily|*:0/15|Mon 03:00|*-*-1 04:30|hourly|Sat,Sun 10:00|*-*~1|2027-*-* 12:00|*-2-29|*:*:0/20|03:00 UTC"
  odd_events = "*:*/15|*:0/90|*-*~1..4/2|*:0/25|*-*~3..1|2250-1-1|*:*:5..5|25:00|daily  UTC|*:0\t|Mon  03:00|03:00  UTC|*,3:00|*-*~29|1~*"
  odd_units = "x|x.foo||.service|a b.service|x@.service|x@y.service|@.service|%p.service|%n|%i.service|x.SERVICE|\303\251.service|a/b.service|\"x.service\"" \
    "|x.timer|x.slice|x.scope|x.snapshot|x.socket|x.swap|x.device|x.automount|x.service.|x.service y|../x.service|x@y@z.service|x\\.service|~.service|x+.service|-.mount" \
    "|-.slice|-.service|x@.timer|@y.service|x-.service|x@%i.service|" repeated("l", 247) ".service|" repeated("l", 248) ".service|SELF.timer"
  odd_headers = "[Timer|[|[]|[Timer] x|[Timer]]|[[Timer]|[ Timer ]|[Timer ]|[Ti\"mer]|['a']|[a\\b]|[a\tb]|[a\177]|[\303\251]|[timer]|[Timer]#|[a]b]|[X-\\]|[Timer\\\n]"
  for (at = 1; at <= count; at++) {
    bend = at % 2 ? "" : pick("unit event header byte trigger")
    text = timer()
    gsub(/SELF/, at, text)
    path = folder "/" at ".timer"
    printf "%s", text >path
    close(path)
  }
}
