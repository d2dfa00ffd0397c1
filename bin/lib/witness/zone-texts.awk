# Makes events of systemd or rules of cron around clock changes.
#
# Standard input has the changes of some zones, in the form of zone-changes.awk. Of the changes of a zone with
# the same size, the same flags and the same time of day, one is chosen, before 2038, because cron's clock
# ends there. The same `seed` makes the same texts.
#
# With form=calendar, a line has the zone of an event, the time after which to ask, the event, and the zone of the
# machine, which is the same. With form=named, one of the two zones is one of `homes`, and the change is one of the
# other. With form=cron, a line has a zone, the start and the end of a span, the time at which the clock is put
# forward in it, or `never`, and a rule. The parts are separated by tabs, and times are in UTC.

# Returns a number from 0 up to n, excluded.
function roll(n) {
  state = (state * 16807) % 2147483647
  return int(state / 2147483647 * n)
}

function one_in(n) { return roll(n) == 0 }

# Returns one part of a list, whose parts are separated by blanks or by `mark`.
function pick(list, mark, words, n) {
  n = split(list, words, mark == "" ? " " : mark)
  return words[1 + roll(n)]
}

# Sets the fields to those of a local time in the change or close to it.
function choose_local(low, high, local, kind) {
  low = second + (before < after ? before : after)
  high = second + (before < after ? after : before)
  kind = roll(8)
  if (kind == 0) local = low
  else if (kind == 1) local = high
  else if (kind == 2) local = high - 60
  else if (kind == 3) local = low - 60
  else if (kind < 6) local = low + 300 * roll((high - low) / 300 + 1)
  else local = low - 7200 + 900 * roll((high - low + 14400) / 900)
  set_fields(local)
}

function last_day() { return month == 2 ? 28 + (year % 4 == 0) : 30 + (month + int(month / 8)) % 2 }

function weekday_names(name) {
  name = substr(week, 3 * weekday + 1, 3)
  return one_in(2) ? name : pick(name ",Wed Mon..Fri Sat,Sun Mon.." name)
}

function event_date(from_end, late) {
  from_end = last_day() - day + 1
  late = from_end > 28 ? 28 : from_end
  return pick("*-*-" day " *-" month "-" day " " year "-" month "-" day " *-" month "-* " year "-*-* *-*-" (day > 1 ? day - 1 : 1) ".." day \
    " *-*-" day "," (day < 28 ? day + 1 : 1) " *-*~" late " *-" month "~" late " *-" month "~1.." late " *-*~1")
}

function event_hours(next_hour) {
  next_hour = (hour + 1) % 24
  return pick(hour " " hour " * " hour "," next_hour " " (hour ? hour - 1 : 0) ".." hour " 0/2 1/2 0/3 0/6 " hour % 4 "/4 0," hour "," next_hour \
    " 0..22/2 1..23/2 " (hour > 1 ? hour - 2 "," hour : "0,2"))
}

function event_minutes(fine) {
  if (!fine) return pick("00 00 " minute " " minute " 30 0,30 0/30 0/20")
  return pick(minute " * 0/15 0/10 5/10 0/5 0/20 15,45 0..30/10 " minute "," (minute + 7) % 60)
}

function event_seconds() { return one_in(12) ? ":" pick("30 0/20 59 0,30") : "" }

# Returns an event. Fine events have several starts an hour.
function event_text(fine, text) {
  choose_local()
  if (one_in(12)) return fine ? pick("minutely hourly") : pick("hourly daily weekly monthly")
  if (one_in(fine ? 8 : 4)) text = weekday_names() " "
  if (one_in(fine ? 5 : 2)) text = text event_date() " "
  return text (fine ? pick("* * * " hour " " event_hours()) : event_hours()) ":" event_minutes(fine) event_seconds()
}

# Sets own and home to the zones of the next events and of their machine.
function choose_zones(other) {
  own = home = zone
  if (form != "named") return
  do other = pick(homes)
  while (other == zone)
  if (one_in(2)) own = other
  else home = other
}

# Writes events around the change: for times a day, some hours and some minutes before it, and during or after it.
function write_events(size, moments, kind, at) {
  size = after < before ? before - after : 0
  moments[1] = second - 300 * (1 + roll(380))
  moments[2] = second - 60 * (1 + roll(240))
  moments[3] = second - 1 - roll(1200)
  moments[4] = one_in(3) ? second : second + 60 * roll(size / 60 + 40)
  for (kind = 1; kind <= 4; kind++) {
    choose_zones()
    for (at = 0; at < texts; at++) print own "\t" write_time(moments[kind]) "\t" event_text(kind > 2 || (kind == 2 && at % 2)) "\t" home
  }
}

function cron_days() {
  if (!one_in(3)) return "* * *"
  return pick(day " * *;* " month " *;" day " " month " *;" day "-31 * *;* * " (weekday + 1) ";13 * " (weekday + 1) ";*/2 * *;" day ",1 " month \
    " *;* * 1-5;* * 0,6;1-31/2 * 0;* " month "-12 *", ";")
}

function cron_hours(next_hour, last_hour) {
  next_hour = (hour + 1) % 24
  last_hour = hour ? hour - 1 : 23
  return pick(hour " " hour " " hour " * * */2 */3 " hour "," next_hour " " last_hour "," hour " 0-23 0-22/2 1-23/2 " hour "-23 0-" hour \
    " " hour ",* *," hour " " (hour > 1 ? hour - 2 "-" hour : "0-2"))
}

function cron_minutes() {
  return pick("0 0 " minute " " minute " * */20 */15 0-59 0-59/20 30 0,30 45 59 1 5,* *,5 " minute "-59 " minute "," (minute + 11) % 60 " 7-59/13")
}

function cron_rule() {
  choose_local()
  if (one_in(15)) return pick("@hourly @daily @weekly @monthly @midnight @yearly")
  return cron_minutes() " " cron_hours() " " cron_days()
}

# Writes rules of cron around the change, for a span that begins with a local minute.
function write_rules(since, upto, gap, at) {
  since = second - 21600
  since = write_time(since - (since + before) % 60)
  upto = write_time(second + (after < before ? before - after : 0) + 108000)
  gap = before < after ? write_time(second) : "never"
  for (at = 0; at < texts; at++) print zone "\t" since "\t" upto "\t" gap "\t" cron_rule()
}

# Writes the texts for one change of each kind of the zone whose changes have been read.
function finish_zone(kind, at) {
  for (kind = 1; kind <= kinds; kind++) {
    split(changes[names[kind], 1 + roll(counts[names[kind]])], parts, "\t")
    second = parts[2]
    before = parts[3]
    after = parts[4]
    if (form == "cron") write_rules()
    else write_events()
  }
  split("", counts)
  kinds = 0
}

BEGIN {
  FS = "\t"
  state = seed % 2147483646 + 1
  for (at = 0; at < 10; at++) roll(2)
  week = "MonTueWedThuFriSatSun"
}

$1 != zone {
  finish_zone()
  zone = $1
}

$2 < 2145916800 {
  name = $4 - $3 "," $5 "," $6 "," ($2 + $3) % 86400
  if (!counts[name]++) names[++kinds] = name
  changes[name, counts[name]] = $0
}

END { finish_zone() }
