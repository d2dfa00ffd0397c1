# Prints times after which jobs start, in agenda's form. Years are `year` and the next ones. With form=event most of the times are
# the last second of an hour, a day, a month or a year, where systemd may skip starts; Februaries with 28 and with 29 days
# are among them. form=more has many more of these. With form=cron most are anywhere. The same `seed` makes the same times. It
# needs random.awk.

function is_leap(year) { return year % 4 == 0 && (year % 100 != 0 || year % 400 == 0) }

function last_day(year, month) { return month == 2 ? 28 + is_leap(year) : 30 + (month + int(month / 8)) % 2 }

# Returns the last second of an hour.
function end_of_hour(year, month, day, hour) { return sprintf("%d-%02d-%02dT%02d:59:59Z", year, month, day, hour) }

function end_of_month(year, month) { return end_of_hour(year, month, last_day(year, month), 23) }

function any_day() { return 1 + roll(28) }

function any_time(year) { return sprintf("%d-%02d-%02dT%02d:%02d:%02dZ", year, 1 + roll(12), any_day(), roll(24), roll(60), roll(60)) }

BEGIN {
  start_rolling(seed)
  leap = year + (4 - year % 4) % 4
  if (!is_leap(leap)) leap += 4
  if (form == "event" || form == "cron") {
    print end_of_month(year, 12)
    print end_of_month(leap, 2)
    for (at = 0; at < (form == "cron" ? 6 : 3); at++) print any_time(year + at % 3)
  }
  if (form == "event") {
    print end_of_month(leap + 1, 2)
    print end_of_month(year + 1, 1 + roll(12))
    print end_of_hour(year + 1, 1 + roll(12), any_day(), 23)
    print end_of_hour(year, 1 + roll(12), any_day(), roll(24))
    print end_of_month(year + 3, 12)
  }
  if (form == "more") {
    for (at = 0; at < 6; at++) print end_of_month(year + at, 12)
    for (at = 1; at < 12; at++) print end_of_month(year + 2, at)
    for (at = 1; at < 12; at++) print end_of_month(year + 3, at)
    for (at = 0; at < 18; at++) print end_of_hour(year + at % 5, 1 + roll(12), any_day(), 23)
    for (at = 0; at < 18; at++) print end_of_hour(year + at % 5, 1 + roll(12), any_day(), roll(24))
  }
}
