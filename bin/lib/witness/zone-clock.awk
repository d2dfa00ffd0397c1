# Functions for the awk programs about zones: seconds since 1970 and their fields.

# Returns the second of a date and a time of day in the form HH:MM:SS.
function second_of(year, month, day, time, parts) {
  # years that begin in March
  if (month < 3) year--
  day += 365 * year + int(year / 4) - int(year / 100) + int(year / 400) + int((153 * (month < 3 ? month + 9 : month - 3) + 2) / 5) - 719469
  split(time, parts, ":")
  return day * 86400 + parts[1] * 3600 + parts[2] * 60 + parts[3]
}

# Returns the second of a time in agenda's form.
function read_time(text) { return second_of(substr(text, 1, 4) + 0, substr(text, 6, 2) + 0, substr(text, 9, 2) + 0, substr(text, 12, 8)) }

# Sets year, month, day, weekday (0 is Monday), hour and minute to those of a second.
function set_fields(second, days, era) {
  days = int(second / 86400)
  weekday = (days + 3) % 7
  hour = int(second % 86400 / 3600)
  minute = int(second % 3600 / 60)
  days += 719468
  era = int(days / 146097)
  days %= 146097
  year = int((days - int(days / 1460) + int(days / 36524) - int(days / 146096)) / 365)
  days -= 365 * year + int(year / 4) - int(year / 100)
  month = int((5 * days + 2) / 153)
  day = days - int((153 * month + 2) / 5) + 1
  month += month < 10 ? 3 : -9
  year += era * 400 + (month < 3)
}

# Returns a second in agenda's form.
function write_time(second) {
  set_fields(second)
  return sprintf("%04d-%02d-%02dT%02d:%02d:%02dZ", year, month, day, hour, minute, second % 60)
}
