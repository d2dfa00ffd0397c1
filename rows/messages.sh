# shellcheck shell=bash disable=SC2154
# Rows of bin/check-examples: the whole lines of `agenda check`. There is a row for every text, for each field and
# each part of an event with each of its causes, and for what is quoted. rows/check.sh has which findings there are.

messages_folder="$work/messages"
mkdir -p "$messages_folder"/{one,two}

# Writes the escaped text $2 to the file $1.
messages_file() {
  printf '%b' "$2" >"$messages_folder/$1"
}

# Compares a check of the sources from $2 on, with the name $1, with the lines of the file findings.wanted. The
# status is 1 if one of them is an error.
messages_compare() {
  local name=$1 wanted=0
  shift
  ! grep -q ': error: ' "$work/findings.wanted" || wanted=1
  run_in "$messages_folder" agenda check "$@"
  compare "$name" "$work/findings.wanted" /dev/null "$wanted"
}

# Rows from standard input: an escaped line of a crontab, and what is reported about it after the number of the
# line. All of them are in one file, which is checked with the option $1.
messages_of_lines() {
  local line finding number=0
  : >"$work/findings.wanted"
  : >"$messages_folder/jobs"
  while IFS='|' read -r line finding; do
    number=$((number + 1))
    printf '%b\n' "$line" >>"$messages_folder/jobs"
    echo "jobs:$number: $finding" >>"$work/findings.wanted"
  done
  messages_compare "the messages about $number lines of $1" "$1" jobs
}

# Rows from standard input: the escaped text of an event, and what is reported about it after the number of its
# first line. All of them are in one timer. Each event is alone in the timer's list, and the last one is valid.
messages_of_events() {
  local event finding number=1 lines
  : >"$work/findings.wanted"
  echo '[Timer]' >"$messages_folder/a.timer"
  while IFS='|' read -r event finding; do
    printf 'OnCalendar=\nOnCalendar=%b\n' "$event" >>"$messages_folder/a.timer"
    echo "a.timer:$((number + 2)): $finding" >>"$work/findings.wanted"
    number=$(wc -l <"$messages_folder/a.timer")
  done
  echo 'OnCalendar=daily' >>"$messages_folder/a.timer"
  lines=$(wc -l <"$work/findings.wanted")
  messages_compare "the messages about $lines events" a.timer
}

# Rows from standard input: the arguments of a check, and all lines of its output, with `;` between them.
messages_of_sources() {
  local written findings words
  while IFS='|' read -r written findings; do
    read -r -a words <<<"$written"
    printf '%s\n' "$findings" | tr ';' '\n' >"$work/findings.wanted"
    messages_compare "the messages about $written" "${words[@]}"
  done
}

# Prints the text $2 $1 times.
messages_repeat() {
  local text
  printf -v text '%*s' "$1" ''
  printf '%s' "${text// /"$2"}"
}

# Each field with each cause. The field is quoted as a whole.
messages_of_lines --crontab <<'ROWS'
1,,2 * * * * x|error: minute '1,,2': empty value, or a step after a single value [WrongParts]
, * * * * x|error: minute ',': empty value, or a step after a single value [WrongParts]
5/15 * * * * x|error: minute '5/15': empty value, or a step after a single value [WrongParts]
*/ * * * * x|error: minute '*/': empty value, or a step after a single value [WrongParts]
1- * * * * x|error: minute '1-': empty value, or a step after a single value [WrongParts]
1x * * * * x|error: minute '1x': not a number of one to four digits [BadNumber]
12345 * * * * x|error: minute '12345': not a number of one to four digits [BadNumber]
*/x * * * * x|error: minute '*/x': not a number of one to four digits [BadNumber]
0,ten * * * * x|error: minute '0,ten': unknown name [BadName]
60 * * * * x|error: minute '60': out of range 0-59 [OutOfRange]
0,10-60/5 * * * * x|error: minute '0,10-60/5': out of range 0-59 [OutOfRange]
30-10 * * * * x|error: minute '30-10': range runs backwards [Backwards]
*/0 * * * * x|error: minute '*/0': step of zero [ZeroStep]
0 -1 * * * x|error: hour '-1': empty value, or a step after a single value [WrongParts]
0 8/2 * * * x|error: hour '8/2': empty value, or a step after a single value [WrongParts]
0 ? * * * x|error: hour '?': not a number of one to four digits [BadNumber]
0 noon * * * x|error: hour 'noon': unknown name [BadName]
0 24 * * * x|error: hour '24': out of range 0-23 [OutOfRange]
0 22-4 * * * x|error: hour '22-4': range runs backwards [Backwards]
0 8-18/0 * * * x|error: hour '8-18/0': step of zero [ZeroStep]
0 0 /2 * * x|error: day of month '/2': empty value, or a step after a single value [WrongParts]
0 0 1/2 * * x|error: day of month '1/2': empty value, or a step after a single value [WrongParts]
0 0 1. * * x|error: day of month '1.': not a number of one to four digits [BadNumber]
0 0 L * * x|error: day of month 'L': unknown name [BadName]
0 0 0 * * x|error: day of month '0': out of range 1-31 [OutOfRange]
0 0 32 * * x|error: day of month '32': out of range 1-31 [OutOfRange]
0 0 15-1 * * x|error: day of month '15-1': range runs backwards [Backwards]
0 0 */00 * * x|error: day of month '*/00': step of zero [ZeroStep]
0 0 1 6, * x|error: month '6,': empty value, or a step after a single value [WrongParts]
0 0 1 jan/3 * x|error: month 'jan/3': empty value, or a step after a single value [WrongParts]
0 0 1 */mar * x|error: month '*/mar': not a number of one to four digits [BadNumber]
0 0 1 june * x|error: month 'june': unknown name [BadName]
0 0 1 mon * x|error: month 'mon': unknown name [BadName]
0 0 1 0 * x|error: month '0': out of range 1-12 [OutOfRange]
0 0 1 1,13 * x|error: month '1,13': out of range 1-12 [OutOfRange]
0 0 1 Dec-Jan * x|error: month 'Dec-Jan': range runs backwards [Backwards]
0 0 1 jan-jun/0 * x|error: month 'jan-jun/0': step of zero [ZeroStep]
0 0 * * mon,,fri x|error: day of week 'mon,,fri': empty value, or a step after a single value [WrongParts]
0 0 * * mon/2 x|error: day of week 'mon/2': empty value, or a step after a single value [WrongParts]
0 0 * * 5#2 x|error: day of week '5#2': not a number of one to four digits [BadNumber]
0 0 * * monday x|error: day of week 'monday': unknown name [BadName]
0 0 * * 8 x|error: day of week '8': out of range 0-7 [OutOfRange]
0 0 * * sat-sun x|error: day of week 'sat-sun': range runs backwards [Backwards]
0 0 * * 1-5/0 x|error: day of week '1-5/0': step of zero [ZeroStep]
ROWS

# Of several invalid fields, the first. The same texts with the user in the line, and for all options.
messages_of_lines --system-crontab <<'ROWS'
60 24 32 13 8 root x|error: minute '60': out of range 0-59 [OutOfRange]
0 24 32 13 8 root x|error: hour '24': out of range 0-23 [OutOfRange]
0 0 32 13 8 root x|error: day of month '32': out of range 1-31 [OutOfRange]
0 0 1 13 8 root x|error: month '13': out of range 1-12 [OutOfRange]
 \t0\t0 \t1 1\t8\troot x|error: day of week '8': out of range 0-7 [OutOfRange]
60,x * * * * root x|error: minute '60,x': unknown name [BadName]
0 0 * * root x|error: day of week 'root': unknown name [BadName]
ROWS

# Lines whose rule isn't five fields, other lines, and lines without a command.
messages_of_lines --crontab <<'ROWS'
* * * *|error: expected five fields and a command [WrongParts]
60 24|error: expected five fields and a command [WrongParts]
@hour x|error: unknown word '@hour' [UnknownWord]
@|error: unknown word '@' [UnknownWord]
@Daily\tx|error: unknown word '@Daily' [UnknownWord]
 @every 5m|error: unknown word '@every' (Jenkins' H and @every are not cron's) [UnknownWord]
@@daily|error: unknown word '@@daily' [UnknownWord]
MAILTO|error: expected NAME=VALUE, or five fields and a command [BadSetting]
MAILTO root|error: expected NAME=VALUE, or five fields and a command [BadSetting]
"0 0 * * * x|error: expected NAME=VALUE, or five fields and a command [BadSetting]
@daily|error: no command [NoCommand]
* * * * *  \t|error: no command [NoCommand]
ROWS
messages_of_lines --spool <<'ROWS'
0 0 * * *|error: no command [NoCommand]
ROWS
messages_of_lines --system-crontab <<'ROWS'
@daily|error: expected a user and a command [NoCommand]
@daily root|error: expected a user and a command [NoCommand]
* * * * *|error: expected a user and a command [NoCommand]
* * * * * root \t|error: expected a user and a command [NoCommand]
0 0 * *|error: expected five fields and a command [WrongParts]
@hour root x|error: unknown word '@hour' [UnknownWord]
PATH|error: expected NAME=VALUE, or five fields and a command [BadSetting]
ROWS
messages_of_lines --cron-d <<'ROWS'
@daily www-data|error: expected a user and a command [NoCommand]
ROWS

# Warnings about lines of a crontab. They quote nothing.
messages_of_lines --crontab <<'ROWS'
0 0 30 2 * x|warning: never starts [NeverStarts]
0 9 13 * 5 x|warning: starts on days that match either day field, not both [EitherDay]
@daily date +%F|warning: cron ends the command at the first % and passes the rest as input [Percent]
@daily x\r|warning: the command ends with a carriage return [CarriageReturn]
CRON_TZ=Europe/Oslo|warning: CRON_TZ is read by cronie alone; agenda reads all rules in one zone [ZoneSetting]
ROWS
messages_of_lines --cron-d <<'ROWS'
0 0 31 2,4,6,9,11 * root x|warning: never starts [NeverStarts]
0 0 31 2 mon root x|warning: starts on days that match either day field, not both [EitherDay]
ROWS

# Each part of an event with each cause. The whole value is quoted.
messages_of_events <<'ROWS'
12|error: '12' is not a calendar event [WrongParts]
1-1 12:00 1-1|error: '1-1 12:00 1-1' is not a calendar event [WrongParts]
@1700000000|error: '@1700000000' is not a calendar event [WrongParts]
1-2-3-4|error: '1-2-3-4' is not a calendar event [WrongParts]
fortnightly|error: 'fortnightly' is not a calendar event [UnknownWord]
Mo|error: 'Mo' is not a calendar event [UnknownWord]
%i|error: specifiers in '%i' are not expanded [Specifier]
Mon *-*-* %H:00|error: specifiers in 'Mon *-*-* %H:00' are not expanded [Specifier]
daily Europe/Oslo|error: time zone in 'daily Europe/Oslo': only UTC is supported without --event-zones [Zone]
12:00 CET|error: time zone in '12:00 CET': only UTC is supported without --event-zones [Zone]
Mon,,Tue 12:00|error: weekday in 'Mon,,Tue 12:00': empty value, or a step after * [WrongParts]
Mon.. 12:00|error: weekday in 'Mon.. 12:00': empty value, or a step after * [WrongParts]
Foo 12:00|error: weekday in 'Foo 12:00': unknown name [BadName]
Mon-Fri 12:00|error: weekday in 'Mon-Fri 12:00': unknown name (write Mon..Fri) [BadName]
Fri..Mon 12:00|error: weekday in 'Fri..Mon 12:00': range runs backwards [Backwards]
2024,-1-1|error: year in '2024,-1-1': empty value, or a step after * [WrongParts]
12345-1-1|error: year in '12345-1-1': not a number of one to four digits [BadNumber]
1969-1-1|error: year in '1969-1-1': out of range 1970-2999 [OutOfRange]
3000-1-1|error: year in '3000-1-1': out of range 1970-2999 [OutOfRange]
2026..2024-1-1|error: year in '2026..2024-1-1': range runs backwards [Backwards]
2024/0-1-1|error: year in '2024/0-1-1': step of zero [ZeroStep]
*-1/-1|error: month in '*-1/-1': empty value, or a step after * [WrongParts]
*-jan-1|error: month in '*-jan-1': not a number of one to four digits [BadNumber]
*-13-1|error: month in '*-13-1': out of range 1-12 [OutOfRange]
*-0-1|error: month in '*-0-1': out of range 1-12 [OutOfRange]
11..2-1|error: month in '11..2-1': range runs backwards [Backwards]
*-*/0-1|error: month in '*-*/0-1': step of zero [ZeroStep]
*-*-1,|error: day in '*-*-1,': empty value, or a step after * [WrongParts]
*-*~*/2|error: day in '*-*~*/2': empty value, or a step after * [WrongParts]
*-*-1st|error: day in '*-*-1st': not a number of one to four digits [BadNumber]
*-*-32|error: day in '*-*-32': out of range 1-31 [OutOfRange]
*-*-0|error: day in '*-*-0': out of range 1-31 [OutOfRange]
*-*~32|error: day in '*-*~32': out of range 1-31 [OutOfRange]
*-*-25..5|error: day in '*-*-25..5': range runs backwards [Backwards]
*-*-1/0|error: day in '*-*-1/0': step of zero [ZeroStep]
*-*~1/0|error: day in '*-*~1/0': step of zero [ZeroStep]
:00|error: hour in ':00': empty value, or a step after * [WrongParts]
12h:00|error: hour in '12h:00': not a number of one to four digits [BadNumber]
24:00|error: hour in '24:00': out of range 0-23 [OutOfRange]
22..4:00|error: hour in '22..4:00': range runs backwards [Backwards]
*/0:00|error: hour in '*/0:00': step of zero [ZeroStep]
12:|error: minute in '12:': empty value, or a step after * [WrongParts]
12:-5|error: minute in '12:-5': not a number of one to four digits [BadNumber]
*:60|error: minute in '*:60': out of range 0-59 [OutOfRange]
*:30..10|error: minute in '*:30..10': range runs backwards [Backwards]
*:0/0|error: minute in '*:0/0': step of zero [ZeroStep]
12:00:|error: second in '12:00:': empty value, or a step after * [WrongParts]
12:00:0s|error: second in '12:00:0s': not a number of one to four digits [BadNumber]
12:00:60|error: second in '12:00:60': out of range 0-59 [OutOfRange]
*:*:30..10|error: second in '*:*:30..10': range runs backwards [Backwards]
*:*:*/0|error: second in '*:*:*/0': step of zero [ZeroStep]
12:00:00.5|error: second in '12:00:00.5': fractions are not supported [Fraction]
*:*:0/2.5|error: second in '*:*:0/2.5': fractions are not supported [Fraction]
ROWS

# Of several invalid parts, the first; and what is checked before all parts.
messages_of_events <<'ROWS'
Foo 1969-13-32 24:60:60|error: weekday in 'Foo 1969-13-32 24:60:60': unknown name [BadName]
Mon 1969-13-32 24:60:60|error: year in 'Mon 1969-13-32 24:60:60': out of range 1970-2999 [OutOfRange]
2024-13-32 24:60:60|error: month in '2024-13-32 24:60:60': out of range 1-12 [OutOfRange]
2024-1-32 24:60:60|error: day in '2024-1-32 24:60:60': out of range 1-31 [OutOfRange]
2024-1-1 24:60:60|error: hour in '2024-1-1 24:60:60': out of range 0-23 [OutOfRange]
0:60:60 UTC|error: minute in '0:60:60 UTC': out of range 0-59 [OutOfRange]
0:0:60 utc|error: second in '0:0:60 utc': out of range 0-59 [OutOfRange]
24:00 CET|error: time zone in '24:00 CET': only UTC is supported without --event-zones [Zone]
24:00 % CET|error: specifiers in '24:00 % CET' are not expanded [Specifier]
12 Mon|error: time zone in '12 Mon': only UTC is supported without --event-zones [Zone]
12 UTC|error: '12 UTC' is not a calendar event [WrongParts]
ROWS

# Warnings about events. The warning about the whole file has no number.
messages_of_events <<'ROWS'
*-2-30|warning: never starts [NeverStarts]
Mon 2024-1-2|warning: never starts [NeverStarts]
*:0/25|warning: systemd 252 may pass over starts of '*:0/25': give the step an end [SkippedStarts]
  *-*-* \\\n\t*:0/25 |warning: systemd 252 may pass over starts of '*-*-*  *:0/25': give the step an end [SkippedStarts]
ROWS

# The value without blanks at its ends, with those inside it. A merged line is one value: the backslash at the end
# of a line is a space, and blanks at the start of the next line are removed.
messages_of_events <<'ROWS'
  25:00 \t|error: hour in '25:00': out of range 0-23 [OutOfRange]
Mon  25:00|error: hour in 'Mon  25:00': out of range 0-23 [OutOfRange]
Mon\\\n25:00|error: hour in 'Mon 25:00': out of range 0-23 [OutOfRange]
Mon \\\n \t 25:00|error: hour in 'Mon  25:00': out of range 0-23 [OutOfRange]
\\\n\\\n25:00\\\n|error: hour in '25:00': out of range 0-23 [OutOfRange]
Mon\\\n# note\n ; note\n25:00|error: hour in 'Mon 25:00': out of range 0-23 [OutOfRange]
Mon\\\n*-*-*\\\n25:00|error: hour in 'Mon *-*-* 25:00': out of range 0-23 [OutOfRange]
Mon 25:00\r|error: hour in 'Mon 25:00': out of range 0-23 [OutOfRange]
Mon\\\r\n25:00\r|error: hour in 'Mon 25:00': out of range 0-23 [OutOfRange]
25:00=|error: hour in '25:00=': out of range 0-23 [OutOfRange]
=daily|error: '=daily' is not a calendar event [WrongParts]
ROWS

# Bytes below 32, byte 127 and backslashes are escaped. Quotes and other bytes aren't.
messages_of_lines --crontab <<'ROWS'
\x01 * * * * x|error: minute '\x01': not a number of one to four digits [BadNumber]
\x1b[31m5 * * * * x|error: minute '\x1b[31m5': not a number of one to four digits [BadNumber]
5\x7f * * * * x|error: minute '5\x7f': not a number of one to four digits [BadNumber]
0\x0e * * * * x|error: minute '0\x0e': not a number of one to four digits [BadNumber]
0 \x1f\x0b\x0c\x08 * * * x|error: hour '\x1f\x0b\x0c\x08': not a number of one to four digits [BadNumber]
0 0 * * *\r x|error: day of week '*\x0d': not a number of one to four digits [BadNumber]
\x5c * * * * x|error: minute '\\': not a number of one to four digits [BadNumber]
0 \x5cx01\x5c\x5c * * * x|error: hour '\\x01\\\\': not a number of one to four digits [BadNumber]
0 '5' * * * x|error: hour ''5'': not a number of one to four digits [BadNumber]
0 ~!|error: expected five fields and a command [WrongParts]
0 ~! * * * x|error: hour '~!': not a number of one to four digits [BadNumber]
0 é * * * x|error: hour 'é': not a number of one to four digits [BadNumber]
0 0 1 märz * x|error: month 'märz': unknown name [BadName]
@\x01\x5c'é x|error: unknown word '@\x01\\'é' [UnknownWord]
@daily\r x|error: unknown word '@daily\x0d' [UnknownWord]
ROWS
messages_of_events <<'ROWS'
Mon\t25:00|error: hour in 'Mon\x0925:00': out of range 0-23 [OutOfRange]
Mon\t \t\\\n\t25:00|error: hour in 'Mon\x09 \x09 25:00': out of range 0-23 [OutOfRange]
\x5cx41|error: '\\x41' is not a calendar event [WrongParts]
25:00\x0b|error: hour in '25:00\x0b': out of range 0-23 [OutOfRange]
25:\x01\x7f|error: hour in '25:\x01\x7f': out of range 0-23 [OutOfRange]
'daily'|error: ''daily'' is not a calendar event [WrongParts]
"daily"|error: '"daily"' is not a calendar event [WrongParts]
täglich 12:00|error: weekday in 'täglich 12:00': unknown name [BadName]
%\x5c\x1b|error: specifiers in '%\\\x1b' are not expanded [Specifier]
12:00 \x5cUTC|error: '12:00 \\UTC' is not a calendar event [WrongParts]
12:00 U\x01|error: time zone in '12:00 U\x01': only UTC is supported without --event-zones [Zone]
ROWS

# Up to 64 bytes are quoted. Of a longer text, the characters that fit into 64 bytes are quoted, and three dots
# follow. The bytes are counted before they are escaped.
messages_of_lines --crontab <<ROWS
$(messages_repeat 64 1) * * * * x|error: minute '$(messages_repeat 64 1)': not a number of one to four digits [BadNumber]
$(messages_repeat 64 1)2 * * * * x|error: minute '$(messages_repeat 64 1)'...: not a number of one to four digits [BadNumber]
$(messages_repeat 999 1) * * * * x|error: minute '$(messages_repeat 64 1)'...: not a number of one to four digits [BadNumber]
$(messages_repeat 62 1)é * * * * x|error: minute '$(messages_repeat 62 1)é': not a number of one to four digits [BadNumber]
$(messages_repeat 62 1)é2 * * * * x|error: minute '$(messages_repeat 62 1)é'...: not a number of one to four digits [BadNumber]
$(messages_repeat 63 1)é * * * * x|error: minute '$(messages_repeat 63 1)'...: not a number of one to four digits [BadNumber]
$(messages_repeat 63 1)é2 * * * * x|error: minute '$(messages_repeat 63 1)'...: not a number of one to four digits [BadNumber]
$(messages_repeat 64 1)é * * * * x|error: minute '$(messages_repeat 64 1)'...: not a number of one to four digits [BadNumber]
$(messages_repeat 61 1)€ * * * * x|error: minute '$(messages_repeat 61 1)€': not a number of one to four digits [BadNumber]
$(messages_repeat 61 1)€2 * * * * x|error: minute '$(messages_repeat 61 1)€'...: not a number of one to four digits [BadNumber]
$(messages_repeat 62 1)€ * * * * x|error: minute '$(messages_repeat 62 1)'...: not a number of one to four digits [BadNumber]
$(messages_repeat 63 1)€ * * * * x|error: minute '$(messages_repeat 63 1)'...: not a number of one to four digits [BadNumber]
$(messages_repeat 60 1)😀 * * * * x|error: minute '$(messages_repeat 60 1)😀': not a number of one to four digits [BadNumber]
$(messages_repeat 60 1)😀2 * * * * x|error: minute '$(messages_repeat 60 1)😀'...: not a number of one to four digits [BadNumber]
$(messages_repeat 61 1)😀 * * * * x|error: minute '$(messages_repeat 61 1)'...: not a number of one to four digits [BadNumber]
$(messages_repeat 62 1)😀 * * * * x|error: minute '$(messages_repeat 62 1)'...: not a number of one to four digits [BadNumber]
$(messages_repeat 63 1)😀 * * * * x|error: minute '$(messages_repeat 63 1)'...: not a number of one to four digits [BadNumber]
$(messages_repeat 61 1)éé * * * * x|error: minute '$(messages_repeat 61 1)é'...: not a number of one to four digits [BadNumber]
$(messages_repeat 33 €) * * * * x|error: minute '$(messages_repeat 21 €)'...: not a number of one to four digits [BadNumber]
$(messages_repeat 16 😀) * * * * x|error: minute '$(messages_repeat 16 😀)': not a number of one to four digits [BadNumber]
$(messages_repeat 17 😀) * * * * x|error: minute '$(messages_repeat 16 😀)'...: not a number of one to four digits [BadNumber]
$(messages_repeat 64 '\x01') * * * * x|error: minute '$(messages_repeat 64 '\x01')': not a number of one to four digits [BadNumber]
$(messages_repeat 65 '\x01') * * * * x|error: minute '$(messages_repeat 64 '\x01')'...: not a number of one to four digits [BadNumber]
$(messages_repeat 64 '\x5c') * * * * x|error: minute '$(messages_repeat 64 "\\\\")': not a number of one to four digits [BadNumber]
$(messages_repeat 65 '\x5c') * * * * x|error: minute '$(messages_repeat 64 "\\\\")'...: not a number of one to four digits [BadNumber]
0 $(messages_repeat 30 0,)24,0 * * * x|error: hour '$(messages_repeat 30 0,)24,0': out of range 0-23 [OutOfRange]
0 $(messages_repeat 31 0,)24,0 * * * x|error: hour '$(messages_repeat 31 0,)24'...: out of range 0-23 [OutOfRange]
0 0 $(messages_repeat 40 1,)32 * * x|error: day of month '$(messages_repeat 32 1,)'...: out of range 1-31 [OutOfRange]
@$(messages_repeat 63 a) x|error: unknown word '@$(messages_repeat 63 a)' [UnknownWord]
@$(messages_repeat 64 a) x|error: unknown word '@$(messages_repeat 63 a)'... [UnknownWord]
@$(messages_repeat 62 a)é x|error: unknown word '@$(messages_repeat 62 a)'... [UnknownWord]
ROWS
messages_of_events <<ROWS
$(messages_repeat 30 0,)24:0|error: hour in '$(messages_repeat 30 0,)24:0': out of range 0-23 [OutOfRange]
$(messages_repeat 30 0,)24:00|error: hour in '$(messages_repeat 30 0,)24:0'...: out of range 0-23 [OutOfRange]
$(messages_repeat 30 0,)24:0:0|error: hour in '$(messages_repeat 30 0,)24:0'...: out of range 0-23 [OutOfRange]
Mon  $(messages_repeat 59 x)|error: time zone in 'Mon  $(messages_repeat 59 x)': only UTC is supported without --event-zones [Zone]
Mon  $(messages_repeat 60 x)|error: time zone in 'Mon  $(messages_repeat 59 x)'...: only UTC is supported without --event-zones [Zone]
$(messages_repeat 64 x)|error: '$(messages_repeat 64 x)' is not a calendar event [UnknownWord]
$(messages_repeat 65 x)|error: '$(messages_repeat 64 x)'... is not a calendar event [UnknownWord]
$(messages_repeat 64 1)|error: '$(messages_repeat 64 1)' is not a calendar event [WrongParts]
$(messages_repeat 65 1)|error: '$(messages_repeat 64 1)'... is not a calendar event [WrongParts]
%$(messages_repeat 63 1)|error: specifiers in '%$(messages_repeat 63 1)' are not expanded [Specifier]
%$(messages_repeat 64 1)|error: specifiers in '%$(messages_repeat 63 1)'... are not expanded [Specifier]
$(messages_repeat 64 1)%|error: specifiers in '$(messages_repeat 64 1)'... are not expanded [Specifier]
12:00:$(messages_repeat 57 0).|error: second in '12:00:$(messages_repeat 57 0).': fractions are not supported [Fraction]
12:00:$(messages_repeat 58 0).|error: second in '12:00:$(messages_repeat 58 0)'...: fractions are not supported [Fraction]
%$(messages_repeat 61 1)é|error: specifiers in '%$(messages_repeat 61 1)é' are not expanded [Specifier]
%$(messages_repeat 62 1)é|error: specifiers in '%$(messages_repeat 62 1)'... are not expanded [Specifier]
Mon\\\\\n$(messages_repeat 58 ' ')\\\\\n25:00|error: hour in 'Mon  25:00': out of range 0-23 [OutOfRange]
*:$(messages_repeat 19 '25,')00/25|warning: systemd 252 may pass over starts of '*:$(messages_repeat 19 '25,')00/25': give the step an end [SkippedStarts]
*:$(messages_repeat 19 '25,')000/25|warning: systemd 252 may pass over starts of '*:$(messages_repeat 19 '25,')000/2'...: give the step an end [SkippedStarts]
Mon$(messages_repeat 56 ' ')24:00|error: hour in 'Mon$(messages_repeat 56 ' ')24:00': out of range 0-23 [OutOfRange]
Mon$(messages_repeat 56 ' ')\\\\\n24:00|error: hour in 'Mon$(messages_repeat 57 ' ')24:0'...: out of range 0-23 [OutOfRange]
ROWS

# Rows from standard input: the escaped text of a setting of a timer, and what is reported about it after the
# number of its line, or after the path if $1 is whole. Each of them is in a timer of its own.
messages_of_settings() {
  local setting finding mark=:3
  [ "$1" != whole ] || mark=
  while IFS='|' read -r setting finding; do
    printf '[Timer]\nOnCalendar=daily\n%b\n' "$setting" >"$messages_folder/a.timer"
    echo "a.timer$mark: warning: $finding" >"$work/findings.wanted"
    messages_compare "the message about the setting '$setting'" a.timer
  done
}

# Warnings about settings. They quote the key, or the value of the delay.
messages_of_settings line <<ROWS
OnClendar=weekly|unknown setting 'OnClendar' in [Timer] [UnknownKey]
 \tPersistant\t = \ttrue|unknown setting 'Persistant' in [Timer] [UnknownKey]
=x|unknown setting '' in [Timer] [UnknownKey]
A B\tC=x=y|unknown setting 'A B\x09C' in [Timer] [UnknownKey]
A\\\\\nB=x|unknown setting 'A B' in [Timer] [UnknownKey]
\x01\x5c\x7fé'=x|unknown setting '\x01\\\\\x7fé'' in [Timer] [UnknownKey]
$(messages_repeat 64 k)=x|unknown setting '$(messages_repeat 64 k)' in [Timer] [UnknownKey]
$(messages_repeat 65 k)=x|unknown setting '$(messages_repeat 64 k)'... in [Timer] [UnknownKey]
$(messages_repeat 63 k)é=x|unknown setting '$(messages_repeat 63 k)'... in [Timer] [UnknownKey]
RandomizedDelaySec=5secs|'5secs' is not a time span [BadDelay]
 AccuracySec\t = \t-1 |'-1' is not a time span [BadDelay]
AccuracySec=1\t2 h\tx|'1\x092 h\x09x' is not a time span [BadDelay]
RandomizedDelaySec=1h\\\\\n  \x5cé'\x7f|'1h \\\\é'\x7f' is not a time span [BadDelay]
RandomizedDelaySec=$(messages_repeat 64 1)|'$(messages_repeat 64 1)' is not a time span [BadDelay]
AccuracySec=$(messages_repeat 65 1)|'$(messages_repeat 64 1)'... is not a time span [BadDelay]
AccuracySec=$(messages_repeat 62 1)€|'$(messages_repeat 62 1)'... is not a time span [BadDelay]
Persistent=|'' is not a boolean [BadBoolean]
Persistent = si |'si' is not a boolean [BadBoolean]
ROWS
messages_of_settings whole <<ROWS
OnBootSec=5min|also starts by OnBootSec= or the like, which is not planned [Monotonic]
OnUnitInactiveSec=\x01|also starts by OnBootSec= or the like, which is not planned [Monotonic]
RandomizedDelaySec=5min|starts up to '5min' later than planned (RandomizedDelaySec=) [Delayed]
RandomizedDelaySec=1\nRandomizedDelaySec = 1h\t30min |starts up to '1h\x0930min' later than planned (RandomizedDelaySec=) [Delayed]
RandomizedDelaySec=1h\nRandomizedDelaySec=|starts up to '1h' later than planned (RandomizedDelaySec=) [Delayed]
RandomizedDelaySec=1h\\\\\n30µs\r|starts up to '1h 30µs' later than planned (RandomizedDelaySec=) [Delayed]
RandomizedDelaySec=1 h 2 min|starts up to '1 h 2 min' later than planned (RandomizedDelaySec=) [Delayed]
RandomizedDelaySec=$(messages_repeat 63 0)5|starts up to '$(messages_repeat 63 0)5' later than planned (RandomizedDelaySec=) [Delayed]
RandomizedDelaySec=$(messages_repeat 64 0)5|starts up to '$(messages_repeat 64 0)'... later than planned (RandomizedDelaySec=) [Delayed]
RandomizedDelaySec=$(messages_repeat 62 0)5µs|starts up to '$(messages_repeat 62 0)5'... later than planned (RandomizedDelaySec=) [Delayed]
ROWS

# Whole files.
messages_more=$(messages_repeat 58 n)
messages_file latin '@daily \xe4\n'
messages_file latin.timer '[Timer]\nOnCalendar=daily \xe4\n'
messages_file unit.timer '[Unit]\n'
messages_file empty.timer '[Timer]\nOnClockChange=yes\n'
messages_file one/d.timer '[Timer]\nOnCalendar=daily\n'
messages_file two/d.timer '[Timer]\nOnCalendar=25:00\n'
messages_file a@.timer '[Timer]\nOnCalendar=daily\n'
messages_file a@b.timer '[Timer]\nOnCalendar=daily\n'
messages_file daily '@daily root x\n'
messages_file a.b '@daily root x\n'
messages_file .a '@daily x\n'
messages_file one/x '\n@daily root a\n'
messages_file two/x '\n@daily b\n'
messages_file one/cron '@daily a\n'
messages_file one/system '@daily a b\n'
messages_file one/"a\\b.timer" '[Timer]\nOnCalendar=daily\n'
messages_file one/"$messages_more.timer" '[Timer]\nOnCalendar=daily\n'
messages_file one/"n$messages_more.timer" '[Timer]\nOnCalendar=daily\n'
messages_file one/"nnnn$messages_more" '@daily root x\n'
messages_file one/"nnnnn$messages_more" '@daily root x\n'
messages_file one/"nnnnnn$messages_more" '@daily root x\n'
head -c 1048577 /dev/zero | tr '\0' '#' >"$messages_folder/large"
cp -- "$messages_folder/large" "$messages_folder/large.timer"
yes '* * * * * x' | head -n 1000 >"$messages_folder/thousand"
{ cat "$messages_folder/thousand" && echo '@daily x'; } >"$messages_folder/many"
{ echo '[Timer]' && yes 'OnCalendar=daily' | head -n 65; } >"$messages_folder/many.timer"
messages_of_sources <<'ROWS'
--crontab latin|latin: error: not UTF-8 [NotUtf8]
latin.timer|latin.timer: error: not UTF-8 [NotUtf8]
--spool large|large: error: larger than 1048576 bytes [TooLarge]
large.timer|large.timer: error: larger than 1048576 bytes [TooLarge]
--cron-d a.b|a.b: error: not a name that cron reads [BadTabName]
--spool .a|.a: error: not a name that cron reads [BadTabName]
daily|daily: error: not a timer's name: it must end in .timer and name no template (for a crontab, use --crontab or --cron-d) [BadTimerName];daily: error: no [Timer] section [NoTimerSection]
a@.timer|a@.timer: error: not a timer's name: it must end in .timer and name no template [BadTimerName]
./a@b.timer|./a@b.timer: error: not a timer's name: it must end in .timer and name no template [BadTimerName]
unit.timer|unit.timer: error: no [Timer] section [NoTimerSection]
empty.timer|empty.timer: warning: no OnCalendar= event, so no start is planned [NoEvents]
many.timer|many.timer:66: error: more than 64 events [TooManyLines]
ROWS

# A name that is already used, of a job of a crontab and of a timer.
messages_of_sources <<'ROWS'
--cron-d one/x --spool two/x|two/x:2: error: another job is named 'x:2' [SameName]
--crontab one/cron --spool one/cron|one/cron:1: error: another job is named 'cron:1' [SameName]
--system-crontab one/system --cron-d one/system|one/system:1: error: another job is named 'system:1' [SameName]
one/d.timer one/d.timer|one/d.timer: error: another job is named 'd.timer' [SameName]
one/d.timer two/d.timer|two/d.timer: error: another job is named 'd.timer' [SameName];two/d.timer:2: error: hour in '25:00': out of range 0-23 [OutOfRange]
empty.timer empty.timer|empty.timer: warning: no OnCalendar= event, so no start is planned [NoEvents];empty.timer: error: another job is named 'empty.timer' [SameName];empty.timer: warning: no OnCalendar= event, so no start is planned [NoEvents]
ROWS
messages_same_name() {
  printf '%s\n' "$1$2: error: another job is named $3 [SameName]" >"$work/findings.wanted"
  shift 3
  messages_compare "the message about a name: $*" "$@"
}
messages_name="one/a\\b.timer"
messages_same_name "$messages_name" '' "'a\\\\b.timer'" "$messages_name" "$messages_name"
messages_name=one/$messages_more.timer
messages_same_name "$messages_name" '' "'$messages_more.timer'" "$messages_name" "$messages_name"
messages_name=one/n$messages_more.timer
messages_same_name "$messages_name" '' "'n$messages_more.time'..." "$messages_name" "$messages_name"
for messages_row in "nnnn '%s:1'" "nnnnn '%s:'..." "nnnnnn '%s'..."; do
  messages_name=${messages_row% *}$messages_more
  # shellcheck disable=SC2059
  messages_same_name "one/$messages_name" :1 "$(printf "${messages_row#* }" "$messages_name")" \
    --cron-d "one/$messages_name" --cron-d "one/$messages_name"
done

# One job more than 1,000.
messages_of_sources <<'ROWS'
--crontab many|many:1001: error: more than 1000 jobs [Full]
--crontab thousand one/d.timer|one/d.timer: error: more than 1000 jobs [Full]
--crontab thousand empty.timer|empty.timer: error: more than 1000 jobs [Full];empty.timer: warning: no OnCalendar= event, so no start is planned [NoEvents]
--crontab thousand latin.timer|latin.timer: error: not UTF-8 [NotUtf8];latin.timer: error: more than 1000 jobs [Full]
ROWS
