# shellcheck shell=bash disable=SC2154
# Rows of bin/check-examples: what `agenda check` says of crontabs that Debian's cron (3.0pl1) ignores as a whole or reads
# otherwise, and the hints of rejected lines. The rows about cron were compared with its own load_user, compiled from Debian's source.

check_crontabs_folder="$work/check-crontabs"
mkdir -p "$check_crontabs_folder"

# Compares a check with the option $1 of the file `jobs`, with the name $2, with the findings $3, each of which begins with the `:` after
# the path. Between them is `;`. The status is 1 if one of them is an error.
check_crontabs_compare() {
  local wanted=0
  printf '%s' "${3:+jobs${3//;:/$'\n'jobs:}$'\n'}" >"$work/findings.wanted"
  ! grep -q ': error: ' "$work/findings.wanted" || wanted=1
  run_in "$check_crontabs_folder" agenda check "$1" jobs
  compare "$2" "$work/findings.wanted" /dev/null "$wanted"
}

# Rows from standard input: the escaped text of a crontab, and all findings about it with the option $1.
check_crontabs_texts() {
  local text findings
  while IFS='|' read -r text findings; do
    printf '%b' "$text" >"$check_crontabs_folder/jobs"
    check_crontabs_compare "$1" "check $1 '$text'" "$findings"
  done
}

# Rows from standard input: the escaped line of a crontab, and what is reported about it after its number. It is checked with the
# option $1 in a file of its own.
check_crontabs_lines() {
  local line finding
  while IFS='|' read -r line finding; do
    printf '%b\n' "$line" >"$check_crontabs_folder/jobs"
    check_crontabs_compare "$1" "check $1 '$line'" "${finding:+:1: $finding}"
  done
}

# Prints the byte $2 $1 times.
check_crontabs_bytes() {
  head -c "$1" /dev/zero | tr '\0' "$2"
}

# Rows from standard input: an option, what comes before a number of bytes `x`, and what comes after them, and the finding.
check_crontabs_long() {
  local option before bytes after finding
  while IFS='|' read -r option before bytes after finding; do
    printf '%b%s%b\n' "$before" "$(check_crontabs_bytes "$bytes" x)" "$after" >"$check_crontabs_folder/jobs"
    check_crontabs_compare "$option" "check $option '$before', $bytes bytes and '$after'" "${finding:+:1: $finding}"
  done
}

# Rows from standard input: a number of empty lines, the escaped text after them, and the findings.
check_crontabs_below() {
  local count text findings
  while IFS='|' read -r count text findings; do
    { check_crontabs_bytes "$count" '\n' && printf '%b' "$text"; } >"$check_crontabs_folder/jobs"
    check_crontabs_compare --crontab "check $count lines and '$text'" "$findings"
  done
}

# A last line without a newline, unless it is a comment or has nothing but blanks. That it is rejected changes nothing.
check_crontabs_texts --crontab <<'ROWS'
@daily x|:1: warning: cron ignores this file: no newline at its end [CronIgnores]
@daily x\n|
@daily x\n# end|
@daily x\n \t# end|
@daily x\n \t|
|
# end|
@daily x\nA=b|:2: warning: cron ignores this file: no newline at its end [CronIgnores]
@daily x\n\r|:2: error: expected five fields and a command [WrongParts];:2: warning: cron ignores this file: no newline at its end [CronIgnores]
@daily x\n60 * * * * x|:2: error: minute '60': out of range 0-59 [OutOfRange];:2: warning: cron ignores this file: no newline at its end [CronIgnores]
ROWS
check_crontabs_texts --cron-d <<'ROWS'
@daily root x|:1: warning: cron ignores this file: no newline at its end [CronIgnores]
ROWS

# Settings. White space is that of C, and only the first 998 bytes decide.
check_crontabs_lines --crontab <<'ROWS'
MAILTO=|warning: cron ignores this file: write MAILTO="" for MAILTO= [CronIgnores]
 \tMAILTO = \t|warning: cron ignores this file: write MAILTO="" for MAILTO= [CronIgnores]
PATH=\r|warning: cron ignores this file: write PATH="" for PATH= [CronIgnores]
"A B" =|warning: cron ignores this file: write "A B"="" for "A B"= [CronIgnores]
MAILTO=""|
MAILTO=''|
A=b|
A = b c |
A\v=\fb|
_a=b"c|
"A B"=c|
'A B' = 'c d' \t\v\f\r|
""=x|
A"B=c|
A=b=c|
A B=c|warning: cron ignores this file: not a setting [CronIgnores]
"A=B"=c|warning: cron ignores this file: not a setting [CronIgnores]
"A"B=c|warning: cron ignores this file: not a setting [CronIgnores]
"A=b|warning: cron ignores this file: not a setting [CronIgnores]
A="b|warning: cron ignores this file: not a setting [CronIgnores]
A="b'|warning: cron ignores this file: not a setting [CronIgnores]
A="b" c|warning: cron ignores this file: not a setting [CronIgnores]
H 5 * * * x --y=z|warning: cron ignores this file: not a setting [CronIgnores]
MAILTO|error: expected NAME=VALUE, or five fields and a command [BadSetting]
ROWS
check_crontabs_long <<'ROWS'
--crontab|A="|994|"|
--crontab| \tA="|994|"|
--crontab|A="|995|"|warning: cron ignores this file: not a setting [CronIgnores]
--crontab|A=|3000||
--crontab||996|=y|
--crontab||998|=y|warning: cron ignores this file: not a setting [CronIgnores]
ROWS

# The command of a user's crontab may not begin with `*`. That of the system's may.
check_crontabs_lines --crontab <<'ROWS'
* * * * * *|warning: cron ignores this file: the command begins with * [CronIgnores]
* * * * * \t*/5 x|warning: cron ignores this file: the command begins with * [CronIgnores]
@daily *x|warning: cron ignores this file: the command begins with * [CronIgnores]
* * * * * x*|
ROWS
check_crontabs_lines --spool <<'ROWS'
@reboot * x|warning: cron ignores this file: the command begins with * [CronIgnores]
ROWS
check_crontabs_lines --system-crontab <<'ROWS'
* * * * * root *|
@daily root *x|
ROWS

# A command has at most 998 bytes, and in the system's crontab the blanks after the first one behind the user count, too.
check_crontabs_long <<'ROWS'
--crontab|* * * * * |998||
--crontab|* * * * * |999||warning: cron ignores this file: command over 998 bytes [CronIgnores]
--crontab| * * * * * \t |998||
--crontab|@daily |998||
--crontab|@daily  |999||warning: cron ignores this file: command over 998 bytes [CronIgnores]
--system-crontab|* * * * * root |998||
--system-crontab|* * * * * root |999||warning: cron ignores this file: command over 998 bytes [CronIgnores]
--system-crontab|* * * * * root  |997||
--system-crontab|* * * * * root  |998||warning: cron ignores this file: command over 998 bytes [CronIgnores]
--cron-d|@daily\troot\t|998||
--cron-d|@daily\troot\t|999||warning: cron ignores this file: command over 998 bytes [CronIgnores]
ROWS

# Both are reported, by line.
check_crontabs_texts --crontab <<ROWS
MAILTO=\n@daily *$(check_crontabs_bytes 998 x)|:1: warning: cron ignores this file: write MAILTO="" for MAILTO= [CronIgnores];:2: warning: cron ignores this file: the command begins with * [CronIgnores];:2: warning: cron ignores this file: command over 998 bytes [CronIgnores];:2: warning: cron ignores this file: no newline at its end [CronIgnores]
ROWS

# The last line with a job or a setting is line 10,003. The first one after it is reported.
check_crontabs_below <<'ROWS'
10002|@daily x\n|
10003|@daily x\n|:10004: warning: cron ignores this file: more than 10003 lines [CronIgnores]
10003|A=b\n|:10004: warning: cron ignores this file: more than 10003 lines [CronIgnores]
10003|# c\n \t\n|
10003|# c\n\n@daily x\n@daily y\n|:10006: warning: cron ignores this file: more than 10003 lines [CronIgnores]
10003|60 * * * * x\n|:10004: warning: cron ignores this file: more than 10003 lines [CronIgnores];:10004: error: minute '60': out of range 0-59 [OutOfRange]
20000|\t@daily x\n|:20001: warning: cron ignores this file: more than 10003 lines [CronIgnores]
ROWS

# After a word that begins with `@`, what begins with `=` makes the line a setting, if it is one for cron.
check_crontabs_lines --crontab <<'ROWS'
@daily =x|warning: cron reads this as a setting: the command begins with = [CronDiffers]
 @reboot = "x y"|warning: cron reads this as a setting: the command begins with = [CronDiffers]
@daily =|
@daily ="x" y|
* * * * * =x|
ROWS
check_crontabs_lines --system-crontab <<'ROWS'
@daily = x|warning: cron reads this as a setting: the command begins with = [CronDiffers]
@daily =x y|warning: cron reads this as a setting: the command begins with = [CronDiffers]
@daily root =x|
ROWS

# A NUL byte, but not in a comment.
check_crontabs_lines --crontab <<'ROWS'
@daily x\0000y|warning: cron ends the line at a NUL byte [CronDiffers]
A=b\0000|warning: cron ends the line at a NUL byte [CronDiffers]
# x\0000y|
 \t#\0000|
ROWS

# Backslashes, and a `%` after an even number of them.
check_crontabs_lines --crontab <<'ROWS'
@daily a%b|warning: cron ends the command at the first % and passes the rest as input [Percent]
@daily a\\%b|
@daily a\\\\%b|warning: cron ends the command at the first % and passes the rest as input [Percent];:1: warning: cron removes one of two backslashes [CronDiffers]
@daily a\\\\\\%b|warning: cron removes one of two backslashes [CronDiffers]
@daily a\\%\\%b|
@daily a\\%%b|warning: cron ends the command at the first % and passes the rest as input [Percent]
@daily a\\b\\c|
@daily a\\\\|warning: cron removes one of two backslashes [CronDiffers]
@daily %|warning: cron ends the command at the first % and passes the rest as input [Percent]
ROWS

# A word that is no user.
check_crontabs_lines --system-crontab <<'ROWS'
@daily /bin/x y|warning: '/bin/x' is no user: this file's lines have a user before the command [NoUser]
@daily a/b y|warning: 'a/b' is no user: this file's lines have a user before the command [NoUser]
* * * * * -u y|warning: '-u' is no user: this file's lines have a user before the command [NoUser]
* * * * * 7z y|warning: '7z' is no user: this file's lines have a user before the command [NoUser]
* * * * * www-data y|
* * * * * _a7 /y|
ROWS
check_crontabs_lines --crontab <<'ROWS'
@daily /bin/x y|
ROWS

# Hints of rejected lines. In Quartz the first field has the seconds, and `?` or `#` is in the fourth or the sixth.
check_crontabs_lines --crontab <<'ROWS'
0 0 12 ? * MON x|error: month '?': not a number of one to four digits (Quartz has a field for seconds; crontab has none) [BadNumber]
0 0/5 14 * * ? x|error: hour '0/5': empty value, or a step after a single value (Quartz has a field for seconds; crontab has none) [WrongParts]
0 15 10 ? * 6#3 2030 x|error: month '?': not a number of one to four digits (Quartz has a field for seconds; crontab has none) [BadNumber]
0 0 ? * * x|error: day of month '?': not a number of one to four digits [BadNumber]
H * * * * x|error: expected NAME=VALUE, or five fields and a command (Jenkins' H and @every are not cron's) [BadSetting]
H/15 * * * * x|error: expected NAME=VALUE, or five fields and a command (Jenkins' H and @every are not cron's) [BadSetting]
0 H(0-7) * * * x|error: hour 'H(0-7)': unknown name (Jenkins' H and @every are not cron's) [BadName]
@every 5m x|error: unknown word '@every' (Jenkins' H and @every are not cron's) [UnknownWord]
Hello|error: expected NAME=VALUE, or five fields and a command [BadSetting]
@evening x|error: unknown word '@evening' [UnknownWord]
ROWS
check_crontabs_texts --crontab <<'ROWS'
\xEF\xBB\xBF@daily x\n|:1: error: expected five fields and a command (the file begins with a byte order mark) [WrongParts]
@daily x\n\xEF\xBB\xBF@daily x\n|:2: error: expected five fields and a command [WrongParts]
ROWS
