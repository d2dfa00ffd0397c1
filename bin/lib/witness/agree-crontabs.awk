# Makes `count` crontabs in the directory `folder`: the files 1, 2 and so on. Those with odd numbers are users' crontabs, and the
# others have a user in each line. Every other two are bent. They have what cron may ignore or read otherwise: files
# without a last newline, settings of all forms, long lines, percent signs, backslashes, NUL bytes, and rules that are
# no rules. A line of standard output has `user` or `system` and the path of a file. The same `seed` makes the same files. It
# needs random.awk.

# Returns a number from lo to hi. The ends are more frequent.
function number(lo, hi, value) {
  value = lo + roll(hi - lo + 1)
  if (one_in(8)) value = lo
  if (one_in(8)) value = hi
  return one_in(6) ? sprintf("%02d", value) : value
}

function cased(name) { return one_in(3) ? tolower(name) : one_in(5) ? toupper(name) : name }

function name_of(field, at) { return cased(substr(field == 4 ? months : days, 3 * at - 2, 3)) }

function element(field, kind, a, b) {
  kind = roll(10)
  if (kind < 2) return "*"
  if (kind < 4) return "*/" 1 + roll(one_in(8) ? 99 : 20)
  if (kind < 6 || field < 4 && kind < 8) return number(low[field], high[field])
  a = low[field] + roll(high[field] - low[field] + 1)
  b = a + roll(high[field] - a + 1)
  if (kind < 8) {
    a = 1 + roll(field == 4 ? 12 : 7)
    b = a + roll((field == 4 ? 12 : 7) - a + 1)
    return name_of(field, a) (one_in(2) ? "-" name_of(field, b) : "")
  }
  return a "-" b (one_in(2) ? "/" 1 + roll(20) : "")
}

function rule(text, field, elements) {
  if (one_in(8)) return pick("@yearly @annually @monthly @weekly @daily @midnight @hourly @reboot")
  for (field = 1; field <= 5; field++) {
    text = text (field == 1 ? "" : blank()) (one_in(3) ? "*" : element(field))
    for (elements = one_in(4) ? roll(3) : 0; elements > 0; elements--) text = text "," element(field)
  }
  return text
}

function blank() { return one_in(20) ? pick("  |\t| \t", "|") : " " }

# Returns a command. Some are long: with `most` bytes, or one or two less or more.
function command(most, text) {
  text = pick(commands, "|")
  if (one_in(40)) text = text repeated("x", most - length(text) + roll(5) - 2)
  return text
}

function user() { return pick("root root www-data _apt a.b nobody") }

# Returns the line of a job. The command counts in system's form from the first blank after the user on.
function job(text, before) {
  text = rule()
  before = blank()
  if (!has_users) return text before command(998)
  text = text before user()
  before = blank()
  return text before command(999 - length(before))
}

# Returns a setting. Some are long: what counts are their first 998 bytes.
function setting(name, value) {
  name = pick("MAILTO PATH SHELL A_1 CRON_TZ LANG HOME _x \"B\" 'C'")
  value = pick(values, "|")
  if (one_in(40)) return name "=\"" repeated("v", 994 - length(name) + roll(6)) "\""
  if (one_in(60)) return name repeated("n", 994 - length(name) + roll(6)) "=" value
  return name (one_in(3) ? space() : "") "=" (one_in(3) ? space() : "") value (one_in(8) ? space() : "")
}

function space() { return pick(" | |\t|  |\v|\f|\r", "|") }

function line(kind) {
  kind = roll(12)
  if (kind == 0) return one_in(2) ? "" : pick(" |\t|  \t", "|")
  if (kind == 1) return pick("# a|  # b = c|#|\t#\t* * * * * x", "|")
  if (kind < 4) return setting()
  return (one_in(15) ? blank() : "") job()
}

# Returns a line of a kind that is read otherwise, or a line with an error.
function odd_line(kind) {
  kind = roll(15)
  if (kind < 3) return pick(odd_settings, "|")
  if (kind == 3) return pick("MAILTO A \"A\" @daily @x 1 * -") pick("=| =| = |= |==|=\"|=''|=\"\"|='\"| = \"a\"b| = 'a' ", "|") (one_in(3) ? pick(values, "|") : "")
  if (kind < 6) return rule() blank() (has_users ? odd_user() blank() : "") pick(odd_commands, "|")
  if (kind == 6) return rule() blank() (has_users ? odd_user() (one_in(3) ? "" : blank()) : "")
  if (kind < 9) return replace_run(rule(), "[^ \t]", pick(odd_fields)) blank() (has_users ? user() blank() : "") command(998)
  if (kind == 9) return pick(odd_rules, "|") (one_in(2) ? " x" : "")
  if (kind < 12) return put_byte(one_in(4) ? setting() : job())
  return bend_character(one_in(4) ? setting() : job(), "0123456789*/-,~#?=%\\\"'@ \t_aA")
}

function odd_user() { return one_in(2) ? user() : pick("/usr/bin/x a/b -x 5 0root *") }

# Puts a control character into a line.
function put_byte(text, at) {
  at = roll(length(text) + 1)
  return substr(text, 1, at) pick("\r|\v|\f|\001|\177|" nul "|" nul, "|") substr(text, at + 1)
}

# Returns the text of a file, with `bends` odd lines, or with another end.
function crontab(bends, text, lines, odd, at) {
  lines = 1 + roll(4)
  odd = bends && !one_in(4) ? 1 + roll(lines) : 0
  for (at = 1; at <= lines; at++) text = text (at == odd ? odd_line() : line()) "\n"
  if (!bends) return text
  if (one_in(200)) return long_file() text
  if (one_in(odd ? 12 : 2)) return substr(text, 1, length(text) - 1)
  if (one_in(odd ? 30 : 4)) return text pick("# x|  |x|*| #|\t|\r|" nul "|\357\273\277", "|")
  return one_in(40) ? "\357\273\277" text : text
}

# Returns some 10,000 lines without a job.
function long_file(text, n) {
  n = 9996 + roll(10)
  return repeated(pick("\n|#\n| \n", "|"), n)
}

BEGIN {
  start_rolling(seed)
  nul = sprintf("%c", 0)
  split("0 0 1 1 0", low, " ")
  split("59 23 31 12 7", high, " ")
  months = "JanFebMarAprMayJunJulAugSepOctNovDec"
  days = "SunMonTueWedThuFriSat"
  commands = "a|b c|/bin/x -y  z|cd / && run-parts /etc|a=b|x \"y\" 'z'|a # b|a\tb| \303\251|\303\251|a \\|a\\b|date +\\%F|x\\%|a\\%b\\%c|a |b\t|=x|test $((1)) = 1"
  values = "a|root|\"\"|''|\"a b\"|'a b'|a b|/bin:/usr|a=b|\"a=b\"|\"a'b\"|a\"b|a'|\303\251|#|x # y|50%|a\\b"
  odd_settings = "MAILTO=|MAILTO =|MAILTO = |MAILTO=\t|A=\"|A='a|A=\"a|A=\"a'|A=\"a\"b|A='a'  |A=\"a\"\tb|A B=c|A B = c|\"A\"=b|\"A B\"=c|'A B' = c|\"A=B\"=c|\"A\"B=c|\"A=b" \
    "|'A'=|\"\"=a|''=|\"A\" =\"b\"|A\v=b|A\f= b|A\r=b|A=\r|A=\v\f|A=\"b\"\r|A==|A= =|A=\"\"\"|A=''''|'A\"=b|_=b|_ = |A b|A|\"A\"|1=2|-a=b|@daily=x|@daily = x|@x = y|*=x|/a = b|\303\251=b"
  odd_commands = "* x|*|** y|=x|= x|=|a % b|50% x|%|a%|\\% x|a \\\\% b|a \\\\\\% b|\\\\|a\\\\b|a\\\\\\\\|a\\\\\\b|a\\|%\\\\|a\\b%|a\r|a \\% \\\\|\\%%|\\|\\\\%"
  odd_fields = "*2 9* ** *-5 5#3 0~30 */2/3 1-5-3 sat-sun 5-0 22-4 9-3/0 9-3,60 */0 5/15 L H ? 1, ,1 mon jan jan#2 sun? 6-7 */90 1-5/40 60 99 24 32 0 13 8 007 00005 000000012 " \
    "4294967301 4294967296 *\v* 1\r 5\v mond 1-mon dec-jan - 1- -1 / */ */x 1/ 1-2/ =5 * *,60 1-5,x 0-0"
  odd_rules = "* * * *|* * * * *|*|1|@|@daily|@DAILY|@dail|@daily\r|@every 5m|@reboot|H * * * *|0 0 * * * ?|0 0 ? * 1|* * * * * *|x|-* * * * *|\"a|'|=|==|= x|1 = 2|* = * * *|@|@ daily|% * * * *|\\"
  for (at = 1; at <= count; at++) {
    has_users = at % 2 == 0
    path = folder "/" at
    printf "%s", crontab(at % 4 > 1) >path
    close(path)
    print (has_users ? "system " : "user ") path
  }
}
