# shellcheck shell=bash disable=SC2154
# Rows of bin/check-examples: the option --json. They show the whole JSON Lines of the commands that take it, and, if jq(1) is installed, that
# jq reads each line back to what the command prints without the option. Those of `describe` and `week` are in rows/describe.sh and
# rows/windows.sh.

json_folder=$work/json
json_after=(--after 2024-01-01T00:00:00Z)

# The escapes of the bytes 0 to 31, in order. No line has the byte 10.
json_escapes=('\u0000' '\u0001' '\u0002' '\u0003' '\u0004' '\u0005' '\u0006' '\u0007' '\b' '\t' '\n' '\u000b' '\f' '\r' '\u000e' '\u000f'
  '\u0010' '\u0011' '\u0012' '\u0013' '\u0014' '\u0015' '\u0016' '\u0017' '\u0018' '\u0019' '\u001a' '\u001b' '\u001c' '\u001d' '\u001e' '\u001f')

# Writes the escaped text $2 to the file $1.
json_file() {
  printf '%b' "$2" >"$json_folder/$1"
}

json_make_files() {
  local byte
  mkdir -p "$json_folder"/{cron.d,'a"b\c'}
  json_file jobs '@reboot a\n@daily b\n'
  json_file system '@daily root b c\n'
  json_file cron.d/php '17 * * * * www-data clean\n'
  json_file cron.d/users '@daily r"o\\t\x01\x7f \xc3\xa9 x\n'
  json_file none '# no job\n'
  json_file night.timer '[Timer]\nOnCalendar=02:30\n'
  json_file late.timer '[Timer]\nOnCalendar=12:00\nRandomizedDelaySec=1h\nAccuracySec=1s\n'
  json_file never.timer '[Timer]\nOnCalendar=*-2-30\n'
  json_file 'a\x2db.timer' '[Timer]\nOnCalendar=daily\nUnit=x\\x2dy.target\n'
  json_file empty.timer '[Timer]\n'
  json_file before 'agenda 2\t2024-01-01T00:00:00Z\t2024-01-02T00:00:00Z\t2\n2024-01-01T00:00:00Z\tcron:1\tb\n2024-01-01T04:00:00Z\t"\x01\ta\\b\n'
  json_file faulty '@dayly\x7f\x01 a\n*/\\ * * * * c\n@d"y a\n0 0 31 2 * d\n@daily\n'
  json_file latin '@daily \xe4\n'
  json_file $'a"b\\c/tab\t\001\037\177\303\251' '@daily\n'
  # each character that isn't a newline, in a command
  for byte in {0..9} {11..31}; do
    printf '@daily a\\x%02xb\\n' "$byte"
  done | json_file controls "$(cat)"
  json_file others '@daily "a" \\ \\\\ \\" / a/b <&> \x27\n@daily \x7f\x20\x7f\n@daily \xc3\xa9 \xe2\x82\xac \xf0\x9f\x95\x90\n@daily {}\t[]:,\n@daily \\u0041\n'
  json_file invisible '@daily \xe2\x80\xa8 \xc2\x80\xef\xbb\xbf\n'
}

# Prints the lines of JSON on standard input as the lines of text that have the same meaning.
json_as_text() {
  jq -r '
    def at($local; $utc): (if has($local) then .[$local] else .[$utc] end) // "none";
    if has("severity") then "\(.path)\(if .line then ":\(.line)" else "" end): \(.severity): \(.text) [\(.code)]"
    elif has("from") then [at("from_local"; "from"), at("until_local"; "until"), "\(.seconds)"] | join("\t")
    elif has("then") then [.first, .last, "\(.starts)", .then, .job, (if has("user") then .user + " " else "" end) + .run] | join("\t")
    else [
      (if has("change") then .change else empty end),
      at("local"; "start"),
      (if has("latest") then at("latest_local"; "latest") else empty end),
      (if has("job") then .job, (if has("user") then .user + " " else "" end) + .run else empty end)
    ] | join("\t") end'
}

# The arguments after $1, and --json, answer the lines on standard input, and end with status $1. The lines mean what the program
# prints without the option, after the header of an agenda, and before the line `none` of next starts.
json_rows() {
  local code=$1
  shift
  cat >"$work/json.wanted"
  run_in "$json_folder" agenda "$@" --json
  compare "agenda ${*@Q} --json" "$work/json.wanted" /dev/null "$code"
  command -v jq >/dev/null || return 0
  run_in "$json_folder" agenda "$@"
  sed '/^agenda [23][ \t]/d; /^none$/d' "$work/out" >"$work/text"
  json_as_text <"$work/json.wanted" >"$work/out" 2>"$work/err"
  compare "agenda ${*@Q} --json, as jq reads it" "$work/text" /dev/null "$code"
}

# The arguments after $1, and --json, are a usage error whose first line is $1.
json_usage() {
  local error=$1
  shift
  run_in "$json_folder" agenda "$@"
  head -n 1 "$work/err" >"$work/first"
  mv -- "$work/first" "$work/err"
  compare_texts "agenda ${*@Q}" '' "$error"$'\n' 2
}

json_make_files
passed_over "JSON as jq reads it" jq || true

# Next starts. There is no line after the last one.
json_rows 0 next "${json_after[@]}" --count 2 --cron '30 4 1,15 * 5' <<'JSON'
{"start":"2024-01-01T04:30:00Z"}
{"start":"2024-01-05T04:30:00Z"}
JSON
json_rows 0 next "${json_after[@]}" --calendar '2024-03-01 12:00' --count 3 <<'JSON'
{"start":"2024-03-01T12:00:00Z"}
JSON
json_rows 0 next "${json_after[@]}" --cron @reboot </dev/null

# An agenda has no header, and an empty one has no line at all.
json_rows 0 plan "${day[@]}" --crontab jobs night.timer late.timer <<'JSON'
{"start":"2024-01-01T00:00:00Z","job":"cron:2","run":"b"}
{"start":"2024-01-01T02:30:00Z","job":"night.timer","run":"night.service"}
{"start":"2024-01-01T12:00:00Z","job":"late.timer","run":"late.service"}
JSON
json_rows 0 plan "${day[@]}" </dev/null
json_rows 0 plan "${day[@]}" --crontab none never.timer </dev/null
json_rows 0 plan "${day[@]}" --delays --crontab none never.timer </dev/null

# The delay of a crontab's job is 0, that of a timer one minute, and that of the other one hour and one second.
json_rows 0 plan "${day[@]}" --delays --crontab jobs night.timer late.timer <<'JSON'
{"start":"2024-01-01T00:00:00Z","latest":"2024-01-01T00:00:00Z","job":"cron:2","run":"b"}
{"start":"2024-01-01T02:30:00Z","latest":"2024-01-01T02:31:00Z","job":"night.timer","run":"night.service"}
{"start":"2024-01-01T12:00:00Z","latest":"2024-01-01T13:00:01Z","job":"late.timer","run":"late.service"}
JSON

# A line of the system's format has a user, and a line of a user's crontab and a timer have none.
json_rows 0 plan --since 2024-01-01T00:00:00Z --upto 2024-01-01T02:00:00Z --crontab jobs --system-crontab system --cron-d cron.d/php <<'JSON'
{"start":"2024-01-01T00:00:00Z","job":"cron:2","run":"b"}
{"start":"2024-01-01T00:00:00Z","job":"system:1","user":"root","run":"b c"}
{"start":"2024-01-01T00:17:00Z","job":"php:1","user":"www-data","run":"clean"}
{"start":"2024-01-01T01:17:00Z","job":"php:1","user":"www-data","run":"clean"}
JSON
json_rows 0 plan --since 2024-01-01T00:00:00Z --upto 2024-01-01T01:00:00Z --delays --system-crontab system --cron-d cron.d/php <<'JSON'
{"start":"2024-01-01T00:00:00Z","latest":"2024-01-01T00:00:00Z","job":"system:1","user":"root","run":"b c"}
{"start":"2024-01-01T00:17:00Z","latest":"2024-01-01T00:17:00Z","job":"php:1","user":"www-data","run":"clean"}
JSON

# A job without a further start.
json_rows 0 upcoming "${json_after[@]}" --crontab jobs --system-crontab system late.timer never.timer <<'JSON'
{"start":"2024-01-01T12:00:00Z","job":"late.timer","run":"late.service"}
{"start":"2024-01-02T00:00:00Z","job":"cron:2","run":"b"}
{"start":"2024-01-02T00:00:00Z","job":"system:1","user":"root","run":"b c"}
{"start":null,"job":"cron:1","run":"a"}
{"start":null,"job":"never.timer","run":"never.service"}
JSON
json_rows 0 upcoming "${json_after[@]}" --delays --crontab jobs --system-crontab system late.timer never.timer <<'JSON'
{"start":"2024-01-01T12:00:00Z","latest":"2024-01-01T13:00:01Z","job":"late.timer","run":"late.service"}
{"start":"2024-01-02T00:00:00Z","latest":"2024-01-02T00:00:00Z","job":"cron:2","run":"b"}
{"start":"2024-01-02T00:00:00Z","latest":"2024-01-02T00:00:00Z","job":"system:1","user":"root","run":"b c"}
{"start":null,"latest":null,"job":"cron:1","run":"a"}
{"start":null,"latest":null,"job":"never.timer","run":"never.service"}
JSON
json_rows 0 upcoming "${json_after[@]}" </dev/null

# Gaps: without delays to the next start, with them from the latest start on. A span without a gap has no line.
json_rows 0 quiet "${day[@]}" night.timer late.timer <<'JSON'
{"from":"2024-01-01T00:00:00Z","until":"2024-01-01T02:30:00Z","seconds":9000}
{"from":"2024-01-01T02:30:00Z","until":"2024-01-01T12:00:00Z","seconds":34200}
{"from":"2024-01-01T12:00:00Z","until":"2024-01-02T00:00:00Z","seconds":43200}
JSON
json_rows 0 quiet "${day[@]}" --delays --least 30000 night.timer late.timer <<'JSON'
{"from":"2024-01-01T02:31:00Z","until":"2024-01-01T12:00:00Z","seconds":34140}
{"from":"2024-01-01T13:00:01Z","until":"2024-01-02T00:00:00Z","seconds":39599}
JSON
json_rows 0 quiet "${day[@]}" --least 86401 </dev/null

# What is missed in a span: one line for each job, by its first start, and then those of @reboot.
json_rows 0 downtime "${day[@]}" --crontab jobs --system-crontab system --cron-d cron.d/php night.timer late.timer <<'JSON'
{"first":"2024-01-01T00:00:00Z","last":"2024-01-01T00:00:00Z","starts":1,"then":"lost","job":"cron:2","run":"b"}
{"first":"2024-01-01T00:00:00Z","last":"2024-01-01T00:00:00Z","starts":1,"then":"lost","job":"system:1","user":"root","run":"b c"}
{"first":"2024-01-01T00:17:00Z","last":"2024-01-01T23:17:00Z","starts":24,"then":"lost","job":"php:1","user":"www-data","run":"clean"}
{"first":"2024-01-01T02:30:00Z","last":"2024-01-01T02:30:00Z","starts":1,"then":"lost","job":"night.timer","run":"night.service"}
{"first":"2024-01-01T12:00:00Z","last":"2024-01-01T12:00:00Z","starts":1,"then":"lost","job":"late.timer","run":"late.service"}
{"first":"2024-01-02T00:00:00Z","last":"2024-01-02T00:00:00Z","starts":1,"then":"at boot","job":"cron:1","run":"a"}
JSON
json_rows 0 downtime "${day[@]}" --cron-d cron.d/users 'a\x2db.timer' <<'JSON'
{"first":"2024-01-01T00:00:00Z","last":"2024-01-01T00:00:00Z","starts":1,"then":"lost","job":"users:1","user":"r\"o\\t\u0001\u007f","run":"é x"}
{"first":"2024-01-01T00:00:00Z","last":"2024-01-01T00:00:00Z","starts":1,"then":"lost","job":"a\\x2db.timer","run":"x\\x2dy.target"}
JSON
json_rows 0 downtime "${day[@]}" never.timer empty.timer </dev/null

# What differs from an earlier agenda. The user is a part of what is run.
json_rows 1 changes before --crontab jobs --cron-d cron.d/users night.timer <<'JSON'
{"change":"+","start":"2024-01-01T00:00:00Z","job":"users:1","run":"r\"o\\t\u0001\u007f é x"}
{"change":"+","start":"2024-01-01T02:30:00Z","job":"night.timer","run":"night.service"}
{"change":"-","start":"2024-01-01T04:00:00Z","job":"\"\u0001","run":"a\\b"}
JSON
json_rows 1 changes before --local --crontab jobs <<'JSON'
{"change":"-","start":"2024-01-01T04:00:00Z","local":"2024-01-01T04:00:00+00:00","job":"\"\u0001","run":"a\\b"}
JSON

# Findings: in a line, and about a whole file. Quotes and backslashes of a message are escaped once more.
json_rows 1 check --crontab faulty --system-crontab latin empty.timer never.timer late.timer <<'JSON'
{"path":"faulty","line":1,"severity":"error","code":"UnknownWord","text":"unknown word '@dayly\\x7f\\x01'"}
{"path":"faulty","line":2,"severity":"error","code":"BadNumber","text":"minute '*/\\\\': not a number of one to four digits"}
{"path":"faulty","line":3,"severity":"error","code":"UnknownWord","text":"unknown word '@d\"y'"}
{"path":"faulty","line":4,"severity":"warning","code":"NeverStarts","text":"never starts"}
{"path":"faulty","line":5,"severity":"error","code":"NoCommand","text":"no command"}
{"path":"latin","line":null,"severity":"error","code":"NotUtf8","text":"not UTF-8"}
{"path":"empty.timer","line":null,"severity":"warning","code":"TimerRejected","text":"systemd 252 rejects this timer: it has no valid trigger"}
{"path":"never.timer","line":2,"severity":"warning","code":"NeverStarts","text":"never starts"}
{"path":"late.timer","line":null,"severity":"warning","code":"Delayed","text":"starts up to '1h' later than planned (RandomizedDelaySec=)"}
JSON
json_rows 0 check empty.timer <<'JSON'
{"path":"empty.timer","line":null,"severity":"warning","code":"TimerRejected","text":"systemd 252 rejects this timer: it has no valid trigger"}
JSON
json_rows 0 check --crontab jobs --system-crontab system night.timer </dev/null

# A path is a string like any other.
json_rows 1 check --crontab $'a"b\\c/tab\t\001\037\177\303\251' <<'JSON'
{"path":"a\"b\\c/tab\t\u0001\u001f\u007fé","line":1,"severity":"error","code":"NoCommand","text":"no command"}
JSON

# Names with a backslash, and a user of many characters.
json_rows 0 plan "${day[@]}" --cron-d cron.d/users 'a\x2db.timer' <<'JSON'
{"start":"2024-01-01T00:00:00Z","job":"users:1","user":"r\"o\\t\u0001\u007f","run":"é x"}
{"start":"2024-01-01T00:00:00Z","job":"a\\x2db.timer","run":"x\\x2dy.target"}
JSON

# Commands with each character that isn't a newline.
json_controls() {
  local byte line=0
  for byte in {0..9} {11..31}; do
    line=$((line + 1))
    printf '{"start":"2024-01-01T00:00:00Z","job":"cron:%d","run":"a%sb"}\n' "$line" "${json_escapes[byte]}"
  done >"$work/controls.wanted"
  json_rows 0 plan "${day[@]}" --crontab controls <"$work/controls.wanted"
  json_rows 0 upcoming "${json_after[@]}" --crontab controls < <(sed 's/01T/02T/' "$work/controls.wanted")
}

json_controls
json_rows 0 plan "${day[@]}" --crontab others <<'JSON'
{"start":"2024-01-01T00:00:00Z","job":"cron:1","run":"\"a\" \\ \\\\ \\\" / a/b <&> '"}
{"start":"2024-01-01T00:00:00Z","job":"cron:2","run":"\u007f \u007f"}
{"start":"2024-01-01T00:00:00Z","job":"cron:3","run":"é € 🕐"}
{"start":"2024-01-01T00:00:00Z","job":"cron:4","run":"{}\t[]:,"}
{"start":"2024-01-01T00:00:00Z","job":"cron:5","run":"\\u0041"}
JSON

# A line separator, a control character above 127 and a byte order mark are characters like others.
json_rows 0 plan "${day[@]}" --crontab invisible \
  < <(printf '{"start":"2024-01-01T00:00:00Z","job":"cron:1","run":"\xe2\x80\xa8 \xc2\x80\xef\xbb\xbf"}\n')

# What is skipped is reported on standard error as without the option.
json_keeps_going() {
  run_in "$json_folder" agenda plan "${day[@]}" --json --keep-going --crontab faulty --spool nothing night.timer
  compare_texts "a plan that keeps going as JSON" \
    '{"start":"2024-01-01T02:30:00Z","job":"night.timer","run":"night.service"}'$'\n' \
    "agenda: nothing: Device
faulty:1: error: unknown word '@dayly\\x7f\\x01' [UnknownWord]
faulty:2: error: minute '*/\\\\': not a number of one to four digits [BadNumber]
faulty:3: error: unknown word '@d\"y' [UnknownWord]
faulty:5: error: no command [NoCommand]
" 3
  run_in "$json_folder" agenda plan "${day[@]}" --json --crontab faulty
  is_refused "a plan as JSON that is rejected" "crontab: line 1: part 0: UnknownWord" 1
  run_in "$json_folder" agenda next --json --after 2024 --cron @daily
  is_refused "next starts as JSON that are rejected" "after: BadForm" 1
}

json_keeps_going

# The option is given once, and has no value. Three commands don't take it.
json_usage "error: the argument '--json' cannot be used multiple times" next "${json_after[@]}" --json --cron @daily --json
json_usage "error: the argument '--json' cannot be used multiple times" check --json --json
json_usage "error: unexpected argument '--json' found" steps script --json
json_usage "error: unexpected argument '--json' found" explain --json
json_usage "error: unexpected argument '--json' found" clear "${day[@]}" --json
