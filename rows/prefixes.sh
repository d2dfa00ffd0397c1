# shellcheck shell=bash disable=SC2154
# Rows of bin/check-examples: texts that end too early. A crontab, a timer and a script are cut off after each
# of their bytes, and each prefix has the answer that follows from docs/FORMATS.md.

# shellcheck source=/dev/null
. "$top/rows/lib/parts.sh"

prefixes_folder="$work/prefixes"
mkdir "$prefixes_folder"
prefixes_week=(--since 2024-01-01T00:00:00Z --upto 2024-01-08T00:00:00Z)

# Rows from standard input: for each line of a script, a text that is too short for it, its end, and the
# reply. A script may end anywhere: complete lines are answered, and an incomplete line is rejected.
prefixes_of_script() {
  local begin end reply line=0 replies=''
  printf '%s\n' "|agenda: script: line 1: BadLine\n"
  while IFS='|' read -r begin end reply; do
    line=$((line + 1))
    replies+=$reply
    printf '%s\n' "$begin|agenda: script: line $line: BadLine\n" "$end\n|$replies"
  done
}

# A comment, a setting, a job that never starts, and one at midnight. A setting needs its `=`, an at-word all
# its letters, and a job its command. None of them needs the newline.
parts_rows cut "$prefixes_folder/crontab" plan "${day[@]}" --crontab crontab <<'ROWS'
|
# nightly\n|
MAILTO|agenda: crontab: line 2: BadSetting\n
=x\n|
@reboo|agenda: crontab: line 3: part 0: UnknownWord\n
t |agenda: crontab: line 3: NoCommand\n
a\n|
@dail|agenda: crontab: line 4: part 0: UnknownWord\n
y |agenda: crontab: line 4: NoCommand\n
b\n|2024-01-01T00:00:00Z\tcron:4\tb\n
ROWS

# Five fields, a user and a command.
parts_rows cut "$prefixes_folder/system" plan --since 2024-01-01T00:00:00Z --upto 2024-01-01T01:00:00Z --system-crontab system <<'ROWS'
|
17 * * * |agenda: system crontab: line 1: part 0: WrongParts\n
* root |agenda: system crontab: line 1: NoCommand\n
x|2024-01-01T00:17:00Z\tsystem:1\troot x\n
\n|2024-01-01T00:17:00Z\tsystem:1\troot x\n
ROWS

# The event has a new meaning at each byte of its two lines and of the comment between them: `Mo` isn't a
# word, `Mon` is one; `Mon 1` has a word that is neither a date nor a time; `12:` has an empty minute. `Unit`
# isn't a setting without `=`, and it is ignored if it is empty.
parts_rows cut "$prefixes_folder/n.timer" plan "${prefixes_week[@]}" n.timer <<'ROWS'
|agenda: n.timer: line 0: NoTimerSection\n
[Unit]\nDescription=x\n[Timer|agenda: n.timer: line 0: NoTimerSection\n
]\nOnCalendar=|
Mo|agenda: n.timer: line 4: part 0: UnknownWord\n
n \\\n# note\n  |2024-01-01T00:00:00Z\tn.timer\tn.service\n
12|agenda: n.timer: line 4: part 0: WrongParts\n
:|agenda: n.timer: line 4: part 6: WrongParts\n
00\nUnit=|2024-01-01T12:00:00Z\tn.timer\tn.service\n
y|2024-01-01T12:00:00Z\tn.timer\ty\n
.|2024-01-01T12:00:00Z\tn.timer\ty.\n
s|2024-01-01T12:00:00Z\tn.timer\ty.s\n
e|2024-01-01T12:00:00Z\tn.timer\ty.se\n
r|2024-01-01T12:00:00Z\tn.timer\ty.ser\n
v|2024-01-01T12:00:00Z\tn.timer\ty.serv\n
i|2024-01-01T12:00:00Z\tn.timer\ty.servi\n
c|2024-01-01T12:00:00Z\tn.timer\ty.servic\n
e\n|2024-01-01T12:00:00Z\tn.timer\ty.service\n
ROWS

parts_rows cut "$prefixes_folder/script" steps script < <(
  prefixes_of_script <<'ROWS'
mailbox 2 |2|
send 0 |a|sent\n
send 0 |b|sent\n
send 0 |c|full c\n
send 1 |d|sent\n
tak|e|took 0 a\n
tak|e|took 1 d\n
close |0|shut\n
send 0 |e|closed e\n
tak|e|took 0 b\n
tak|e|nothing\n
close |1|shut\n
tak|e|ended\n
ROWS
)
