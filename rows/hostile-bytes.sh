# shellcheck shell=bash disable=SC2154
# Rows of bin/check-examples: unexpected bytes. A NUL byte is inserted at each place of a crontab, a timer and
# a script, and carriage returns are where a newline might be meant. Each text has the answer that follows
# from docs/FORMATS.md: a NUL byte and a carriage return are characters like others, except for the carriage
# return at the end of a timer's line.

# shellcheck source=/dev/null
. "$top/rows/lib/parts.sh"

hostile_folder="$work/hostile"
mkdir "$hostile_folder"
hostile_week=(--since 2024-01-01T00:00:00Z --upto 2024-01-08T00:00:00Z)
hostile_hour=(--since 2024-01-01T00:00:00Z --upto 2024-01-01T01:00:00Z)

# Rows from standard input: for each line of a script, the text before its message, and the message if it has
# one. A NUL byte before or after the message is a part of it. Anywhere else it makes the line invalid.
hostile_script() {
  local begin message line=0 replies=''
  replies='sent\nsent\nfull c\nsent\ntook 0 a\ntook 1 d\nshut\nclosed e\ntook 0 b\nnothing\nshut\nended\n'
  while IFS='|' read -r begin message; do
    line=$((line + 1))
    printf '%s\n' "$begin|agenda: script: line $line: BadLine\n"
    if [ -n "$message" ]; then
      echo "$message|${replies/ "$message"\\n/ \\0$message\\n}"
      printf '%s\n' "\\n|${replies/ "$message"\\n/ $message\\0\\n}"
    fi
  done
  printf '%s\n' "|agenda: script: line $((line + 1)): BadLine\n"
}

# Rows from standard input: a file's name, its escaped text, the program's arguments, and the escaped answer,
# as in parts_compare.
hostile_texts() {
  local name text words answer
  while IFS='|' read -r name text words answer; do
    printf '%b' "$text" >"$hostile_folder/$name"
    # shellcheck disable=SC2086
    run_in "$hostile_folder" agenda ${words/plan/plan ${day[*]}}
    parts_compare "$name '$text'" "$answer"
  done
}

# Before a line, a NUL byte is the start of a field. In an at-word it makes another word, and it is kept in
# comments, settings and commands. At the end it is a line with one field.
parts_rows zero "$hostile_folder/crontab" plan "${day[@]}" --crontab crontab <<'ROWS'
#|agenda: crontab: line 1: part 0: WrongParts\n
 nightly\n|2024-01-01T00:00:00Z\tcron:4\tb\n
M|agenda: crontab: line 2: part 0: WrongParts\n
AILTO=x\n|2024-01-01T00:00:00Z\tcron:4\tb\n
@|agenda: crontab: line 3: part 0: WrongParts\n
reboot |agenda: crontab: line 3: part 0: UnknownWord\n
a\n|2024-01-01T00:00:00Z\tcron:4\tb\n
@|agenda: crontab: line 4: part 0: WrongParts\n
daily |agenda: crontab: line 4: part 0: UnknownWord\n
b|2024-01-01T00:00:00Z\tcron:4\t\0b\n
\n|2024-01-01T00:00:00Z\tcron:4\tb\0\n
|agenda: crontab: line 5: part 0: WrongParts\n
ROWS

# In a field it makes an invalid number, and in the user's name it is a character.
parts_rows zero "$hostile_folder/system" plan "${hostile_hour[@]}" --system-crontab system <<'ROWS'
17 |agenda: system crontab: line 1: part 1: BadNumber\n
* |agenda: system crontab: line 1: part 2: BadNumber\n
* |agenda: system crontab: line 1: part 3: BadNumber\n
* |agenda: system crontab: line 1: part 4: BadNumber\n
* |agenda: system crontab: line 1: part 5: BadNumber\n
u|2024-01-01T00:17:00Z\tsystem:1\t\0u x\n
 |2024-01-01T00:17:00Z\tsystem:1\tu\0 x\n
x|2024-01-01T00:17:00Z\tsystem:1\tu \0x\n
|2024-01-01T00:17:00Z\tsystem:1\tu x\0\n
ROWS

# In the section `[Timer]` or in a key it makes another name. In the event it makes an invalid name of a
# weekday, date, hour or minute. After the backslash, the line isn't continued any more. Before the `#`, the
# line isn't a comment any more but a part of the event, whose last word then isn't a zone. Blanks after a NUL
# byte aren't at the start of a line.
parts_rows zero "$hostile_folder/n.timer" plan "${hostile_week[@]}" n.timer <<'ROWS'
[Unit]\nDescription=x\n|2024-01-01T12:00:00Z\tn.timer\ty.service\n
[Timer]\n|agenda: n.timer: line 0: NoTimerSection\n
OnCalendar=|
M|agenda: n.timer: line 4: part 0: WrongParts\n
on |agenda: n.timer: line 4: part 1: BadName\n
\\\n|agenda: n.timer: line 4: part 0: WrongParts\n
#|agenda: n.timer: line 4: part 8: Zone\n
 note\n|2024-01-01T12:00:00Z\tn.timer\ty.service\n
  |agenda: n.timer: line 4: part 0: WrongParts\n
12:|agenda: n.timer: line 4: part 5: BadNumber\n
00\n|agenda: n.timer: line 4: part 6: BadNumber\n
Unit=|2024-01-01T12:00:00Z\tn.timer\tn.service\n
y|2024-01-01T12:00:00Z\tn.timer\t\0y.service\n
.|2024-01-01T12:00:00Z\tn.timer\ty\0.service\n
s|2024-01-01T12:00:00Z\tn.timer\ty.\0service\n
e|2024-01-01T12:00:00Z\tn.timer\ty.s\0ervice\n
r|2024-01-01T12:00:00Z\tn.timer\ty.se\0rvice\n
v|2024-01-01T12:00:00Z\tn.timer\ty.ser\0vice\n
i|2024-01-01T12:00:00Z\tn.timer\ty.serv\0ice\n
c|2024-01-01T12:00:00Z\tn.timer\ty.servi\0ce\n
e|2024-01-01T12:00:00Z\tn.timer\ty.servic\0e\n
\n|2024-01-01T12:00:00Z\tn.timer\ty.service\0\n
|2024-01-01T12:00:00Z\tn.timer\ty.service\n
ROWS

parts_rows zero "$hostile_folder/script" steps script < <(
  hostile_script <<'ROWS'
mailbox 2 2\n|
send 0 |a
send 0 |b
send 0 |c
send 1 |d
take\n|
take\n|
close 0\n|
send 0 |e
take\n|
take\n|
close 1\n|
take\n|
ROWS
)

# A carriage return by itself ends no line: the text before and after it is one line. It belongs to a command,
# and only at the end of a timer's line one is dropped.
hostile_texts <<'ROWS'
c|\r|plan --crontab c|agenda: crontab: line 1: part 0: WrongParts\n
c|\r\n\r\n|plan --crontab c|agenda: crontab: line 1: part 0: WrongParts\n
c|@daily a\r@daily b|plan --crontab c|2024-01-01T00:00:00Z\tcron:1\ta\r@daily b\n
c|# a\r@daily b|plan --crontab c|
c|a=\r@daily b|plan --crontab c|
c|@daily\ra|plan --crontab c|agenda: crontab: line 1: part 0: UnknownWord\n
c|@daily \r|plan --crontab c|2024-01-01T00:00:00Z\tcron:1\t\r\n
c|0 0 * * *\r a|plan --crontab c|agenda: crontab: line 1: part 5: BadNumber\n
s|\r|plan --system-crontab s|agenda: system crontab: line 1: part 0: WrongParts\n
s|@daily root\ra|plan --system-crontab s|agenda: system crontab: line 1: NoCommand\n
s|@daily \r a|plan --system-crontab s|2024-01-01T00:00:00Z\tsystem:1\t\r a\n
t.timer|\r|plan t.timer|agenda: t.timer: line 0: NoTimerSection\n
t.timer|[Timer]\rOnCalendar=daily|plan t.timer|agenda: t.timer: line 0: NoTimerSection\n
t.timer|[Timer]\r\r\nOnCalendar=daily|plan t.timer|agenda: t.timer: line 0: NoTimerSection\n
t.timer|[Timer]\r\nOnCalendar=daily\r\n\r|plan t.timer|2024-01-01T00:00:00Z\tt.timer\tt.service\n
t.timer|[Timer]\nOnCalendar=\r|plan t.timer|
t.timer|[Timer]\nOnCalendar=daily\nUnit=a\rb\r|plan t.timer|2024-01-01T00:00:00Z\tt.timer\ta\rb\n
t.timer|[Timer]\nOnCalendar=daily\r\r|plan t.timer|agenda: t.timer: line 2: part 1: BadName\n
t.timer|[Timer]\nOnCalendar=\\\r\r\ndaily|plan t.timer|agenda: t.timer: line 2: part 0: WrongParts\n
script|\r|steps script|agenda: script: line 1: BadLine\n
script|mailbox 1 1\rtake|steps script|agenda: script: line 1: BadLine\n
script|mailbox 1 1\n\r|steps script|agenda: script: line 2: BadLine\n
script|mailbox 1 1\nsend 0 \r\ntake|steps script|sent\ntook 0 \r\n
script|mailbox 1 1\nsend 0 a\rtake|steps script|sent\n
ROWS
