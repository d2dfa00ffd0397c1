# shellcheck shell=bash disable=SC2154
# Rows of bin/check-examples: what `agenda steps FILE` replies to scripts, and which it rejects: forms of
# lines, sizes of mailboxes, numbers of steps and of bytes, bytes that aren't text, and missing files.

# Runs the script with the escaped text $1.
scripts_run() {
  printf '%b' "$1" >"$work/script"
  run_in "$work" agenda steps script
}

# Prints the line $2 $1 times.
scripts_many() {
  yes "$2" | head -n "$1"
}

# Prints $1 letters x.
scripts_letters() {
  head -c "$1" /dev/zero | tr '\0' x
}

# Rows from standard input: a script, and after a bar the line and the code of its error.
scripts_refused() {
  local script fault
  while IFS='|' read -r script fault; do
    scripts_run "$script"
    is_refused "the script '$script'" "script: line $fault" 1
  done
}

# Rows from standard input: a script, and after a bar the replies.
scripts_replied() {
  local script replies
  while IFS='|' read -r script replies; do
    printf '%b' "$replies" >"$work/replies"
    scripts_run "$script"
    compare "the script '$script'" "$work/replies" /dev/null 0
  done
}

# A script of $1 takes, and the escaped lines $2 after them, has the error $3.
scripts_behind_takes() {
  { echo "mailbox 1 1" && scripts_many "$1" take && printf '%b' "$2"; } >"$work/script"
  run_in "$work" agenda steps script
  is_refused "a script of $1 takes, and then '$2'" "script: line $3" 1
}

scripts_of_ten_thousand_steps() {
  scripts_behind_takes 10000 'take\n' "10002: TooManySteps"
  scripts_behind_takes 10000 'give\n' "10002: TooManySteps"
  scripts_behind_takes 9999 'give\ntake\n' "10001: BadLine"
  { echo "mailbox 1 1" && scripts_many 10000 take; } >"$work/script"
  scripts_many 10000 nothing >"$work/replies"
  run_in "$work" agenda steps script
  compare "a script of 10,000 takes" "$work/replies" /dev/null 0
  { echo "mailbox 8 1024" && scripts_many 10000 "send 7 a"; } >"$work/script"
  { scripts_many 1024 sent && scripts_many 8976 "full a"; } >"$work/replies"
  run_in "$work" agenda steps script
  compare "a script of 10,000 messages to the largest mailbox" "$work/replies" /dev/null 0
}

# bin/check-examples has a row for a script of 1,048,576 bytes whose message is sent.
scripts_of_the_most_bytes() {
  local begin=$'mailbox 1 1\nclose 0\nsend 0 ' message
  message=$((1048576 - ${#begin}))
  { printf '%s' "$begin" && scripts_letters "$message"; } >"$work/script"
  { printf 'shut\nclosed ' && scripts_letters "$message" && echo; } >"$work/replies"
  run_in "$work" agenda steps script
  compare "a script of 1,048,576 bytes, whose message is refused" "$work/replies" /dev/null 0
  head -c 1048577 /dev/zero | tr '\0' '\377' >"$work/script"
  run_in "$work" agenda steps script
  is_refused "a script of 1,048,577 bytes that are no text" "script: line 0: TooLarge" 1
}

# A path that can't be opened is printed in full. With more than 1,007 bytes its line is longer than the
# program's buffer.
scripts_that_are_not_there() {
  local path len
  mkdir -p "$work/no-scripts"
  for path in steps.txt "a/b c"; do
    run_in "$work/no-scripts" agenda steps "$path"
    is_refused "the script '$path', which isn't there" "$path: Device" 3
  done
  for len in 1007 1008 1009 5000; do
    path=$(scripts_letters "$len")
    run_in "$work/no-scripts" agenda steps "$path"
    is_refused "a script with a path of $len letters" "$path: Device" 3
  done
}

# The first line: missing, another one, or an invalid one.
scripts_refused <<'END'
|1: BadLine
\n|1: BadLine
\nmailbox 1 1\n|1: BadLine
take\n|1: BadLine
mailbox\n|1: BadLine
mailbox \n|1: BadLine
mailbox 1\n|1: BadLine
mailbox 1 \n|1: BadLine
mailbox 1 1 \n|1: BadLine
mailbox 1 1 1\n|1: BadLine
mailbox  1 1\n|1: BadLine
mailbox 1  1\n|1: BadLine
 mailbox 1 1\n|1: BadLine
Mailbox 1 1\n|1: BadLine
mailbox 1 1\r\ntake\r\n|1: BadLine
mailbox 1 00001\n|1: BadLine
mailbox 1|1: BadLine
mailbox 1 12345|1: BadLine
END

# A bad size comes before a bad step.
scripts_refused <<'END'
mailbox 9 1\n|1: BadSize
mailbox 0 1|1: BadSize
mailbox 1 0\n|1: BadSize
mailbox 1 1025\n|1: BadSize
mailbox 8 1025|1: BadSize
mailbox 9999 9999\n|1: BadSize
mailbox 9 1\nsend 0\n|1: BadSize
END

# Invalid steps.
scripts_refused <<'END'
mailbox 1 1\nsend 0\n|2: BadLine
mailbox 1 1\nsend 0 \n|2: BadLine
mailbox 1 1\nsend\n|2: BadLine
mailbox 1 1\nsend  0 a\n|2: BadLine
mailbox 1 1\nsend x a\n|2: BadLine
mailbox 1 1\nsend 00000 a\n|2: BadLine
mailbox 1 1\nsend -1 a\n|2: BadLine
mailbox 1 1\nsend\t0 a\n|2: BadLine
mailbox 1 1\nSend 0 a\n|2: BadLine
mailbox 1 1\ntake \n|2: BadLine
mailbox 1 1\ntake 0\n|2: BadLine
mailbox 1 1\ntake\r\n|2: BadLine
mailbox 1 1\n take\n|2: BadLine
mailbox 1 1\nclose\n|2: BadLine
mailbox 1 1\nclose \n|2: BadLine
mailbox 1 1\nclose 0 \n|2: BadLine
mailbox 1 1\nclose 12345\n|2: BadLine
mailbox 1 1\nclose  0\n|2: BadLine
mailbox 1 1\n\ntake\n|2: BadLine
mailbox 1 1\nmailbox 1 1\n|2: BadLine
mailbox 1 1\ntake\ntake\n\n|4: BadLine
mailbox 1 1\ntake\n\n|3: BadLine
mailbox 1 1\nclose -1|2: BadLine
mailbox 1 1\nTake|2: BadLine
mailbox 1 1\ntake\nclose\ngive|3: BadLine
END

# Bytes that aren't text come before all errors in lines.
scripts_refused <<'END'
\xff|0: NotUtf8
\xc3|0: NotUtf8
mailbox 1 1\nsend 0 \xff|0: NotUtf8
mailbox 9 1\nsend 0 \xc3\n|0: NotUtf8
mailbox 1 1\nsend 0 \xed\xa0\x80\n|0: NotUtf8
END

# The rows: no step; each form of a line; a message is everything after one space, and may have words of the
# script; each reply, on mailboxes of exactly these sizes.
scripts_replied <<'END'
mailbox 1 1|
mailbox 1 1\n|
mailbox 8 1024\n|
mailbox 0001 0002\ntake|nothing\n
mailbox 2 1\nclose 5\nclose 1\nclose 1\nsend 7 x\ntake\n|unknown\nshut\nalready shut\nno sender x\nnothing\n
mailbox 1 1\nsend 0  a\ntake\n|sent\ntook 0  a\n
mailbox 1 1\nsend 0   \ntake\n|sent\ntook 0   \n
mailbox 1 1\nsend 0 a b  c \ntake\n|sent\ntook 0 a b  c \n
mailbox 1 1\nsend 0 a\r\ntake|sent\ntook 0 a\r\n
mailbox 1 1\nsend 0 a\0b\ntake|sent\ntook 0 a\0b\n
mailbox 1 1\nsend 9999 \tx\n|no sender \tx\n
mailbox 2 1\nsend 0001 \xc3\xa0\ntake\nsend 1 take\nsend 1 close 0\n|sent\ntook 1 \xc3\xa0\nsent\nfull close 0\n
mailbox 1 1\nsend 0  a b \t|sent\n
mailbox 1 1\nclose 0\nsend 0  a b \t|shut\nclosed  a b \t\n
mailbox 1 1\nsend 0  a b \t\ntake|sent\ntook 0  a b \t\n
mailbox 8 1024\nsend 7 a\nsend 8 b\n|sent\nno sender b\n
mailbox 0001 0002\nsend 0 a\nsend 0 b\nsend 0 c\nsend 1 d|sent\nsent\nfull c\nno sender d\n
END

# Twelve steps with two senders, and a script with each reply.
scripts_replied <<END
$(
  printf '%s\\n' "mailbox 2 2" "send 0 a" "send 0 b" "send 0 c" "send 1 d" take take "close 0" "send 0 e" take take "close 1" take
  printf '|'
  printf '%s\\n' sent sent "full c" sent "took 0 a" "took 1 d" shut "closed e" "took 0 b" nothing shut ended
)
$(
  printf '%s\\n' "mailbox 2 1" "send 0 a" "send 0  b" "close 1" "send 1 c" "send 7 x" take take "close 1" "close 2" "close 0" take
  printf '|'
  printf '%s\\n' sent "full  b" shut "closed c" "no sender x" "took 0 a" nothing "already shut" unknown shut ended
)
END

scripts_of_ten_thousand_steps
scripts_of_the_most_bytes
scripts_that_are_not_there
