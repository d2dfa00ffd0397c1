# shellcheck shell=bash disable=SC2154
# Rows of the rules of documents: what each rule reports on made-up pages, and that good pages pass. They don't run the program, and use
# only bin/lib/counts.sh. So bin/check runs them even if the program isn't built.

# shellcheck source=bin/lib/documents/rules.sh
. "$top/bin/lib/documents/rules.sh"

documents_project=$work/documents
documents_texts=crates/agenda_options/src/command
documents_help=$documents_texts/help.rt

# Makes a project of a few pages that keep all rules.
documents_make() {
  rm -rf -- "$documents_project"
  mkdir -p "$documents_project"/{bin,docs,examples,man,"$documents_texts/machine"}
  cd "$documents_project" || return
  printf '# A page\n\nSome text, and a [link](docs/RULES.md#a-rule).\n' >README.md
  printf '# Rules\n\n## A rule\n\nSome text.\n' >docs/RULES.md
  printf '.Sh NAME\n.Nm agenda\n.Nd some text\n' >man/agenda.1
  printf 'const NAME: &str = "Some text";\n' | tee "$documents_texts/machine/texts.rt" >"$documents_help"
  printf 'say_usage() {\n  cat <<TEXT\nSome text.\nTEXT\n}\n' >bin/tool
}

# Makes that project with standard input as its file $3, and compares what the rule $2 reports there with the lines $4 and those after it.
# $1 names the row.
documents_row() {
  local name=$1 rule=$2 file=$3
  shift 3
  : >"$work/documents.wanted"
  [ $# = 0 ] || printf '%s\n' "$@" >"$work/documents.wanted"
  (documents_make && cat >"$file" && $rule) >"$work/documents.reported" 2>&1
  diff -u --label wanted --label reported "$work/documents.wanted" "$work/documents.reported" >"$work/told"
  count "documents: $name"
}

# Rows of a text, the word in it that may not stay, and the better word. Each text is a paragraph of README.md.
documents_words() {
  local text word better line=1 messages
  : >"$work/documents.page"
  : >"$work/documents.messages"
  while IFS='|' read -r text word better; do
    printf '%s\n\n' "$text" >>"$work/documents.page"
    [ -z "$word" ] || echo "README.md:$line: word '$word': write $better, or add an exception" >>"$work/documents.messages"
    line=$((line + 2))
  done
  mapfile -t messages <"$work/documents.messages"
  documents_row "$1" "report_words /dev/null" README.md "${messages[@]}" <"$work/documents.page"
}

documents_word="xxxxxxxxxxxxxxxxxxxxxxxxx"
documents_cell=$(printf 'x%.0s' {1..250})

documents_row "good pages: prose" report_long_prose docs/GOOD.md </dev/null
documents_row "good pages: cells" report_long_cells docs/GOOD.md </dev/null
documents_row "good pages: links" report_dead_links docs/GOOD.md </dev/null
documents_row "good pages: words" "report_words /dev/null" docs/GOOD.md </dev/null

# Characters are counted, not bytes. Quotes, and the paragraphs of list items, are prose.
documents_row "prose of 101 columns" report_long_prose docs/LONG.md \
  "docs/LONG.md:1: heading of 101 columns: shorten it to 100" \
  "docs/LONG.md:3: prose of 101 columns: wrap it at 100" \
  "docs/LONG.md:5: prose of 101 columns: wrap it at 100" \
  "docs/LONG.md:7: prose of 101 columns: wrap it at 100" \
  "docs/LONG.md:9: prose of 101 columns: wrap it at 100" \
  "docs/LONG.md:14: prose of 101 columns: wrap it at 100" <<'PAGE'
# Heading: this heading has many more words than any other heading should have: 101 columns of words.

This is a line of prose with one hundred columns and one, which is exactly one column more than fits.

Это строка из ста одной колонки: каждая буква занимает два байта, но считается она как одна колонка я

> This is a quote of one hundred columns and one, its mark is counted, and so it is one more than fit

- This is an item of one hundred columns and one, with its mark, which is just one more than it fits.

- An item

    A line after four spaces is a paragraph of the item, not code.
    This line of it has one hundred columns and one, which is exactly one column more than fits here.

PAGE

documents_row "prose of 100 columns, and longer lines that may stay" report_long_prose examples/LONG.md <<PAGE
This is a line of prose with one hundred columns, which is exactly as many columns as prose may have

| a table | $documents_cell |
|---|---|
| a row | $documents_cell |

    an indented code block $documents_cell

\`\`\`
a fenced code block $documents_cell

and its next paragraph $documents_cell
\`\`\`

- An item

      code in an item $documents_cell

This line is long only because of a [link](https://example.org/$documents_cell) in it.

This one is because of https://example.org/$documents_cell, which is one word.

This one is because of \`a code span $documents_cell\`.
PAGE

documents_row "prose after a code block" report_long_prose docs/LONG.md "docs/LONG.md:5: prose of 105 columns: wrap it at 100" <<PAGE
~~~~
code ~~~
~~~~

$documents_word $documents_word $documents_word, ${documents_word}s
PAGE

documents_row "table cells" report_long_cells README.md \
  "README.md:3: table cell 2 of 251 characters: shorten it to 250, or write a paragraph" \
  "README.md:4: table cell 1 of 252 characters: shorten it to 250, or write a paragraph" <<PAGE
| a | b |
|---|---|
| $documents_cell | x$documents_cell |
|x\\|$documents_cell|   ${documents_cell%x}é   |

    | code | x$documents_cell |
PAGE

# Names of headings are those that GitHub gives: in lower case, without punctuation and marks, and with a number from the second on.
documents_row "links to headings" report_dead_links docs/LINKS.md \
  "docs/LINKS.md:18: link '#a-rule-2': docs/LINKS.md has no such heading, correct the name after #" \
  "docs/LINKS.md:18: link '#comment': docs/LINKS.md has no such heading, correct the name after #" \
  "docs/LINKS.md:19: link '#A-rule': docs/LINKS.md has no such heading, correct the name after #" \
  "docs/LINKS.md:19: link 'RULES.md#rule': docs/RULES.md has no such heading, correct the name after #" \
  "docs/LINKS.md:21: link '../README.md#page': README.md has no such heading, correct the name after #" <<'PAGE'
# A rule

## A rule

## `agenda-machine`: what's *new*, and what_is [old](RULES.md)? #

### 1.2 – Größe

    # comment

#not a heading

Good: [a](#a-rule), [b](#a-rule-1), [c](#agenda-machine-whats-new-and-what_is-old), [d](#12--größe),
[e](RULES.md#a-rule), [f](./RULES.md#rules), [g](../README.md#a-page "a title"), [h](/docs/RULES.md#rules),
[`i`](<RULES.md#rules>).

Bad:
[a](#a-rule-2), [b](RULES.md#a-rule), [c](#comment),
[d](#A-rule), [e](RULES.md#rule).

[label]: ../README.md#page
PAGE

documents_row "links to files" report_dead_links examples/LINKS.md \
  "examples/LINKS.md:5: link 'RULES.md': there is no examples/RULES.md, correct the path" \
  "examples/LINKS.md:6: link '../docs/NONE.md#rule': there is no docs/NONE.md, correct the path" \
  "examples/LINKS.md:8: link '../../README.md': there is no ../README.md, correct the path" \
  "examples/LINKS.md:10: link '/none.png': there is no none.png, correct the path" <<'PAGE'
Good: [a](../docs/RULES.md), [b](../docs/), [c](..), [d](LINKS.md), [e](../man/agenda.1), [f](https://example.org/none),
[g](mailto:none@example.org), `[h](none)`.

Bad:
[a](RULES.md),
[b](../docs/NONE.md#rule).

| [c](../../README.md) |

![d](/none.png)

    [e](none)
PAGE

documents_row "links to manual pages" report_dead_links man/agenda-machine.1 \
  "man/agenda-machine.1:2: .Xr agenda-steps 1: there is no man/agenda-steps.1, correct the name" \
  "man/agenda-machine.1:4: .Xr agenda 5: there is no man/agenda.5, correct the name" <<'PAGE'
.Xr agenda 1 ,
.Xr agenda-steps 1
.Xr crontab 5 ,
.Pq see Xr agenda 5 .
PAGE

# At least one row for each entry of the list.
documents_words "words that may not stay" <<'ROWS'
If memory was refused, it ends.|memory was refused|'out of memory' or 'an allocation failed'
The rule has a fault.|fault|'error'
Faults of a file.|Faults|'error'
It refuses the file.|refuses|'reject' or 'rejected'
After the refusal, it ends.|refusal|'reject' or 'rejected'
The first error is told.|is told|'is reported'
The words of the command line.|words of the command line|'arguments' or 'options'
The words before the command.|words before the command|'arguments' or 'options'
All further words are options.|further words|'arguments' or 'options'
These are no use of the program.|no use of|'usage error'
The file is in a folder.|folder|'directory'
A FOLDER that exists.|FOLDER|'directory'
Comments are passed over.|passed over|'skip' or 'ignore'
A row that was left out.|left out|'skip' or 'ignore'
It leaves them out.|leaves them out|'skip' or 'ignore'
The lines are joined.|joined|'merge' or 'merged'
A timer that is wished for.|wished for|'enabled' or 'enablement link'
What the machine lacks.|lacks|'is missing' or 'without'
All timers that are there.|that are there|'present'
Skipped if it is not here.|if it is not here|'present' or 'missing'
The program isn't there.|isn't there|'is missing'
At this moment it starts.|moment|'time' or 'timestamp'
The begin of the span.|The begin|'start'
The upto of the span.|upto|'end'
The least time of several runs.|The least time|'minimum'
The most starts that it may have.|The most starts that|'maximum' or 'at most'
It fails 6 in 100 times.|6 in 100|a percentage, such as '6 %'
A dearer search.|dearer|'slower'
A cheaper search.|cheaper|'faster'
It is taken anew.|anew|'again'
They run by turns.|by turns|'alternating'
A job behind it.|behind|'after'
The mark in front of it.|in front of|'before'
Names can't stand in a field.|can't stand|'is'
The header stands before it.|stands before|'is'
See what stands below.|what stands|'what is present'
A system's crontab, as `/etc/crontab`.|, as `/etc/crontab`.|'such as'
A timer's file, as backup.timer|, as backup.timer|'such as'
A time, as 2024-01-01T00:00:00Z, is read.|, as 2024-01-01T00:00:00Z,|'such as'
It fails, as where the disk is full.|, as where|'for example if'
As of today.|As of|'for'
Two rows, of which one fails.|of which|two sentences
The range is this program's own.|is this program's own|'(agenda)' or 'our choice'
A mailbox with room for two.|room|'capacity'
The notes of a planner wait.|notes of a planner|'message'
It looks at the file.|looks at|'read' or 'check'
It asks for a thread.|asks for|'request'
ROWS

documents_words "words that may stay" <<'ROWS'
At least an hour, and at most two. Most crontabs have an hour.
Lines that begin with a letter. A gap begins at a start, and the file ends in a space.
Three letters stand for a value. Names with a letter are standard.
It has its own zone, and you see your own machine. The program's own threads wait. Each word of the rule is a number.
Times are printed as they are given, as `plan` prints them. A time is written as `YYYY`, and a path as /dev/stdin.
In the order, as docs/FORMATS.md has it. Such as `x`, such as by hand, and as well.
There is no file, and there are no jobs. Is there a wildcard?
A note of `check`. A message of a planner may wait.
Look for it there. Ask the machine. It starts behind-the-scenes, twice-joined and all-timers-of-folder.
The options `--room`, `--upto`, `the folder` and `--least`; a [link](folder/faults.md#moments) and https://example.org/folder.
ROWS

documents_row "words over the ends of lines, in items, quotes, headings and tables" "report_words /dev/null" examples/WORDS.md \
  "examples/WORDS.md:1: word 'folder': write 'directory', or add an exception" \
  "examples/WORDS.md:4: word 'passed over': write 'skip' or 'ignore', or add an exception" \
  "examples/WORDS.md:7: word 'folder': write 'directory', or add an exception" \
  "examples/WORDS.md:12: word 'passed over': write 'skip' or 'ignore', or add an exception" \
  "examples/WORDS.md:17: word 'anew': write 'again', or add an exception" \
  "examples/WORDS.md:23: word 'faults': write 'error', or add an exception" <<'PAGE'
# A folder

This text has `a code span with a
folder`, and a comment that is passed
over.

- An item of a **folder**
- An item is passed

Over this, there is a quote:

> It is passed
> over.

    a code block with a folder

| it runs | anew |

```
a fault
```
It has
faults
PAGE

documents_row "words of manual pages" "report_words /dev/null" man/agenda.1 \
  "man/agenda.1:2: word 'FOLDERS': write 'directory', or add an exception" \
  "man/agenda.1:4: word 'moment': write 'time' or 'timestamp', or add an exception" \
  "man/agenda.1:5: word ', as @.': write 'such as', or add an exception" \
  "man/agenda.1:11: word 'left out': write 'skip' or 'ignore', or add an exception" \
  "man/agenda.1:13: word 'fault': write 'error', or add an exception" <<'PAGE'
.\" a folder
.Sh FOLDERS
.Nm
.Op Fl Fl room Ar moment
reads a file, as
.Pa /folder .
.Bl -tag -width "a folder"
.It Fl Fl room Ar number
The files of
.Pq Ql a folder
are left
.Em out .
.It Sy "A fault" No of Ql a fault
.Bl -diag
.It "agenda: fault"
.El
.El
.Bd -literal
a folder
.Ed
.Dl a folder
PAGE

documents_row "words of the program's help" "report_words /dev/null" "$documents_help" \
  "$documents_help:4: word 'folder': write 'directory', or add an exception" \
  "$documents_help:5: word 'room': write 'capacity', or add an exception" \
  "$documents_help:13: word 'moment': write 'time' or 'timestamp', or add an exception" <<'PAGE'
//! The texts of a "folder".

const FILE: &str = "\
Reads --room, 'a folder' and the job's folder;
it isn't the room that --room says

Example:
  agenda --upto folder";

const FILE_USAGE: &str =
    "agenda [--root folder]";

const TIME: &str = "A moment";
let folder = 1;
PAGE

documents_row "words of the scripts' help" "report_words /dev/null" bin/other \
  "bin/other:4: word 'FOLDER': write 'directory', or add an exception" \
  "bin/other:6: word 'passed over': write 'skip' or 'ignore', or add an exception" \
  "bin/other:14: word 'folder': write 'directory', or add an exception" <<'PAGE'
# makes a folder
say_usage() {
  cat <<'TEXT'
Usage: bin/other [--room N] FOLDER

Files are passed over.
TEXT
}
cat <<TEXT
a folder
TEXT
say_help_of_plan() {
  cat <<'TEXT' &&
A folder.
  agenda-machine plan folder
  agenda plan folder
TEXT
    true
}
PAGE

# Runs the rule of words with the exceptions of `documents_exceptions`.
documents_excepted() {
  printf '%s\n' "$documents_exceptions" >exceptions
  report_words exceptions
}

# shellcheck disable=SC2016
documents_exceptions='# an exception for one page, and one for all pages
README.md | a `folder` is a folder in | printed by the program
* | Room 101 | the name of a novel

examples/NONE.md | a folder | no page has it
README.md | of rooms | the page does not say this
* | a folder
a folder'
documents_row "exceptions" documents_excepted README.md \
  "README.md:4: word 'Room': write 'capacity', or add an exception" \
  "README.md:6: word 'folder': write 'directory', or add an exception" \
  "exceptions:5: exception that no word needs: remove it" \
  "exceptions:6: exception that no word needs: remove it" \
  "exceptions:7: exception '* | a folder': write it as PATH | TEXT | REASON" \
  "exceptions:8: exception 'a folder': write it as PATH | TEXT | REASON" <<'PAGE'
This says that a `folder` is a
folder in a room 101.

Room 2 is beside room 101.

This `folder` is a folder.
PAGE

documents_exceptions='* | is a | no word of the list'
documents_row "an exception that covers no word" documents_excepted README.md \
  "README.md:1: word 'folder': write 'directory', or add an exception" \
  "exceptions:1: exception that no word needs: remove it" <<'PAGE'
This is a folder.
PAGE

# Runs the rule of sizes with the maxima of `documents_sizes`.
documents_sized() {
  printf '%s\n' "$documents_sizes" >sizes
  report_sizes sizes
}

documents_sizes='# a page, and the most that it may have

docs/SIZE.md 11 bytes
docs/RULES.md 5 lines
README.md 2 lines
docs/NONE.md 10 bytes'
documents_row "sizes" documents_sized docs/SIZE.md \
  "docs/SIZE.md: 12 bytes: shorten it to 11" \
  "README.md: 3 lines: shorten it to 2" \
  "docs/NONE.md: there is no such page, correct sizes" <<'PAGE'
# A page
é
PAGE

documents_sizes='docs/SIZE.md 12 bytes'
documents_row "a page of the most bytes" documents_sized docs/SIZE.md <<'PAGE'
# A page
é
PAGE

# Makes a crate of a law, a function with two clauses, and a definition, and runs the rule $1.
documents_with_crate() {
  mkdir -p crates/plan_a/{src,specs} crates/plan_a_b/src
  printf '# the crates\nplan_a: jiff\nplan_a_b may_wait=1:\n' >crates.txt
  cat >crates/plan_a/src/a.rt <<'CODE'
/// Adds.
impl A {
    pub fn add(&self) -> u64
        ensures sum { result ≡ sum_of self.now }
        ensures few { result < 9 }
    {
        1

        + 1
    }
}

pub fn all_is_well<M>()
    ensures { Well }
{}
CODE
  printf 'pub fn other(a: u64) -> u64\n    ensures sum { IsTrue true }\n{\n    a\n}\n' >crates/plan_a_b/src/b.rt
  printf 'use X.{no_definition}\n-- the sum : of all\nabbrev pub sum_of : A → ℕ\nsum_of a =\n    not_defined : a\n' >crates/plan_a/specs/A.antt
  "$1"
}

documents_row "excerpts" "documents_with_crate report_excerpts" docs/EXCERPTS.md \
  "docs/EXCERPTS.md:10: the lines that follow aren't in crates/plan_a/src/a.rt, copy them from it" \
  "docs/EXCERPTS.md:14: the lines that follow aren't in crates/plan_a/src/a.rt, copy them from it" \
  "docs/EXCERPTS.md:18: there is no crates/none/src/a.rt, correct the path" \
  "docs/EXCERPTS.md:22: no code block follows: show the lines of crates/plan_a/specs/A.antt" <<'PAGE'
This is `crates/plan_a/src/a.rt`:

        {
            1

            + 1
        }

The definition is in
`crates/plan_a/src/a.rt`:

            1 + 1

A part of a line is none: `crates/plan_a/src/a.rt`:

    fn add(&self) -> u64

`crates/none/src/a.rt`:

    1

`crates/plan_a/specs/A.antt`:

No code. This is no excerpt of `crates/plan_a/src/a.rt`: it goes on.

    1 + 1
PAGE

documents_row "names of promises" "documents_with_crate report_promises" docs/PROMISES.md <<'PAGE'
Nothing is promised of plan_a_b.

| function | clause | promise |
|---|---|---|
| plan_a `A::add` | `sum`, by `sum_of` | Adds `anything`. |
| plan_a `add`; plan_a_b `other` | `few` and `sum` | Both. |
| plan_a `all_is_well` | by `sum_of` | Law. |

| command | order |
|---|---|
| `none` | `none` |
PAGE

documents_row "names that no crate has" "documents_with_crate report_promises" docs/PROMISES.md \
  "docs/PROMISES.md: crate 'plan_a_b' is not named: say what it promises" \
  "docs/PROMISES.md: law 'all_is_well' of plan_a is not named: say what it promises" \
  "docs/PROMISES.md:3: function 'other': not in crates/plan_a/src, correct the name" \
  "docs/PROMISES.md:4: clause 'no_definition': neither a clause of these functions nor a definition in specs/, correct the name" \
  "docs/PROMISES.md:4: clause 'not_defined': neither a clause of these functions nor a definition in specs/, correct the name" \
  "docs/PROMISES.md:5: no clause: name one, or a definition" \
  "docs/PROMISES.md:6: function 'all_is_wel': not in crates/plan_b/src, correct the name" \
  "docs/PROMISES.md:6: no crate 'plan_b': correct the name" \
  "docs/PROMISES.md:7: no function: name one, after its crate" <<'PAGE'
| function | clause | promise |
|---|---|---|
| plan_a `other`, `add` | `few` | Adds. |
| plan_a `add` | `no_definition`, `not_defined` | Adds. |
| plan_a `add` | few | Adds. |
| plan_b `all_is_wel` | `sum_of` | Law. |
| plan_a | `sum_of` | Adds. |
PAGE

# Runs the rule of figures with two figures of the tree.
documents_figured() {
  print_figures() {
    print_figure "crates" 58
    print_figure "lines of code" 1234567
  }
  report_figures
}

documents_row "figures" documents_figured docs/TESTING.md <<'PAGE'
| figure | count |
|---|---|
| crates | 58 |
| lines of code | 1,234,567 |

| other figures | count |
|---|---|
| crates | 59 |
PAGE

documents_row "wrong figures" documents_figured docs/TESTING.md \
  "docs/TESTING.md:3: '| lines of code | 1234567 |': write '| lines of code | 1,234,567 |'" \
  "docs/TESTING.md:4: the tree has no figure '| lines of proof | 3 |': remove it" \
  "docs/TESTING.md: add the figure '| crates | 58 |'" <<'PAGE'
| figure | count |
|---|---|
| lines of code | 1234567 |
| lines of proof | 3 |
PAGE
