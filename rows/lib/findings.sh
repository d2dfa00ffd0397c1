# shellcheck shell=bash
# The lines of `agenda check` without their texts, for rows about which findings there are and in which order.
# rows/messages.sh has the texts. The tables of rows/ that need it source it.

# Prints the findings of standard input in a short form. Other lines stay as they are.
#
#   jobs:1: error minute [OutOfRange]   an error in a field, or in a part of an event
#   jobs:2: error [NoCommand]           any other error
#   jobs:3: warning [EitherDay]         a warning
#
# In a finding about a whole file, there is no line number.
shorten_findings() {
  local part='minute|hour|day of month|month|day of week|weekday|year|day|second|time zone'
  sed -E -e "s/: error: ($part)( in)? '.*: [^[]+ \[([A-Za-z0-9]+)\]\$/: error \1 [\3]/; t" \
    -e 's/: (error|warning): .+ \[([A-Za-z0-9]+)\]$/: \1 [\2]/'
}
