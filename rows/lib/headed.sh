# shellcheck shell=bash disable=SC2034,SC2154
# Shared by all rows of agendas: a span, the mark between the parts of a line, and the header, which is the
# first line of an agenda. bin/check-examples and bin/refuse-memory source this file.

day=(--since 2024-01-01T00:00:00Z --upto 2024-01-02T00:00:00Z)
tab=$'\t'

# Puts the header of an agenda before its other lines, which are on standard input: the form of the text, which is
# another one with --delays, the span in the program's arguments $@, and the number of lines.
headed() {
  local words word before='' since='' upto='' form=2
  IFS=$' \t\n' read -r -d '' -a words <<<"$*"
  for word in "${words[@]}"; do
    case $before in
      --since) since=$word ;;
      --upto) upto=$word ;;
    esac
    case $word in
      --since=*) since=${word#*=} ;;
      --upto=*) upto=${word#*=} ;;
      --delays) form=3 ;;
    esac
    before=$word
  done
  cat >"$work/lines"
  printf 'agenda %d\t%s\t%s\t%d\n' "$form" "$since" "$upto" "$(wc -l <"$work/lines")"
  cat "$work/lines"
}
