# Makes two timers for each time span, `folder`/0/N.timer and `folder`/1/N.timer for the N-th.
#
# The first file has the spans, and the second one systemd's answers. What follows the last 6 digits of an answer are
# whole seconds. The accuracy of the first timer makes the delay a whole second, and that of the second one is a
# microsecond more. Prints the seconds of the first timer's delay, which are at most `most`, or `refused`.

function make(which, span, accuracy, path) {
  path = folder "/" which "/" FNR ".timer"
  printf "[Timer]\nOnCalendar=*-*-* 00:00:00\nRandomizedDelaySec=%s\nAccuracySec=%dus\n", span, accuracy >path
  close(path)
}

file == 1 {
  spans[FNR] = $0
  next
}
{
  number = ($0 == "refused" ? "" : "000000") $0
  rest = $0 == "refused" ? 0 : substr(number, length(number) - 5) + 0
  make(0, spans[FNR], (1000000 - rest) % 1000000)
  make(1, spans[FNR], (1000000 - rest) % 1000000 + 1)
  seconds = substr(number, 1, length(number) - 6) + (rest > 0)
  if ($0 == "refused") print
  else printf "%.0f\n", seconds < most ? seconds : most
}
