# Draws how many jobs start in each hour of a week. It reads week.json, which `agenda plan --json` wrote, by jq, and writes week.png
# and week.svg. Usage: gnuplot -c week.gnuplot SINCE UPTO, with the times of the plan.
if (ARGC != 2) { exit error "usage: gnuplot -c week.gnuplot SINCE UPTO" }
since = ARG1
upto = ARG2
starts = system("jq -s length <week.json")
if (words(starts) != 1) { exit error "week.json has no plan" }
first = strptime("%Y-%m-%d", since)
days = int((strptime("%Y-%m-%dT%H:%M:%SZ", upto) - 1 - first) / 86400) + 1
dates = ""
do for [d = 0:days - 1] { dates = dates . strftime(" %Y-%m-%d", first + 86400 * d) }

# A line for each hour of each day: the day, from 0 on, the hour and its starts.
set table $hours
plot "< jq -r '.start[:13]' week.json | awk -v dates='" . dates . "' '{ starts[$1]++ } " . \
  'END { days = split(dates, date); for (d = 1; d <= days; d++) for (h = 0; h < 24; h++) ' . \
  'print d - 1, h, starts[sprintf("%sT%02d", date[d], h)] + 0 }' . "'" using 1:2:3 with table
unset table

# Six classes of hours. The colours go from light to dark too, so that they can be told apart without seeing red or green.
class(starts) = 1 + (starts >= 1) + (starts >= 4) + (starts >= 12) + (starts >= 30) + (starts >= 60)
array colour[6] = [0xf0f0f0, 0xffffcc, 0xa1dab4, 0x41b6c4, 0x2c7fb8, 0x253494]
array range[6] = ["none", "1 to 3", "4 to 11", "12 to 29", "30 to 59", "60 or more"]
ink(starts) = class(starts) < 5 ? 0x202020 : 0xffffff

set label 1 "Starts in each hour, " . since . " to " . upto . ": " . starts . " in all" at screen 0.5, 0.94 center font ",13"
do for [c = 1:6] {
  left = 0.11 + 0.148 * (c - 1)
  set object c rectangle from screen left, 0.05 to screen left + 0.03, 0.1 fillcolor rgb colour[c] fillstyle solid border rgb 0xa0a0a0
  set label 1 + c range[c] at screen left + 0.04, 0.075 left
}
set xlabel "hour, in UTC"
set xrange [-0.5:23.5]
set yrange [days - 0.5:-0.5]
set xtics 0, 1 scale 0
set ytics scale 0
do for [d = 0:days - 1] { set ytics add (strftime("%a %m-%d", first + 86400 * d) d) }
set border 0
set lmargin at screen 0.11
set rmargin at screen 0.985
set tmargin at screen 0.89
set bmargin at screen 0.24
set style fill solid noborder
unset key

do for [file in "week.png week.svg"] {
  if (file eq "week.png") { set terminal pngcairo size 800, 400 font "Sans,10" background "white" }
  else { set terminal svg size 800, 400 font "Sans,10" fontscale 1.3 background "white" }
  set output file
  plot $hours using 2:1:(0.47):(0.46):(colour[class($3)]) with boxxyerror fillcolor rgb variable, \
    $hours using 2:1:($3 > 0 ? sprintf("%d", $3) : ""):(ink($3)) with labels textcolor rgb variable
  unset output
}
