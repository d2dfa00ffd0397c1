# Prints a line for each clock change in the output of zdump -V: the zone, the first second of the change, the
# offsets before and after it, the flags of daylight saving time before and after it, and the zone's abbreviation
# after it, separated by tabs.
/ isdst=[01] gmtoff=-?[0-9]+$/ {
  second = second_of($6, (index("JanFebMarAprMayJunJulAugSepOctNovDec", $3) + 2) / 3, $4, $5)
  flag = substr($(NF - 1), 7)
  offset = substr($NF, 8)
  if ($1 == zone && second == last + 1 && second > 0) printf "%s\t%d\t%d\t%d\t%d\t%d\t%s\n", zone, second, last_offset, offset, last_flag, flag, $(NF - 2)
  zone = $1
  last = second
  last_offset = offset
  last_flag = flag
}
