# Prints times around some changes of a clock, in agenda's form. Standard input has the changes of a zone, in the form of
# zone-changes.awk. The same `seed` makes the same times. It needs random.awk and zone-clock.awk.

{ changes[NR] = $2 }
END {
  start_rolling(seed)
  for (at = 0; at < 4; at++) {
    # changes before 2038
    do second = changes[1 + roll(NR)]
    while (second > 2145916800)
    print write_time(second - 1 - roll(86400))
    print write_time(second - 86400 * (1 + roll(20)) - roll(86400))
  }
}
