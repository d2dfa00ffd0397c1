# shellcheck shell=bash disable=SC2154
# Rows of bin/check-examples: a week as a picture, by examples/week-picture/week.gnuplot. The cells of both
# pictures are read and compared with the counts of the rows: the numbers in week.svg, and the colours in week.svg
# and week.png. `agenda week --json` has the same counts. rows/windows.sh has more rows of `agenda week`.

weeks_folder="$work/weeks"
mkdir "$weeks_folder"
cp -- "$top"/examples/week-picture/{crontab,etc-crontab,mirror.timer,week.gnuplot} "$weeks_folder"
weeks_since="2024-06-03T00:00:00Z"
weeks_upto="2024-06-10T00:00:00Z"

# Writes the cells of week.svg, one line for each day: the number in the cell and its colour, as three numbers
# with commas between them.
weeks_svg() {
  awk '
    # the cell at the point: 24 hours are between 88 and 788 from the left, and 7 days between 44 and 304 from the top
    function cell(x, y) {
      return x < 88 || x >= 788 || y < 44 || y >= 304 ? "" : int((y - 44) / 260 * 7) " " int((x - 88) / 700 * 24)
    }
    /<polygon/ {
      gsub(/[^0-9.]+/, " ")
      split($0, part, " ")
      colour[cell((part[4] + part[8]) / 2, (part[5] + part[9]) / 2)] = part[1] "," part[2] "," part[3]
    }
    /translate\(/ {
      sub(/.*translate\(/, "")
      split($0, at, /[,)]/)
    }
    /<text>/ {
      gsub(/<[^>]*>|[ \t]/, "")
      number[cell(at[1], at[2])] = $0
    }
    END {
      for (d = 0; d < 7; d++)
        for (h = 0; h < 24; h++) printf "%s:%s%s", number[d " " h], colour[d " " h], (h < 23 ? " " : "\n")
    }' "$weeks_folder/week.svg"
}

# Writes the bytes of the pixels of week.png, which are in its IDAT chunks: gzip reads what zlib deflated.
weeks_inflated() {
  local at=8 size kind
  {
    printf '\037\213\010\0\0\0\0\0\0\003'
    while kind=$(tail -c +$((at + 5)) "$weeks_folder/week.png" | head -c 4) && [ -n "$kind" ]; do
      size=$(od -A n -t u4 --endian=big -j "$at" -N 4 "$weeks_folder/week.png")
      [ "$kind" != IDAT ] || tail -c +$((at + 9)) "$weeks_folder/week.png" | head -c "$size"
      at=$((at + 12 + size))
    done | tail -c +3
  } | gzip -dc 2>/dev/null
}

# Writes the colours of the cells of week.png, one line for each day: those of the pixels 6 below the middle
# of a cell's upper edge. A row of pixels is a byte that tells its filter, and three bytes for each pixel.
weeks_png() {
  weeks_inflated | od -A n -v -t u1 -w2401 | awk '
    function far(a, b) { return a < b ? b - a : a - b }
    # what the filter predicts for a byte: a is the one to the left, b the one above and c the one above to the left
    function foretold(a, b, c,   left, above, corner) {
      if (filter < 3) return filter == 1 ? a : filter == 2 ? b : 0
      if (filter == 3) return int((a + b) / 2)
      left = far(b, c)
      above = far(a, c)
      corner = far(a + b, 2 * c)
      return left <= above && left <= corner ? a : above <= corner ? b : c
    }
    {
      filter = $1
      for (i = 2; i <= NF; i++) {
        byte = ($i + foretold(now[i - 3] + 0, before[i] + 0, before[i - 3] + 0)) % 256
        now[i] = byte
      }
      for (i = 2; i <= NF; i++) before[i] = now[i]
    }
    NR - 1 == int(44 + d * 260 / 7 + 6) && d < 7 {
      for (h = 0; h < 24; h++) {
        i = 2 + 3 * int(88 + (h + 0.5) * 700 / 24)
        printf "%s,%s,%s%s", now[i], now[i + 1], now[i + 2], (h < 23 ? " " : "\n")
      }
      d++
    }'
}

# Writes the cells of the picture for the counts on standard input, one line for each day, in the same form as
# weeks_svg.
weeks_cells() {
  awk '
    function colour(n) {
      if (n < 4) return n == 0 ? "240,240,240" : "255,255,204"
      if (n < 30) return n < 12 ? "161,218,180" : "65,182,196"
      return n < 60 ? "44,127,184" : "37,52,148"
    }
    { for (h = 1; h <= 24; h++) printf "%s:%s%s", ($h == 0 ? "" : $h), colour($h), (h < 24 ? " " : "\n") }'
}

# Draws week.json, and keeps the cells of both pictures in the files `svg` and `png`.
weeks_draw() {
  run_in "$weeks_folder" gnuplot -c week.gnuplot "$weeks_since" "$weeks_upto"
  compare_texts "the picture of $1" '' '' 0
  weeks_svg >"$weeks_folder/svg"
  weeks_png >"$weeks_folder/png"
}

# Writes the counts that the objects of `agenda week --json` on standard input have, one line for each day.
weeks_counts() {
  awk -F '[":,{}]+' -v first="${weeks_since:8:2}" '
    { starts[substr($3, 9) - first, $5] = $7 }
    END {
      for (d = 0; d < 7; d++)
        for (h = 0; h < 24; h++) printf "%d%s", starts[d, h], (h < 23 ? " " : "\n")
    }'
}

# The pictures of the week in which the arguments from $2 on start something have the counts on standard
# input, one line for each day. `agenda week` has the same.
weeks_drawn() {
  local name=$1
  shift
  cat >"$weeks_folder/counts"
  run_in "$weeks_folder" agenda week --json --since "$weeks_since" --until "$weeks_upto" "$@"
  weeks_counts <"$work/out" >"$weeks_folder/counted"
  mv -- "$weeks_folder/counted" "$work/out"
  compare "the hours of $name" "$weeks_folder/counts" /dev/null 0
  weeks_cells <"$weeks_folder/counts" >"$weeks_folder/cells"
  sed 's/[0-9]*://g' "$weeks_folder/cells" >"$weeks_folder/colours"
  run_in "$weeks_folder" agenda plan --json --since "$weeks_since" --upto "$weeks_upto" "$@"
  cp -- "$work/out" "$weeks_folder/week.json"
  weeks_draw "$name"
  diff "$weeks_folder/cells" "$weeks_folder/svg" >"$work/told" 2>&1
  count "the numbers and the colours in week.svg of $name"
  diff "$weeks_folder/colours" "$weeks_folder/png" >"$work/told" 2>&1
  count "the colours in week.png of $name"
}

# Prints where the cells of the file $2 differ from those of $1, except for the cell $3, which is counted from 1.
weeks_differ() {
  diff <(tr ' ' '\n' <"$weeks_folder/$1") <(tr ' ' '\n' <"$weeks_folder/$2") | grep '^[0-9]' >"$work/differs"
  [ "$(cat "$work/differs")" = "$3c$3" ] || tell "$2 differs otherwise: $(tr '\n' ' ' <"$work/differs")"
}

# A picture without the last start differs from that of the plan that was drawn last in the cell $1, and only there.
weeks_wrong() {
  sed -i '$d' "$weeks_folder/week.json"
  weeks_draw "a week with a missing start"
  weeks_differ cells svg "$1"
  weeks_differ colours png "$1"
  count "the cells of a picture with a missing start"
}

# A file that is missing, or isn't JSON, gives no picture, and the status isn't 0.
weeks_no_picture() {
  rm -f "$weeks_folder"/week.{json,png,svg}
  for _ in missing text; do
    run_in "$weeks_folder" gnuplot -c week.gnuplot "$weeks_since" "$weeks_upto"
    [ "$status" = 1 ] || tell "status $status, and not 1"
    grep -q "week.json has no plan" "$work/err" || tell "standard error doesn't say that there is no plan"
    [ -z "$(find "$weeks_folder" -name 'week.[ps][nv]g')" ] || tell "there is a picture"
    count "no plan as a picture"
    echo 'agenda 2' >"$weeks_folder/week.json"
  done
  run_in "$weeks_folder" gnuplot week.gnuplot
  [ "$status" = 1 ] || tell "status $status, and not 1"
  grep -q "usage: gnuplot -c week.gnuplot SINCE UPTO" "$work/err" || tell "standard error doesn't say how to use it"
  count "a picture without a span"
}

weeks_pictures() {
  ! passed_over "the pictures of rows/weeks.sh" gnuplot jq || return
  weeks_no_picture
  weeks_drawn "the example" --crontab crontab --system-crontab etc-crontab mirror.timer <<'COUNTS'
1 2 0 0 0 0 3 13 13 13 13 13 14 13 13 13 13 13 14 7 7 1 1 0
1 2 0 0 0 0 3 13 13 13 13 13 33 33 13 13 13 13 14 7 7 1 1 0
1 2 0 0 0 0 3 13 13 13 13 13 14 13 13 13 13 13 14 7 7 1 61 0
1 2 0 0 0 0 3 13 13 13 13 13 33 33 13 13 13 13 14 7 7 1 1 0
1 2 0 0 0 0 3 13 13 13 13 13 14 13 13 13 13 13 14 7 7 1 1 60
1 2 0 0 0 0 3 1 5 5 5 5 6 5 5 5 5 5 6 5 5 5 1 0
1 2 30 30 30 0 4 1 1 1 1 1 2 1 1 1 1 1 2 1 1 1 1 0
COUNTS
  # on the Sunday at 22:17
  weeks_wrong $((6 * 24 + 23))
  # both sides of each boundary between two classes, on the Wednesday
  printf '%s %s * * wed a\n' 0-2 1 0-3 2 0-10 3 0-11 4 0-28 20 0-29 21 0-58 22 '*' 23 >"$weeks_folder/edges"
  weeks_drawn "the edges of classes" --crontab edges <<'COUNTS'
0 0 0 0 0 0 0 0 0 0 0 0 0 0 0 0 0 0 0 0 0 0 0 0
0 0 0 0 0 0 0 0 0 0 0 0 0 0 0 0 0 0 0 0 0 0 0 0
0 3 4 11 12 0 0 0 0 0 0 0 0 0 0 0 0 0 0 0 29 30 59 60
0 0 0 0 0 0 0 0 0 0 0 0 0 0 0 0 0 0 0 0 0 0 0 0
0 0 0 0 0 0 0 0 0 0 0 0 0 0 0 0 0 0 0 0 0 0 0 0
0 0 0 0 0 0 0 0 0 0 0 0 0 0 0 0 0 0 0 0 0 0 0 0
0 0 0 0 0 0 0 0 0 0 0 0 0 0 0 0 0 0 0 0 0 0 0 0
COUNTS
}

weeks_pictures
