#!/usr/bin/env bash
# Times the proved program on scripts of 12,000 to 400,000 lines: batches of 1,000 promises with a continuation each,
# detached, and then 1,000 turns. The last line is 250,000 promises, each with its own turn at once. Prints seconds,
# and microseconds a turn.
set -eu
. "$(dirname "$0")/program.sh"

script() {
  awk -v lines="$1" 'BEGIN {
    for (done = 0; done < lines; done += 4000) {
      for (i = 1; i <= 1000; i++) printf "later 1\nthen 2 1 10 -\ndetach 2\n"
      for (i = 1; i <= 1000; i++) print "turn"
    }
  }'
}

one_by_one() {
  awk -v times="$1" 'BEGIN { for (i = 1; i <= times; i++) print "later 1\nthen 2 1 10 -\ndetach 2\nturn" }'
}

# runs the script that was written
timed() {
  local count start end
  count=$(wc -l < "$work/script")
  start=$(date +%s%N)
  "$program" run < "$work/script" > "$work/log"
  end=$(date +%s%N)
  awk -v lines="$count" -v ns="$((end - start))" 'BEGIN { printf "%10d %10.3f %12.3f\n", lines, ns / 1e9, ns / 1e3 / (lines / 4) }'
}

printf '%10s %10s %12s\n' lines seconds us/turn
for lines in 12000 40000 100000 200000 400000; do
  script "$lines" > "$work/script"
  timed
done
one_by_one 250000 > "$work/script"
timed
