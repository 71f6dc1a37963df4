#!/usr/bin/env bash
# bench/loop.sh [KJBENCH] prints what promises take on a loop alone, with the proved program:
# nanoseconds of the thread's own time for a unit, the best of five, and octets of memory that the
# loop reserves for a live unit. KJBENCH is a program that does the same rounds a to e with KJ and
# prints lines 'a NAME .. NUMBER ns/UNIT .. NUMBER B/live ..', as KJ's own micro-benchmarks do;
# where it is given, its figures stand behind, from the same sitting. Behind them stand promises
# with a continuation each in a task, so many of them live at once, from 1,000 nodes up to
# 3,000,000; and hubs with 1,000 branches each, so many of them in one loop: no round drops a hub's
# name, so they pile up. Where KJ's rounds wait for a promise, a step of a task sees its outcome
# here; where they cancel, the loser goes with its race; and KJ's leaf runs a function of its own,
# and ours none. Where other work keeps the processors busy, both programs' figures are worse: the
# load stands at the head and the foot. Words that begin with arena- have their nodes in arenas, the
# others in a table; 1,000,000 arenas are more than a loop may have, so they have batches alone.
set -eu
program=$(cd "$(dirname "$0")/../crates/kj_bench" && pwd)/out/kj_bench
[ -x "$program" ] || { echo 'run rt ci first: nothing is proved here yet' >&2; exit 1; }
yardstick=${1:-}

# The most memory that the process of these words ever reserved, in kilobytes.
reserved() {
  local process peak=0 now
  "$program" "$@" > /dev/null &
  process=$!
  while now=$(awk '/^VmPeak/ { print $2 }' "/proc/$process/status" 2> /dev/null); do
    [ -n "$now" ] || break
    peak=$now
    sleep 0.01
  done
  wait "$process"
  echo "$peak"
}

# WORD COUNT: nanoseconds of a unit with one decimal, and slots of a unit
figures() {
  "$program" "$1" "$2" | awk '{ printf "%.1f %d\n", $5 / $2, $12 }'
}

# The line of KJ for a letter: nanoseconds and octets of a live unit
kj_figures() {
  [ -n "$yardstick" ] || { echo '- -'; return; }
  "$yardstick" "${1%\'}" | awk -v name="$1" '$1 == name {
    for (i = 2; i <= NF; i++) { if ($i ~ /^ns\//) ns = $(i - 1); if ($i ~ /^B\//) octets = $(i - 1) }
    print ns, (octets == "" ? "-" : octets)
  }'
}

# WORD COUNT [LETTER]
row() {
  local nanos slots kj_nanos kj_octets
  read -r nanos slots < <(figures "$1" "$2")
  read -r kj_nanos kj_octets < <([ -n "${3:-}" ] && kj_figures "$3" || echo '- -')
  awk -v word="$1" -v count="$2" -v nanos="$nanos" -v slots="$slots" -v octets="$slot_octets" -v kj="$kj_nanos" -v kj_octets="$kj_octets" \
    'BEGIN { printf "%-20s %8d %10.1f %10.0f %10s %10s\n", word, count, nanos, slots * octets, kj, kj_octets }'
}

cat /proc/loadavg
many=$(reserved events 1000000)
few=$(reserved event-batches 2000)
slot_octets=$(awk -v many="$many" -v few="$few" 'BEGIN { printf "%.1f", (many - few) * 1024 / (3 * 999000) }')
echo "octets reserved for a slot: $slot_octets"
printf '%-20s %8s %10s %10s %10s %10s\n' rounds count ns/unit octets KJ_ns/unit KJ_octets
row events 1000000 a
row event-batches 1000 "a'"
row promise-loop 1000000 b
row branches 1 c
row joins-of-8 100000 d
row races 1000000 e
row arena-event-batches 1000 "a'"
row arena-promise-loop 1000000 b
row arena-branches 1 c
row arena-joins-of-8 100000 d
row arena-races 1000000 e
for count in 333 3333 33333 166667 1000000; do
  row events "$count"
done
for count in 10 100 1000; do
  row branches "$count"
done
cat /proc/loadavg
