#!/usr/bin/env bash
# Times `replay 1 target` of the proved program on recordings of 1,000 to 100,000 requests, heads, bodies and replies
# together. Prints seconds, microseconds a request of time and of processor time, and how many times as long as copying
# the same octets it takes.
set -eu
. "$(dirname "$0")/program.sh"
TIMEFORMAT='%U %S'

# nanoseconds of the best of three runs
best() {
  local least='' start took
  for _ in 1 2 3; do
    start=$(date +%s%N)
    "$@" < "$work/recording" > "$work/replies"
    took=$(($(date +%s%N) - start))
    if [ -z "$least" ] || [ "$took" -lt "$least" ]; then least=$took; fi
  done
  echo "$least"
}

# seconds of processor time of one of ten runs
processor() {
  { time for _ in 1 2 3 4 5 6 7 8 9 10; do "$@" < "$work/recording" > "$work/replies"; done; } 2>&1 |
    awk '{ print ($1 + $2) / 10 }'
}

cat /proc/loadavg
printf '%10s %10s %12s %12s %14s %10s\n' requests octets seconds us/request processor_us to_copying
for conns in 1 10 100; do
  "$program" make 1 "$conns" 1000 > "$work/recording"
  octets=$(wc -c < "$work/recording")
  replay=$(best "$program" replay 1 target)
  used=$(processor "$program" replay 1 target)
  copy=$(best cat)
  awk -v c="$conns" -v o="$octets" -v r="$replay" -v u="$used" -v y="$copy" \
    'BEGIN { printf "%10d %10d %12.4f %12.3f %14.3f %10.1f\n", c * 1000, o, r / 1e9, r / 1e3 / (c * 1000), u * 1e6 / (c * 1000), r / y }'
done
