#!/usr/bin/env bash
# Prints the figures of heads and chunked bodies, with the proved program, each work in turn: the best and the median of 40
# runs for heads, in nanoseconds a head, and of 10 for bodies of 16 MiB, in millions of octets a second. The same heads are
# copied, parsed by the kit's httparse alone and with its parts copied, and read fresh and again into the same memory; the
# same bodies are copied, read line by line by the kit's httparse with their data copied, and decoded in pieces.
set -eu
program=$(cd "$(dirname "$0")/../crates/kj_bench" && pwd)/out/kj_bench
[ -x "$program" ] || { echo 'run rt ci first: nothing is proved here yet' >&2; exit 1; }

# Reads lines 'WORD: ROUNDS rounds in MICROS microseconds, RATE octets ..'; a figure of heads is a time, and one of bodies a rate.
figures() {
  awk '{ sub(":", "", $1); print $1, ($1 ~ /heads/ ? $5 * 1000 / $2 : $7 / 1000000) }' |
    sort -k1,1 -k2,2g |
    awk 'function told() { if (n) printf "%-26s %10.0f %10.0f\n", word, word ~ /heads/ ? seen[1] : seen[n], seen[int((n + 1) / 2)] }
      $1 != word { told(); word = $1; n = 0 }
      { seen[++n] = $2 }
      END { told() }'
}

heads() {
  for _ in {1..40}; do
    for way in octets parts copies fresh again; do
      "$program" "short-heads-$way" 20000
      "$program" "long-heads-$way" 4000
    done
  done
}

bodies() {
  for _ in {1..10}; do
    for chunk in 1 100 65536; do
      for way in octets lines pieces-16384 pieces-1; do
        "$program" "chunks-$chunk-$way" 1
      done
    done
  done
}

cat /proc/loadavg
printf '%-26s %10s %10s\n' work best median
heads | figures
cat /proc/loadavg
bodies | figures
cat /proc/loadavg
