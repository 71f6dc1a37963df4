#!/bin/sh
# Prints the figures of an executor, with the program as it is proved: round trips with one and with four submitting threads,
# submissions that are withdrawn at once, and round trips of one thread with thirty requests outstanding. The load comes first.
# Where other work keeps the processors busy, `chrt -f 50 out/kj_bench WORD COUNT` in that folder gives a figure without it.
set -eu
cut -d ' ' -f 1-3 /proc/loadavg
cd "$(dirname "$0")/../crates/kj_bench"
for threads in 1 4; do
    rt run -- "round-trips-$threads" 20000
    rt run -- "submissions-$threads" 50000
done
rt run -- batches-30 2000
