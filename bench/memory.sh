#!/usr/bin/env bash
# Prints the peak of memory of the proved program on scripts of 16,777,216 octets, beside that of a script of nothing
# but the same limits: lines outside bodies, the shortest bodies in order and out of order, and lines that mean nothing.
# The script's own share is what is left behind the empty script's peak and the log's octets, by the size of the script.
set -eu
. "$(dirname "$0")/program.sh"
most=16777216

# limits, the lines given over and over, and a remark up to the most octets
filled() {
  local times rest
  times=$(((most - 16) / $(printf "$1" | wc -c)))
  {
    printf 'limits 8 1\n'
    yes "$(printf "$1")" | head -n $((times * $(printf "$1" | wc -l)))
  } > "$work/script"
  rest=$((most - $(wc -c < "$work/script")))
  head -c "$rest" /dev/zero | tr '\0' '#' >> "$work/script"
}

# kilobytes at the peak, and seconds
peak() {
  /usr/bin/time -f '%M %e' -o "$work/figures" "$program" run < "$work/script" > "$work/log"
  cat "$work/figures"
}

row() {
  local figures
  figures=$(peak)
  awk -v name="$1" -v octets="$(wc -c < "$work/script")" -v text="$(wc -c < "$work/log")" -v figures="$figures" -v base="$base" \
    'BEGIN {
      split(figures, f, " ")
      printf "%-24s %10d %10d %10d %8.2f %10.2f\n", name, octets, text, f[1], f[2], (f[1] - base - text / 1024) * 1024 / octets
    }'
}

cat /proc/loadavg
printf 'limits 8 1\n' > "$work/script"
base=$(peak | cut -d' ' -f1)
echo "peak of the empty script: $base kB"
printf '%-24s %10s %10s %10s %8s %10s\n' script octets log peak_kB seconds times_octets
filled 'turn\n' && row 'turn'
filled 'later 1\n' && row 'later 1'
filled 'step 1\ninput\n' && row 'shortest bodies'
filled 'step 2\ninput\nstep 1\ninput\n' && row 'the same out of order'
filled '#\n' && row 'shortest remarks'
filled '\n' && row 'empty lines'
filled "#$(printf '%01000d' 0)\n" && row 'long remarks'
