# Read by the scripts beside it: the top of the repository, the proved program, and a folder that goes when they end.
top=$(cd "$(dirname "$0")/.." && pwd)
program=$top/crates/kj_serve/out/kj_serve
[ -x "$program" ] || { echo 'run rt ci first: nothing is proved here yet' >&2; exit 1; }
work=$(mktemp -d)
trap 'rm -rf "$work"' EXIT
