#!/bin/sh
# Measures rlemu beside a plain program of the same work (baseline.rs), and prints one table: for each scenario the
# instructions for one more SDU, seconds, and peak memory, each with its ratio to the plain program. Then it measures rlemu alone beside idle flows, where flows
# are allocated and where members enrol, since the plain program has none of these, and prints a table for each. Wants valgrind, rustc and python3, and 8 GB of
# memory. Takes some minutes.
#
#   bench/run.sh [PROGRAM]      PROGRAM: an rlemu that is built; otherwise bin/rlemu builds it
top=$(cd "$(dirname "$0")/.." && pwd) || exit 2
program=${1:-$top/crates/rlemu/out/rlemu}
if [ $# -eq 0 ]; then
    "$top/bin/rlemu" run </dev/null >/dev/null 2>&1
fi
[ -x "$program" ] || { echo "bench: no program at $program" >&2; exit 2; }
work=$(mktemp -d) || exit 2
trap 'rm -rf "$work"' EXIT
rustc --edition 2021 -O -o "$work/plain" "$top/bench/baseline.rs" || exit 2
exec python3 "$top/bench/measure.py" "$program" "$work/plain" "$top/bench/make_input.py" "$work"
