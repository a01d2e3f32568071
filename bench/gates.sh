#!/usr/bin/env bash
# Times gated appends on the disk in memory: 100,000 of one record of 32 bytes, 200,000 of one record (what grows with
# the disk's record shows in the difference), and 201 of 4096 records. Nanoseconds and bytes per second for each.
# usage: bench/gates.sh [RUNS]      (after `rt run` in crates/cq_bench, or `rt ci`, which leave its executable)
set -eu
cd "$(dirname "$0")/.."
program=crates/cq_bench/out/cq_bench
[ -x "$program" ] || { echo "no executable: run 'rt run' in crates/cq_bench first" >&2; exit 1; }
for _ in $(seq "${1:-5}"); do
  "$program" gates | awk '/appends/ { n = $1; r = $4; next } { printf "%s x %s records: %s ns, %.1f MB/s\n", n, r, $1, 32000 * r / $1 }'
done
