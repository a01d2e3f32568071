#!/usr/bin/env bash
# Times the packing of files in which live records of many lengths stand among as many dead ones: 12,500, 25,000, 50,000
# and 100,000 live records. Microseconds, the best of some runs.
# usage: bench/pack.sh [RUNS]      (after `rt run` in crates/cq_bench, or `rt ci`, which leave its executable)
set -eu
cd "$(dirname "$0")/.."
program=crates/cq_bench/out/cq_bench
[ -x "$program" ] || { echo "no executable: run 'rt run' in crates/cq_bench first" >&2; exit 1; }
for _ in $(seq "${1:-5}"); do
  "$program" packs
done | sort -n -k1,1 -k8,8 | awk '$1 != last { print; last = $1 }'
