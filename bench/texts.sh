#!/usr/bin/env bash
# Times the text of a session of 10,000 and of 100,000 entries, which are those of 1, 16 or 64 clients. Nanoseconds of the
# processor for each entry, the best of some runs.
# usage: bench/texts.sh [RUNS]      (after `rt run` in crates/cq_bench, or `rt ci`, which leave its executable)
set -eu
cd "$(dirname "$0")/.."
program=crates/cq_bench/out/cq_bench
[ -x "$program" ] || { echo "no executable: run 'rt run' in crates/cq_bench first" >&2; exit 1; }
for _ in $(seq "${1:-5}"); do
  "$program" texts
done | sort -n -k1,1 -k4,4 -k8,8 | awk '$1 " " $4 != last { print; last = $1 " " $4 }'
