#!/usr/bin/env bash
# Times 1,280,000 requests between two threads: through one lane, through 64 lanes to one taker, and through a locked
# queue that holds at most 64. Nanoseconds for each request.
# usage: bench/lanes.sh [RUNS]      (after `rt run` in crates/cq_bench, or `rt ci`, which leave its executable)
set -eu
cd "$(dirname "$0")/.."
program=crates/cq_bench/out/cq_bench
[ -x "$program" ] || { echo "no executable: run 'rt run' in crates/cq_bench first" >&2; exit 1; }
for _ in $(seq "${1:-5}"); do
  "$program" requests | tail -n +2 | paste -sd '\t'
done
