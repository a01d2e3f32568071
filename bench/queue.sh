#!/usr/bin/env bash
# Times a queue in memory at 10,000, 100,000 and 1,000,000 messages, with 1 and with 4096 of them out. Nanoseconds for each
# call, and the peak of memory in KiB.
# usage: bench/queue.sh [RUNS]      (after `rt run` in crates/cq_bench, or `rt ci`, which leave its executable)
set -eu
cd "$(dirname "$0")/.."
program=crates/cq_bench/out/cq_bench
[ -x "$program" ] || { echo "no executable: run 'rt run' in crates/cq_bench first" >&2; exit 1; }
for _ in $(seq "${1:-1}"); do
  python3 - "$program" <<'PY'
import resource, subprocess, sys
subprocess.run([sys.argv[1], "queues"], check=True)
print("peak of memory:", resource.getrusage(resource.RUSAGE_CHILDREN).ru_maxrss, "KiB")
PY
done
