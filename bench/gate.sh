#!/usr/bin/env bash
# What the gate costs: runs `rt ci` and prints its wall time, the processor minutes of all that it started, the lines of source (tests
# counted), and processor minutes per 1,000 lines. From nothing only on a machine that has never passed it, or with --anew.
# usage: bench/gate.sh [--anew]
set -eu
cd "$(dirname "$0")/.."
python3 - "$@" <<'PY'
import glob, resource, subprocess, sys, time
start = time.time()
done = subprocess.run(["rt", "ci", *sys.argv[1:]])
wall = (time.time() - start) / 60
used = resource.getrusage(resource.RUSAGE_CHILDREN)
minutes = (used.ru_utime + used.ru_stime) / 60
lines = sum(len(open(path, encoding="utf-8").read().splitlines()) for path in glob.glob("crates/*/src/**/*.rt", recursive=True))
print(f"{wall:.1f} minutes, {minutes:.1f} processor minutes, {lines} lines: {1000 * minutes / lines:.1f} processor minutes per 1,000 lines")
sys.exit(done.returncode)
PY
