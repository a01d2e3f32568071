#!/usr/bin/env bash
# Times the proved executable on scripts with crashes: publishes of 64 bytes, a write after each eighth of them, and a crash
# after each eighth write. Milliseconds, the best of some runs, and nanoseconds for each message that some session opened or
# published.
# usage: bench/crashes.sh [RUNS]      (after `rt run` in crates/cq_cli, or `rt ci`, which leave its executable)
set -eu
cd "$(dirname "$0")/.."
program=crates/cq_cli/out/cq_cli
[ -x "$program" ] || { echo "no executable: run 'rt run' in crates/cq_cli first" >&2; exit 1; }
python3 - "$program" "${1:-5}" <<'PY'
import subprocess, sys, time

program, runs = sys.argv[1], int(sys.argv[2])
for publishes in 512, 1024, 2048, 4096:
    words = []
    for k in range(1, publishes + 1):
        words.append("c0 t0")
        if k % 8 == 0:
            words.append("w")
        if k % 64 == 0:
            words.append("!%d" % (k // 64 % 2))
    script = "client 0\n" + "".join("publish 0 text %s\n" % (str(k % 10) * 64) for k in range(publishes))
    script += "schedule " + " ".join(words) + "\n"
    sessions = publishes // 64
    messages = sum(64 * k for k in range(sessions + 1)) + publishes
    best = None
    for _ in range(runs):
        start = time.monotonic()
        done = subprocess.run([program, "replay"], input=script.encode(), capture_output=True)
        taken = time.monotonic() - start
        assert done.returncode == 0 and done.stdout.endswith(b"ok\n"), done.stdout[-200:]
        best = taken if best is None else min(best, taken)
    print("%d publishes, %d sessions, %d messages: %.0f ms, %.0f ns each" % (publishes, sessions + 1, messages, best * 1e3, best * 1e9 / messages))
PY
