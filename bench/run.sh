#!/usr/bin/env bash
# Times the proved executable on the largest script of the accepted form, and on smaller ones beside it.
# usage: bench/run.sh      (after `rt run` or `rt ci`, which leave the executable at crates/cq_cli/out/cq_cli)
set -eu
cd "$(dirname "$0")/.."
program=crates/cq_cli/out/cq_cli
[ -x "$program" ] || { echo "no executable: run 'rt run' in crates/cq_cli first" >&2; exit 1; }
work=$(mktemp -d)
trap 'rm -rf "$work"' EXIT

# script PUBLISHES WORDS: that many publishes of 64 bytes and 64 gets, with the schedule of one of three kinds
script() {
  python3 - "$1" "$2" <<'PY'
import sys
publishes, kind = int(sys.argv[1]), sys.argv[2]
print("client 0")
for i in range(publishes):
    print("publish 0 text " + str(i % 10) * 64)
for _ in range(64):
    print("get 0")
if kind == "often":
    print("schedule " + " ".join(["c0 t0 w"] * min(publishes, 3333)))
elif kind == "once":
    print("schedule " + " ".join(["c0 t0"] * min(publishes, 4999) + ["w"]))
PY
}

for kind in none once often; do
  for publishes in 1024 2048 4096; do
    script "$publishes" "$kind" > "$work/script.cq"
    python3 - "$program" "$work/script.cq" "$kind" "$publishes" <<'PY'
import fcntl, os, select, subprocess, sys, time
program, path, kind, publishes = sys.argv[1:]

# the best of five runs
best = None
for _ in range(5):
    with open(path, "rb") as script:
        begin = time.perf_counter()
        done = subprocess.run([program, "replay"], stdin=script, stdout=subprocess.DEVNULL)
        spent = time.perf_counter() - begin
    assert done.returncode == 0, done.returncode
    best = spent if best is None else min(best, spent)

# the peak of memory, read while the program waits for its text to be taken: all has been served by then
SET_PIPE_SIZE = 1031
out, into = os.pipe()
fcntl.fcntl(out, SET_PIPE_SIZE, 4096)
with open(path, "rb") as script, open(out, "rb") as text, subprocess.Popen([program, "replay"], stdin=script, stdout=into) as run:
    os.close(into)
    select.select([text], [], [])
    time.sleep(0.1)
    with open(f"/proc/{run.pid}/status") as status:
        peak = next(int(line.split()[1]) for line in status if line.startswith("VmHWM"))
    text.read()
print(f"schedule {kind:5} publishes {publishes:5} gets 64: {best:.3f} s, peak {peak / 1024:.1f} MiB")
PY
  done
done
