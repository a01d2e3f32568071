#!/usr/bin/env bash
# Times the opening of a queue on a real disk whose files are cached: 10,000 and 100,000 messages of 100 bytes, in segments
# of 4096.
# usage: bench/openings.sh FOLDER      (FOLDER stands on the disk that is measured; after `rt run` in crates/cq_bench, or
# `rt ci`, which leave its executable)
set -eu
folder=$(realpath "$1")
cd "$(dirname "$0")/.."
program=crates/cq_bench/out/cq_bench
[ -x "$program" ] || { echo "no executable: run 'rt run' in crates/cq_bench first" >&2; exit 1; }
work=$(mktemp -d -p "$folder")
trap 'rm -rf "$work"' EXIT
for count in 10000 100000; do
  python3 - "$work/$count" "$count" <<'PY'
import os, struct, sys

folder, count = sys.argv[1], int(sys.argv[2])
SEGMENT, BODY = 4096, 100


def gated(kind, content):
    end = 128 + len(content)
    header = bytearray(128)
    header[0:8] = b"CQGATE01"
    header[8:10] = bytes([kind, 1])
    header[32:56] = struct.pack(">QQQ", end, 0, 0)
    header[64:88] = struct.pack(">QQQ", 128, 0, 0)
    return bytes(header) + content


os.mkdir(folder)
for number, start in enumerate(range(0, count, SEGMENT)):
    entries, records = bytearray(), bytearray()
    for message in range(start, min(start + SEGMENT, count)):
        place = 128 + len(records)
        entries += struct.pack(">BBHI", 1, 1, 0, BODY) + (message + 1).to_bytes(16, "big") + struct.pack(">Q", place)
        records += struct.pack(">I", BODY) + bytes([message % 256]) * BODY + b"\xff"
    for extension, kind, content in (("qi", 1, entries), ("qs", 2, records)):
        with open(f"{folder}/q0-{number}.{extension}", "wb") as file:
            file.write(gated(kind, bytes(content)))
PY
  "$program" openings "$work/$count"
done
