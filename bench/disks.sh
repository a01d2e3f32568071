#!/usr/bin/env bash
# Times writes of 100 bytes on a real disk, and writes with a sync after each, beside the same calls in C.
# usage: bench/disks.sh FOLDER [RUNS]      (FOLDER stands on the disk that is measured; after `rt run` in crates/cq_bench, or
# `rt ci`, which leave its executable)
set -eu
folder=$(realpath "$1")
cd "$(dirname "$0")/.."
program=crates/cq_bench/out/cq_bench
[ -x "$program" ] || { echo "no executable: run 'rt run' in crates/cq_bench first" >&2; exit 1; }
work=$(mktemp -d -p "$folder")
trap 'rm -rf "$work"' EXIT
cat > "$work/writes.c" <<'C'
#include <fcntl.h>
#include <stdio.h>
#include <time.h>
#include <unistd.h>

static int show(int file, const char *what, int rounds, int synced) {
  char piece[100] = {7};
  struct timespec start, end;
  clock_gettime(CLOCK_MONOTONIC, &start);
  for (int round = 0; round < rounds; round++) {
    if (pwrite(file, piece, sizeof piece, 0) != sizeof piece) return 1;
    if (synced && fdatasync(file) != 0) return 1;
  }
  clock_gettime(CLOCK_MONOTONIC, &end);
  double nanos = (end.tv_sec - start.tv_sec) * 1e9 + (end.tv_nsec - start.tv_nsec);
  printf("in C, %s: %.0f ns each\n", what, nanos / rounds);
  return 0;
}

int main(int count, char **words) {
  int file = count > 1 ? open(words[1], O_RDWR | O_CREAT | O_EXCL, 0666) : -1;
  return file < 0 || show(file, "write", 200000, 0) || show(file, "write and sync", 2000, 1);
}
C
cc -O2 -o "$work/writes" "$work/writes.c"
for _ in $(seq "${2:-5}"); do
  "$program" disks "$work/folder"
  "$work/writes" "$work/file"
  rm "$work/file"
done
