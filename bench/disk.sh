#!/bin/sh
# Appends of 200 bytes with two syncs each: on a FileDisk, and by python3's write and fsync. It prints
# figures and judges nothing.
# Use: bench/disk.sh [APPENDS]
set -eu
cd "$(dirname "$0")/../crates/bench_core"
appends="${1:-500}"
rt run -- disk 1 >/dev/null 2>&1
rm -f bench_disk.file bench_disk.file.2
program="$PWD/out/bench_core"
folder="$(mktemp -d)"
trap 'rm -rf "$folder"' EXIT
cd "$folder"
python3 - "$program" "$appends" <<'PYTHON'
import os, resource, subprocess, sys, time
program, appends = sys.argv[1], int(sys.argv[2])

start = time.time()
done = subprocess.run([program, "disk", str(appends)], check=True, capture_output=True, text=True)
wall = time.time() - start
used = resource.getrusage(resource.RUSAGE_CHILDREN)
print(done.stdout.strip())
print(f"  FileDisk: {appends / wall:.0f} appends a second, {wall:.3f} s of wall, "
      f"{used.ru_utime + used.ru_stime:.3f} s of processor, {used.ru_maxrss} KB at most")

start, before = time.time(), time.process_time()
file = os.open("python.file", os.O_RDWR | os.O_CREAT, 0o644)
piece = bytes([7]) * 200
for i in range(appends):
    os.pwrite(file, piece[1:], 200 * i + 1)
    os.fsync(file)
    os.pwrite(file, piece[:1], 200 * i)
    os.fsync(file)
os.close(file)
wall = time.time() - start
print(f"  python3:  {appends / wall:.0f} appends a second, {wall:.3f} s of wall, "
      f"{time.process_time() - before:.3f} s of processor")
PYTHON
