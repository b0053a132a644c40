#!/bin/sh
# Appends of 500 bytes to a journal on a real file, beside the two writes and two syncs that each of them
# makes, alone. Both run in turn; what the program takes with no records is taken off. It prints figures
# and judges nothing.
# Use: bench/journal.sh [RECORDS] [ROUNDS]
set -eu
cd "$(dirname "$0")/../crates/bench_core"
records="${1:-100}"
rounds="${2:-9}"
rt run -- journal 0 >/dev/null 2>&1
rm -f bench_journal.file bench_journal.file.2
program="$PWD/out/bench_core"
folder="$(mktemp -d)"
trap 'rm -rf "$folder"' EXIT
cd "$folder"
python3 - "$program" "$records" "$rounds" <<'PYTHON'
import os, statistics, subprocess, sys, time
program, records, rounds = sys.argv[1], int(sys.argv[2]), int(sys.argv[3])

def seconds(count, *words):
    for name in ("bench_journal.file", "bench_journal.file.2"):
        if os.path.exists(name):
            os.remove(name)
    start = time.time()
    done = subprocess.run([program, "journal", str(count), *words], check=True, capture_output=True, text=True)
    wall = time.time() - start
    if done.stdout.split()[0] != str(count):
        sys.exit(done.stdout.strip())
    return wall

def record(*words):
    return (seconds(records, *words) - seconds(0, *words)) / records * 1000

pairs = [(record(), record("bare")) for _ in range(rounds)]
journal, bare = (statistics.median(side) for side in zip(*pairs))
ratio = statistics.median(ours / theirs for ours, theirs in pairs)
print(f"{records} records of 500 bytes, {rounds} rounds")
print(f"  journal: {journal:.3f} ms a record")
print(f"  bare:    {bare:.3f} ms a record")
print(f"  {ratio:.2f} times, by the median of the rounds")
PYTHON
