#!/bin/sh
# Locks and releases a second, with one, two and four threads. It prints figures and judges nothing.
# Use: bench/lock.sh [HOLDS], the holds of each thread.
set -eu
cd "$(dirname "$0")/../crates/bench_core"
holds="${1:-200000}"
rt run -- lock 1 1 >/dev/null 2>&1
for threads in 1 2 4; do
    python3 - "$threads" "$holds" <<'PYTHON'
import resource, subprocess, sys, time
threads, holds = sys.argv[1], sys.argv[2]
start = time.time()
done = subprocess.run(["out/bench_core", "lock", threads, holds], check=True, capture_output=True, text=True)
wall = time.time() - start
used = resource.getrusage(resource.RUSAGE_CHILDREN)
total = int(threads) * int(holds)
print(done.stdout.strip())
print(f"  {total / wall:.0f} holds a second, {wall:.3f} s of wall, {used.ru_utime + used.ru_stime:.3f} s of processor, {used.ru_maxrss} KB at most")
PYTHON
done
