#!/bin/sh
# Prints processor seconds, peak memory and growth of runs over the indexed tables of 1,000, 10,000 and
# 100,000 records: rows that are made, put, found, and those of 10,000 rows that live to their purge; letters
# and jobs that are put and found; points that get ten inputs each. The growth from one count to the next is
# the power of the count, net of the calls' making; the least of five runs is taken. It judges nothing.
set -e
cd "$(dirname "$0")/../crates/bench_core"
rt run -- tables rows make 1 >/dev/null 2>&1
python3 - out/bench_core <<'END'
import math, os, subprocess, sys

def once(words):
    child = subprocess.Popen([sys.argv[1], "tables", *words], stdout=subprocess.PIPE)
    text = child.stdout.read().decode().strip()
    _, status, used = os.wait4(child.pid, 0)
    assert status == 0, words
    return used.ru_utime + used.ru_stime, used.ru_maxrss / 1024, text

def measure(table, what, count):
    runs = [once([table, what, str(count)]) for _ in range(5)]
    return min(run[0] for run in runs), runs[0][1], runs[0][2]

print(f"{'runs':16}  {'count':>7}  seconds    net  power  peak MiB  answers")
made = {}
for table, what, base in (
    ("rows", "make", None), ("rows", "put", "rows make"), ("rows", "find", "rows put"),
    ("mail", "put", None), ("mail", "find", "mail put"), ("points", "gather", None),
):
    before = None
    for count in (1_000, 10_000, 100_000):
        seconds, peak, text = measure(table, what, count)
        made[f"{table} {what}", count] = seconds
        net = seconds - made.get((base, count), 0)
        power = f"{math.log10(net / before):5.2f}" if before and net > 0 else "    -"
        print(f"{table + ' ' + what:16}  {count:7}  {seconds:7.3f}  {net:5.3f}  {power}  {peak:8.1f}  {text}")
        before = net if net > 0 else None
seconds, peak, text = measure("rows", "life", 10_000)
net = seconds - made["rows make", 10_000]
print(f"{'rows life':16}  {10_000:7}  {seconds:7.3f}  {net:5.3f}      -  {peak:8.1f}  {text}")
END
