#!/bin/sh
# Prints processor seconds, peak memory and growth of the engine's steps alone, without the book, the cloud and
# the report: 250 and 1,000 resources in a chain, and in a fan where one needs all others, are created, updated
# with nothing changed, updated with a third in place and a seventh replaced, and deleted. A phase's seconds are
# net of the phases before it, and its peak is that of all up to it; the growth is that from 250 to 1,000 of the
# net seconds. The least of seven runs is taken; /usr/bin/time tells the peak, since a child of python3 begins
# with that of python3. It judges nothing.
set -e
cd "$(dirname "$0")/../crates/bench_engine"
rt run -- steps chain delete 1 >/dev/null 2>&1
python3 - out/bench_engine <<'END'
import os, subprocess, sys

PHASES = ("create", "same", "change", "delete")

def once(words):
    command = ["/usr/bin/time", "-f", "%M", sys.argv[1], "steps", *words]
    child = subprocess.Popen(command, stdout=subprocess.PIPE, stderr=subprocess.PIPE)
    text, peak = (stream.read().decode().strip() for stream in (child.stdout, child.stderr))
    _, status, used = os.wait4(child.pid, 0)
    assert status == 0, words
    return used.ru_utime + used.ru_stime, int(peak) / 1024, text

def measure(words):
    runs = [once(words) for _ in range(7)]
    return min(run[0] for run in runs), min(run[1] for run in runs), runs[0][2]

print("shape  phase   resources  seconds  growth  peak MiB  turns and rows so far")
for shape in ("chain", "fan"):
    nets = {}
    for count in (250, 1_000):
        before = 0
        for phase in PHASES:
            seconds, peak, text = measure([shape, phase, str(count)])
            net = seconds - before
            smaller = nets.get((phase, 250), 0)
            growth = f"{net / smaller:6.1f}" if count > 250 and smaller > 0 else "     -"
            print(f"{shape:5}  {phase:6}  {count:9}  {net:7.3f}  {growth}  {peak:8.1f}  {text}")
            nets[phase, count] = net
            before = seconds
END
