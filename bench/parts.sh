#!/bin/sh
# Prints processor seconds, peak memory and growth of one line of many parts, each twice as many as before, up to about
# 1 MiB: a catalogue of kinds, and of one kind with attributes in falling order, both of which are refused; a template
# with a list whose items are each sought among as many allowed values; one whose thousand resources, every second of
# them absent, name each other; and one whose last resource reads the facts of the others. Then of one function as
# the one property of a resource, and as the one condition of a template, from the template's text on: two lists joined
# without repeats, the one filtered by the other, maps merged and keys renamed in falling order, and keys with a common
# beginning of 48 bytes replaced in a text by str_replace, str_replace_strict and one choice of a repeat. The growth is
# that of a doubling, in the mean of the four. The least of three runs is taken, net of one with a single part. It judges nothing.
set -e
cd "$(dirname "$0")/../crates/bench_engine"
rt run -- lines types 1 >/dev/null 2>&1
python3 - out/bench_engine <<'END'
import os, subprocess, sys

LINES = {"types": 86_000, "attributes": 113_000, "allowed": 64_000, "references": 36_000, "facts": 36_000}
CALLS = {
    "unique": 86_000, "filter": 86_000, "merge": 79_000, "rename": 35_000, "replace": 6_400, "strict": 6_400,
    "fill": 6_300,
}

def once(words):
    command = ["/usr/bin/time", "-f", "%M", sys.argv[1], *words]
    child = subprocess.Popen(command, stdout=subprocess.PIPE, stderr=subprocess.PIPE)
    text, peak = (stream.read().decode().strip() for stream in (child.stdout, child.stderr))
    _, status, used = os.wait4(child.pid, 0)
    assert status == 0, (words, peak)
    return used.ru_utime + used.ru_stime, int(peak) / 1024, text

def measure(*words):
    runs = [once(words) for _ in range(3)]
    return min(run[0] for run in runs), min(run[1] for run in runs), runs[0][2]

def double(most, *words):
    nothing, first = measure(*words, "1")[0], 0
    for many in (most // 16, most // 8, most // 4, most // 2, most):
        seconds, peak, text = measure(*words, str(many))
        net = max(seconds - nothing, 0.001)
        first = first or net
        growth = f"{(net / first) ** 0.25:6.2f}" if many == most else "     -"
        print(f"{' '.join(words):25}  {many:7}  {net:7.3f}  {growth}  {peak:8.1f}  {text}")

print(f"{'what':25}     many  seconds  growth  peak MiB  what came out")
for part, most in LINES.items():
    double(most, "lines", part)
for place in ("property", "condition"):
    for call, most in CALLS.items():
        double(most, "values", place, call)
END
