#!/bin/sh
# Prints processor seconds of a round of writing and of reading all lists of changes of the life of one stack, whose
# resources stand in a tree or in a fan (one needs all others), with the bytes a second; of a round of replaying an image,
# a row of some 300 bytes in each record but the first, beyond that of reading it; and of a round of looking whether the state
# of such an image is tied. The growth is the power of the count, that of the bytes for a fan, from the count before. A round
# is a tenth of what ten rounds take, net of none; the least of five runs is taken. It judges nothing.
set -e
cd "$(dirname "$0")/../crates/bench_engine"
rt run -- records read tree 1 1 >/dev/null 2>&1
python3 - out/bench_engine <<'END'
import math, os, subprocess, sys

ROUNDS = 10

def once(words):
    child = subprocess.Popen([sys.argv[1], "records", *words], stdout=subprocess.PIPE)
    text = child.stdout.read().decode().strip()
    _, status, used = os.wait4(child.pid, 0)
    assert status == 0, words
    return used.ru_utime + used.ru_stime, text

def least(*words):
    runs = [once(words) for _ in range(5)]
    return min(run[0] for run in runs), runs[0][1].split()

def round_of(work, of, count):
    before, _ = least(work, of, str(count), "0")
    behind, words = least(work, of, str(count), str(ROUNDS))
    return max((behind - before) / ROUNDS, 1e-5), int(words[0]), int(words[2])

def seconds_of(work, of, count):
    seconds, lists, size = round_of(work, of, count)
    if work == "replay":
        seconds = max(seconds - round_of("read", of, count)[0], 1e-5)
    return seconds, lists, size

def lines(work, of, counts):
    before = None
    for count in counts:
        seconds, lists, size = seconds_of(work, of, count)
        base = size if of == "fan" else count
        growth = f"{math.log(seconds / before[0]) / math.log(base / before[1]):6.2f}" if before else "     -"
        print(f"{work:6}  {of:5}  {count:6}  {lists:6}  {size:9}  {seconds:8.4f}  {growth}  {size / seconds / 1e6:8.1f}")
        before = seconds, base

print("work    of      count   lists      bytes   seconds  growth  MB a second")
for work in ("write", "read"):
    lines(work, "tree", (125, 250, 500, 1000))
    lines(work, "fan", (125, 250, 500, 1000))
lines("replay", "image", (1250, 2500, 5000, 10000))
lines("tie", "image", (500, 1000, 2000, 4000))
END
