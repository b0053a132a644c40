#!/bin/sh
# Prints processor seconds, growth and peak memory of the life of one stack: a create, an update that changes
# nothing, one that changes a third in place and replaces a seventh, and a delete, each run to its end. The
# resources stand in a chain, in a fan (one needs all others) or in a binary tree; a tree also under 64
# engines. Then of the create of a tree of 125, 250, 500 and 1,000 whose failures are to be rolled back, beside the same
# without. It judges nothing. python3 makes the scripts.
# Use: bench/life.sh [RESOURCES], a quarter of them first; 200 where nothing is said.
set -e
cd "$(dirname "$0")/../crates/heat_converge"
rt run -- drive </dev/null >/dev/null 2>&1
python3 - out/heat_converge "${1:-200}" <<'END'
import json, subprocess, sys

NEEDS = {
    "chain": lambda i, count: [i - 1] if i else [],
    "fan": lambda i, count: range(count - 1) if i == count - 1 else [],
    "tree": lambda i, count: [(i - 1) // 2] if i else [],
}

def template(shape, count, is_changed, rolls_back=False):
    resources = {}
    for i in range(count):
        zone = "b" if is_changed and i % 7 == 0 else "a"
        size = 2 if is_changed and i % 3 == 0 else 1
        needs = [f"r{n:04}" for n in NEEDS[shape](i, count)]
        resources[f"r{i:04}"] = {"type": "Test::Box", "properties": {"size": size, "zone": zone}, "depends_on": needs}
    asked = {"template": {"heat_template_version": "2018-08-31", "resources": resources}}
    return json.dumps({**asked, "disable_rollback": not rolls_back})

def life(shape, count):
    first, other = template(shape, count, False), template(shape, count, True)
    return f"create s {first}\nrun\nupdate s {first}\nrun\nupdate s {other}\nrun\ndelete s\nrun\n"

def measure(text, workers):
    command = ["/usr/bin/time", "-f", "%U %S %M", sys.argv[1], "drive", f"--workers={workers}"]
    ran = subprocess.run(command, input=text.encode(), capture_output=True)
    user, system, peak = ran.stderr.decode().split()[-3:]
    turns = sum(int(line.split()[1]) for line in ran.stdout.decode().splitlines() if line.startswith("idle "))
    return float(user) + float(system), int(peak) / 1024, turns

print("shape  engines  resources  seconds  growth  peak MiB  turns")
most = int(sys.argv[2])
for shape, workers in (("chain", 1), ("fan", 1), ("tree", 1), ("tree", 64)):
    before = 0
    for count in (most // 4, most):
        seconds, peak, turns = measure(life(shape, count), workers)
        growth = f"{seconds / before:6.1f}" if before else "     -"
        print(f"{shape:5}  {workers:7}  {count:9}  {seconds:7.2f}  {growth}  {peak:8.1f}  {turns:5}")
        before = seconds

print("rollback  resources  seconds  growth  without  peak MiB")
before = 0
for count in (125, 250, 500, 1000):
    off, _, _ = measure(f"create s {template('tree', count, False)}\nrun\n", 1)
    seconds, peak, _ = measure(f"create s {template('tree', count, False, True)}\nrun\n", 1)
    growth = f"{seconds / before:6.1f}" if before else "     -"
    print(f"tree      {count:9}  {seconds:7.2f}  {growth}  {off:7.2f}  {peak:8.1f}")
    before = seconds
END
