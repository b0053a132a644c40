#!/bin/sh
# Prints processor seconds, peak memory and growth of driving a script that creates, runs and lists one
# stack of 125, 250, 500 and 1,000 resources; then of a script that creates one of 1,000 resources with 190,209
# needs, as many as a line of 1 MiB can name, and of one that runs it too, which takes a quarter of a minute, since the end
# of each node looks through all edges for each node behind it. It judges nothing. python3 makes the scripts.
set -e
cd "$(dirname "$0")/../crates/heat_converge"
rt run -- drive </dev/null >/dev/null 2>&1
python3 - out/heat_converge <<'END'
import json, string, subprocess, sys

def script(count):
    box = {"type": "Test::Box", "properties": {"size": 1}}
    resources = {f"r{i:04}": box for i in range(count)}
    template = {"heat_template_version": "2018-08-31", "resources": resources}
    return "create s " + json.dumps({"template": template}) + "\nrun\nresources s\n"

def needing():
    names = sorted(a + b for a in string.ascii_lowercase for b in string.ascii_letters)[:1000]
    resources = {name: {"type": "Test::Box", "depends_on": names[max(0, i - 213):i]}
                 for i, name in enumerate(names)}
    template = {"heat_template_version": "2018-08-31", "resources": resources}
    return "create s " + json.dumps({"template": template}, separators=(",", ":")) + "\n"

def measure(text):
    command = ["/usr/bin/time", "-f", "%U %S %M", sys.argv[1], "drive"]
    ran = subprocess.run(command, input=text.encode(), capture_output=True)
    user, system, peak = ran.stderr.decode().split()[-3:]
    return float(user) + float(system), int(peak) / 1024, ran.stdout.count(b"\n")

print("resources  seconds  growth  peak MiB  lines of text")
before = 0
for count in (125, 250, 500, 1000):
    seconds, peak, lines = measure(script(count))
    growth = f"{seconds / before:6.1f}" if before else "     -"
    print(f"{count:9}  {seconds:7.2f}  {growth}  {peak:8.1f}  {lines:13}")
    before = seconds
for what, script in (("created alone", needing()), ("created and run", needing() + "run\n")):
    seconds, peak, lines = measure(script)
    print(f"190,209 needs, {what}: {seconds:.2f} seconds, {peak:.1f} MiB, {lines} lines of text")
END
