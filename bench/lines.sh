#!/bin/sh
# Prints processor seconds and peak memory of driving 10,000 lines, half of them blank and half refused, of
# a stack of 1,000 resources with and without 5,000 blank lines behind it, or 10,000 and 100,000 lines of
# which half are `status` and half are refused, and of examples/one_resource.script. It judges nothing.
# python3 makes the lines.
set -e
cd "$(dirname "$0")/../crates/heat_converge"
rt run -- drive </dev/null >/dev/null 2>&1
python3 - out/heat_converge ../../examples/one_resource.script <<'END'
import json, subprocess, sys

def stack(count):
    resources = {f"r{i:04}": {"type": "Test::Box"} for i in range(count)}
    template = {"heat_template_version": "2018-08-31", "resources": resources}
    return b"create s " + json.dumps({"template": template}).encode() + b"\nrun\n"

def measure(name, text):
    command = ["/usr/bin/time", "-f", "%U %S %M", sys.argv[1], "drive"]
    ran = subprocess.run(command, input=text, capture_output=True)
    user, system, peak = ran.stderr.decode().split()[-3:]
    seconds, lines = float(user) + float(system), ran.stdout.count(b"\n")
    print(f"{name:32}  {seconds:7.2f}  {int(peak) / 1024:8.1f}  {lines:13}")

print(f"{'script':32}  seconds  peak MiB  lines of text")
measure("10,000 lines, blank and refused", b"\nbogus\n" * 5000)
measure("1,000 resources", stack(1000))
measure("the same and 5,000 blank lines", stack(1000) + b"\n" * 5000)
for count in (10_000, 100_000):
    measure(f"the same and {count:,} lines", stack(1000) + b"status s\nbogus\n" * (count // 2))
measure("one_resource", open(sys.argv[2], "rb").read())
END
