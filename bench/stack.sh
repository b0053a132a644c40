#!/bin/sh
# Prints processor seconds and peak memory of a create, from its line's bytes to idle engines: a template of
# 1,000 resources with 10,000 functions, or a quarter of both first. Each resource reads the address and the name
# of one before it, and parameters; a quarter have a condition. It judges nothing. python3 makes the script.
# Use: bench/stack.sh [RESOURCES]; 1,000 where nothing is said.
set -e
cd "$(dirname "$0")/../crates/heat_converge"
rt run -- drive </dev/null >/dev/null 2>&1
python3 - out/heat_converge "${1:-1000}" <<'END'
import json, subprocess, sys

def properties(i):
    before = f"r{(i - 1) // 2:04}"
    name = {"get_param": "name"}
    labels = [{"str_replace": {"template": "N-at-A", "params": {"N": name, "A": str(k)}}} for k in range(3)]
    link = [{"get_resource": before}, {"get_attr": [before, "addr"]}] if i else [name, name]
    return {"size": {"if": ["is_large", 2, 1]}, "zone": {"get_param": "zone"}, "link": link + labels}

def template(count):
    resources = {f"r{i:04}": {"type": "Test::Box", "properties": properties(i)} for i in range(count)}
    for i in range(count // 2, count, 2):
        resources[f"r{i:04}"]["condition"] = "is_wanted"
    return {
        "heat_template_version": "2018-08-31",
        "parameters": {"name": {"type": "string", "default": "web"}, "zone": {"type": "string", "default": "a"}},
        "conditions": {"is_large": {"equals": [{"get_param": "zone"}, "b"]}, "is_wanted": {"not": "is_large"}},
        "resources": resources,
        "outputs": {"last": {"value": {"get_attr": [f"r{count - 1:04}", "link"]}}},
    }

CALLS = ("if", "get_param", "get_attr", "get_resource", "str_replace", "equals", "not")

def calls(value):
    inner = value.values() if isinstance(value, dict) else value if isinstance(value, list) else []
    is_call = isinstance(value, dict) and len(value) == 1 and next(iter(value)) in CALLS
    return is_call + sum(calls(it) for it in inner)

print("resources  functions  bytes    seconds  peak MiB  last line")
most = int(sys.argv[2])
for count in (most // 4, most):
    made = template(count)
    script = f"create s {json.dumps({'template': made}, separators=(',', ':'))}\nrun\n"
    command = ["/usr/bin/time", "-f", "%U %S %M", sys.argv[1], "drive"]
    ran = subprocess.run(command, input=script.encode(), capture_output=True)
    user, system, peak = ran.stderr.decode().split()[-3:]
    last = ran.stdout.decode().splitlines()[-1]
    print(f"{count:9}  {calls(made):9}  {len(script):7}  {float(user) + float(system):7.2f}  {int(peak) / 1024:8.1f}  {last}")
END
