#!/usr/bin/env bash
# Runs each test of these crates, as `rt test` built it, once for each allocation that it makes, with that one
# refused, and prints the first at which the test doesn't pass. Of a test with more than MOST allocations so
# many are refused, evenly spread. Where there is no C compiler or no python3 nothing is run, and it ends with 0.
# Use: MOST=n .ci/allocations.sh CRATE... It ends with 1 where a test didn't pass, or a crate has no tests or its
# tests weren't built, and else with 0.
cd "$(dirname "$0")/.." || exit 1
folder=$(mktemp -d) || exit 1
trap 'rm -rf "$folder"' EXIT
command -v cc >/dev/null && command -v python3 >/dev/null || exit 0
cc -O2 -shared -fPIC -o "$folder/refuse.so" .ci/refuse.c || exit 0
python3 - "$folder" "${MOST:-1000}" "$@" <<'END'
import os, subprocess, sys
from concurrent.futures import ThreadPoolExecutor

folder, most, crates = sys.argv[1], int(sys.argv[2]), sys.argv[3:]

def run(program, test, refused):
    counted = f"{folder}/{refused}"
    settings = {**os.environ, "LD_PRELOAD": f"{folder}/refuse.so", "REFUSED": str(refused), "COUNTED": counted}
    home = f"{folder}/run{refused}"
    os.makedirs(home, exist_ok=True)
    ran = subprocess.run([program, test], env=settings, cwd=home, capture_output=True, text=True)
    count = 0
    if os.path.exists(counted):
        with open(counted) as file:
            count = int(file.read().split()[-1])
        os.remove(counted)
    return ran.returncode == 0, count, ran.stdout + ran.stderr

is_well = True
for crate in crates:
    program = os.path.abspath(f"crates/{crate}/out/{crate}_tests")
    if not os.path.exists(program):
        print(f"{crate}: no tests stand in crates/{crate}/out")
        is_well = False
        continue
    listed = subprocess.run([program, "--list"], capture_output=True, text=True).stdout
    tests = [line.split(": ")[0] for line in listed.splitlines() if line.endswith(": test")]
    if not tests:
        print(f"{crate}: its test program lists no tests")
        is_well = False
    for test in tests:
        count = run(program, test, 0)[1]
        step = max(1, -(-count // most))
        places = range(1, count + 1, step)
        with ThreadPoolExecutor(os.cpu_count()) as pool:
            ran = pool.map(lambda place: (place, *run(program, test, place)), places)
            wrong = next(((place, text) for place, passed, _, text in ran if not passed), None)
        print(f"{crate} {test}: {len(places)} of {count} allocations refused, " + ("passed" if not wrong else f"wrong at {wrong[0]}"))
        if wrong:
            print(wrong[1], end="")
            is_well = False
sys.exit(0 if is_well else 1)
END
