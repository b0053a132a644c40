#!/bin/sh
# Measures the text functions on large inputs: processor time, and peak memory above an empty run.
# It prints figures and judges nothing. Run it at the top of the repository, with rt on the path.
set -eu

top=$(cd "$(dirname "$0")/.." && pwd)
cd "$top/crates/bench_engine"
rt run -- strings empty 0 >/dev/null
run=$PWD/out/bench_engine

# one run: seconds of processor time and peak memory in KB, behind what it printed
measured() {
    if [ -x /usr/bin/time ]; then
        printed=$(/usr/bin/time -o "$figures" -f '%U %S %M' "$run" strings "$@")
        awk -v printed="$printed" '{ printf "%s %.2f %d\n", printed, $1 + $2, $3 }' "$figures"
    else
        # what Python itself takes hides a smaller peak
        python3 - "$run" strings "$@" <<'PYTHON'
import resource, subprocess, sys
printed = subprocess.run(sys.argv[1:], capture_output=True, text=True, check=True).stdout.strip()
used = resource.getrusage(resource.RUSAGE_CHILDREN)
print("%s %.2f %d" % (printed, used.ru_utime + used.ru_stime, used.ru_maxrss))
PYTHON
    fi
}

figures=$(mktemp)
trap 'rm -f "$figures"' EXIT
set -- $(measured empty 0)
empty=$3
for work in replace:1000000 keys:500000 split:500000 sha512:1000000; do
    name=${work%:*}
    bytes=${work#*:}
    set -- $(measured "$name" "$bytes")
    above=$((($3 - empty) * 1024))
    tenths=$((above * 10 / bytes))
    echo "$name of $bytes bytes: $2 s, $above bytes above the empty run, $((tenths / 10)).$((tenths % 10)) times the input, count $1"
done
