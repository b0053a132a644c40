#!/bin/sh
# Prints processor seconds and peak memory of a template of 1 MiB with 1,000 resources that need one another, 10,000
# functions, 100 parameters and 50 conditions: its text made, then read as a value, then taken as a template, then its
# parameters bound, then its plan made; each word does what the one before it does, and one thing more. Then the same of
# the plan of a template of 10,000 and of 30,000 conditions, each naming the one before it; and of one of 2,500, of 5,000 and
# of 10,000 conditions, each reading the one behind it by a name that a repeat makes, with one that reads them all so. It
# judges nothing.
set -e
cd "$(dirname "$0")/../crates/bench_engine"
rt run -- templates bind 1 >/dev/null 2>&1
for what in text value template bind admit; do
  printf '%s: ' "$what"
  /usr/bin/time -f "%U s user, %S s system, %M KB" out/bench_engine templates "$what" 1000 2>&1 | paste -s -d' '
done
for many in 10000 30000; do
  printf 'chain of %s: ' "$many"
  /usr/bin/time -f "%U s user, %S s system, %M KB" out/bench_engine templates chain "$many" 2>&1 | paste -s -d' '
done
for many in 2500 5000 10000; do
  printf 'made chain of %s: ' "$many"
  /usr/bin/time -f "%U s user, %S s system, %M KB" out/bench_engine templates made "$many" 2>&1 | paste -s -d' '
done
