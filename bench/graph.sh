#!/bin/sh
# Prints processor seconds and peak memory of `order` and `build` for 250, 500 and 1,000 nodes or
# items of ten edges or needs each, and as many rows; then of the graph of a thousand items with 190,209
# needs, as many as a template of 1 MiB can name, in three orders, of new items (needs), of such as have rows
# (again) and of the rows alone (gone); then of the search for the least node on a loop, in chains of 10,000,
# 100,000 and 1,000,000 nodes that begin with a loop. It judges nothing.
set -e
cd "$(dirname "$0")/../crates/bench_core"
rt run -- graph build 1 >/dev/null 2>&1
for what in order build; do
  for count in 250 500 1000; do
    /usr/bin/time -f "$what $count: %U s user, %S s system, %M KB" out/bench_core graph "$what" "$count"
  done
done
for what in needs again gone; do
  for shape in rising falling mixed; do
    /usr/bin/time -f "$what $shape: %U s user, %S s system, %M KB" out/bench_core graph "$what" "$shape"
  done
done
for count in 10000 100000 1000000; do
  /usr/bin/time -f "loops $count: %U s user, %S s system, %M KB" out/bench_core graph loops "$count"
done
