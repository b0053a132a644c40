#!/usr/bin/env bash
# Runs each scenario of this folder by a built program, and prints the first line in which one differs.
# Use: examples/compare.sh PROGRAM. It ends with 1 where a scenario differs, and else with 0.
#
# A scenario NAME is a script, NAME.script, and the whole output, NAME.out. Where they aren't `drive`, nothing
# and 0, NAME.words has the words, one a line, NAME.err what stands on standard error, and NAME.status the
# status. NAME.cloud is the file cloud.json of the folder that the program runs in, and NAME.back what that
# file is once the program has ended. Each is compared byte for byte.

scenarios=$(cd "$(dirname "$0")" && pwd) || exit 1
program=$(cd "$(dirname "$1")" && pwd)/$(basename "$1") || exit 1
folder=$(mktemp -d) || exit 1
trap 'rm -rf "$folder"' EXIT

# the first line in which what came differs from what was wanted
tell_difference() {
  local name=$1 wanted=$2 came=$3 number=0 want have left right
  if [ ! -e "$came" ]; then
    echo "$name: no such file"
    return
  fi
  ! cmp -s "$wanted" "$came" || return
  exec 3<"$wanted" 4<"$came"
  while true; do
    number=$((number + 1))
    want= have= left=yes right=yes
    IFS= read -r want <&3 || [ -n "$want" ] || left=
    IFS= read -r have <&4 || [ -n "$have" ] || right=
    if [ "$left" != "$right" ] || [ "$want" != "$have" ]; then
      echo "$name: line $number"
      [ -n "$left" ] && echo "  wanted: $want" || echo "  wanted: the end"
      [ -n "$right" ] && echo "  came:   $have" || echo "  came:   the end"
      break
    fi
    if [ -z "$left" ]; then
      echo "$name: no line, but the LF at the end or a NUL"
      break
    fi
  done
  exec 3<&- 4<&-
}

# whether a scenario comes out as it is written
compare() {
  local name=$1 words=(drive) wanted_status=0 status
  rm -rf "${folder:?}/run"
  mkdir "$folder/run"
  : >"$folder/none"
  [ ! -e "$name.words" ] || mapfile -t words <"$name.words"
  [ ! -e "$name.status" ] || read -r wanted_status <"$name.status"
  [ ! -e "$name.cloud" ] || cp "$name.cloud" "$folder/run/cloud.json"
  local wanted_err=$folder/none
  [ ! -e "$name.err" ] || wanted_err=$name.err
  (cd "$folder/run" && exec "$program" "${words[@]}") <"$name.script" >"$folder/out" 2>"$folder/err"
  status=$?
  tell_difference "$(basename "$name")" "$name.out" "$folder/out"
  tell_difference "$(basename "$name"), on standard error" "$wanted_err" "$folder/err"
  [ ! -e "$name.back" ] || tell_difference "$(basename "$name"), cloud.json" "$name.back" "$folder/run/cloud.json"
  [ "$status" = "$wanted_status" ] || echo "$(basename "$name"): status $status in place of $wanted_status"
}

count=0
for script in "$scenarios"/*.script; do
  compare "${script%.script}" >>"$folder/told"
  count=$((count + 1))
done
if [ -s "$folder/told" ]; then
  cat "$folder/told"
  exit 1
fi
echo "examples: $count scenarios are as written"
