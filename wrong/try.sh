#!/usr/bin/env bash
# Tries the wrong bodies of these crates: the edits of wrong/NAME are put into crates/NAME/must-fail of a copy of
# these crates and of all below them, with their out/, in place of those there, and `rt must-fail` says of each
# whether it is refused. The copy is removed at the end, also of a run that is broken off.
# Use: wrong/try.sh NAME... It ends with 0 where each edit was refused, and else with 1.
cd "$(dirname "$0")/.." || exit 1
if [ $# -eq 0 ]; then
  echo "use: wrong/try.sh NAME..." >&2
  exit 1
fi
for name in "$@"; do
  if [ ! -d "crates/$name" ] || ! compgen -G "wrong/$name/*.edit" >/dev/null; then
    echo "wrong/try.sh: there is no crate $name with edits in wrong/$name" >&2
    exit 1
  fi
done
copy=$(mktemp -d) || exit 1
child=
trap '[ -z "$child" ] || kill "$child" 2>/dev/null; wait; rm -rf "$copy"' EXIT
trap 'exit 1' HUP INT TERM

# what is started waits in the background, so that a signal is heard at once
run() {
  "$@" &
  child=$!
  wait "$child"
  local status=$?
  child=
  return "$status"
}

# the lines of crates.txt of these crates and of all below them
lines_of() {
  awk -v names="$*" '
    function take(text, all, i) {
      split(text, all, " ")
      for (i in all)
        if (all[i] in line && !(all[i] in taken)) {
          taken[all[i]]
          take(below[all[i]])
          print line[all[i]]
        }
    }
    /^[^#].*:/ { split($0, sides, ":"); split(sides[1], said, " "); line[said[1]] = $0; below[said[1]] = sides[2] }
    END { take(names) }' crates.txt
}

lines_of "$@" >"$copy/crates.txt" && cp HANDLES "$copy" && mkdir "$copy/crates" || exit 1
mapfile -t names < <(sed 's/[: ].*//' "$copy/crates.txt")
run cp -a --reflink=auto "${names[@]/#/crates/}" "$copy/crates" || exit 1
for name in "$@"; do
  rm -rf "$copy/crates/$name/must-fail"
  cp -r "wrong/$name" "$copy/crates/$name/must-fail" || exit 1
done
cd "$copy" || exit 1
run rt must-fail "$@"
