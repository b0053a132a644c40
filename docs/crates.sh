#!/usr/bin/env bash
# Prints the table of crates of docs/ARCHITECTURE.md: the layers are the headings of crates.txt, the crates
# stand as there, and each has the first sentence behind the title of its README, a link in it as its words.
# Use: docs/crates.sh [--compare | --write]. With --compare it tells where the page has another table between
# its two marks, and ends with 1; with --write it puts this one there.
cd "$(dirname "$0")/.." || exit 1
page=docs/ARCHITECTURE.md
begins='<!-- docs/crates.sh writes this table -->'
ends='<!-- the table ends -->'

# the first sentence of a crate's README, without its full stop and its links
sentence() {
  awk 'NR > 1 && NF { text = text (text == "" ? "" : " ") $0 }
    text != "" && !NF { exit }
    END { sub(/\.( .*)?$/, "", text); print text }' "crates/$1/README.md" |
    sed -E 's/\[([^]]*)\]\([^)]*\)/\1/g'
}

table() {
  local line name says heading=
  printf '| crate | what it is |\n|---|---|\n'
  while IFS= read -r line; do
    case $line in
      '# '*) heading=${line#\# } ;;
      *:*)
        name=${line%%[: ]*}
        says=$(sentence "$name")
        if [ -z "$says" ]; then
          echo "docs/crates.sh: crates/$name/README.md has no first sentence" >&2
          return 1
        fi
        [ -z "$heading" ] || echo "| **$heading** | |"
        heading=
        echo "| $name | $says |"
        ;;
    esac
  done <crates.txt
}

# the page with the table between its marks
page_with() {
  awk -v begins="$begins" -v ends="$ends" '
    $0 == ends { inside = 0 }
    !inside { print }
    $0 == begins { inside = 1; while ((getline line < "/dev/stdin") > 0) print line }' "$page" <<<"$1"
}

wanted=$(table) || exit 1
if [ -n "$1" ] && ! { grep -qxF -e "$begins" "$page" && grep -qxF -e "$ends" "$page"; }; then
  echo "docs/crates.sh: $page lacks a mark of the table" >&2
  exit 1
fi
case $1 in
  --compare)
    if ! diff "$page" <(page_with "$wanted"); then
      echo "docs/crates.sh: $page has another table; docs/crates.sh --write puts this one there" >&2
      exit 1
    fi
    ;;
  --write)
    written=$(page_with "$wanted") && echo "$written" >"$page"
    ;;
  *) echo "$wanted" ;;
esac
