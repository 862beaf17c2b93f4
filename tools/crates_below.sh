#!/usr/bin/env bash
# Prints a crate and those of the repository that it stands on, each behind all that it stands on.
# Usage: tools/crates_below.sh NAME
set -u
cd "$(dirname "${BASH_SOURCE[0]}")/.." || exit 1
awk -F: -v top="$1" '
  $0 !~ /^#/ { split($1, name, " "); below[name[1]] = $2 }
  function visit(crate, dep, count, i) {
    if (!(crate in below) || seen[crate]++) return
    count = split(below[crate], dep, " ")
    for (i = 1; i <= count; i++) visit(dep[i])
    print crate
  }
  END { visit(top) }' crates.txt
