#!/usr/bin/env bash
# Compares what the README shows under each of its lines '$ ./run ..' with what the program writes.
# The program is built once, unproved: the gate proves it.
set -u
cd "$(dirname "${BASH_SOURCE[0]}")/.." || exit 1
cases=$(mktemp -d) || exit 1
trap 'rm -rf "$cases"' EXIT

name=
count=0
while IFS= read -r line; do
  case $line in
  '$ ./run '*)
    read -ra words <<<"${line#'$ ./run '}"
    count=$((count + 1))
    name=$cases/example$count.json
    if [ "${words[0]}" = drill ]; then
      : >"$name"
    else
      cp "${words[-1]}" "$name" || exit 1
      unset 'words[-1]'
    fi
    [ ${#words[@]} -gt 0 ] || words=(run)
    printf '%s\n' "${words[@]}" >"$name.args"
    : >"$name.stdout"
    ;;
  '```'* | '$ '*) name= ;;
  *) [ -z "$name" ] || printf '%s\n' "$line" >>"$name.stdout" ;;
  esac
done <README.md

if [ "$count" -eq 0 ]; then
  echo "README.md shows no example"
  exit 1
fi
cd crates/sorachaise && rt try --cases "$cases"
