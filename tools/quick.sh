#!/usr/bin/env bash
# The tests of all crates that have some, and the repository's own checks, with no proof: ./test --quick.
# A test stops at an index out of bounds, an overflow or a failed unwrap; no contract is checked.
set -u
cd "$(dirname "${BASH_SOURCE[0]}")/.." || exit 1
passed=0
failed=0

# Counts a command that is named.
try() {
  local name=$1
  shift
  echo "== $name"
  if "$@"; then
    passed=$((passed + 1))
  else
    failed=$((failed + 1))
    echo "./test --quick: $name failed"
  fi
}

tests_of() (
  cd "$1" && rt try --test --seconds 600
)

echo "./test --quick: some minutes; nothing is proved" >&2
for crate in crates/*/; do
  grep -rqE '^ *#\[test\]' "$crate/src" || continue
  try "the tests of $(basename "$crate")" tests_of "$crate"
done
try tools/hygiene.sh tools/hygiene.sh
try tools/examples.sh tools/examples.sh
echo "./test --quick: $passed passed, $failed failed; nothing was proved"
[ "$failed" -eq 0 ]
