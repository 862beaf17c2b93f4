#!/usr/bin/env bash
# Rules that no proof keeps: the handles' line, sizes of files and folders, pages, and that the repository stands alone.
set -u
cd "$(dirname "${BASH_SOURCE[0]}")/.." || exit 1
failed=0

# Prints what is wrong, if anything is, with its lines.
expect_none() {
  [ -z "$2" ] && return
  printf '%s\n%s\n' "$1" "$2"
  failed=1
}

[ "$(cat HANDLES)" = "Handles allowed: Threads, Wait." ] || expect_none "HANDLES is not its one line:" "$(cat HANDLES)"

long=$(find crates -path '*/out' -prune -o \( -name '*.rt' -o -name '*.antt' \) -print0 | xargs -0 wc -l | awk '$2 != "total" && $1 > 800')
expect_none "Files above 800 lines:" "$long"

full=$(git ls-files 'crates/*/proofs/*' | sed 's|/[^/]*$||' | sort | uniq -c | awk '$1 > 40')
expect_none "Folders of proofs with more than 40 files:" "$full"

bare=$(for crate in crates/*/; do [ -s "${crate}README.md" ] || echo "$crate"; done)
expect_none "Crates without a page, README.md:" "$bare"

expect_none "Pages:" "$(tools/pages.py 2>&1)"

cites=$(git grep -nIE '(^|[^A-Za-z0-9_])(R[0-9]{1,2}|T[1-5]\.[0-9]|D[0-9]{1,2}|W[0-9]{1,2}|K[0-9]{1,2}|[Dd]ocument 0[1-4]|0[1-4]-(scope|theorems|requests|formats))($|[^A-Za-z0-9_])' -- '*.md' '*.rt' '*.antt' '*.edit' '*.sh' '*.cpp' '*.py' '*.txt' run test .ci/run)
expect_none "Lines that cite a paper by number:" "$cites"

paths=$(git grep -nIE '(^|[^A-Za-z0-9._])/(opt|work|farm|root|home|tmp)/[A-Za-z]')
expect_none "Lines that name a path of one machine:" "$paths"

made=$(git ls-files | grep -E '(^|/)out/|\.log$')
expect_none "Files that were made are committed:" "$made"

exit "$failed"
