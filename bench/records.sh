#!/usr/bin/env bash
# A report of 1,000,000 records: sorted and written by this repository, beside std::sort with the same
# key and one buffer. Both write the same text, which is compared by its length and a sum.
#
#     bench/records.sh [COUNT [TURNS]]     the median ratio of the turns, each the least of three rounds
set -euo pipefail
cd "$(dirname "$0")/.."
count=${1:-1000000} turns=${2:-7}
work=$(mktemp -d)
trap 'rm -rf "$work"' EXIT
"${CXX:-clang++}" -O2 -std=c++17 -o "$work/peer" bench/records.cpp
(cd crates/bench_records && rt run -- 100 1 >"$work/build" 2>&1) || { cat "$work/build"; exit 1; }
for ((turn = 0; turn < turns; turn++)); do
    crates/bench_records/out/bench_records "$count" 3 >"$work/ours" 2>"$work/ours.ms"
    "$work/peer" "$count" 3 >"$work/theirs" 2>"$work/theirs.ms"
    cmp "$work/ours" "$work/theirs"
    echo "$(tail -n 1 "$work/ours.ms") $(tail -n 1 "$work/theirs.ms")"
done | tee "$work/times" | awk '{ printf "ours %d ms, std::sort %d ms\n", $1, $2 }'
awk '{ print $1 / ($2 > 0 ? $2 : 1) }' "$work/times" | sort -n |
    awk '{ r[NR] = $1 } END { printf "median ratio %.2f\n", r[int((NR + 1) / 2)] }'
