#!/usr/bin/env bash
# Steps of one seat of the shared table, over and over on one word, beside the same atomic operations in C++.
#
#     bench/steps.sh [COUNT [TURNS]]     the median ratios of the turns, and the least nanoseconds a step
set -euo pipefail
cd "$(dirname "$0")/.."
count=${1:-1000000} turns=${2:-21}
work=$(mktemp -d)
trap 'rm -rf "$work"' EXIT
"${CXX:-g++}" -O3 -march=x86-64-v2 -std=c++20 -Wall -Wextra -o "$work/peer" bench/steps.cpp
(cd crates/bench_steps && rt run -- 1000 >"$work/build" 2>&1) || { cat "$work/build"; exit 1; }
for ((turn = 0; turn < turns; turn++)); do
    crates/bench_steps/out/bench_steps "$count" 2>"$work/ours" >"$work/said"
    "$work/peer" "$count" >"$work/theirs"
    echo "$(tail -n 1 "$work/ours") $(cat "$work/theirs")"
done >"$work/times"
column=1
for kind in claim take load turn; do
    awk -v at="$column" -v count="$count" '{ print $at / $(at + 4), $at / count, $(at + 4) / count }' "$work/times" | sort -n |
        awk -v kind="$kind" '{ r[NR] = $1; if (NR == 1 || $2 < ours) ours = $2; if (NR == 1 || $3 < theirs) theirs = $3 }
            END { printf "%s: median ratio %.2f, least %.1f ns and %.1f ns\n", kind, r[int((NR + 1) / 2)], ours, theirs }'
    column=$((column + 1))
done
