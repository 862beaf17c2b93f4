#!/usr/bin/env bash
# Times the kernels of tiles and the reading of a matrix beside C++, and prints ratios. Usage: bench/paths.sh [ROUNDS]
set -eu
cd "$(dirname "$0")/.."
(cd crates/bench_paths && ${RT:-rt} lib >out.log 2>&1) || { cat crates/bench_paths/out.log; exit 1; }
rm crates/bench_paths/out.log
mkdir -p bench/out
kit=$(dirname "$(dirname "$(readlink -f "$(command -v rt)")")")
g++ -std=c++20 -O3 -march=x86-64-v2 -Wall -Wextra -o bench/out/paths bench/paths.cpp \
  crates/bench_paths/out/libbench_paths.a "$kit"/c/liblibc_c.a
bench/out/paths "${1:-41}"
