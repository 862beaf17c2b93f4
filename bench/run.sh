#!/usr/bin/env bash
# Times `run --workers 1`, `check` and `print` on 16,384 tasks with 40 inputs each, whose keys are 1 to 16,384 or drawn
# from 63 bits, beside a plain Rust program over serde_json that does what `run` does, and prints ratios of processor
# time. Usage: bench/run.sh [ROUNDS]; with PROGRAM set, that program is timed and none is built.
set -euo pipefail
cd "$(dirname "$0")/.."
rounds=${1:-15}
work=$(mktemp -d)
trap 'rm -rf "$work"' EXIT

# Debian's crates serve where there are some (package librust-serde-json-dev).
debian=/usr/share/cargo/registry
config=()
if [ -d "$debian" ]; then
  config=(--config 'source.crates-io.replace-with="debian"' --config "source.debian.directory=\"$debian\"" --offline)
fi
(cd bench/serde_peer && cargo "${config[@]}" build -q --release --target-dir ../out/serde_peer)
peer=bench/out/serde_peer/release/serde_peer

ours=${PROGRAM:-crates/sorachaise/out/sorachaise}
if [ -z "${PROGRAM:-}" ]; then
  (cd crates/sorachaise && ${RT:-rt} run -- run <stdin >"$work/build" 2>&1) || { cat "$work/build"; exit 1; }
fi

# The graph file. Its argument is 1 where keys are drawn.
graph() {
  awk -v drawn="$1" '
  function draw() { state = (state * 69069 + 1) % 4294967296; return state }
  BEGIN {
    state = 7
    for (k = 1; k <= 16384; k++) key[k] = drawn ? sprintf("%.0f%09.0f", 1 + 2 * draw(), draw() % 1000000000) : k
    printf "{\"version\":1,\"sink\":%s,\"tasks\":[", key[16384]
    for (k = 1; k <= 16384; k++) {
      if (k > 1) printf ","
      if (k <= 40) { printf "{\"key\":%s,\"formula\":\"%d\"}", key[k], k; continue }
      printf "{\"key\":%s,\"formula\":\"$0+$13-max($26,$39)%%7\",\"inputs\":[", key[k]
      for (j = 1; j <= 40; j++) printf "%s%s", (j > 1 ? "," : ""), key[k - j]
      printf "]}"
    }
    print "]}"
  }'
}
graph 0 >"$work/dense.json"
graph 1 >"$work/spread.json"

# Runs a command on a graph file, and appends its processor time in milliseconds.
TIMEFORMAT='%U %S'
timed() {
  local keys=$1 name=$2
  shift 2
  { time "$@" <"$work/$keys.json" >"$work/$name.$keys.out"; } 2>"$work/time"
  awk '{ print 1000 * ($1 + $2) }' "$work/time" >>"$work/$name.$keys.ms"
}

for ((round = 0; round < rounds; round++)); do
  for keys in dense spread; do
    timed $keys run "$ours" run --workers 1
    timed $keys check "$ours" check
    timed $keys print "$ours" print
    timed $keys peer "$peer"
  done
done
for keys in dense spread; do cmp "$work/run.$keys.out" "$work/peer.$keys.out"; done

ratio() {
  paste "$work/$2.ms" "$work/$3.ms" | awk '{ print $1 / ($2 > 0 ? $2 : 1) }' | sort -n |
    awk -v name="$1" '{ r[NR] = $1 } END { printf "%s: median ratio %.2f\n", name, r[int((NR + 1) / 2)] }'
}
for keys in dense spread; do
  for name in run check print peer; do
    sort -n "$work/$name.$keys.ms" | head -n 1 | awk -v name="$name, $keys" '{ printf "%s keys: least %d ms\n", name, $1 }'
  done
done
for keys in dense spread; do
  ratio "run / serde_json with a plain loop, $keys keys" run.$keys peer.$keys
  ratio "check / serde_json with a plain loop, $keys keys" check.$keys peer.$keys
done
for name in run check print peer; do
  ratio "$name, spread / dense keys" $name.spread $name.dense
done
