#!/usr/bin/env python3
"""Times the engine beside peers on the same graphs, and prints ratios: PEERS=FOLDER engine.py PROGRAM [ROUNDS].

FOLDER has `graph_gnu`, which runs a graph file by several C++ engines and tells the processor time of each. Without
PEERS the program is measured beside itself alone. All times are processor time, the least of interleaved rounds; of a
command the time of `check` on the same file is taken off, which reads and checks the file and runs nothing.
"""

import json
import os
import random
import subprocess
import sys
import tempfile
import time

import workers

STRIKES = 4_096
ENGINES = ("bits-rec", "tbb-flow")


def struck(text):
    """The graph with strikes on the first lives of 4,096 of its tasks, on each target in turn."""
    parts = json.loads(text)
    keys = random.Random(11).sample([task["key"] for task in parts["tasks"]], STRIKES)
    kinds = (("ready", {"target": "descriptor"}), ("computed", {"target": "notify", "word": 0}), ("computed", {"target": "block"}))
    parts["faults"] = [{"task": key, "life": 1, "point": kinds[at % 3][0], **kinds[at % 3][1]} for at, key in enumerate(keys)]
    return json.dumps(parts)


# What is run: a name, the words, the file.
CASES = (
    ("check", "check", "dense"),
    ("replay", "replay", "dense"),
    ("run", "run --workers 1", "dense"),
    ("run with records", "run --workers 1 --records", "dense"),
    ("check, spread keys", "check", "spread"),
    ("replay, spread keys", "replay", "spread"),
    ("run, spread keys", "run --workers 1", "spread"),
    ("check, strikes", "check", "struck"),
    ("replay, strikes", "replay", "struck"),
    ("run, strikes", "run --workers 1", "struck"),
    ("check, long tasks", "check", "long"),
    ("run, long tasks", "run --workers 1", "long"),
    ("run, long tasks, 2 workers", "run --workers 2", "long"),
    ("run, long tasks, 4 workers", "run --workers 4", "long"),
)
# Commands with the one that reads the same file and runs nothing.
NET = {"dense": "check", "spread": "check, spread keys", "struck": "check, strikes", "long": "check, long tasks"}


def used(words, file):
    """Processor and elapsed seconds of one run."""
    with open(file, encoding="ascii") as source:
        start = time.perf_counter()
        child = subprocess.Popen(words, stdin=source, stdout=subprocess.DEVNULL)
        _, status, usage = os.wait4(child.pid, 0)
        child.returncode = os.waitstatus_to_exitcode(status)
    if child.returncode:
        sys.exit(f"{' '.join(words)} ended with {child.returncode}")
    return usage.ru_utime + usage.ru_stime, time.perf_counter() - start


def peer_times(peers, file):
    """By engine: processor seconds of one run by one thread."""
    words = [f"{peers}/graph_gnu", "1", file, ",".join(ENGINES), "1"]
    lines = subprocess.run(words, capture_output=True, text=True, check=True).stdout.splitlines()
    rows = [line.split("\t") for line in lines if line.startswith("M\t")]
    return {row[2]: float(row[-1]) for row in rows}


def ratio(what, above, below, target=None):
    """Prints a ratio, and what it is to be at most."""
    wanted = "" if target is None else f"   (at most {target})"
    print(f"{what}: {above / below:.2f}{wanted}")


def measure(program, peers, rounds, folder):
    """The least times of each case, and of each peer's engine on each file."""
    cpu = {name: [] for name, _, _ in CASES}
    wall = {name: [] for name, _, _ in CASES}
    by_peer = {}
    for _ in range(rounds):
        for name, words, text in CASES:
            spent, passed = used([program, *words.split()], f"{folder}/{text}.json")
            cpu[name].append(spent)
            wall[name].append(passed)
        for text in ("dense", "spread") if peers else ():
            for engine, spent in peer_times(peers, f"{folder}/{text}.json").items():
                by_peer.setdefault((engine, text), []).append(spent)
    least = lambda lists: {name: min(found) for name, found in lists.items()}
    return least(cpu), least(wall), least(by_peer)


def main():
    """Prints the least times, and the ratios with what they are to be."""
    if not 2 <= len(sys.argv) <= 3:
        print(__doc__.strip().splitlines()[0], file=sys.stderr)
        return 2
    program, rounds = os.path.abspath(sys.argv[1]), int([*sys.argv, "7"][2])
    peers = os.environ.get("PEERS")
    dense = workers.three_inputs(False)
    texts = {"dense": dense, "spread": workers.three_inputs(True), "struck": struck(dense), "long": workers.long_formulas()}
    with tempfile.TemporaryDirectory() as folder:
        for name, text in texts.items():
            with open(f"{folder}/{name}.json", "w", encoding="ascii") as file:
                file.write(text)
        cpu, wall, by_peer = measure(program, peers, rounds, folder)
    file_of = {name: text for name, _, text in CASES}
    net = {name: spent - cpu[NET[file_of[name]]] for name, spent in cpu.items()}
    for name, spent in cpu.items():
        print(f"{name}: {1000 * spent:.1f} ms, without reading {1000 * net[name]:.1f} ms")
    for (engine, text), spent in by_peer.items():
        print(f"{engine}, {text} keys: {1000 * spent:.1f} ms")
    if peers:
        ratio("replay / bits-rec, dense keys", net["replay"], by_peer["bits-rec", "dense"], 2.5)
        ratio("run / bits-rec, dense keys", net["run"], by_peer["bits-rec", "dense"], 1.5)
        ratio("run / oneTBB's flow graph, dense keys", net["run"], by_peer["tbb-flow", "dense"], 0.8)
        ratio("replay / bits-rec, spread keys", net["replay, spread keys"], by_peer["bits-rec", "spread"], 2)
        ratio("run / bits-rec, spread keys", net["run, spread keys"], by_peer["bits-rec", "spread"], 2)
    ratio("replay with strikes / without", net["replay, strikes"], net["replay"], 1.7)
    ratio("run with strikes / without", net["run, strikes"], net["run"], 1.7)
    ratio("run with records / without, whole commands", cpu["run with records"], cpu["run"], 1.3)
    print("elapsed, of whole commands:")
    for count in ("2", "4"):
        ratio(f"long tasks, 1 worker / {count}", wall["run, long tasks"], wall[f"run, long tasks, {count} workers"])
    return 0


if __name__ == "__main__":
    sys.exit(main())
