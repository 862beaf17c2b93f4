#!/usr/bin/env python3
"""Times whole runs by threads, and prints ratios: workers.py PROGRAM [ROUNDS].

In each round every command runs once. A ratio is the median of the rounds' ratios, of elapsed time, or of processor
time where its line says so.
"""

import json
import os
import random
import statistics
import subprocess
import sys
import tempfile
import time


def graph_text(tasks, strikes=()):
    """A file whose sink is the last task."""
    return json.dumps({"version": 1, "sink": tasks[-1]["key"], "tasks": tasks, "faults": list(strikes)})


def three_inputs(spread, strikes=0):
    """16,000 tasks of three inputs each, with keys in a row or spread over 63 bits, and so many strikes."""
    draw = random.Random(7)
    key = (lambda at: at * 0x1_F123_4567_89AB % (2**63 - 1)) if spread else (lambda at: at)
    tasks = [{"key": key(at), "formula": str(at)} for at in range(1, 4)]
    for at in range(4, 16_001):
        below = [at - 1] + [draw.randint(max(1, at - 600), at - 1) for _ in range(2)]
        tasks.append({"key": key(at), "formula": "$0+$1-$2", "inputs": [key(it) for it in below]})
    struck = (
        {"task": key(draw.randint(1, 16_000)), "life": 1, "point": draw.choice(["ready", "computed", "notified"]),
         "target": draw.choice(["descriptor", "block"])}
        for _ in range(strikes)
    )
    return graph_text(tasks, struck)


LONG = "$0" + "*3+1" * 1_000


def long_formulas():
    """1,024 tasks in eight layers, each of some ten thousand operations' time."""
    tasks = [{"key": at, "formula": str(at)} for at in range(128)]
    for at in range(128, 1_152):
        tasks.append({"key": at, "formula": LONG, "inputs": [at - 128]})
    for at in range(32):
        rest = [1_024 + 4 * at + it for it in range(4)]
        tasks.append({"key": 2_000 + at, "formula": "$0+$1+$2+$3", "inputs": rest})
    tasks.append({"key": 3_000, "formula": "+".join(f"${it}" for it in range(32)), "inputs": [2_000 + it for it in range(32)]})
    return graph_text(tasks)


def long_chain():
    """2,048 such tasks, each of which waits for the one before: all workers but one are idle."""
    tasks = [{"key": 0, "formula": "1"}]
    tasks += [{"key": at, "formula": LONG, "inputs": [at - 1]} for at in range(1, 2_048)]
    return graph_text(tasks)


def drill(strikes):
    """The graph of `drill 7`, with its strikes where they are asked for."""
    state = 7

    def drawn(below):
        nonlocal state
        state = (state * 6364136223846793005 + 1442695040888963407) % 2**64
        return (state >> 33) % below

    tasks = [{"key": at, "formula": str(7 + at), "inputs": [], "after": [at - 1] if at > 1 else []} for at in range(1, 65)]
    for at in range(65, 8_193):
        near, far = 1 + drawn(64), 1 + drawn(64)
        tasks.append({"key": at, "formula": f"$0+$1-$2+1+{near}-{far}", "inputs": [at - 1, at - near, at - far]})
    tasks.append({"key": 10_001, "formula": "1", "block": [0, 1]})
    tasks += [{"key": 10_000 + at, "formula": "$0+1", "inputs": [9_999 + at], "block": [0, at]} for at in range(2, 65)]
    tasks.append({"key": 20_000, "formula": "$0+$1", "inputs": [8_192, 10_064]})
    points, targets = ("explored", "ready", "computed", "notified"), ("descriptor", "notify", "block")
    plan = []
    for _ in range(1_024):
        key, point, target = 1 + drawn(8_192), points[drawn(4)], targets[drawn(3)]
        plan.append({"task": key, "life": 1, "point": point, "target": target})
    plan.append({"task": 10_064, "life": 1, "point": "computed", "target": "block"})
    return graph_text(tasks, plan if strikes else ())


def matrix(strikes):
    """512 vertices with tiles of 32, and strikes on one block in twenty where they are asked for."""
    draw = random.Random(7)
    lines = ["512 32"]
    for _ in range(512):
        lines.append(" ".join(str(draw.randint(1, 1_000)) if draw.random() < 0.5 else "-" for _ in range(512)))
    if strikes:
        lines += [f"fault {draw.randrange(17 * 256)} 1 computed block" for _ in range(17 * 256 // 20)]
    return "\n".join(lines) + "\n"


CASES = (
    ("check of three inputs", "check", "dense"),
    ("three inputs, 1 worker", "run --workers 1", "dense"),
    ("three inputs, 4 workers", "run --workers 4", "dense"),
    ("three inputs with records, 1 worker", "run --records --workers 1", "dense"),
    ("three inputs with 4,096 strikes, 1 worker", "run --workers 1", "dense, struck"),
    ("spread keys, 1 worker", "run --workers 1", "spread"),
    ("long formulas, 1 worker", "run --workers 1", "long"),
    ("long formulas, 2 workers", "run --workers 2", "long"),
    ("long formulas, 4 workers", "run --workers 4", "long"),
    ("a chain of long formulas, 1 worker", "run --workers 1", "chain"),
    ("a chain of long formulas, 4 workers", "run --workers 4", "chain"),
    ("drill's graph, 1 worker", "run --workers 1", "drill"),
    ("drill's graph with its strikes, 1 worker", "run --workers 1", "drill, struck"),
    ("drill's graph, 4 workers", "run --workers 4", "drill"),
    ("drill's graph with its strikes, 4 workers", "run --workers 4", "drill, struck"),
    ("paths of 512, 1 worker", "paths --workers 1", "matrix"),
    ("paths of 512, 2 workers", "paths --workers 2", "matrix"),
    ("paths of 512, 4 workers", "paths --workers 4", "matrix"),
    ("paths of 512 with strikes, 4 workers", "paths --workers 4", "matrix, struck"),
)
# Of two commands the ratio of elapsed time (0) or processor time (1).
RATIOS = (
    ("three inputs, 4 workers", "three inputs, 1 worker", 0),
    ("three inputs with records, 1 worker", "three inputs, 1 worker", 1),
    ("three inputs with 4,096 strikes, 1 worker", "three inputs, 1 worker", 1),
    ("spread keys, 1 worker", "three inputs, 1 worker", 1),
    ("long formulas, 1 worker", "long formulas, 2 workers", 0),
    ("long formulas, 1 worker", "long formulas, 4 workers", 0),
    ("a chain of long formulas, 4 workers", "a chain of long formulas, 1 worker", 1),
    ("drill's graph with its strikes, 1 worker", "drill's graph, 1 worker", 1),
    ("drill's graph, 4 workers", "drill's graph, 1 worker", 0),
    ("drill's graph with its strikes, 4 workers", "drill's graph, 4 workers", 0),
    ("paths of 512, 1 worker", "paths of 512, 2 workers", 0),
    ("paths of 512, 1 worker", "paths of 512, 4 workers", 0),
    ("paths of 512 with strikes, 4 workers", "paths of 512, 4 workers", 0),
)


def measured(program, words, file):
    """The milliseconds of one run: elapsed, and of all processors."""
    with open(file, encoding="ascii") as source:
        start = time.perf_counter()
        child = subprocess.Popen([program, *words.split()], stdin=source, stdout=subprocess.DEVNULL)
        _, status, used = os.wait4(child.pid, 0)
        elapsed = time.perf_counter() - start
        child.returncode = os.waitstatus_to_exitcode(status)
        assert child.returncode == 0, words
        return 1000 * elapsed, 1000 * (used.ru_utime + used.ru_stime)


def main():
    """Prints the least times of each command, and the ratios."""
    if not 2 <= len(sys.argv) <= 3:
        print(__doc__.strip().splitlines()[0], file=sys.stderr)
        return 2
    program, rounds = os.path.abspath(sys.argv[1]), int([*sys.argv, "7"][2])
    texts = {
        "dense": three_inputs(False), "dense, struck": three_inputs(False, 4_096), "spread": three_inputs(True),
        "long": long_formulas(), "chain": long_chain(), "drill": drill(False), "drill, struck": drill(True),
        "matrix": matrix(False), "matrix, struck": matrix(True),
    }
    with tempfile.TemporaryDirectory() as folder:
        for name, text in texts.items():
            with open(f"{folder}/{name}", "w", encoding="ascii") as file:
                file.write(text)
        times = {name: [] for name, _, _ in CASES}
        for _ in range(rounds):
            for name, words, text in CASES:
                times[name].append(measured(program, words, f"{folder}/{text}"))
    for name, found in times.items():
        print(f"{name}: least {min(it[0] for it in found):.1f} ms, {min(it[1] for it in found):.1f} ms of processors")
    for above, below, kind in RATIOS:
        ratio = statistics.median(a[kind] / b[kind] for a, b in zip(times[above], times[below]))
        print(f"{above} / {below}: {ratio:.2f}{' of processor time' if kind else ''}")
    return 0


if __name__ == "__main__":
    sys.exit(main())
