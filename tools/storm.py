#!/usr/bin/env python3
"""Runs random graphs with faults by many workers: storm.py PROGRAM [GRAPHS [SEED]].

Each graph runs by 1, 2, 4, 16 and 64 workers with its records in print. Its value is computed here, and the laws
of the records are asked here. The first graph that fails is printed, and the exit status is 1.
"""

import json
import random
import subprocess
import sys
import tempfile

from storm_graphs import random_graph
from storm_laws import Unlawful, check_report

WORKERS = (1, 2, 4, 16, 64)
SECONDS = 120


def may_spend(graph):
    """Whether a run may end for want of lives: not where words alone are struck and each block has one version."""
    versions = any(task.block is not None and task.block[1] > 1 for task in graph.tasks)
    return bool(graph.plan) and (versions or any(it.target == "block" for it in graph.plan))


def report_of(program, workers, file, graph):
    """What the program prints, or None where it ended for want of lives, as it may."""
    file.seek(0)
    words = [program, "run", "--records", "--workers", str(workers)]
    done = subprocess.run(words, stdin=file, capture_output=True, text=True, timeout=SECONDS, check=False)
    if done.returncode == 7 and may_spend(graph):
        return None
    if done.returncode:
        raise Unlawful(f"status {done.returncode}: {done.stderr.strip()}")
    return done.stdout


def storm(program, graphs, seed):
    """Runs so many graphs; tells in how many runs a life was replaced, how many strikes landed, and how many runs had no life left."""
    replaced, landed, spent = 0, 0, 0
    for number in range(graphs):
        graph = random_graph(random.Random(f"{seed} {number}"), most=9 if number % 10 else 60)
        with tempfile.TemporaryFile("w+") as file:
            json.dump(graph.as_json(), file)
            file.flush()
            for workers in WORKERS:
                try:
                    report = report_of(program, workers, file, graph)
                    records = report and check_report(graph, report)
                except (Unlawful, subprocess.TimeoutExpired) as why:
                    print(f"graph {number} of seed {seed} by {workers} workers: {why}")
                    print(json.dumps(graph.as_json()))
                    return None
                spent += report is None
                replaced += bool(records and records.replaced)
                landed += len(records.struck) if records else 0
    return replaced, landed, spent


def main():
    """Reads the words and tells what came of them."""
    if not 2 <= len(sys.argv) <= 4:
        print(__doc__.strip().splitlines()[0], file=sys.stderr)
        return 2
    program, graphs, seed = [*sys.argv[1:], *("1000", "1")[len(sys.argv) - 2:]]
    found = storm(program, int(graphs), seed)
    if found is None:
        return 1
    runs = int(graphs) * len(WORKERS)
    print(f"{runs} runs of {graphs} graphs: {found[2]} had no life left, each other gave its value with lawful records; in {found[0]} a life was replaced, and {found[1]} strikes landed")
    return 0


if __name__ == "__main__":
    sys.exit(main())
