#!/usr/bin/env python3
"""Refuses each allocation of some commands, one run each: refused.py PROGRAM.

A run whose allocation was refused ends with status 8, says `out of memory` and writes nothing; one that did not need
it ends as it would have. The first run that ends otherwise is told, and the exit status is 1.
"""

import os
import subprocess
import sys
import tempfile
from pathlib import Path

TOP = Path(__file__).resolve().parent.parent
SECONDS = 60
REFUSED = (8, "", "out of memory\n")
EXAMPLES = TOP / "examples"
CASES = (
    ("run", "seven.json"),
    ("run --records --workers 2", "diamond.json"),
    ("run --records --workers 3", "struck.json"),
    ("run --workers 64", "diamond.json"),
    ("replay --records --workers 2 --schedule 0,1", "struck.json"),
    ("check", "pipeline.json"),
    ("print", "struck.json"),
    ("paths --workers 2", "roads.txt"),
)


class Program:
    """The program with the library that refuses."""

    def __init__(self, program, folder):
        """Builds the library in the folder."""
        self.program = program
        self.library = f"{folder}/refused.so"
        self.count = f"{folder}/count"
        source = str(TOP / "tools" / "refused.c")
        subprocess.run(["cc", "-shared", "-fPIC", "-O1", "-o", self.library, source], check=True)

    def answer(self, words, file, at=0):
        """The status, what was written, and the message of a run whose allocation of this number is refused."""
        refusing = {"LD_PRELOAD": self.library, "REFUSED_AT": str(at), "REFUSED_COUNT": self.count}
        with open(file, encoding="utf-8") as source:
            done = subprocess.run(
                [self.program, *words.split()], stdin=source, capture_output=True, text=True,
                timeout=SECONDS, check=False, env=os.environ | refusing,
            )
        return done.returncode, done.stdout, done.stderr

    def asked(self):
        """How many allocations the last run that ended asked for."""
        return int(Path(self.count).read_text(encoding="utf-8"))


def refuse_each(program, words, file):
    """Refuses each allocation once; tells how many runs there were, and in how many memory was wanting."""
    whole = program.answer(words, file)
    total, at, wanting = program.asked(), 0, 0
    while at < total:
        at += 1
        found = program.answer(words, file, at)
        if found == REFUSED:
            wanting += 1
        elif found[:1] + found[2:] != whole[:1] + whole[2:] or ("--records" not in words and found != whole):
            raise SystemExit(f"{words} on {file.name}, allocation {at} refused: {found}")
    return total, wanting


def main():
    """Runs all cases."""
    if len(sys.argv) != 2:
        print(__doc__.strip().splitlines()[0], file=sys.stderr)
        return 2
    with tempfile.TemporaryDirectory() as folder:
        program = Program(os.path.abspath(sys.argv[1]), folder)
        for words, name in CASES:
            total, wanting = refuse_each(program, words, EXAMPLES / name)
            print(f"{words} on {name}: {total} allocations refused, {wanting} runs ended for want of memory")
    return 0


if __name__ == "__main__":
    sys.exit(main())
