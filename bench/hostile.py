#!/usr/bin/env python3
"""Times `check` on hostile texts of 67,108,864 bytes beside a good file of that length: hostile.py PROGRAM [ROUNDS].

Of each text it prints the status, the least processor time with its ratio to the good file's, and the most memory
with its ratio to the text's length.
"""

import os
import sys
import tempfile

LENGTH = 67_108_864
TASKS = 16_384


def filled(head, body, tail):
    """The head and the tail with so much of the repeated body between that the whole has the full length."""
    room = LENGTH - len(head) - len(tail)
    return head + (body * (room // len(body) + 1))[: room - room % len(body)] + tail + " " * (room % len(body))


def tasks_text(keys, inputs):
    """A file of tasks with these keys and input lists, whose formulas fill the full length."""
    heads = [f'{{"key":{key},"inputs":{inputs(at)},"formula":"' for at, key in enumerate(keys)]
    start, tail = f'{{"version":1,"sink":{keys[-1]},"tasks":[', "]}"
    room = LENGTH - len(start) - len(tail) - sum(len(it) + 3 for it in heads)
    each = min(room // len(heads), 4096)
    formula = ("1+" * each)[: each - (each + 1) % 2]
    text = start + ",".join(f'{head}{formula}"}}' for head in heads) + tail
    return text + " " * (LENGTH - len(text))


def texts():
    """The texts by name; the first is a good file."""
    dense = range(1, TASKS + 1)
    yield "good file", tasks_text(dense, lambda at: [])
    yield "brackets", "[" * LENGTH
    yield "brackets and names", filled("", '{"a":', "")
    yield "digits", "1" * LENGTH
    yield "names", filled('{"version":1', ',"' + "n" * 20 + '":0', "}")
    yield "numbers in a list", filled('{"tasks":[0', ",0", "]}")
    yield "escapes in one string", filled('{"version":"', "\\u0061", '"}')
    yield "equal keys", tasks_text([7] * TASKS, lambda at: [])
    yield "spread keys", tasks_text([at * 562_949_953_421_311 for at in dense], lambda at: [])
    yield "chain", tasks_text(dense, lambda at: [at] if at else [])
    yield "star", tasks_text(dense, lambda at: [1] if at else [])
    yield "forty edges each", tasks_text(dense, lambda at: [max(at - it, 1) for it in range(40)] if at else [])


def measured(program, file):
    """The status, the processor time and the most memory of a run of `check`."""
    child = os.fork()
    if child == 0:
        nothing = os.open(os.devnull, os.O_WRONLY)
        os.dup2(os.open(file, os.O_RDONLY), 0)
        os.dup2(nothing, 1)
        os.dup2(nothing, 2)
        os.execv(program, [program, "check"])
    _, status, used = os.wait4(child, 0)
    return os.waitstatus_to_exitcode(status), used.ru_utime + used.ru_stime, used.ru_maxrss * 1024


def main():
    """Prints a line for each text."""
    if not 2 <= len(sys.argv) <= 3:
        print(__doc__.strip().splitlines()[0], file=sys.stderr)
        return 2
    program, rounds = os.path.abspath(sys.argv[1]), int([*sys.argv, "3"][2])
    good = None
    with tempfile.TemporaryDirectory() as folder:
        for name, text in texts():
            assert len(text) == LENGTH, name
            file = f"{folder}/text"
            with open(file, "w", encoding="ascii") as it:
                it.write(text)
            found = [measured(program, file) for _ in range(rounds)]
            status, seconds, memory = found[0][0], min(it[1] for it in found), max(it[2] for it in found)
            good = good or seconds
            print(f"{name}: status {status}, {seconds * 1000:.0f} ms, {seconds / good:.2f} times the good file; "
                  f"{memory / LENGTH:.2f} times the text's length of memory")
    return 0


if __name__ == "__main__":
    sys.exit(main())
