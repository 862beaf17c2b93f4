#!/usr/bin/env python3
"""Writes the rows of `paths` in random_rows: 40 random matrices behind its other rows in stdin, and their answers in stdout.

The answers are least weights by Dijkstra's algorithm from each vertex, without tiles. A row is the words, a tab, and the
matrix's lines with a tab between them. The same rows come each time."""
import heapq
import os

os.chdir(os.path.dirname(os.path.abspath(__file__)) + "/../crates/random_rows")
POINTS = ["explored", "ready", "computed", "notified"]
SIZES = {0: (1, 1), 1: (2, 1), 2: (96, 6), 3: (96, 32), 4: (95, 6), 5: (33, 32), 6: (32, 32), 7: (16, 1), 8: (31, 2)}


class Numbers:
    """Numbers from a seed, by splitmix64."""

    def __init__(self, seed):
        self.state = seed

    def below(self, limit):
        self.state = (self.state + 0x9E3779B97F4A7C15) % 2**64
        z = self.state
        z = (z ^ (z >> 30)) * 0xBF58476D1CE4E5B9 % 2**64
        z = (z ^ (z >> 27)) * 0x94D049BB133111EB % 2**64
        return (z ^ (z >> 31)) % limit

    def between(self, first, last):
        return first + self.below(last - first + 1)


def size_of(row, numbers):
    if row in SIZES:
        return SIZES[row]
    n = numbers.between(1, 96)
    return n, numbers.between(max(1, -(-n // 16)), 32)


def matrix_of(n, numbers):
    percent = [2, 5, 15, 40, 100][numbers.below(5)]
    heaviest = [1, 9, 99, 2147483647][numbers.below(4)]
    return [[numbers.below(heaviest + 1) if numbers.below(100) < percent else None for _ in range(n)] for _ in range(n)]


def strike_of(tasks, numbers):
    target = ["descriptor", "block", "notify", f"notify {numbers.below(16)}"][numbers.below(4)]
    return f"fault {numbers.below(tasks)} {numbers.between(1, 3)} {POINTS[numbers.below(4)]} {target}"


def least_from(weights, start):
    """The least weights of walks from a vertex, None where there is none."""
    least = [None] * len(weights)
    waiting = [(0, start)]
    while waiting:
        weight, vertex = heapq.heappop(waiting)
        if least[vertex] is not None:
            continue
        least[vertex] = weight
        for to, edge in enumerate(weights[vertex]):
            if edge is not None and to != vertex and least[to] is None:
                heapq.heappush(waiting, (weight + edge, to))
    return least


def line_of(weights):
    return " ".join("-" if weight is None else str(weight) for weight in weights)


def sum_of(text):
    """Fowler, Noll and Vo's sum of 64 bits."""
    total = 0xCBF29CE484222325
    for byte in text.encode():
        total = (total ^ byte) * 0x100000001B3 % 2**64
    return total


def row_of(row):
    numbers = Numbers(row)
    n, side = size_of(row, numbers)
    weights = matrix_of(n, numbers)
    b = -(-n // side)
    tasks = (b + 1) * b * b + b + 1
    strikes = [strike_of(tasks, numbers) for _ in range(numbers.between(1, 12) if row % 2 == 1 else 0)]
    workers = ["", " --workers 1", " --workers 2", " --workers=3"][numbers.below(4)]
    text = "\t".join([f"{n} {side}"] + [line_of(line) for line in weights] + strikes)
    lines = [line_of(least_from(weights, start)) for start in range(n)]
    answer = "".join(line + "\n" for line in lines)
    return f"paths{workers}\t{text}\n", f"0 {n} lines {sum_of(answer)} {lines[0]}\n"


def main():
    with open("stdin", encoding="ascii") as file:
        others = [line for line in file if not line.startswith("paths")]
    with open("stdout", encoding="ascii") as file:
        answers = list(file)[: len(others)]
    rows = [row_of(row) for row in range(40)]
    with open("stdin", "w", encoding="ascii") as file:
        file.writelines(others + [row for row, _ in rows])
    with open("stdout", "w", encoding="ascii") as file:
        file.writelines(answers + [answer for _, answer in rows])


main()
