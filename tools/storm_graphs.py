"""Random accepted graphs with plans of faults, and what a run of them has to be measured by."""

from dataclasses import dataclass, field
from functools import cached_property

PORTS_PER_WORD = 40
POINTS = ("explored", "ready", "computed", "notified")
OPERATORS = {
    "+": lambda a, b: a + b,
    "-": lambda a, b: a - b,
    "*": lambda a, b: a * b,
}


def wrapped(value):
    """The value as a signed number of 64 bits."""
    return (value + 2**63) % 2**64 - 2**63


@dataclass
class Task:
    """A task whose formula is a number, then an operator for each input; a block is a name and a version."""

    key: int
    start: int
    operators: list
    inputs: list
    after: list
    block: tuple = None

    def formula(self):
        """The formula's text, each operation in brackets."""
        text = str(self.start)
        for place, operator in enumerate(self.operators):
            text = f"({text}){operator}${place}"
        return text

    def outcome(self, values):
        """What the formula makes of the inputs' values."""
        result = self.start
        for operator, value in zip(self.operators, values):
            result = wrapped(OPERATORS[operator](result, value))
        return result


@dataclass
class Strike:
    """A fault of a plan; the target is `descriptor`, `block` or a notify word's number."""

    key: int
    life: int
    point: str
    target: object

    def as_json(self):
        """The strike as the file's format writes it."""
        found = {"task": self.key, "life": self.life, "point": self.point}
        if isinstance(self.target, int):
            return found | {"target": "notify", "word": self.target}
        return found | {"target": self.target}


@dataclass
class Graph:
    """The tasks of a file, its sink and its plan."""

    tasks: list
    sink: int
    plan: list = field(default_factory=list)

    def as_json(self):
        """The file, as what `json.dumps` takes."""
        tasks = []
        for task in self.tasks:
            found = {"key": task.key, "formula": task.formula(), "inputs": task.inputs, "after": task.after}
            if task.block is not None:
                found["block"] = list(task.block)
            tasks.append(found)
        return {"version": 1, "sink": self.sink, "tasks": tasks, "faults": [it.as_json() for it in self.plan]}

    @cached_property
    def by_key(self):
        """The tasks by key."""
        return {task.key: task for task in self.tasks}

    @cached_property
    def predecessors(self):
        """The keys at each task's places: its inputs, then those of `after`."""
        return {task.key: task.inputs + task.after for task in self.tasks}

    @cached_property
    def successors(self):
        """The edges to each task's successors, as key and place, in the order of their ports."""
        found = {task.key: [] for task in self.tasks}
        for key in sorted(self.predecessors):
            for place, below in enumerate(self.predecessors[key]):
                found[below].append((key, place))
        return found

    @cached_property
    def ports(self):
        """The port at which each place of a task stands with its predecessor."""
        return {edge: port for edges in self.successors.values() for port, edge in enumerate(edges)}

    def notify_words(self, key):
        """How many notify words a task has; the hidden root stands behind the sink's other successors."""
        edges = len(self.successors[key]) + (key == self.sink)
        return max(1, -(-edges // PORTS_PER_WORD))

    @cached_property
    def blocks(self):
        """The block's number and the version that each task writes."""
        named = sorted({task.block[0] for task in self.tasks if task.block is not None})
        number = {name: at for at, name in enumerate(named)}
        found, free = {}, len(named)
        for key in sorted(self.by_key):
            task = self.by_key[key]
            if task.block is None:
                found[key], free = (free, 1), free + 1
            else:
                found[key] = (number[task.block[0]], task.block[1])
        return found

    @cached_property
    def writers(self):
        """Who writes a version of a block."""
        return {place: key for key, place in self.blocks.items()}

    @cached_property
    def needed(self):
        """The tasks that the sink needs, itself among them."""
        found, open_keys = set(), [self.sink]
        while open_keys:
            key = open_keys.pop()
            if key not in found:
                found.add(key)
                open_keys.extend(self.predecessors[key])
        return found

    @cached_property
    def value(self):
        """The sink's value, computed one task after the other."""
        values = {}
        for task in self.tasks_in_order:
            values[task.key] = task.outcome([values[key] for key in task.inputs])
        return values[self.sink]

    @cached_property
    def tasks_in_order(self):
        """The tasks, each behind its predecessors."""
        done, found = set(), []
        waiting = list(self.tasks)
        while waiting:
            ready = [it for it in waiting if done.issuperset(self.predecessors[it.key])]
            found += ready
            done.update(it.key for it in ready)
            waiting = [it for it in waiting if it.key not in done]
        return found


class Builder:
    """Makes one random graph, task after task, so that its blocks may be written again."""

    def __init__(self, draw, most):
        """`draw` is a `random.Random`, `most` the greatest number of tasks."""
        self.draw = draw
        count = draw.randint(1, most)
        top = draw.choice((24, 1000, 2**63 - 1))
        self.keys = [draw.randrange(top) for _ in range(4 * count)]
        self.keys = list(dict.fromkeys(self.keys))[:count] if top > 24 else draw.sample(range(max(24, count)), count)
        self.tasks, self.chains, self.place_of = [], [], {}

    def graph(self):
        """The graph, without a plan."""
        for at in range(len(self.keys)):
            self.add(at)
        by_place = [self.task_at(at) for at in range(len(self.keys))]
        sink = self.keys[-1] if self.draw.random() < 0.8 else self.draw.choice(self.keys)
        self.draw.shuffle(by_place)
        return Graph(by_place, sink)

    def usable(self, at):
        """The tasks before this one whose version is still the newest of its block."""
        return [it for it in range(at) if it not in self.place_of or self.is_newest(it)]

    def is_newest(self, it):
        """Whether no later version of the task's block is written."""
        chain, version = self.place_of[it]
        return len(self.chains[chain]) == version

    def add(self, at):
        """Draws a task's predecessors and, often, a version of a block."""
        usable = self.usable(at)
        inputs = [it for it in usable if self.draw.random() < 0.5][:5]
        if usable and self.draw.random() < 0.2:
            inputs.append(self.draw.choice(usable))
        self.draw.shuffle(inputs)
        after = [it for it in range(at) if self.draw.random() < 0.12]
        self.tasks.append((inputs, after))
        if self.draw.random() < 0.6:
            self.write(at, inputs, after, usable)

    def write(self, at, inputs, after, usable):
        """Gives the task the next version of a block, or the first of a new one."""
        if not self.chains or self.draw.random() < 0.25:
            self.chains.append([at])
            self.place_of[at] = (len(self.chains) - 1, 1)
            return
        chain = self.draw.randrange(len(self.chains))
        last = self.chains[chain][-1]
        if last not in inputs and last not in after:
            (inputs if last in usable and self.draw.random() < 0.7 else after).append(last)
        for reader in range(at):
            if last in self.tasks[reader][0] and reader not in inputs and reader not in after:
                after.append(reader)
        self.chains[chain].append(at)
        self.place_of[at] = (chain, len(self.chains[chain]))

    def task_at(self, at):
        """The task as the file has it, with keys for positions."""
        inputs, after = ([self.keys[it] for it in part] for part in self.tasks[at])
        operators = [self.draw.choice("+-*") for _ in inputs]
        return Task(self.keys[at], self.draw.randint(1, 50), operators, inputs, after, self.place_of.get(at))


def random_graph(draw, most=9, strikes=6, lives=2):
    """An accepted graph of at most so many tasks with a plan of at most so many strikes, often on one task."""
    graph = Builder(draw, most).graph()
    victim = draw.choice(graph.tasks).key if draw.random() < 0.5 else None
    for _ in range(draw.randint(0, strikes)):
        if graph.plan and draw.random() < 0.25:
            graph.plan.append(draw.choice(graph.plan))
            continue
        key = draw.choice(graph.tasks).key if victim is None or draw.random() < 0.2 else victim
        target = draw.choice(("descriptor", "block", 0, 1))
        graph.plan.append(Strike(key, draw.choice((1, 1, 1, lives)), draw.choice(POINTS), target))
    return graph
