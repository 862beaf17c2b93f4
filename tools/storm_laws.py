"""The laws of a run's records, and what a plan of faults lets stand in them."""

from collections import Counter, defaultdict, namedtuple

SELF_PLACE = "self"

Created = namedtuple("Created", "key")
Spent = namedtuple("Spent", "key life place")
Computed = namedtuple("Computed", "key life")
Written = namedtuple("Written", "key life block version")
Closed = namedtuple("Closed", "key life word")
Struck = namedtuple("Struck", "key life hit")
Replaced = namedtuple("Replaced", "key life cause")


class Unlawful(Exception):
    """A law that does not hold, in words."""


def want(holds, law, shown=""):
    """Refuses what a law forbids."""
    if not holds:
        raise Unlawful(f"{law} {shown}".strip())


def record_of(line):
    """The record that a printed line tells. A hit and a cause are tuples of its words, with numbers as such."""
    words = [int(it) if it.isdigit() else it for it in line.split(" ")]
    kind, key = words[0], words[1]
    if kind == "created":
        return Created(key)
    life, rest = words[3], words[4:]
    if kind == "spent":
        return Spent(key, life, SELF_PLACE if rest == ["self"] else rest[1])
    if kind == "computed":
        return Computed(key, life)
    if kind == "written":
        return Written(key, life, rest[1], rest[3])
    if kind == "closed":
        return Closed(key, life, rest[1])
    if kind == "struck":
        return Struck(key, life, hit_of(rest))
    want(kind == "replaced" and rest[0] == "because", "a line that tells no record:", line)
    return Replaced(key, life, tuple(rest[1:]))


def hit_of(words):
    """What a strike hit: a descriptor, a notify word, or a version of a block."""
    return ("block", words[1], words[3]) if words[0] == "block" else tuple(words)


class Records:
    """The records of one run of a graph."""

    def __init__(self, graph, records):
        """Sorts the records by kind."""
        self.graph = graph
        self.all = records
        of_kind = defaultdict(list)
        for record in records:
            of_kind[type(record)].append(record)
        self.of_kind = of_kind
        self.computed = {(it.key, it.life) for it in of_kind[Computed]}
        self.written = {(it.key, it.life) for it in of_kind[Written]}
        self.versions = {(it.block, it.version) for it in of_kind[Written]}
        self.closed = {(it.key, it.life, it.word) for it in of_kind[Closed]}
        self.closed_words = {(it.key, it.word) for it in of_kind[Closed]}
        self.spent = set(of_kind[Spent])
        self.replaced = {(it.key, it.life) for it in of_kind[Replaced]}
        self.struck = {(it.key, it.life, it.hit) for it in of_kind[Struck]}
        self.struck_versions = {it.hit[1:] for it in of_kind[Struck] if it.hit[0] == "block"}

    def check(self):
        """Refuses records that break a law."""
        for law in (self.spends_once, self.computes_once, self.replaces_once, self.shows_causes, self.names_lives):
            law()
        self.orders_words()
        self.keeps_quiet()

    def spends_once(self):
        """Each place of a life is spent at most once, and is a place of its task."""
        want(len(self.spent) == len(self.of_kind[Spent]), "a place of a life is spent twice")
        for it in self.spent:
            places = len(self.graph.predecessors.get(it.key, ()))
            want(it.place == SELF_PLACE or it.place < places, "no such place:", it)

    def computes_once(self):
        """A life is computed, written and closed at most once, each only behind what comes before."""
        for kind in (Computed, Closed):
            want(len(set(self.of_kind[kind])) == len(self.of_kind[kind]), "twice in a life:", kind.__name__)
        want(len(self.written) == len(self.of_kind[Written]), "a life is written twice")
        for it in self.of_kind[Computed]:
            places = [*range(len(self.graph.predecessors[it.key])), SELF_PLACE]
            want(self.spent.issuperset(Spent(it.key, it.life, place) for place in places), "computed too early:", it)
        for it in self.of_kind[Written]:
            want((it.key, it.life) in self.computed, "written without a result:", it)
            want(self.graph.blocks[it.key] == (it.block, it.version), "written at another's place:", it)
        for it in self.of_kind[Closed]:
            want((it.key, it.life) in self.written, "closed before it is written:", it)
            want(it.word < self.graph.notify_words(it.key), "no such notify word:", it)

    def replaces_once(self):
        """Each life is replaced at most once."""
        want(len(self.replaced) == len(self.of_kind[Replaced]), "a life is replaced twice")

    def shows_causes(self):
        """Each replacement has a cause that other records show."""
        grounded = self.grounded_keys()
        for it in self.of_kind[Replaced]:
            want(self.is_shown(it, grounded), "a cause that nothing shows:", it)

    def is_shown(self, it, grounded):
        """Whether other records show the cause of a replacement."""
        if it.cause[0] != "block":
            hits = [hit for key, life, hit in self.struck if (key, life) == (it.key, it.life)]
            return any(hit[0] == it.cause[0] for hit in hits)
        _, block, _, version, *found = it.cause
        writer = self.graph.writers.get((block, version))
        if writer is None or not (writer == it.key or writer in self.graph.by_key[it.key].inputs):
            return False
        if found == ["struck"]:
            return (block, version) in self.struck_versions
        other = found[1]
        is_written = other != version and (block, other) in self.versions
        return is_written and self.is_grounded(block, version, other, grounded)

    def is_grounded(self, block, version, other, grounded):
        """Whether a chain of replacements that began at a strike led to the version that was found."""
        if other > version:
            writer = self.graph.writers[(block, version)]
            readers = [it.key for it in self.graph.tasks if writer in it.inputs]
            return not grounded.isdisjoint(readers)
        return self.graph.writers[(block, other)] in grounded

    def grounded_keys(self):
        """The tasks that have a replacement at whose beginning a strike stands."""
        by_other = [it for it in self.of_kind[Replaced] if it.cause[0] == "block" and it.cause[4] == "found"]
        found = {it.key for it in self.of_kind[Replaced]} - {it.key for it in by_other}
        found |= {it.key for it in self.of_kind[Replaced] if it not in by_other}
        while True:
            more = {it.key for it in by_other if self.is_grounded(it.cause[1], it.cause[3], it.cause[5], found)}
            if more <= found:
                return found
            found |= more

    def names_lives(self):
        """A later life stands only where the one before was replaced; each key was made once, and is needed."""
        made = Counter(it.key for it in self.of_kind[Created])
        for it in self.all:
            want(made[it.key] == 1 and it.key in self.graph.needed, "a key that was not made once, or is not needed:", it)
            life = getattr(it, "life", 1)
            want(life == 1 or (it.key, life - 1) in self.replaced, "a life that no replacement made:", it)

    def orders_words(self):
        """A predecessor's place is spent only where the word of its edge was closed."""
        for it in self.spent:
            if it.place != SELF_PLACE:
                below = self.graph.predecessors[it.key][it.place]
                word = self.graph.ports[(it.key, it.place)] // 40
                want((below, word) in self.closed_words, "spent before the word was closed:", it)

    def keeps_quiet(self):
        """Where no strike landed, each needed task was computed once, and nothing was replaced."""
        if not self.struck:
            want(not self.replaced, "replaced where nothing was struck")
            want(self.computed == {(key, 1) for key in self.graph.needed}, "not each needed task once")

    def check_plan(self):
        """Refuses records that the graph's plan can't have."""
        self.lands_as_planned()
        for strike in self.graph.plan:
            self.check_strike(strike)

    def lands_as_planned(self):
        """No more strikes landed on a target, up to any life, than the plan has there."""
        planned, landed = defaultdict(list), defaultdict(list)
        for strike in self.graph.plan:
            planned[(strike.key, self.hit_by(strike))].append(strike.life)
        for it in self.of_kind[Struck]:
            if it.hit[0] == "block":
                want(self.graph.blocks[it.key] == it.hit[1:], "struck at another's place:", it)
            landed[(it.key, it.hit)].append(it.life)
        for target, lives in landed.items():
            for top in lives:
                few = sum(life <= top for life in planned[target])
                want(sum(life <= top for life in lives) <= few, "more strikes than planned:", target)

    def hit_by(self, strike):
        """The hit that a landed strike tells."""
        if strike.target == "block":
            return ("block", *self.graph.blocks[strike.key])
        return ("notify", strike.target) if isinstance(strike.target, int) else ("descriptor",)

    def check_strike(self, strike):
        """Refuses what one strike of the plan prevents, or that it left no sign."""
        words = self.graph.notify_words(strike.key)
        key, life, point, target = strike.key, strike.life, strike.point, strike.target
        is_word, is_descriptor = isinstance(target, int), target == "descriptor"
        shown = (strike, "left no sign")
        if is_descriptor and point == "explored" and life == 1:
            want(Spent(key, 1, SELF_PLACE) not in self.spent, "explored though it was struck:", strike)
        if is_descriptor and point == "ready":
            want((key, life) not in self.computed, "computed though it was struck:", strike)
        early = point in ("ready", "computed") or (point == "explored" and life == 1)
        if is_word and early:
            want((key, life, target) not in self.closed, "closed though it was struck:", strike)
        if point == "computed" and (key, life, 0) in self.closed and not is_word:
            want(self.has_sign(strike), "a strike", shown)
        if point == "notified" and all((key, life, word) in self.closed for word in range(words)):
            want((is_word and target >= words) or self.has_sign(strike), "a strike", shown)

    def has_sign(self, strike):
        """Whether a Struck shows the strike, or, of a block, that the block was written anew."""
        if strike.target != "block":
            hits = [it for it in self.of_kind[Struck] if (it.key, it.hit) == (strike.key, self.hit_by(strike))]
            return any(it.life >= strike.life for it in hits)
        block, version = self.graph.blocks[strike.key]
        if (block, version) in self.struck_versions:
            return True
        if any(place[0] == block and place[1] > version for place in self.versions):
            return True
        lower = [self.graph.writers[(block, it)] for it in range(1, version)]
        keys = {key for key, _ in self.replaced}
        return not keys.isdisjoint(lower)


def check_report(graph, text):
    """Refuses a report whose value is not the graph's, or whose records break a law; tells the records."""
    value, *lines = text.splitlines()
    want(value == f"value {graph.value}", "another value:", value)
    records = Records(graph, [record_of(line) for line in lines])
    records.check()
    records.check_plan()
    return records
