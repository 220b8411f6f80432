"""Answers `check` and `run` from the rules alone, for comparison with the program.

A node is the set of facts that reached it, and each answer is computed again from that set. A message is a summary of the set
that a node had, or that and the whole set of the node that answered it.
"""

from model.facts import MAX_NUMBER, MOST_READERS, PAGE_LEN, BadLine, fact_of, number
from model.rules import Meaning, first_fault, is_at_most, is_refused, uncovered

MOST_LINES = 1000000
MOST_NODES = 64
BAD_LINE, UNSOUND = 2, 3


# Lines

STEPS = {
    "take": "nf",
    "join": "nn",
    "ask": "n",
    "answer": "nm",
    "absorb": "nm",
    "fold": "ng",
    "discard": "n",
    "wipe": "n",
    "front": "n",
    "read": "ngqol",
    "same": "nn",
    "covers": "nn",
}


def step_of(line, count):
    kind, *words = line.split(" ")
    forms = STEPS.get(kind)
    if forms is None or len(words) != len(forms):
        raise BadLine
    tops = {"n": 65535, "f": count, "m": 2**32 - 1, "g": 65535, "q": MAX_NUMBER, "o": PAGE_LEN, "l": PAGE_LEN}
    values = [number(word, tops[form], 1 if form in "fl" else 0) for form, word in zip(forms, words)]
    if kind == "read" and values[3] + values[4] > PAGE_LEN:
        raise BadLine
    return (kind, *values)


def named_number(line, word, top):
    """The number of a line of a word and a number."""
    if not line.startswith(f"{word} "):
        raise BadLine
    return number(line[len(word) + 1 :], top, 1)


def add(things, thing):
    if len(things) == MOST_LINES:
        raise BadLine
    things.append(thing)


class Log:
    """What a text says up to its first bad line; `bad` is the number of that line, or None. Each line has an end."""

    def __init__(self, text):
        self.roster, self.facts = 1, []
        *lines, rest = text.split("\n")
        self.bad = len(lines) + 1 if rest else None
        for place, line in enumerate(lines):
            try:
                self.read(place, line)
            except BadLine:
                self.bad = place + 1
                return

    def read(self, place, line):
        if place == 0 and line.startswith("roster "):
            self.roster = named_number(line, "roster", MOST_READERS)
        else:
            add(self.facts, fact_of(line))


class Script(Log):
    """And of a script: how many nodes there are, and the steps."""

    def __init__(self, text):
        self.has_gone, self.nodes, self.steps = False, None, []
        super().__init__(text)
        if self.bad is None and self.nodes is None:
            self.bad = text.count("\n") + 1

    def read(self, place, line):
        if not self.has_gone and line == "go":
            self.has_gone = True
        elif not self.has_gone:
            super().read(place, line)
        elif self.nodes is None:
            self.nodes = named_number(line, "nodes", MOST_NODES)
        else:
            add(self.steps, step_of(line, len(self.facts)))


# The fleet


class Fleet:
    def __init__(self, script):
        self.roster, self.log = script.roster, script.facts
        self.nodes = [frozenset()] * script.nodes
        self.messages = {"summary": {}, "delta": {}}  # of each kind: the content of each, by its number

    def meaning(self, node):
        return Meaning(self.roster, self.nodes[node - 1])

    def send(self, kind, *content):
        number = 1 + sum(map(len, self.messages.values()))
        self.messages[kind][number] = content
        return f"message {number}"

    def step(self, step):
        kind, *values = step
        for form, value in zip(STEPS[kind], values):
            if form == "n" and not 1 <= value <= len(self.nodes):
                return f"no node {value}"
        return getattr(self, kind)(*values)

    def take(self, i, place):
        """Of a sound log's facts a segment refuses none; a rule that did would be wrong itself."""
        before, fact = self.meaning(i), self.log[place - 1]
        assert not is_refused(before, fact), f"{fact} is refused"
        self.nodes[i - 1] |= {fact}
        return "changed" if self.meaning(i).parts() != before.parts() else "unchanged"

    def join(self, i, j):
        self.nodes[i - 1] |= self.nodes[j - 1]
        return "joined"

    def ask(self, i):
        meaning = self.meaning(i)
        return self.send("summary", meaning.anchor, frozenset(record.key() for record in meaning.kept))

    def answer(self, j, m):
        if m not in self.messages["summary"]:
            return f"no message {m}"
        return self.send("delta", *self.messages["summary"][m], self.nodes[j - 1])

    def absorb(self, i, m):
        if m not in self.messages["delta"]:
            return f"no message {m}"
        anchor, keys, facts = self.messages["delta"][m]
        shown = uncovered(self.meaning(i), anchor, keys)
        if shown is not None:
            return f"uncovered {shown}"
        self.nodes[i - 1] |= facts
        return "absorbed"

    def fold(self, _i, _page):
        return "folded"

    def discard(self, _i):
        return "discarded"

    def wipe(self, i):
        self.nodes[i - 1] = frozenset()
        return "wiped"

    def front(self, i):
        meaning = self.meaning(i)
        return f"front {meaning.epoch} {meaning.complete} {meaning.min}"

    def gap(self, i):
        found = self.meaning(i).gap()
        return f"gap {found[0]} {found[1]}" if found else "no gap"

    def read(self, i, page, point, offset, length):
        meaning = self.meaning(i)
        if point < meaning.min:
            return f"below {meaning.min}"
        if point > meaning.complete:
            return f"above {meaning.complete}"
        return f"page {meaning.page(page, point)[offset : offset + length].hex()}"

    def same(self, i, j):
        return "yes" if self.meaning(i).parts() == self.meaning(j).parts() else "no"

    def covers(self, i, j):
        return "yes" if is_at_most(self.meaning(j), self.meaning(i)) else "no"


# Texts


def check(text):
    """The output and the status."""
    log = Log(text)
    return refusal(log) or (f"sound {len(log.facts)}\n", 0)


def run(text):
    """The output and the status."""
    script = Script(text)
    if refused_text := refusal(script):
        return refused_text
    fleet = Fleet(script)
    return "".join(f"{fleet.step(step)}\n" for step in script.steps), 0


def refusal(log):
    """The output and the status for a text with a bad line or a log that is not sound, or None."""
    if log.bad is not None:
        return f"bad line {log.bad}\n", BAD_LINE
    fault = first_fault(log.roster, log.facts)
    return fault and (f"unsound {fault[0]} law {fault[1]}\n", UNSOUND)


TASKS = {"check": check, "run": run}
