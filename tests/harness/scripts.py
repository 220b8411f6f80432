"""Random small logs and scripts: sound and unsound, with truncations, waiting facts, several readers, repeats and spoilt lines, and
scripts of several nodes that join, each after folds and discards of its own, or that gossip, by late and repeated messages. In the
end nodes are asked for their fronts, their pages and how they compare."""

from dataclasses import fields, replace

from harness import text_of
from model.facts import MAX_NUMBER, Advance, Cut, Fill, Record, Write
from model.oracle import STEPS
from model.rules import broken_law, greatest_below


# Logs


def random_cuts(choose):
    cuts, hi = [], 0
    for epoch in range(1, choose.choice((0, 0, 1, 1, 2, 3)) + 1):
        lo = hi + choose.randrange(0, 8)
        hi = lo + choose.randrange(0, 6)
        if choose.random() < 0.1:
            lo = choose.randrange(0, lo + 1)
        cuts.append(Cut(epoch, lo, hi))
    if cuts and choose.random() < 0.1:
        del cuts[choose.randrange(len(cuts))]
    return cuts


def random_patches(choose):
    """Whether the page begins again, and the patches."""
    patches = []
    for _ in range(choose.choice((0, 1, 1, 2, 3))):
        offset = choose.randrange(0, 6)
        if choose.random() < 0.3:
            patches.append(Fill(offset, choose.randrange(1, 6), choose.randrange(256)))
        else:
            patches.append(Write(offset, choose.randbytes(choose.randrange(1, 4))))
    return choose.random() < 0.2, tuple(patches)


def random_records(choose, cuts):
    """Records with the backlinks that the rules ask for, over the whole log: of epochs that have begun, each above its truncation."""
    bounds = [0, *(cut.hi for epoch, cut in enumerate(cuts, 1) if cut.epoch == epoch)]
    keys, pages = set(), choose.randrange(1, 4)
    for _ in range(choose.randrange(0, 12)):
        epoch = choose.randrange(len(bounds))
        keys.add((epoch, bounds[epoch] + choose.randrange(1, 14)))
    bare = [Record(*key, 0, choose.randrange(pages), 0, *random_patches(choose)) for key in sorted(keys)]
    links = [(greatest_below(bare, cuts, *r.key()), greatest_below(bare, cuts, *r.key(), r.page)) for r in bare]
    return [replace(r, back=back, block_back=block_back) for r, (back, block_back) in zip(bare, links)]


def random_advances(choose, roster, cuts):
    """Advances that mostly end at or near what some truncation leaves; none that breaks its law."""
    near = [max(1, cut.lo + d) for cut in cuts for d in (-1, 0, 0, 1, 2)] + [1, 3, 5, 9, 14]
    advances = [
        Advance(choose.randrange(0, len(cuts) + 1), choose.randrange(1, roster + 1), choose.choice(near))
        for _ in range(choose.randrange(0, 3 + 2 * min(roster, 3)))
    ]
    log = cuts + advances
    while bad := [place for place in range(len(log)) if broken_law(roster, log, place)]:
        del log[bad[-1]]
    return log[len(cuts) :]


def random_log(choose, roster):
    """A sound log in any order, with some repeats."""
    cuts = random_cuts(choose)
    log = cuts + random_records(choose, cuts) + random_advances(choose, roster, cuts)
    log += choose.choices(log, k=choose.randrange(0, 3)) if log else []
    choose.shuffle(log)
    return log


def moved(choose, fact):
    """A fact with one of its numbers moved a little."""
    field = choose.choice([it.name for it in fields(fact) if it.type is int])
    return replace(fact, **{field: max(0, getattr(fact, field) + choose.choice((-3, -2, -1, 1, 2, 3)))})


def spoil(choose, log):
    """Changes a fact, leaves one out, or adds another truncation or a record under the same key."""
    if not log:
        return
    place = choose.randrange(len(log))
    way = choose.randrange(8)
    if way == 0:
        del log[place]
    elif way == 1:
        epoch, lo = choose.randrange(1, 4), choose.randrange(0, 12)
        log.insert(place, Cut(epoch, lo, lo + choose.randrange(0, 6)))
    elif way == 2:
        log.insert(choose.randrange(len(log) + 1), Advance(choose.randrange(0, 4), choose.randrange(1, 4), choose.randrange(1, 16)))
    elif way == 3 and isinstance(log[place], Record):
        is_init, patches = random_patches(choose)
        log.insert(choose.randrange(len(log) + 1), replace(log[place], init=is_init, patches=patches))
    elif way in (4, 5) and isinstance(log[place], Record):
        log[place] = replace(log[place], block_back=choose.choice((0, log[place].back, choose.randrange(log[place].back + 1))))
    else:
        log[place] = moved(choose, log[place])


# Steps

SHARES = {"take": 10, "fold": 4, "discard": 3, "read": 10, "front": 3, "join": 4, "same": 3, "covers": 4, "wipe": 1}
SHARES |= {"ask": 5, "answer": 5, "absorb": 6}
KINDS = [kind for kind, share in SHARES.items() for _ in range(share)]
PAGES = 4


class Steps:
    """Steps that mostly take facts first, read near their numbers, and use messages of the right kind."""

    def __init__(self, choose, log, nodes):
        self.choose = choose
        self.facts = len(log)
        self.nodes = nodes
        self.points = [0] + [r.number + d for r in log if isinstance(r, Record) for d in (0, 0, 0, -1, 1)]
        self.points += [a.point for a in log if isinstance(a, Advance)]
        self.messages = {"answer": [], "absorb": []}  # the numbers of those that each kind of step takes

    def takes(self, node):
        """Most facts of the log, or few."""
        share = self.choose.choice((0.93, 0.93, 0.6, 0.3))
        places = [place for place in range(1, self.facts + 1) if self.choose.random() < share]
        if self.choose.random() < 0.6:
            self.choose.shuffle(places)
        return [f"take {node} {place}" for place in places]

    def node(self):
        return self.choose.randrange(1, self.nodes + 1) if self.choose.random() < 0.98 else self.choose.randrange(0, 70)

    def message(self, kind):
        fits = self.messages[kind]
        return self.choose.choice(fits) if fits and self.choose.random() < 0.9 else self.choose.randrange(0, 10)

    def value(self, form, kind):
        if self.choose.random() < 0.002:
            return self.choose.choice((0, 4095, 4096, 4097, 65535, 65536, 2**32 - 1, 2**32, MAX_NUMBER, MAX_NUMBER + 1))
        if form in "go":
            return self.choose.randrange(PAGES)
        if form == "q":
            return max(0, self.choose.choice(self.points))
        if form in "fl":
            return self.choose.randrange(1, (self.facts if form == "f" else 8) + 1)
        return self.node() if form == "n" else self.message(kind)

    def shed(self, node):
        """Folds of some pages, and perhaps a discard: no answer may show them."""
        pages = [page for page in range(PAGES) if self.choose.random() < 0.5]
        return [f"fold {node} {page}" for page in pages] + [f"discard {node}"] * (self.choose.random() < 0.7)

    def line(self, kind, *values):
        """The line of a step. Follows which messages there are."""
        use = {"ask": "answer", "answer": "absorb"}.get(kind)
        if use and 1 <= values[0] <= self.nodes and (kind == "ask" or values[1] in self.messages["answer"]):
            self.messages[use].append(1 + sum(map(len, self.messages.values())))
        return " ".join(map(str, [kind, *values]))

    def between(self, node):
        """What may come between two messages: folds and a discard, some facts, a wipe, or nothing."""
        way = self.choose.random()
        if way < 0.35:
            return self.shed(node)
        if way < 0.55:
            return [f"take {node} {place}" for place in range(1, self.facts + 1) if self.choose.random() < 0.3]
        return [f"wipe {node}"] * (way < 0.65)

    def latest(self, kind):
        """Mostly the last message that is for the step."""
        fits = self.messages[kind]
        return fits[-1] if fits and self.choose.random() < 0.7 else self.message(kind)

    def exchange(self):
        """A node asks, another one answers, and the first one absorbs, or a third one, perhaps twice, or an older answer."""
        asker, answerer = self.node(), self.node()
        lines = [self.line("ask", asker), *self.between(asker), *self.between(answerer)]
        lines += [self.line("answer", answerer, self.latest("answer")), *self.between(asker), *self.between(answerer)]
        for _ in range(self.choose.choice((0, 1, 1, 1, 2, 3))):
            node = asker if self.choose.random() < 0.75 else self.node()
            lines += [self.line("absorb", node, self.latest("absorb")), *self.between(node)]
        return lines

    def lines(self):
        lines = []
        for node in range(1, self.nodes + 1):
            if self.choose.random() < 0.8:
                lines += self.takes(node)
        for _ in range(self.choose.randrange(0, 60)):
            kind = self.choose.choice(KINDS)
            if kind == "take" and self.facts == 0:
                continue
            values = [self.value(form, kind) for form in STEPS[kind]]
            if kind == "join" and self.choose.random() < 0.8:
                lines += [line for node in values for line in self.shed(node)]
            lines.append(self.line(kind, *values))
        return lines

    def looks(self, most=1000):
        """What every node answers, and how every two compare. Of the points to read at, so many at most."""
        nodes, points = range(1, self.nodes + 1), sorted({point for point in self.points if point >= 0})
        chosen = self.choose.sample(points, min(most, len(points)))
        lines = [f"front {node}" for node in nodes]
        lines += [f"read {node} {page} {point} 0 12" for node in nodes for page in range(PAGES) for point in chosen]
        return lines + [f"{kind} {i} {j}" for kind in ("same", "covers") for i in nodes for j in nodes]


# Lines at the edges of what the grammar takes

EDGES = ("0", "1", "2", "65535", "65536", str(MAX_NUMBER - 1), str(MAX_NUMBER), str(MAX_NUMBER + 1), str(2**64), "9" * 30)
ODD_WORDS = ("", "00", "01", "+1", "-1", "1.0", "0x1", "1e3", " 1", "\xb2", "\t", "init")


def edge_number(choose, usual):
    way = choose.random()
    if way < 0.75:
        return usual
    return choose.choice(EDGES) if way < 0.97 else choose.choice(ODD_WORDS)


def edge_patch(choose):
    """At the page's end or beyond, whole pages, and words that are no patch."""
    length = choose.choice((0, 1, 1, 2, 4095, 4096, 4097))
    offset = choose.choice((0, 4096 - min(length, 4096), 4097 - min(length, 4096), 4095, 4096))
    if choose.random() < 0.05:
        return choose.choice(("", "-", "init", ":", "0:", ":61", "0:6", "0:6g", "0*1:", "0*1:616", "0*1:6161", "*1:61", "0*:61", "00:61", "0*01:61"))
    if choose.random() < 0.4:
        return f"{offset}*{length}:{choose.choice(('00', '7a', 'Ff'))}"
    return f"{offset}:{choose.choice(('61', 'aB')) * length}"


def edge_patches(choose):
    many = choose.choice((0, 1, 1, 2, 3))
    patches = [edge_patch(choose) for _ in range(many)] + ["0:61"] * choose.choice((0, 0, 0, 61, 62, 63, 64))
    return ",".join(["init"] * (choose.random() < 0.3) + patches) or "-"


def edge_line(choose):
    """One fact line, mostly with every field but one as usual."""
    kind, *usual = choose.choice(("cut 1 5 20", "min 0 5 1", "rec 0 3 0 7 0", "rec 0 3 0 7 0")).split(" ")
    if kind == "min" and choose.choice((True, False)):
        usual.pop()  # the reader
    words = [kind, *(edge_number(choose, it) for it in usual)] + [edge_patches(choose) for _ in range(kind == "rec")]
    if choose.random() < 0.03:
        words.pop()
    return " ".join(words)


# Texts


def first_lines(choose, roster):
    """The roster's line: mostly the right one, at times none, another, or one that is no line."""
    if roster == 1 and choose.random() < 0.8:
        return []
    way = choose.random()
    if way < 0.95:
        return [f"roster {roster}"]
    return [] if way < 0.97 else [f"roster {choose.choice((0, 1, 2, 3, 15, 16))}"]


def spoilt(choose, text):
    """A text with a character changed, left out or put in."""
    place = choose.randrange(len(text))
    character = choose.choice(("", " ", "0", "-", ":", "*", ",", "i", "x", "\n", "\r", "9", "init,"))
    return text[:place] + character + text[place + choose.randrange(2) :]


def random_input(choose):
    """A task and a text for it."""
    if choose.random() < 0.1:
        return "check", edge_line(choose) + "\n"
    roster = choose.choice((1, 1, 1, 1, 2, 2, 2, 3, 4, 15))
    log = random_log(choose, roster)
    while choose.random() < 0.3:
        spoil(choose, log)
    task = choose.choice(("check", "run", "run", "run"))
    lines = first_lines(choose, roster) + [fact.line() for fact in log]
    if task == "run":
        nodes = choose.choice((1, 1, 1, 2, 2, 2, 3, 3, 4, 4, 64))
        named = nodes if choose.random() < 0.97 else choose.choice((0, 1, 64, 65))
        steps = Steps(choose, log, nodes)
        lines += ["go", f"nodes {named}", *steps.lines(), *(steps.looks(10) if nodes <= 4 else [])]
    text = text_of(lines)
    if text and choose.random() < 0.1:
        text = spoilt(choose, text)
    return task, text


def sound_script(choose, roster, nodes):
    """The steps of a script over a sound log, and the lines before those that all nodes have to make in the end."""
    log = random_log(choose, roster)
    steps = Steps(choose, log, nodes)
    return steps, [*[f"roster {roster}"] * (roster > 1), *(fact.line() for fact in log), "go", f"nodes {nodes}", *steps.lines()]


def input_of_joins(choose):
    """A script of several nodes over a sound log that joins them all, and then asks each node for all that it can answer."""
    roster, nodes = choose.choice((1, 1, 2, 3)), choose.choice((2, 2, 3, 4))
    steps, lines = sound_script(choose, roster, nodes)
    order = list(range(1, nodes + 1))
    choose.shuffle(order)
    for i, j in zip(order, order[1:] + order[:1]):
        lines += [*steps.shed(i), *steps.shed(j), f"join {i} {j}"]
    return "run", text_of(lines + steps.looks())


def input_of_gossip(choose):
    """A script of two to eight nodes over a sound log that exchange messages, and then answer what each has of it."""
    roster, nodes = choose.choice((1, 1, 2, 3)), choose.randrange(2, 9)
    steps, lines = sound_script(choose, roster, nodes)
    for _ in range(choose.randrange(2, 3 * nodes)):
        lines += steps.exchange()
    return "run", text_of(lines + steps.looks(5))
